use std::io::{Error, ErrorKind, Write};
use std::process::ExitCode;

use foqtirel::command::{self, Printed};

/// The engine walks down lines of up to 4,096 arguments on the stack.
const STACK: usize = 32 << 20;

fn main() -> ExitCode {
    let words: Vec<String> = std::env::args_os()
        .skip(1)
        .map(|word| word.to_string_lossy().into_owned())
        .collect();
    let work = std::thread::Builder::new()
        .stack_size(STACK)
        .spawn(move || command::run(&words));
    let Some(Ok(result)) = work.ok().map(|thread| thread.join()) else {
        return ExitCode::from(2);
    };
    match result {
        Ok(Printed {
            text,
            notes,
            status,
        }) => {
            tell(&notes);
            let mut out = std::io::stdout();
            let written = out.write_all(text.as_bytes()).and_then(|()| out.flush());
            // An answer that nobody could read is no success.
            ExitCode::from(match written {
                Ok(()) => status,
                Err(error) => tell_unwritten(&error),
            })
        }
        Err(fault) => {
            tell(&fault.render());
            ExitCode::from(fault.status())
        }
    }
}

/// Says it on standard error. Where that can't be written, the status still tells how it ended.
fn tell(words: &str) {
    let _ = std::io::stderr().write_all(words.as_bytes());
}

/// A reader that went away, as `head` does, is told nothing.
fn tell_unwritten(error: &Error) -> u8 {
    if error.kind() != ErrorKind::BrokenPipe {
        tell(&format!(
            "foqtirel: cannot write to standard output: {error}\n"
        ));
    }
    2
}
