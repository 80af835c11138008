//! One call in a process of its own: counted by a simulator, or given up after a time.

use std::env;
use std::ffi::OsString;
use std::fs::{self, File};
use std::io::{Read, Write};
use std::process::{Command, Stdio};
use std::thread;
use std::time::{Duration, Instant};

use crate::calls::{plain, proved, Call, Tables};
use crate::cases::Case;
use foqtirel_tests::programs;

/// The first argument of the process that makes one call.
pub const ONCE: &str = "once";

#[derive(Clone, Copy)]
pub enum Side {
    Proved,
    Plain,
    /// No call at all: what starting a process takes.
    Neither,
}

impl Side {
    const ALL: [Side; 3] = [Side::Proved, Side::Plain, Side::Neither];

    fn name(self) -> &'static str {
        match self {
            Side::Proved => "proved",
            Side::Plain => "reference",
            Side::Neither => "neither",
        }
    }
}

/// What the process does: side, call, file and literal are its arguments.
pub fn once(arguments: &[String]) {
    let [side, call, file, literal] = arguments else {
        panic!("once SIDE CALL FILE LITERAL");
    };
    let image = fs::read(file).expect("the image");
    let literal = literal.parse().expect("a literal");
    let side = Side::ALL.into_iter().find(|s| s.name() == side);
    let call = Call::named(call).expect("a call");
    let mut lent = Tables::for_call(call, &image);
    let result = match side.expect("a side") {
        Side::Proved => proved(call, &image, literal, &mut lent),
        Side::Plain => plain(call, &image, literal, &mut lent),
        Side::Neither => 0,
    };
    std::hint::black_box(result);
}

/// What `advise` prints for an image.
pub fn advised(image: &[u8]) -> Vec<u8> {
    let mut command = Command::new(programs::advise());
    let piped = command.stdin(Stdio::piped()).stdout(Stdio::piped());
    let mut child = piped.spawn().expect("a process");
    // It fits into the pipe, which is closed behind it.
    let written = child.stdin.take().map(|mut input| input.write_all(image));
    written.expect("a pipe").expect("room in the pipe");
    child.wait_with_output().expect("an end").stdout
}

/// A program with its arguments, and what it reads.
struct Process {
    words: Vec<OsString>,
    input: Stdio,
}

impl Process {
    /// With a call of a side: this program once more, or `advise`.
    fn of(case: &Case, call: Call, side: Side) -> Process {
        match (call, side) {
            (Call::Advise, Side::Proved) => {
                let image = File::open(case.file()).expect("the image");
                Process::advise(image.into())
            }
            _ => Process::once(case, call, side),
        }
    }

    /// The same without the call.
    fn without(case: &Case, call: Call, side: Side) -> Process {
        match (call, side) {
            (Call::Advise, Side::Proved) => Process::advise(Stdio::null()),
            _ => Process::once(case, call, Side::Neither),
        }
    }

    fn advise(input: Stdio) -> Process {
        let words = vec![programs::advise().into()];
        Process { words, input }
    }

    fn once(case: &Case, call: Call, side: Side) -> Process {
        let myself = env::current_exe().expect("the path of this program");
        Process {
            words: vec![
                myself.into(),
                ONCE.into(),
                side.name().into(),
                call.name().into(),
                case.file().into(),
                case.literal.to_string().into(),
            ],
            input: Stdio::null(),
        }
    }

    /// Behind the words that start another program on it, if there are any. What it prints is thrown away.
    fn command(self, before: &[&str]) -> Command {
        let mut words = before.iter().map(OsString::from).chain(self.words);
        let mut command = Command::new(words.next().expect("a program"));
        command.args(words).stdin(self.input).stdout(Stdio::null());
        command
    }
}

/// How long a process with one call takes, if that is within the limit.
pub fn ends_within(case: &Case, call: Call, side: Side, limit: Duration) -> Option<Duration> {
    let command = Process::of(case, call, side).command(&[]);
    let start = Instant::now();
    run(command, limit)?;
    Some(start.elapsed())
}

const SIMULATOR: [&str; 4] = [
    "valgrind",
    "--tool=callgrind",
    "--callgrind-out-file=/dev/null",
    "--max-stackframe=4194304",
];

/// Has the C library clear long tables by plain stores: the simulator would count its one string instruction once a byte.
const PLAIN_STORES: &str =
    "glibc.cpu.x86_rep_stosb_threshold=1000000000:glibc.cpu.x86_rep_movsb_threshold=1000000000";

/// The instructions of a call, less those of a process without one. None without a simulator or over the limit.
pub fn instructions(case: &Case, call: Call, side: Side, limit: Duration) -> Option<u64> {
    let collected = |process: Process| {
        let mut command = process.command(&SIMULATOR);
        command.env("GLIBC_TUNABLES", PLAIN_STORES);
        let report = run(command, limit)?;
        let line = report.lines().find(|line| line.contains("Collected :"))?;
        line.rsplit(' ').next()?.parse::<u64>().ok()
    };
    let all = collected(Process::of(case, call, side))?;
    let idle = collected(Process::without(case, call, side))?;
    Some(all.saturating_sub(idle))
}

/// What a command writes to its standard error, if it ends well and within the limit.
fn run(mut command: Command, limit: Duration) -> Option<String> {
    let mut child = command.stderr(Stdio::piped()).spawn().ok()?;
    let start = Instant::now();
    loop {
        if let Some(status) = child.try_wait().ok()? {
            let mut text = String::new();
            child.stderr.take()?.read_to_string(&mut text).ok()?;
            return status.success().then_some(text);
        }
        if start.elapsed() > limit {
            child.kill().ok()?;
            child.wait().ok()?;
            return None;
        }
        thread::sleep(Duration::from_millis(1));
    }
}
