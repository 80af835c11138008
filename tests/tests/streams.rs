//! The program `advise` and its streams: what it reads and prints, and what it says where it can't.
//!
//! It sets no exit status, so that a failure shows in its line on standard error alone.

use std::fs::{File, OpenOptions};
use std::io::{Read, Write};
use std::os::unix::process::ExitStatusExt;
use std::process::{Child, Command, ExitStatus, Stdio};
use std::thread;
use std::time::{Duration, Instant};

use foqtirel_tests::{programs, vectors};

/// Far more than the slowest vector takes.
const LIMIT: Duration = Duration::from_secs(60);
const SIGPIPE: i32 = 13;

fn advise() -> Command {
    Command::new(programs::advise())
}

/// The standard input: a vector.
fn vector(name: &str) -> File {
    File::open(vectors::directory().join(format!("{name}.img"))).expect("a vector")
}

struct Ended {
    status: ExitStatus,
    output: String,
    complaint: String,
}

/// Waits for the program to end.
#[track_caller]
fn ended(mut child: Child) -> Ended {
    let start = Instant::now();
    let status = loop {
        if let Some(status) = child.try_wait().expect("a status") {
            break status;
        }
        if start.elapsed() > LIMIT {
            child.kill().expect("an end");
            panic!("it hangs");
        }
        thread::sleep(Duration::from_millis(2));
    };
    let mut ended = Ended {
        status,
        output: String::new(),
        complaint: String::new(),
    };
    if let Some(mut output) = child.stdout.take() {
        output.read_to_string(&mut ended.output).expect("a text");
    }
    let mut complaint = child.stderr.take().expect("a pipe");
    complaint
        .read_to_string(&mut ended.complaint)
        .expect("a text");
    ended
}

#[track_caller]
fn run(command: &mut Command) -> Ended {
    ended(command.stderr(Stdio::piped()).spawn().expect("a process"))
}

/// One line, which names what failed.
#[track_caller]
fn assert_one_line(complaint: &str, stream: &str) {
    assert!(complaint.contains(stream), "{complaint:?}");
    let whole = complaint.ends_with('\n') && complaint.lines().count() == 1;
    assert!(whole, "{complaint:?}");
}

#[test]
fn every_vector_is_advised_as_written() {
    for name in vectors::names("img") {
        let mut command = advise();
        command.stdin(vector(&name)).stdout(Stdio::piped());
        let ended = run(&mut command);
        assert_eq!(ended.output, vectors::advice(&name), "{name}");
        assert_eq!(ended.complaint, "", "{name}");
        assert!(ended.status.success(), "{name}");
    }
}

/// Runs the program on an image that comes through a pipe in pieces.
#[track_caller]
fn piped<'a>(pieces: impl Iterator<Item = &'a [u8]>) -> Ended {
    let mut command = advise();
    command.stdin(Stdio::piped()).stdout(Stdio::piped());
    let mut child = command.stderr(Stdio::piped()).spawn().expect("a process");
    let mut input = child.stdin.take().expect("a pipe");
    for piece in pieces {
        input.write_all(piece).expect("a reader");
        thread::sleep(Duration::from_millis(1));
    }
    drop(input);
    ended(child)
}

#[test]
fn every_request_is_advised_as_written() {
    for request in vectors::REQUESTS {
        for (image, text) in vectors::of_request(request) {
            let ended = piped([&image[..]].into_iter());
            assert_eq!(ended.output, text, "{request}: {image:02x?}");
            assert_eq!(ended.complaint, "", "{request}: {image:02x?}");
        }
    }
}

/// A pipe hands the image over in as many pieces as the writer likes.
#[test]
fn an_image_may_come_in_pieces() {
    let ended = piped(vectors::image("T").chunks(5));
    assert_eq!(ended.output, vectors::advice("T"));
    assert_eq!(ended.complaint, "");
}

/// An input without an end is refused for its length.
#[test]
fn an_input_without_an_end_is_refused() {
    let mut command = advise();
    let zeros = File::open("/dev/zero").expect("a device");
    let ended = run(command.stdin(zeros).stdout(Stdio::piped()));
    assert_eq!(ended.output, "refused 1 0\n");
    assert_eq!(ended.complaint, "");
}

#[test]
fn an_output_that_cannot_be_written_is_told() {
    for name in ["F", "len11", "n4096"] {
        let full = OpenOptions::new().write(true).open("/dev/full");
        let mut command = advise();
        let ended = run(command.stdin(vector(name)).stdout(full.expect("a device")));
        assert_one_line(&ended.complaint, "standard output");
    }
}

/// The reader has gone before the first line: the system ends the program, or it tells.
#[test]
fn a_closed_pipe_ends_it() {
    let mut command = advise();
    command.stdin(Stdio::piped()).stdout(Stdio::piped());
    let mut child = command.stderr(Stdio::piped()).spawn().expect("a process");
    drop(child.stdout.take());
    let mut input = child.stdin.take().expect("a pipe");
    input.write_all(&vectors::image("T")).expect("a reader");
    drop(input);
    let ended = ended(child);
    if ended.status.signal() == Some(SIGPIPE) {
        assert_eq!(ended.complaint, "");
    } else {
        assert_one_line(&ended.complaint, "standard output");
    }
}

/// Nothing is printed of an image that was not read, not even that it is refused.
#[test]
fn an_input_that_cannot_be_read_is_told() {
    let directory = File::open(vectors::directory()).expect("a directory");
    let write_only = OpenOptions::new().write(true).open("/dev/null");
    for input in [directory, write_only.expect("a device")] {
        let mut command = advise();
        let ended = run(command.stdin(input).stdout(Stdio::piped()));
        assert_eq!(ended.output, "");
        assert_one_line(&ended.complaint, "standard input");
    }
}
