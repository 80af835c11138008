//! C programs and the shared library, made as the header and the examples say.

use std::path::{Path, PathBuf};
use std::process::{Command, Output};

use foqtirel_binding::library;

use crate::header::root;

const STRICT: [&str; 6] = [
    "-std=c99",
    "-Wall",
    "-Wextra",
    "-Wconversion",
    "-Werror",
    "-pedantic",
];

pub fn run(command: &mut Command) -> Output {
    command
        .output()
        .unwrap_or_else(|error| panic!("{command:?}: {error}"))
}

#[track_caller]
pub fn assert_success(command: &mut Command) -> Output {
    let output = run(command);
    let complaint = String::from_utf8_lossy(&output.stderr);
    assert!(output.status.success(), "{command:?}: {complaint}");
    output
}

/// A strict compilation of a C source against the header and the library.
pub fn c_compilation(source: &Path, program: &Path) -> Command {
    let mut compiler = Command::new("cc");
    compiler.args(STRICT);
    with_library(compiler, source, program)
}

/// The same for C++, where there is a compiler for it.
pub fn cpp_compilation(source: &Path, program: &Path) -> Option<Command> {
    Command::new("c++").arg("--version").output().ok()?;
    let mut compiler = Command::new("c++");
    compiler.args(&STRICT[1..]);
    Some(with_library(compiler, source, program))
}

fn with_library(mut compiler: Command, source: &Path, program: &Path) -> Command {
    compiler.arg("-I").arg(root().join("include"));
    compiler.arg(source).arg(library()).arg("-o").arg(program);
    compiler
}

/// Makes the shared library in a directory.
pub fn shared_library(directory: &Path) -> PathBuf {
    let shared = directory.join("libfoqtirel.so");
    let mut compiler = Command::new("cc");
    compiler.args(["-shared", "-Wl,--whole-archive"]);
    compiler.arg(library()).arg("-Wl,--no-whole-archive");
    assert_success(compiler.arg("-o").arg(&shared));
    shared
}
