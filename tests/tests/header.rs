//! The header as a C programmer uses it: its numbers, its macros on every kind of result, its structs; and what the
//! library offers and needs.

use std::fs;
use std::path::{Path, PathBuf};
use std::process::Command;

use foqtirel_binding::library;
use foqtirel_tests::compiler::{
    assert_success, c_compilation, cpp_compilation, run, shared_library,
};
use foqtirel_tests::header::{constants, in_capitals};
use foqtirel_tests::reference::bill::{BRANCHES, MOST_LINES};
use foqtirel_tests::reference::{Cause, Code, MOST_NODES};

fn temporary(name: &str) -> PathBuf {
    Path::new(env!("CARGO_TARGET_TMPDIR")).join(name)
}

#[test]
fn the_header_has_the_numbers() {
    let header = constants();
    let number = |name: &str| header.get(name).copied();
    for cause in Cause::ALL {
        let name = in_capitals(&format!("{cause:?}"));
        assert_eq!(number(&name), Some(cause.number() as usize), "{name}");
    }
    for code in [
        Code::Yes,
        Code::No,
        Code::Undecided,
        Code::Unknown,
        Code::Unfinished,
    ] {
        assert_eq!(number(code.word()), Some(code.number() as usize));
    }
    assert_eq!(number("MOST_NODES"), Some(MOST_NODES));
    assert_eq!(number("ARGUMENTS"), Some(MOST_NODES));
    assert_eq!(number("LITERALS"), Some(128));
    assert_eq!(number("LEAST_IMAGE"), Some(12));
    assert_eq!(number("MOST_IMAGE"), Some(1836));
    assert_eq!(number("MOST_RULES"), Some(96));
    assert_eq!(number("BRANCHES"), Some(BRANCHES));
    assert_eq!(number("MOST_LINES"), Some(MOST_LINES));
}

/// As C and, where there is a compiler for it, as C++.
#[test]
fn every_macro_on_every_result() {
    let source = Path::new(env!("CARGO_MANIFEST_DIR")).join("tests/macros.c");
    let program = temporary("macros");
    assert_success(&mut c_compilation(&source, &program));
    assert_success(&mut Command::new(&program));
    let as_cpp = temporary("macros.cpp");
    fs::copy(&source, &as_cpp).expect("a copy");
    let program = temporary("macros_cpp");
    match cpp_compilation(&as_cpp, &program) {
        Some(mut compiler) => {
            assert_success(&mut compiler);
            assert_success(&mut Command::new(&program));
        }
        None => println!("no C++ compiler: the header was not compiled as C++"),
    }
}

/// Whether a program returns a macro of these words, as C and, where there is a compiler for it, as C++. Tests that run at once
/// need files of different names.
fn compiles(file: &str, words: &str) -> bool {
    let (source, as_cpp) = (
        temporary(&format!("{file}.c")),
        temporary(&format!("{file}.cpp")),
    );
    let program = temporary(file);
    let text = format!(
        "#include \"foqtirel.h\"\nint main(void)\n{{\n    return (int)FOQTIREL_{words};\n}}\n"
    );
    fs::write(&source, &text).expect("a source");
    fs::write(&as_cpp, &text).expect("a source");
    let compiled = run(&mut c_compilation(&source, &program)).status.success();
    if let Some(mut compiler) = cpp_compilation(&as_cpp, &program) {
        let agrees = run(&mut compiler).status.success() == compiled;
        assert!(agrees, "{words}: C++ is of another mind than C");
    }
    compiled
}

/// What takes 64 bits apart doesn't take the 32 of `foqtirel_query`, whose refusals would pass for answers there; and the
/// other way round, where the number of arguments would.
#[test]
fn results_of_32_and_of_64_bits_do_not_pass_for_each_other() {
    let compiles = |result: &str, name: &str| compiles("width", &format!("{name}({result})"));
    let wide = [
        "foqtirel_check(NULL, 0)",
        "foqtirel_clash(NULL, 0, NULL, 0)",
        "foqtirel_file(NULL, 0, NULL, 0, NULL, 0)",
        "foqtirel_unfile(NULL, 0, NULL, 0, NULL, 0)",
        "foqtirel_list(NULL, 0, NULL, 0)",
        "foqtirel_trees(NULL, 0, 0, 0, NULL, 0, NULL, 0)",
    ];
    let narrow = "foqtirel_query(NULL, 0, 0, 0)";
    for name in [
        "REFUSED", "NUMBER", "PLACE", "LENGTH", "COUNT", "CODE", "NODES",
    ] {
        let name = format!("{name}64");
        assert!(compiles(wide[0], &name), "{name}");
        assert!(!compiles(narrow, &name), "{name}");
    }
    for name in ["REFUSED", "CODE", "NODES"] {
        assert!(compiles(narrow, name), "{name}");
        for result in wide {
            assert!(!compiles(result, name), "{name} of {result}");
        }
    }
}

/// A branch of 64 bits could lose its upper half. A result may have 32 bits or 64.
#[test]
fn a_line_has_a_branch_of_at_most_32_bits() {
    let results = [
        "foqtirel_query(NULL, 0, 0, 0)",
        "foqtirel_trees(NULL, 0, 0, 0, NULL, 0, NULL, 0)",
    ];
    let compiles = |branch: &str, result: &str| {
        let words = format!("LINE({branch}, {result})");
        compiles("line", &words)
    };
    for result in results {
        for branch in [
            "(uint8_t)3",
            "(uint16_t)3",
            "(uint32_t)3",
            "(int8_t)3",
            "(int16_t)3",
            "3",
            "11u",
            "'\\3'",
            "1 ? 3 : 4",
            "(int)foqtirel_query(NULL, 0, 0, 0)",
        ] {
            assert!(compiles(branch, result), "{branch}, {result}");
        }
        for branch in [
            "(uint64_t)3",
            "(int64_t)3",
            "3ul",
            "(size_t)3",
            "foqtirel_check(NULL, 0)",
            "3.7f",
            "3.0",
        ] {
            assert!(!compiles(branch, result), "{branch}, {result}");
        }
    }
}

/// The calls, in the order of their names.
const CALLS: [&str; 8] = [
    "foqtirel_bill",
    "foqtirel_check",
    "foqtirel_clash",
    "foqtirel_file",
    "foqtirel_list",
    "foqtirel_query",
    "foqtirel_trees",
    "foqtirel_unfile",
];

/// What a library offers and what it needs, by `nm`.
fn symbols(nm: &mut Command) -> (Vec<String>, Vec<String>) {
    let output = assert_success(nm);
    let printed = String::from_utf8_lossy(&output.stdout).into_owned();
    let (mut offered, mut needed) = (Vec::new(), Vec::new());
    for line in printed.lines() {
        match line.split_whitespace().collect::<Vec<_>>()[..] {
            ["U", name] => needed.push(name.to_string()),
            [_, _, name] => offered.push(name.to_string()),
            _ => {}
        }
    }
    offered.sort();
    (offered, needed)
}

/// The library asks for the memory functions of a C library only, and offers the calls only.
#[test]
fn the_library_needs_no_more_than_the_header_says() {
    let (offered, needed) = symbols(Command::new("nm").arg("-g").arg(library()));
    assert_eq!(offered, CALLS);
    for name in needed {
        let memory = ["memset", "memcpy", "memmove", "memcmp"].contains(&name.as_str());
        assert!(memory, "the library needs {name}");
    }
}

/// So does the shared library, and it is loaded as it is: no part of its code has to be written to.
#[test]
fn a_shared_library_offers_the_calls() {
    let shared = shared_library(Path::new(env!("CARGO_TARGET_TMPDIR")));
    let (offered, _) = symbols(Command::new("nm").arg("-D").arg(&shared));
    assert_eq!(offered, CALLS);
    let output = assert_success(Command::new("readelf").arg("-d").arg(&shared));
    assert!(!String::from_utf8_lossy(&output.stdout).contains("TEXTREL"));
}
