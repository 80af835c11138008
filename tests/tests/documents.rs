//! What the documents name is there, and the test that says so would notice if it were not.

use std::fs;

use foqtirel_tests::documents::definitions::{of_code, of_proofs};
use foqtirel_tests::documents::sources::Sources;
use foqtirel_tests::documents::Findings;
use foqtirel_tests::header::root;

/// README.md and the documents, with their text.
fn documents() -> Vec<(String, String)> {
    let mut names: Vec<String> = fs::read_dir(root().join("docs"))
        .expect("the documents")
        .map(|entry| entry.expect("an entry").file_name())
        .map(|name| format!("docs/{}", name.to_string_lossy()))
        .filter(|name| name.ends_with(".md"))
        .collect();
    names.push("README.md".into());
    names.sort();
    let text = |name: &String| fs::read_to_string(root().join(name)).expect("a text");
    names
        .iter()
        .map(|name| (name.clone(), text(name)))
        .collect()
}

#[test]
fn what_the_documents_name_is_there() {
    let sources = Sources::read(&root());
    let mut findings = Findings::default();
    for (name, text) in documents() {
        findings.look_at(&name, &text, &sources);
    }
    let Findings {
        faults,
        paths,
        names,
        placed,
    } = findings;
    println!("{paths} paths, {names} names, {placed} of them with a path");
    assert!(faults.is_empty(), "\n{}", faults.join("\n"));
    assert!(paths >= 200 && names >= 300 && placed >= 150);
}

fn faults(text: &str, sources: &Sources) -> Vec<String> {
    let mut findings = Findings::default();
    findings.look_at("a.md", text, sources);
    findings.faults
}

/// Each text with what is wrong with it, or nothing.
#[track_caller]
fn assert_found(cases: &[(&str, &[&str])]) {
    let sources = Sources::read(&root());
    for (text, wanted) in cases {
        assert_eq!(faults(text, &sources), *wanted, "{text}");
    }
}

#[test]
fn a_wrong_path_is_found() {
    assert_found(&[
        (
            "`crates/tree/specs/Published.antt`, `tests/`, `crates/*/specs/`",
            &[],
        ),
        (
            "tree/specs/Published is there (docs/IMAGE.md, 3), even/odd is no path",
            &[],
        ),
        ("`proofs/NOTION.antt`, `NAME.img` and `Published.antt`", &[]),
        (
            "`crates/tree/specs/Publishd.antt`",
            &["a.md:1: there is no crates/tree/specs/Publishd.antt"],
        ),
        (
            "one\ntwo tree/specs/Publishd",
            &["a.md:2: there is no tree/specs/Publishd"],
        ),
        (
            "teer/specs/Published",
            &["a.md:1: there is no teer/specs/Published"],
        ),
        (
            "(docs/IMAGES.md, 3)",
            &["a.md:1: there is no docs/IMAGES.md"],
        ),
        ("`Publishd.antt`", &["a.md:1: there is no Publishd.antt"]),
        ("`examples/*.dlp`", &["a.md:1: there is no examples/*.dlp"]),
    ]);
}

#[test]
fn a_missing_edit_is_found() {
    assert_found(&[
        ("| unmarked | collecting/must-fail/unmarked |", &[]),
        (
            "| unmarked | collecting/must-fail/unmarked, argument/must-fail/unmarked |",
            &["a.md:1: there is no argument/must-fail/unmarked"],
        ),
    ]);
}

#[test]
fn a_wrong_name_is_found() {
    assert_found(&[
        (
            "`reply_child`, `reply_kind ..` and `Answers`; `omega` and `NAME`",
            &[],
        ),
        (
            "`reply_chid`",
            &["a.md:1: nothing in crates/ defines `reply_chid`"],
        ),
        ("`bulletin_3 beats pod_fits`", &[]),
        (
            "`bulletin_3 beats bulletins_1`",
            &["a.md:1: nothing in crates/ defines `bulletins_1`"],
        ),
        (
            "`reply_kynd x`",
            &["a.md:1: nothing in crates/ defines `reply_kynd`"],
        ),
        (
            "one\n\n`Answered`",
            &["a.md:3: nothing in crates/ defines `Answered`"],
        ),
        (
            "`foqtirel_probe`",
            &["a.md:1: nothing in crates/ defines `foqtirel_probe`"],
        ),
        (
            "`warrant::check(image)`, `masks::rest`, `Verdict::Refused { number, place }`",
            &[],
        ),
        (
            "`warrant::chek`",
            &["a.md:1: nothing in crates/ defines `warrant::chek`"],
        ),
        (
            "`defeat::masks::rest`",
            &["a.md:1: nothing in crates/ defines `defeat::masks::rest`"],
        ),
    ]);
}

/// A name that is defined, but not where the document says.
#[test]
fn a_name_in_another_file_is_found() {
    let sound =
        "`reply_child` tree/proofs/Reply; `replies_grow`,\n`children_all` tree/proofs/Published";
    assert_found(&[
        (sound, &[]),
        (
            "`reply_child`, `replies_unroll` (without fuel) (`crates/tree/proofs/`)",
            &[],
        ),
        ("(`tree/specs/Reply.antt`: `joins`, `reply_kind`)", &[]),
        (
            "`demand_3 : Demand_3` (`crates/warrant/proofs/Claims.antt`)",
            &[],
        ),
        (
            "`reply_child` tree/proofs/Marks",
            &["a.md:1: `reply_child` is not defined in tree/proofs/Marks"],
        ),
        (
            "`joins_renders`, `kind_proper` (all) and `reply_child`\nin tree/proofs/Reply",
            &["a.md:2: `kind_proper` is not defined in tree/proofs/Reply"],
        ),
        (
            "(`layout/specs/Causes.antt`: `bad_kind`, `reply_child`)",
            &["a.md:1: `reply_child` is not defined in layout/specs/Causes.antt"],
        ),
        (
            "`warrant::query(image)` (`crates/calls/src/lib.rt`)",
            &["a.md:1: `query` is not defined in crates/calls/src/lib.rt"],
        ),
    ]);
}

#[test]
fn a_command_that_makes_nothing_is_found() {
    assert_found(&[
        ("`rt ci NAME..`\n\n    tools/build && target/bin/advise < tests/vectors/F.img", &[]),
        ("`(cd crates/part && rt check --only PATH)`, `rt must-fail part`, `rt all check`, `rt ci`", &[]),
        ("text\n\n    cc examples/host.c target/staticlib/libfoqtirel.a -o target/host\n    target/host", &[]),
        ("text\n\n    foqtirel file tests/vectors/T.img --numbers target/T.numbers\n    cat target/T.numbers", &[]),
        ("`rt ci probe`", &["a.md:1: there is no crate probe"]),
        ("`rt must-fail part probe..`", &["a.md:1: there is no crate probe"]),
        ("text\n\n    (cd tests && rt ci probe)", &["a.md:3: there is no crate probe"]),
        ("text\n\n    rt must-fail probe", &["a.md:3: there is no crate probe"]),
        ("`rt staticlib part`", &["a.md:1: there is no command rt staticlib"]),
        ("text\n\n    rt check part && ls", &["a.md:3: rt check takes no part"]),
        ("text\n\n    tools/biuld", &["a.md:3: there is no tools/biuld"]),
        ("`(cd crates/probe && rt check)`", &["a.md:1: there is no crates/probe"]),
        ("`target/staticlib/libprobe.a`", &["a.md:1: there is no target/staticlib/libprobe.a"]),
        ("`target/bin/warrant`", &["a.md:1: there is no target/bin/warrant"]),
        ("`target/host`", &["a.md:1: there is no target/host"]),
    ]);
}

/// Every name in the tables of the definitions, if it were another.
#[test]
fn no_name_of_the_definitions_goes_unseen() {
    let sources = Sources::read(&root());
    let text = fs::read_to_string(root().join("docs/DEFINITIONS.md")).expect("a text");
    let mut names = 0;
    for row in text.lines().filter(|line| line.starts_with("| ")) {
        let parts: Vec<&str> = row.split('`').collect();
        for changed in (1..parts.len()).step_by(2) {
            let mut parts = parts.clone();
            let other = format!("{}s_other", parts[changed]);
            parts[changed] = &other;
            let row = parts.join("`");
            let found = faults(&row, &sources);
            assert!(found.iter().any(|fault| fault.contains(&other)), "{row}");
            names += 1;
        }
    }
    assert!(names >= 150, "{names} names");
}

#[test]
fn definitions_of_a_proof_file() {
    let text = "\
-- comment : no
use lib.Dec.{eqb}
pub law : (x : ℕ) → x ≡ x
law x = proof
  where
    local : ℕ
    local = 0
unfoldable pub one two : ℕ
module _ {A : Type 0} where
  abbrev pub inner : A → A
  pub data Tree : Type 0 where
    leaf : Tree
  hidden :
    ℕ
pub record Pair (A : Type 0) : Type 0 where
  pub first : A
";
    let names = [
        "Pair", "Tree", "first", "hidden", "inner", "law", "leaf", "one", "two",
    ];
    assert!(of_proofs(text).iter().eq(names), "{:?}", of_proofs(text));
}

#[test]
fn definitions_of_a_code_file() {
    let text = "\
// fn comment
pub use calls::{check, Listed};
mod sized;
pub enum Answer {
    Yes { nodes: u32 },
    Unknown,
}
#[no_mangle]
pub extern \"C\" fn query(image: &[u8]) -> u32
{
    let local = 0;
    local
}
const MOST: u32 = 1;
pub struct Node {
    pub kind: u8,
}
";
    let names = [
        "Answer", "Listed", "MOST", "Node", "Unknown", "Yes", "calls", "check", "query", "sized",
    ];
    assert!(of_code(text).iter().eq(names), "{:?}", of_code(text));
}
