//! The causes in the engine's sources, as text: each is a variant with the header's name and number, and no code has the bare
//! number instead.

use std::collections::BTreeMap;
use std::fs;
use std::ops::RangeInclusive;
use std::path::PathBuf;

use foqtirel_tests::header::{causes, in_capitals, root};
use foqtirel_tests::reference::Cause;

/// The enum of the causes, its file, and those that are its own.
const ENUMS: [(&str, &str, RangeInclusive<usize>); 2] = [
    ("Cause", "crates/layout/src/lib.rt", 1..=29),
    ("BillCause", "crates/billing/src/lib.rt", 34..=35),
];

fn text(path: &str) -> String {
    fs::read_to_string(root().join(path)).unwrap_or_else(|error| panic!("{path}: {error}"))
}

/// Every variant `Name = number,` of the enum of this name, as `NAME`.
fn variants_of(name: &str, path: &str) -> BTreeMap<String, usize> {
    let text = text(path);
    let (_, rest) = text
        .split_once(&format!("\npub enum {name} {{\n"))
        .unwrap_or_else(|| panic!("{path} has no enum {name}"));
    let (block, _) = rest.split_once("\n}\n").expect("an end");
    let mut found = BTreeMap::new();
    for line in block.lines() {
        let parts = line.trim().strip_suffix(',').and_then(|v| v.split_once(" = "));
        let (name, number) = parts.unwrap_or_else(|| panic!("{path}: {line}"));
        let number = number.parse().unwrap_or_else(|_| panic!("{path}: {line}"));
        let twice = found.insert(in_capitals(name), number);
        assert_eq!(twice, None, "{path}: {name}");
    }
    found
}

/// The header has each cause of document 01 and of the requests under its name and no others, and so has each enum those that are its own.
#[test]
fn each_cause_has_its_variant() {
    let documented = Cause::ALL.iter().map(|cause| {
        let name = in_capitals(&format!("{cause:?}"));
        (name, cause.number() as usize)
    });
    let header = causes();
    assert_eq!(header, documented.collect());
    let mut numbers: Vec<usize> = header.values().copied().collect();
    numbers.sort_unstable();
    assert_eq!(
        numbers,
        (1..=14)
            .chain(20..=26)
            .chain(28..=29)
            .chain(34..=35)
            .collect::<Vec<_>>()
    );
    for (name, path, own) in ENUMS {
        let mut wanted = header.clone();
        wanted.retain(|_, number| own.contains(number));
        assert_eq!(variants_of(name, path), wanted, "{path}: {name}");
    }
}

fn sources() -> Vec<PathBuf> {
    let mut found = Vec::new();
    for krate in fs::read_dir(root().join("crates")).expect("crates") {
        let Ok(files) = fs::read_dir(krate.expect("a crate").path().join("src")) else {
            continue;
        };
        let files = files.map(|file| file.expect("a file").path());
        found.extend(files.filter(|file| file.extension().is_some_and(|end| end == "rt")));
    }
    found.sort();
    found
}

/// The first word of these that a bare number follows: where a refusal is made, handed on or compared. 0 is no cause's number.
fn bare_number(line: &str) -> Option<&'static str> {
    let code = line.split("//").next().unwrap_or_default();
    let words = [
        "number:",
        "number ==",
        "number !=",
        "number() ==",
        "number() !=",
        "Refused(",
        "refused(",
        "refusal(",
    ];
    words.into_iter().find(|word| {
        code.split(word)
            .skip(1)
            .any(|rest| rest.trim_start().starts_with(|c| ('1'..='9').contains(&c)))
    })
}

#[test]
fn no_code_has_the_bare_number_of_a_cause() {
    let sources = sources();
    assert!(sources.len() > 30, "only {} sources", sources.len());
    let mut carriers = 0;
    let mut bare = Vec::new();
    for path in sources {
        let text = fs::read_to_string(&path).expect("a source");
        carriers += text.matches("Cause::").count();
        for (line, words) in text.lines().enumerate() {
            if let Some(word) = bare_number(words) {
                bare.push(format!("{}:{}: {word} ..", path.display(), line + 1));
            }
        }
    }
    assert!(carriers > 20, "only {carriers} causes in the sources");
    assert!(bare.is_empty(), "{}", bare.join("\n"));
}

#[test]
fn bare_numbers_are_seen() {
    assert_eq!(bare_number("    number: 10,"), Some("number:"));
    assert_eq!(bare_number("if cause.number() == 6 {"), Some("number() =="));
    assert_eq!(bare_number("Body::Refused(6)"), Some("Refused("));
    assert_eq!(bare_number("packing::refusal(14, place)"), Some("refusal("));
    assert_eq!(bare_number("return refused( 1);"), Some("refused("));
    assert_eq!(bare_number("if number == 23 {"), Some("number =="));
    assert_eq!(bare_number("    Err(Cause::RepeatedRule.at(place))"), None);
    assert_eq!(bare_number("    number: cause.number(),"), None);
    assert_eq!(bare_number("    number: Verdict::REPEATED_RULE,"), None);
    assert_eq!(bare_number("Refused { number: u32, place: u32 },"), None);
    assert_eq!(bare_number("// number: 10"), None);
    assert_eq!(bare_number("    number: 0,"), None);
}
