//! Whether what a document names is there: paths, edits that must be refused, crates, functions, definitions and theorems.

pub mod definitions;
pub mod markdown;
pub mod sources;

use markdown::{pieces, Piece};
use sources::Sources;

/// Words in backquotes that are nothing of this tree: of the language, its library and the programs around.
const WORDS: [&str; 20] = [
    "abbrev",
    "add-one",
    "ap",
    "apt-get",
    "cargo",
    "cmp",
    "ctypes",
    "deref",
    "diff",
    "ensures",
    "length",
    "let",
    "must-fail",
    "old",
    "omega",
    "refl",
    "requires",
    "rt",
    "type_inv",
    "valgrind",
];

/// Commands of `rt` that names of crates follow.
const ON_CRATES: [&str; 2] = ["ci", "must-fail"];

/// Those that work on the crate of the folder, or on all, and take no name here.
const IN_A_FOLDER: [&str; 12] = [
    "all", "check", "expand", "fmt", "lib", "plant", "run", "test", "tidy", "try", "verdict",
    "version",
];

/// What a document names and the tree doesn't have, each with its line, and how much it names.
#[derive(Default)]
pub struct Findings {
    pub faults: Vec<String>,
    pub paths: usize,
    /// Names of definitions, theorems, functions and the like.
    pub names: usize,
    /// Those of the names that go with a path.
    pub placed: usize,
}

impl Findings {
    /// Looks at one more document.
    pub fn look_at(&mut self, document: &str, text: &str, sources: &Sources) {
        let pieces = pieces(text, sources);
        for (position, piece) in pieces.iter().enumerate() {
            let told = match piece {
                Piece::Gap(_) => continue,
                Piece::Path { path, .. } => {
                    self.paths += 1;
                    let names = names_at(&pieces, position);
                    self.placed += names.len();
                    let mut told = missing_path(path, text, sources);
                    told.extend(misplaced(&names, path, sources));
                    told
                }
                Piece::Code { text, .. } => {
                    self.names += usize::from(is_name(name_of(text)));
                    missing_names(text, sources)
                }
                Piece::Command { text, .. } => missing_crate(text, sources),
            };
            let place = format!("{document}:{}", piece.line());
            let told = told.into_iter().map(|fault| format!("{place}: {fault}"));
            self.faults.extend(told);
        }
    }
}

/// The options after which a command names what it writes.
const WRITTEN_AFTER: [&str; 2] = ["-o", "--numbers"];

fn missing_path(path: &str, text: &str, sources: &Sources) -> Vec<String> {
    let written = |option: &&str| text.contains(&format!("{option} {path}"));
    let there = match path.split_once("target/") {
        Some((before, made)) => {
            let written = WRITTEN_AFTER.iter().any(written);
            made.is_empty() || sources.makes(before, made) || written
        }
        None => !sources.find(path).is_empty(),
    };
    if there {
        Vec::new()
    } else {
        vec![format!("there is no {path}")]
    }
}

/// The commands of `rt` that there are none of, and the crates that they name in vain.
fn missing_crate(command: &str, sources: &Sources) -> Vec<String> {
    let mut told = Vec::new();
    // What another command follows, and what closes a list of words.
    let parted = command.replace(['(', ')', ';'], " ; ");
    let words: Vec<&str> = parted.split_whitespace().collect();
    for (position, word) in words.iter().enumerate() {
        let Some(name) = words.get(position + 1).filter(|_| *word == "rt") else {
            continue;
        };
        let rest = words[position + 2..].iter();
        let named = rest
            .map(|word| word.trim_end_matches(['.', ',']))
            .take_while(|word| word.starts_with(char::is_alphabetic));
        if ON_CRATES.contains(name) {
            let missing = named.filter(|name| !is_placeholder(name) && !sources.has_crate(name));
            told.extend(missing.map(|name| format!("there is no crate {name}")));
        } else if !IN_A_FOLDER.contains(name) {
            told.push(format!("there is no command rt {name}"));
        } else if *name != "all" {
            told.extend(
                named
                    .take(1)
                    .map(|word| format!("rt {name} takes no {word}")),
            );
        }
    }
    told
}

/// The names in a code span that nothing defines.
fn missing_names(code: &str, sources: &Sources) -> Vec<String> {
    let mut told = missing_crate(code, sources);
    if code.contains("::") {
        let path = code.split(['(', ' ']).next().unwrap_or_default();
        if !sources.has_item(path) {
            told.push(format!("nothing in crates/ defines `{path}`"));
        }
        return told;
    }
    // A word by itself is a name; among others, only what can't be a word of a language or a shell.
    let alone = is_name(code);
    for name in names_in(code) {
        let known = sources.defines(name) || WORDS.contains(&name) || is_placeholder(name);
        let allowed = if is_distinct(name) {
            sources.says(name)
        } else {
            !alone || sources.mentions(name)
        };
        if !known && !allowed {
            told.push(format!("nothing in crates/ defines `{name}`"));
        }
    }
    told
}

/// The names that go with the path at a position: those right before it, or right after it and a colon.
fn names_at(pieces: &[Piece], position: usize) -> Vec<&str> {
    let before = pieces[..position]
        .rchunks_exact(2)
        .map(|two| (&two[1], &two[0]));
    let before = listed(before, &["", "(", ",", "in", ", in"]);
    let after = pieces[position + 1..]
        .chunks_exact(2)
        .map(|two| (&two[0], &two[1]));
    let after = listed(after, &[":"]);
    let names = before.into_iter().chain(after).map(name_of);
    names.filter(|name| is_name(name)).collect()
}

/// Those of the names that no file at their path defines.
fn misplaced(names: &[&str], path: &str, sources: &Sources) -> Vec<String> {
    let files = sources.find(path);
    let undefined = |name: &&&str| !files.iter().any(|file| sources.defines_in(file, name));
    names
        .iter()
        .filter(|_| files.iter().any(|file| file.starts_with("crates/")))
        .filter(undefined)
        .map(|name| format!("`{name}` is not defined in {path}"))
        .collect()
}

/// Code spans after gaps, as long as the first gap is one of some, and the others are a comma or `and`.
fn listed<'a>(pairs: impl Iterator<Item = (&'a Piece, &'a Piece)>, first: &[&str]) -> Vec<&'a str> {
    let mut names = Vec::new();
    for pair in pairs {
        let (Piece::Gap(gap), Piece::Code { text, .. }) = pair else {
            break;
        };
        let joints = if names.is_empty() {
            first
        } else {
            &[",", "and", ", and"]
        };
        if !joints.contains(&gap.as_str()) {
            break;
        }
        names.push(text.as_str());
    }
    names
}

/// The name that a code span is about: `demand_3` of `demand_3 : Demand_3`, `query` of `warrant::query(image, ..)`.
fn name_of(code: &str) -> &str {
    let word = code.split([' ', '(']).next().unwrap_or_default();
    word.rsplit("::").next().unwrap_or_default()
}

/// All words of a code span that can be names, but for options.
fn names_in(code: &str) -> impl Iterator<Item = &str> {
    code.split_whitespace()
        .filter(|word| !word.starts_with("--"))
        .flat_map(|word| word.split(|letter| !is_name_letter(letter)))
        .filter(|word| is_name(word))
}

/// More than one letter, and neither a number nor a mark.
fn is_name(word: &str) -> bool {
    let mut letters = word.chars();
    letters.next().is_some_and(char::is_alphabetic)
        && word.chars().count() > 1
        && letters.all(is_name_letter)
}

fn is_name_letter(letter: char) -> bool {
    letter.is_alphanumeric() || "-_·'′".contains(letter)
}

/// `reply_child`, `loop-i-preserved` or `Answers`: no word of a text or a shell looks so.
fn is_distinct(name: &str) -> bool {
    name.contains(['-', '_']) || name.contains(char::is_uppercase)
}

/// `NAME`, `FILE` and the answers, which stand for something.
fn is_placeholder(name: &str) -> bool {
    name.chars().all(|letter| letter.is_uppercase())
}
