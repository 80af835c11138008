//! The names that a file of `crates/` defines.

use std::collections::BTreeSet;

/// The definitions of an `.antt` file: what stands at its top, in its modules, its records and its data types, but not
/// what is local to a proof.
pub fn of_proofs(text: &str) -> BTreeSet<String> {
    let mut names = BTreeSet::new();
    // The lines that the present one stands below, each with whether it holds definitions.
    let mut above: Vec<(usize, bool)> = Vec::new();
    for line in text.lines() {
        let words = line.trim_start();
        if words.is_empty() || words.starts_with("--") {
            continue;
        }
        let indentation = line.len() - words.len();
        while above.last().is_some_and(|&(other, _)| other >= indentation) {
            above.pop();
        }
        let at_top = above.iter().all(|&(_, holds)| holds);
        let words = without_modifiers(words);
        let keyword = words.split(' ').next().unwrap_or_default();
        let holds = ["module", "record", "data", "mutual"].contains(&keyword);
        above.push((indentation, holds));
        if at_top {
            names.extend(defined(words).into_iter().map(str::to_string));
        }
    }
    names
}

fn without_modifiers(mut words: &str) -> &str {
    while let Some(rest) = ["pub ", "abbrev ", "unfoldable "]
        .iter()
        .find_map(|modifier| words.strip_prefix(modifier))
    {
        words = rest;
    }
    words
}

/// `a b : T` defines a and b, `record R ..` and `data D ..` their name.
fn defined(words: &str) -> Vec<&str> {
    for keyword in ["record ", "data "] {
        if let Some(rest) = words.strip_prefix(keyword) {
            return rest.split([' ', ':']).take(1).collect();
        }
    }
    let Some((names, _)) = words
        .split_once(" : ")
        .or(words.strip_suffix(" :").map(|n| (n, "")))
    else {
        return Vec::new();
    };
    let names: Vec<&str> = names.split(' ').collect();
    let plain = |name: &&str| !name.contains(['(', '{', '=', '→', 'λ', '.', ':']);
    if names.iter().all(plain) {
        names
    } else {
        Vec::new()
    }
}

/// The functions, types, variants, constants and modules of an `.rt` file, and what it passes on.
pub fn of_code(text: &str) -> BTreeSet<String> {
    let mut names = BTreeSet::new();
    let mut in_enum = false;
    for line in text.lines() {
        let words = line.trim_start();
        if words.starts_with("//") {
            continue;
        }
        if let Some(passed) = words.strip_prefix("pub use ") {
            names.extend(passed.split(|c: char| !is_letter(c)).map(str::to_string));
        }
        if in_enum {
            in_enum = line != "}";
            names.extend(first_word(words).map(str::to_string));
        }
        let mut rest = words;
        while let Some((keyword, after)) = rest.split_once(' ') {
            if ["fn", "struct", "enum", "const", "type", "mod"].contains(&keyword) {
                names.extend(first_word(after).map(str::to_string));
                in_enum = keyword == "enum";
                break;
            }
            if !["pub", "extern", "\"C\""].contains(&keyword) {
                break;
            }
            rest = after;
        }
    }
    names.remove("");
    names
}

fn first_word(text: &str) -> Option<&str> {
    text.split(|c: char| !is_letter(c)).next()
}

fn is_letter(letter: char) -> bool {
    letter.is_alphanumeric() || letter == '_'
}
