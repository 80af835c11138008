//! What is said of a program beside its answers: which preferences run in a circle.

use crate::fault::{plain, Span};
use crate::preference::{circles, listing};
use crate::program::Program;
use crate::source::{Preference, Source};

/// A line for each circle. One in a text has the place of the pair that closes it.
pub fn notes(program: &Program, file: &str, source: Option<&Source>) -> String {
    let mut told = String::new();
    for circle in circles(program) {
        let names = program.rule_names(&circle.closed);
        let place = match source.and_then(|source| closing(source, &names)) {
            Some(Span { line, column, .. }) => format!(":{line}:{column}"),
            None => String::new(),
        };
        told += &format!(
            "{}{place}: note: {}\n",
            plain(file),
            words(&names, &program.rule_names(&circle.further))
        );
    }
    told
}

/// Of the pairs on a closed chain, the last in the text.
fn closing(source: &Source, names: &[String]) -> Option<Span> {
    let on_it = |Preference { first, second }: &&Preference| {
        names
            .windows(2)
            .any(|pair| [&first.name, &second.name] == [&pair[0], &pair[1]])
    };
    let last = source.preferences.iter().rev().find(on_it)?;
    Some(last.first.at)
}

fn words(closed: &[String], further: &[String]) -> String {
    let also = match further {
        [] => String::new(),
        _ => format!(", also through {}", listing(further)),
    };
    format!(
        "preferences run in a circle: {}{also}; of two arguments that each use one of these rules, \
         neither is preferred",
        closed.join(" > ")
    )
}
