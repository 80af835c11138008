//! The words of a command line.

use crate::fault::{plain, Fault};
use crate::help;

/// What is wrong, and the first lines of the page that says how it goes.
pub fn usage(what: &str, page: &str) -> Fault {
    let first = page.lines().next().unwrap_or("");
    let line = if page == help::ALL {
        "foqtirel COMMAND ..; `foqtirel --help` lists the commands"
    } else {
        first
    };
    Fault::Usage(format!("{}\nusage: {line}", plain(what)))
}

/// What a command takes: so many words in their places, options with a value, and flags.
pub struct Form {
    places: usize,
    options: &'static [&'static str],
    flags: &'static [&'static str],
    pub page: &'static str,
}

pub fn form(
    places: usize,
    options: &'static [&'static str],
    flags: &'static [&'static str],
    page: &'static str,
) -> Form {
    Form {
        places,
        options,
        flags,
        page,
    }
}

/// Words in their places, with the values of options and the flags.
pub struct Words<'a> {
    pub places: Vec<&'a str>,
    values: Vec<(&'a str, &'a str)>,
    flags: Vec<&'a str>,
}

impl<'a> Words<'a> {
    pub fn value(&self, option: &str) -> Option<&'a str> {
        let found = self.values.iter().find(|(name, _)| *name == option);
        found.map(|(_, value)| *value)
    }

    pub fn flag(&self, flag: &str) -> bool {
        self.flags.contains(&flag)
    }
}

pub fn sort<'a>(words: &'a [String], form: &Form) -> Result<Words<'a>, Fault> {
    let mut sorted = Words {
        places: Vec::new(),
        values: Vec::new(),
        flags: Vec::new(),
    };
    let mut rest = words.iter().map(String::as_str);
    while let Some(word) = rest.next() {
        let (name, given) = halves(word);
        if form.options.contains(&name) && sorted.value(name).is_none() {
            let value = given.or_else(|| rest.next());
            let missing = || usage(&format!("`{word}` needs a value"), form.page);
            sorted.values.push((name, value.ok_or_else(missing)?));
        } else if form.flags.contains(&word) && !sorted.flag(word) {
            sorted.flags.push(word);
        } else if (word.starts_with('-') && word != "-") || sorted.places.len() == form.places {
            return Err(usage(&no_place(word, form), form.page));
        } else {
            sorted.places.push(word);
        }
    }
    if sorted.places.len() < form.places {
        return Err(usage("too few words", form.page));
    }
    Ok(sorted)
}

/// `--budget=5` as its name and its value.
fn halves(word: &str) -> (&str, Option<&str>) {
    match word.split_once('=') {
        Some((name, value)) if name.starts_with("--") => (name, Some(value)),
        _ => (word, None),
    }
}

/// A command that takes a literal may have been given a negated one in another language's way.
fn no_place(word: &str, form: &Form) -> String {
    let told = format!("`{word}` has no place here");
    let literal = form.page.contains(" LITERAL");
    match word.strip_prefix('-') {
        Some(name) if literal && name.starts_with(char::is_alphabetic) => {
            format!("{told}; if it is a literal, negation is written '~{name}'")
        }
        _ => told,
    }
}
