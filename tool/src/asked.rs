//! The literal on a command line, found among a program's atoms.

use crate::fault::Fault;
use crate::load::Loaded;
use crate::source::Literal;
use crate::text;
use crate::words::usage;

/// A literal that was asked about: its name, its complement's, and its number where the program has the atom.
pub struct Asked {
    pub name: String,
    pub complement: String,
    pub number: Option<u32>,
}

pub fn find(loaded: &Loaded, word: &str, page: &str) -> Result<Asked, Fault> {
    if let (true, Ok(number)) = (loaded.from_image(), word.parse::<u32>()) {
        let name =
            |number: u32| format!("{}a{}", if number % 2 == 1 { "~" } else { "" }, number / 2);
        return Ok(Asked {
            name: name(number),
            complement: name(number ^ 1),
            number: Some(number),
        });
    }
    let literal = text::read_literal(word).map_err(|flaw| {
        usage(
            &format!("the literal `{word}`: {}; {}", flaw.what, flaw.help),
            page,
        )
    })?;
    if loaded.from_image() && !is_image_atom(&literal.atom.name) {
        return Err(Fault::Question(no_names(loaded.program.atoms.len())));
    }
    let opposite = Literal {
        negated: !literal.negated,
        ..literal.clone()
    };
    let atom = loaded
        .program
        .atoms
        .iter()
        .position(|atom| *atom == literal.atom.name);
    let number = atom.map(|atom| 2 * atom as u32 + u32::from(literal.negated));
    Ok(Asked {
        name: literal.text(),
        complement: opposite.text(),
        number,
    })
}

/// `a` and a number, as `show` writes it.
fn is_image_atom(name: &str) -> bool {
    let digits = name.strip_prefix('a').unwrap_or("");
    let plain = digits == "0" || !digits.starts_with('0');
    plain && !digits.is_empty() && digits.bytes().all(|digit| digit.is_ascii_digit())
}

fn no_names(atoms: usize) -> String {
    let own = match atoms {
        0 => "this one has no atoms".to_string(),
        1 => "its atom is a0".to_string(),
        _ => format!("its atoms are a0 to a{}", atoms - 1),
    };
    format!("an image has no names; {own}, or write a literal's number")
}

/// For a name that no rule has: that it is a label, or the nearest name that is there, as it may be a slip of the
/// pen. The names of an image are numbers, and no number is a slip of another.
pub fn hint(loaded: &Loaded, asked: &Asked) -> String {
    let name = asked.name.trim_start_matches('~');
    if asked.number.is_some() || loaded.from_image() {
        return String::new();
    }
    let program = &loaded.program;
    let mut rules = program.rules.iter();
    if let Some(rule) = rules.find(|rule| rule.label.as_deref() == Some(name)) {
        let head = program.literal(rule.head);
        return format!(
            "{name} is the label of a rule: ask about a literal, such as its head {head}.\n"
        );
    }
    let atoms = program
        .atoms
        .iter()
        .map(|atom| (distance(atom, name), atom));
    match atoms.min() {
        Some((steps, atom)) if steps <= 2 => format!("Did you mean {atom}?\n"),
        _ => String::new(),
    }
}

/// How many characters to change, put in or take out between two words.
fn distance(one: &str, other: &str) -> usize {
    let other: Vec<char> = other.chars().collect();
    let mut row: Vec<usize> = (0..=other.len()).collect();
    for (i, a) in one.chars().enumerate() {
        let mut corner = row[0];
        row[0] = i + 1;
        for (j, b) in other.iter().enumerate() {
            let change = corner + usize::from(a != *b);
            corner = row[j + 1];
            row[j + 1] = change.min(row[j] + 1).min(corner + 1);
        }
    }
    row[other.len()]
}
