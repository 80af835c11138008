//! Whether two programs hold the same, and what stands in one of them only.

use crate::engine;
use crate::explain::count;
use crate::fault::{place, plain, Fault, Span};
use crate::filing::{by_name, filed};
use crate::image::encode;
use crate::load::Loaded;
use crate::program::Program;
use crate::source::Source;

/// Whether two programs hold the same, and that in words.
pub struct Verdict {
    pub same: bool,
    pub text: String,
}

/// One of two programs, with its atoms numbered and named as in the other.
struct Side<'a> {
    loaded: &'a Loaded,
    program: Program,
}

/// The engine says whether they hold the same: where their filed images are.
pub fn compare(one: &Loaded, other: &Loaded) -> Result<Verdict, Fault> {
    let (sides, note) = matched(one, other);
    let same = same_atoms(&sides) && file(&sides[0])? == file(&sides[1])?;
    let mut text = format!("{} and {} ", plain(&one.name), plain(&other.name));
    if same {
        text += &format!("hold the same: {}\n", one.program.size());
    } else {
        text += "do not hold the same\n";
        text += &differences(&sides);
    }
    let texts = !one.from_image() && !other.from_image();
    if same && texts && filed(one)?.loaded.image != filed(other)?.loaded.image {
        text += "note: their images differ: `:- atoms` numbers their atoms differently\n";
    }
    Ok(Verdict {
        same,
        text: text + &note,
    })
}

fn same_atoms(sides: &[Side; 2]) -> bool {
    sides[0].program.atoms == sides[1].program.atoms
}

fn file(side: &Side) -> Result<Vec<u8>, Fault> {
    let filed = engine::file(&encode(&side.program));
    let filed = filed.map_err(|refusal| side.loaded.refused(refusal))?;
    Ok(filed.image)
}

/// Both programs with one numbering of their atoms, and a note where it is not plain which: the atoms of two texts are
/// matched by name, others by number.
fn matched<'a>(one: &'a Loaded, other: &'a Loaded) -> ([Side<'a>; 2], String) {
    let sides = |first: Program, second: Program| {
        let side = |loaded, program| Side { loaded, program };
        [side(one, first), side(other, second)]
    };
    let [first, second] = [one, other].map(|loaded| loaded.program.clone());
    match (one.from_image(), other.from_image()) {
        (true, true) => (sides(first, second), String::new()),
        (false, false) => {
            let numbers = numbers_in(&second, &first);
            (sides(first, second.renumbered(&numbers)), String::new())
        }
        (false, true) => {
            let (first, second, note) = beside_image(one, other);
            (sides(first, second), note)
        }
        (true, false) => {
            let (second, first, note) = beside_image(other, one);
            (sides(first, second), note)
        }
    }
}

/// The number of each atom in another program, by its name; one that is not there gets a number of its own.
fn numbers_in(program: &Program, other: &Program) -> Vec<u8> {
    let mut next = other.atoms.len();
    let mut number = |name: &String| match other.atoms.iter().position(|atom| atom == name) {
        Some(number) => number,
        None => {
            next += 1;
            next - 1
        }
    };
    let numbers = program.atoms.iter();
    numbers.map(|name| number(name) as u8).collect()
}

/// A text and an image, which has no names, by the one of two numberings of the text's atoms that makes fewer
/// differences. The image's atoms are told by the text's names.
fn beside_image(text: &Loaded, image: &Loaded) -> (Program, Program, String) {
    let numberings = [(text.program.clone(), "compile"), (by_name(text), "file")];
    let tried = numberings.map(|(numbered, command)| {
        let mut named = image.program.clone();
        for (own, name) in named.atoms.iter_mut().zip(&numbered.atoms) {
            own.clone_from(name);
        }
        let note = format!(
            "note: an image has no names: atoms are matched by the numbers that `{command}` gives those of {}\n",
            plain(&text.name)
        );
        (numbered, named, note)
    });
    let differing = |(numbered, named, _): &(Program, Program, String)| {
        only_in(numbered, named).count() + only_in(named, numbered).count()
    };
    let fewest = tried.into_iter().min_by_key(differing);
    fewest.expect("two numberings")
}

/// The numbers of the rules and pairs that stand in one of two programs only.
#[derive(Debug, PartialEq, Eq)]
pub struct Only {
    pub rules: Vec<usize>,
    pub pairs: Vec<usize>,
}

impl Only {
    fn count(&self) -> usize {
        self.rules.len() + self.pairs.len()
    }
}

/// What stands in the first of two programs only, whose atoms have the same numbers. Labels are not compared.
pub fn only_in(program: &Program, other: &Program) -> Only {
    let same = |one: usize, two: usize| program.rules[one].same_bytes(&other.rules[two]);
    let has_rule = |rule: usize| (0..other.rules.len()).any(|there| same(rule, there));
    let has_pair = |&(first, second): &(u8, u8)| {
        let mut pairs = other.pairs.iter();
        pairs.any(|&(winner, loser)| {
            same(first.into(), winner.into()) && same(second.into(), loser.into())
        })
    };
    let pairs = program.pairs.iter().enumerate();
    Only {
        rules: (0..program.rules.len())
            .filter(|&rule| !has_rule(rule))
            .collect(),
        pairs: pairs
            .filter(|(_, pair)| !has_pair(pair))
            .map(|(number, _)| number)
            .collect(),
    }
}

/// A line for each atom, rule and pair that stands in one of the two only.
fn differences(sides: &[Side; 2]) -> String {
    let [one, other] = sides;
    let only = [
        only_in(&one.program, &other.program),
        only_in(&other.program, &one.program),
    ];
    let mut told = atoms_told(sides);
    for (side, only) in sides.iter().zip(&only) {
        told.extend(only.rules.iter().map(|&rule| side.rule_told(rule)));
    }
    for (side, only) in sides.iter().zip(&only) {
        told.extend(only.pairs.iter().map(|&pair| side.pair_told(pair, only)));
    }
    told.iter().map(|line| format!("{line}\n")).collect()
}

/// Atoms have names to tell in two texts; else there are more of them in one of the two.
fn atoms_told(sides: &[Side; 2]) -> Vec<String> {
    let [one, other] = sides;
    if same_atoms(sides) {
        return Vec::new();
    }
    if one.loaded.from_image() || other.loaded.from_image() {
        let [one, other] = [one, other].map(|side| {
            let atoms = side.loaded.program.atoms.len();
            format!("{} has {}", plain(&side.loaded.name), count(atoms, "atom"))
        });
        return vec![format!("{one}, {other}")];
    }
    let mut told = Vec::new();
    for (side, there) in [(one, other), (other, one)] {
        let atoms = side.loaded.program.atoms.iter();
        for atom in atoms.filter(|atom| !there.loaded.program.atoms.contains(atom)) {
            told.push(format!(
                "{}: only here: atom {atom}",
                plain(&side.loaded.name)
            ));
        }
    }
    told
}

impl Side<'_> {
    fn place(&self, at: Span) -> String {
        place(&self.loaded.name, at)
    }

    /// A rule of a text as it was typed, one of an image with its number.
    fn rule_told(&self, number: usize) -> String {
        let (place, rule) = match &self.loaded.source {
            Some(Source { rules, .. }) => {
                let rule = &rules[number];
                (self.place(rule.at()), rule.text())
            }
            None => {
                let place = format!("{}, rule {number}", plain(&self.loaded.name));
                (place, format!("{}.", self.program.rule_text(number)))
            }
        };
        format!("{place}: only here: {rule}")
    }

    /// A pair of a text by its labels, one of an image by the texts of its rules. Where a rule of it is only here, so is the
    /// pair.
    fn pair_told(&self, number: usize, only: &Only) -> String {
        let (first, second) = self.program.pairs[number];
        let rules = [first, second].map(usize::from);
        let name = |rule: usize| match self.loaded.from_image() {
            true => format!("`{}`", self.program.rule_text(rule)),
            false => self.program.rule_name(rule),
        };
        let [winner, loser] = rules.map(name);
        let place = match self.preference(rules) {
            Some(at) => self.place(at),
            None => format!("{}, pair {number}", plain(&self.loaded.name)),
        };
        let so = match rules.map(|rule| only.rules.contains(&rule)) {
            [false, false] => "",
            [true, false] => " (so is its first rule)",
            [false, true] => " (so is its second rule)",
            [true, true] => " (so are its rules)",
        };
        format!("{place}: only here: {winner} > {loser}.{so}")
    }

    /// Where a text prefers one rule over another.
    fn preference(&self, rules: [usize; 2]) -> Option<Span> {
        let labels = rules.map(|rule| self.program.rule_name(rule));
        let preferences = &self.loaded.source.as_ref()?.preferences;
        let mut preferences = preferences.iter();
        let here = preferences
            .find(|pair| [&pair.first.name, &pair.second.name] == [&labels[0], &labels[1]]);
        here.map(|pair| pair.first.at)
    }
}
