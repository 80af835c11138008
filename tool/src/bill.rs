//! Bills as text: a line for each answer that a branch was given. What each branch pays is the engine's.

use std::ops::RangeInclusive;

use crate::engine::{self, Refusal, BAD_LINE, BRANCHES, MOST_LINES, TOO_MANY_LINES};
use crate::fault::{brief, line_shown, place, Fault, Flaw, Span};
use crate::lexer::{fields, number, uncommented};
use crate::load::{name_of, read_text, Sort};

const BILL: Sort = Sort {
    name: "bill",
    help: "a bill is text, with lines such as `3 YES 16`",
};

/// Said where a line is not of its form.
const FORM: &str = "a line is a branch, an answer and its nodes, as in `3 YES 16`";

/// A field of a line.
struct Field {
    name: &'static str,
    read: fn(&str) -> Option<u64>,
    limits: RangeInclusive<u64>,
    /// Said of a line where it breaks its limits.
    broken: &'static str,
    help: &'static str,
}

const FIELDS: [Field; 3] = [
    Field {
        name: "branch",
        read: number,
        limits: 0..=11,
        broken: "its branch is over 11",
        help: "a branch is a number from 0 to 11",
    },
    Field {
        name: "answer",
        read: answer,
        limits: 1..=5,
        broken: "its answer code is outside 1 to 5",
        help: "an answer is YES, NO, UNDECIDED, UNKNOWN or UNFINISHED, or its code from 1 to 5",
    },
    Field {
        name: "number of nodes",
        read: number,
        limits: 0..=4096,
        broken: "its nodes are over 4096",
        help: "nodes are a number from 0 to 4096",
    },
];

/// An answer's code, by its name or as such.
fn answer(field: &str) -> Option<u64> {
    engine::code_of(field).map(u64::from).or(number(field))
}

/// A line as it was read: branch, answer code and nodes, each with its place.
pub struct Line([(u64, Span); 3]);

impl Line {
    pub fn numbers(&self) -> [u64; 3] {
        self.0.map(|(number, _)| number)
    }

    fn packed(&self) -> u64 {
        let [branch, code, nodes] = self.numbers();
        engine::line(branch, code, nodes)
    }

    fn at(&self) -> Span {
        let [(_, first), _, (_, last)] = self.0;
        first.to(last)
    }

    /// The first field that breaks its limits, with its place.
    fn broken(&self) -> Option<(Span, &'static Field)> {
        let mut placed = self.0.iter().zip(&FIELDS);
        let ((_, at), field) =
            placed.find(|((number, _), field)| !field.limits.contains(number))?;
        Some((*at, field))
    }
}

/// A bill with its text.
pub struct Bill {
    name: String,
    text: String,
    pub lines: Vec<Line>,
}

pub fn load(path: &str) -> Result<Bill, Fault> {
    let text = read_text(path, &BILL)?;
    let name = name_of(path).to_string();
    match read(&text) {
        Ok(lines) => Ok(Bill { name, text, lines }),
        Err(flaw) => Err(Fault::Text(flaw.render(&name, &text))),
    }
}

/// The lines of a text; what is empty but for a comment is none.
fn read(text: &str) -> Result<Vec<Line>, Flaw> {
    let lines = text.lines().map(uncommented).enumerate();
    let found = lines.map(|(index, line)| fields(index, line));
    found
        .filter(|found| !found.is_empty())
        .map(read_line)
        .collect()
}

fn read_line(found: Vec<(String, Span)>) -> Result<Line, Flaw> {
    let mut numbers = Vec::new();
    for ((word, at), field) in found.iter().zip(&FIELDS) {
        let Some(number) = (field.read)(word) else {
            let what = format!("`{}` is no {}", brief(word), field.name);
            return Err(Flaw::new(*at, what, format!("{}; {FORM}", field.help)));
        };
        numbers.push((number, *at));
    }
    if let Some((word, at)) = found.get(FIELDS.len()) {
        let what = format!("`{}` after the nodes", brief(word));
        return Err(Flaw::new(*at, what, FORM));
    }
    numbers.try_into().map(Line).map_err(|few| missing(&few))
}

/// Told after the last of too few fields.
fn missing(found: &[(u64, Span)]) -> Flaw {
    let (_, last) = *found.last().expect("a field");
    let end = Span {
        column: last.column + last.length,
        length: 0,
        ..last
    };
    let what = format!("the {} is missing", FIELDS[found.len()].name);
    Flaw::new(end, what, FORM)
}

impl Bill {
    /// What each branch pays.
    pub fn shares(&self) -> Result<[u32; BRANCHES], Fault> {
        let packed: Vec<u64> = self.lines.iter().map(Line::packed).collect();
        engine::bill(&packed).map_err(|refusal| self.refused(refusal))
    }

    /// The engine's refusal with the line that it is about.
    fn refused(&self, refusal: Refusal) -> Fault {
        let told = match refusal.number {
            TOO_MANY_LINES => self.too_many(),
            BAD_LINE => self.bad_line(refusal.place as usize),
            _ => None,
        };
        let Some(Flaw { at, what, help, .. }) = told else {
            return Fault::refused(refusal, &self.name);
        };
        let shown = line_shown(&self.text, at);
        let more = format!(": {what}\n{shown} help: {help}");
        Fault::Refused(refusal, place(&self.name, at), more)
    }

    fn too_many(&self) -> Option<Flaw> {
        let first_past = self.lines.get(MOST_LINES)?;
        let (lines, number) = (self.lines.len(), MOST_LINES + 1);
        let what = format!("there are {lines}, and this is number {number}");
        let help = "make several bills of them; each is rounded by itself";
        Some(Flaw::new(first_past.at(), what, help))
    }

    fn bad_line(&self, number: usize) -> Option<Flaw> {
        let (at, field) = self.lines.get(number)?.broken()?;
        Some(Flaw::new(at, field.broken, field.help))
    }
}
