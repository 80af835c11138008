//! Tables of old numbers as text: for each rule of a filed image the number that it had before, in the order of the image.

use crate::engine::Refusal;
use crate::explain::count;
use crate::fault::{brief, plain, Fault, Flaw, Span};
use crate::lexer::{fields, number};
use crate::load::{name_of, read_text, Sort};
use crate::preference::listing;

const NUMBERS: Sort = Sort {
    name: "table of numbers",
    help: "a table of numbers is text, as `file` writes it with --numbers",
};
/// So many rules that are missing are told, and how many more.
const MOST_TOLD: usize = 4;

/// One number a line.
pub fn text(numbers: &[u8]) -> String {
    numbers.iter().map(|number| format!("{number}\n")).collect()
}

/// The numbers of a file, each with its place.
pub struct Numbers {
    /// The file as messages name it.
    name: String,
    placed: Vec<(u8, Span)>,
}

pub fn load(path: &str) -> Result<Numbers, Fault> {
    let text = read_text(path, &NUMBERS)?;
    let name = name_of(path);
    match read(&text) {
        Ok(placed) => Ok(Numbers {
            name: plain(name),
            placed,
        }),
        Err(flaw) => Err(Fault::Text(flaw.render(name, &text))),
    }
}

/// The numbers of a text, which white space separates.
pub fn read(text: &str) -> Result<Vec<(u8, Span)>, Flaw> {
    let lines = text.lines().enumerate();
    let fields = lines.flat_map(|(index, line)| fields(index, line));
    fields
        .map(|(field, at)| Ok((old_number(&field, at)?, at)))
        .collect()
}

fn old_number(field: &str, at: Span) -> Result<u8, Flaw> {
    let shown = brief(field);
    let Some(number) = number(field) else {
        let what = format!("`{shown}` is no number");
        let help = "write the old number of each rule, one a line, as `file` does with --numbers";
        return Err(Flaw::new(at, what, help));
    };
    number.try_into().map_err(|_| {
        let what = format!("`{shown}` is above 255");
        Flaw::new(
            at,
            what,
            "rules are numbered from 0, and there are at most 96",
        )
    })
}

impl Numbers {
    pub fn entries(&self) -> Vec<u8> {
        self.placed.iter().map(|&(number, _)| number).collect()
    }

    /// A line on there being more numbers than rules.
    pub fn note(&self, rules: usize) -> String {
        if self.placed.len() <= rules {
            return String::new();
        }
        format!(
            "note: {} has {} for {}; those past the rules are not used\n",
            self.name,
            count(self.placed.len(), "number"),
            count(rules, "rule")
        )
    }

    /// A refusal for want of numbers.
    pub fn too_few(&self, refusal: Refusal, rules: usize) -> Fault {
        let numbers = count(self.placed.len(), "number");
        let more = format!(": {numbers} for {}", count(rules, "rule"));
        Fault::Refused(refusal, self.name.clone(), more)
    }

    /// A refusal for the first number that is not below the rule count or stands there already, with those that are missing.
    /// None where the numbers are right.
    pub fn misfit(&self, refusal: Refusal, rules: usize) -> Option<Fault> {
        let used = &self.placed[..rules.min(self.placed.len())];
        let (what, Span { line, column, .. }) = (0..used.len()).find_map(|place| {
            let (number, at) = used[place];
            let earlier = used[..place].iter().find(|(other, _)| *other == number);
            let what = match earlier {
                _ if usize::from(number) >= rules => {
                    format!("{number} is not below {rules}, the number of rules")
                }
                Some((_, before)) => format!("{number} stands on line {} already", before.line),
                None => return None,
            };
            Some((what, at))
        })?;
        let missing = (0..rules).filter(|&rule| !used.iter().any(|&(n, _)| usize::from(n) == rule));
        let more = format!(": {what}; {}", missing_told(&missing.collect::<Vec<_>>()));
        let place = format!("{}:{line}:{column}", self.name);
        Some(Fault::Refused(refusal, place, more))
    }
}

/// `rule 3 is missing`, `rules 3 and 5 are missing`.
fn missing_told(missing: &[usize]) -> String {
    let mut told: Vec<String> = missing.iter().map(usize::to_string).collect();
    if told.len() > MOST_TOLD + 1 {
        let more = told.split_off(MOST_TOLD).len();
        told.push(format!("{more} more"));
    }
    match told.len() {
        1 => format!("rule {} is missing", told[0]),
        _ => format!("rules {} are missing", listing(&told)),
    }
}
