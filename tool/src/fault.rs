//! Why a command gave no answer, and how that is told.

use crate::engine::{self, Refusal};

/// A stretch of one source line. Line and column count from 1, in characters.
#[derive(Clone, Copy, Debug, PartialEq, Eq)]
pub struct Span {
    pub line: usize,
    pub column: usize,
    pub length: usize,
}

impl Span {
    /// Whether another starts right where this ends.
    pub fn touches(self, next: Span) -> bool {
        self.line == next.line && self.column + self.length == next.column
    }

    /// From here to another's end, where that is on the same line.
    pub fn to(self, end: Span) -> Span {
        match self.line == end.line && self.column <= end.column {
            true => Span {
                length: end.column + end.length - self.column,
                ..self
            },
            false => self,
        }
    }
}

/// Something wrong in a text: where, what, and what to write instead.
#[derive(Clone, Debug, PartialEq, Eq)]
pub struct Flaw {
    pub at: Span,
    pub what: String,
    pub help: String,
    /// The rules that are wrong together, each with its place. Where there are any, they are shown instead of a line.
    pub rules: Vec<(Span, String)>,
}

impl Flaw {
    pub fn new(at: Span, what: impl Into<String>, help: impl Into<String>) -> Flaw {
        Flaw {
            at,
            what: what.into(),
            help: help.into(),
            rules: Vec::new(),
        }
    }

    /// A flaw of some rules together, placed at the last of them.
    pub fn with_rules(what: String, rules: Vec<(Span, String)>, help: String) -> Flaw {
        let (at, _) = *rules.last().expect("a rule");
        Flaw {
            rules,
            ..Flaw::new(at, what, help)
        }
    }

    /// The flaw with its rules, or else with its source line and a caret below it.
    pub fn render(&self, name: &str, text: &str) -> String {
        let shown = match self.rules.is_empty() {
            true => line_shown(text, self.at),
            false => self.rules_shown(name),
        };
        format!(
            "{}: error: {}\n{shown} help: {}\n",
            place(name, self.at),
            self.what,
            self.help
        )
    }

    fn rules_shown(&self, name: &str) -> String {
        let rules = self.rules.iter();
        rules
            .map(|(at, rule)| format!(" {}: {rule}\n", place(name, *at)))
            .collect()
    }
}

/// The line of a place in a text, with a caret below it.
pub fn line_shown(text: &str, at: Span) -> String {
    let line = at.line;
    let (shown, below) = echo(text.lines().nth(line - 1).unwrap_or(""), at);
    let margin = " ".repeat(line.to_string().len());
    format!(" {line} | {shown}\n {margin} | {below}\n")
}

/// A place in a file, as messages name it.
pub fn place(file: &str, Span { line, column, .. }: Span) -> String {
    format!("{}:{line}:{column}", plain(file))
}

/// So many columns of a line are shown, and so many of them before the place.
const WINDOW: usize = 100;
const BEFORE: usize = 40;

/// A line, or what is around the place where it is long, and what goes below it with the caret.
fn echo(line: &str, at: Span) -> (String, String) {
    let place = at.column - 1;
    let length = line.chars().count();
    // No character is narrower than a column, so those further away are never shown.
    let from = place.saturating_sub(WINDOW);
    let near = line.chars().skip(from).take(place - from + WINDOW);
    let near: Vec<(char, String)> = near.map(|c| (c, shown(c))).collect();
    let (first, end) = window(&near, place - from);
    let cut = |yes: bool| if yes { ".." } else { "" };
    let mut echoed = cut(from + first > 0).to_string();
    let mut below = " ".repeat(echoed.len());
    let mut carets = String::new();
    for (index, (c, one)) in near.iter().enumerate().take(end).skip(first) {
        echoed += one;
        match from + index {
            // A tab stays a tab, so that the caret stands below its place.
            before if before < place && *c == '\t' => below.push('\t'),
            before if before < place => below += &" ".repeat(width(one)),
            within if within < place + at.length => carets += &"^".repeat(width(one)),
            _ => {}
        }
    }
    // The place may be the line's end, where there is no character.
    below += if carets.is_empty() { "^" } else { &carets };
    (echoed + cut(from + end < length), below)
}

fn shown(c: char) -> String {
    match c {
        '\t' => c.to_string(),
        _ => plain(&c.to_string()),
    }
}

fn width(shown: &str) -> usize {
    shown.chars().count()
}

/// The first character to show and the end of those to show: what is not used after the place is used before it.
fn window(near: &[(char, String)], place: usize) -> (usize, usize) {
    let place = place.min(near.len());
    let after: usize = near[place..].iter().map(|(_, one)| width(one)).sum();
    let mut room = BEFORE.max(WINDOW.saturating_sub(after));
    let mut first = place;
    while first > 0 && width(&near[first - 1].1) <= room {
        first -= 1;
        room -= width(&near[first].1);
    }
    let used: usize = near[first..place].iter().map(|(_, one)| width(one)).sum();
    let (mut room, mut end) = (WINDOW - used, place);
    while end < near.len() && width(&near[end].1) <= room {
        room -= width(&near[end].1);
        end += 1;
    }
    (first, end)
}

/// A text with what a terminal would not show, or would obey, written out.
pub fn plain(text: &str) -> String {
    let invisible = |c: char| {
        c.is_control()
            || matches!(c, '\u{ad}' | '\u{61c}' | '\u{200b}'..='\u{200f}' | '\u{2028}'..='\u{202e}'
                | '\u{2060}'..='\u{206f}' | '\u{feff}')
    };
    text.chars()
        .map(|c| match invisible(c) {
            true => c.escape_debug().to_string(),
            false => c.to_string(),
        })
        .collect()
}

/// So many characters of a word are told.
const WORD: usize = 40;

/// A word as messages tell it: of a long one its beginning.
pub fn brief(word: &str) -> String {
    match word.char_indices().nth(WORD) {
        Some((end, _)) => plain(&word[..end]) + "..",
        None => plain(word),
    }
}

#[derive(Clone, Debug, PartialEq, Eq)]
pub enum Fault {
    /// Wrong usage, or a file that can't be read or written.
    Usage(String),
    /// A flaw in a text, as rendered.
    Text(String),
    /// A question that the program can't be asked.
    Question(String),
    /// The engine turned an order about a file away; the last part says more where more is known.
    Refused(Refusal, String, String),
    /// Any of these in a comparison, as rendered: no status of an error is that of a difference.
    Compared(String),
}

impl Fault {
    pub fn refused(refusal: Refusal, file: &str) -> Fault {
        Fault::Refused(refusal, plain(file), String::new())
    }

    pub fn status(&self) -> u8 {
        match self {
            Fault::Usage(_) | Fault::Compared(_) => 2,
            Fault::Text(_) | Fault::Question(_) | Fault::Refused(..) => 1,
        }
    }

    pub fn render(&self) -> String {
        match self {
            Fault::Usage(words) | Fault::Question(words) => format!("foqtirel: {words}\n"),
            Fault::Text(words) | Fault::Compared(words) => words.clone(),
            Fault::Refused(refusal, file, more) => {
                let Refusal { number, place } = *refusal;
                format!(
                    "refused {number} {place}: {}{}{more}\n",
                    engine::subject(refusal, file),
                    engine::meaning(refusal)
                )
            }
        }
    }
}
