//! A text as tokens, each with its place.

use crate::fault::{plain, Span};

#[derive(Clone, Debug, PartialEq, Eq)]
pub enum Token {
    /// A letter or `_`, then letters, digits and `_`.
    Name(String),
    Number(String),
    Not,
    Strict,
    Defeasible,
    Directive,
    Colon,
    Comma,
    Dot,
    Greater,
    Open,
    Close,
    /// A character with no meaning here: the reader tells it where it meets it.
    Stray(char),
    End,
}

impl Token {
    /// The letters and digits of a name or a number.
    pub fn word(&self) -> Option<&str> {
        match self {
            Token::Name(word) | Token::Number(word) => Some(word),
            _ => None,
        }
    }

    /// The token as an error message shows it.
    pub fn shown(&self) -> String {
        let text = match self {
            Token::Name(word) | Token::Number(word) => word.as_str(),
            Token::Not => "~",
            Token::Strict => "<-",
            Token::Defeasible => "-<",
            Token::Directive => ":-",
            Token::Colon => ":",
            Token::Comma => ",",
            Token::Dot => ".",
            Token::Greater => ">",
            Token::Open => "(",
            Token::Close => ")",
            Token::Stray(c) => return format!("`{}`", plain(&c.to_string())),
            Token::End => return "the end of the text".to_string(),
        };
        format!("`{text}`")
    }
}

/// Starts a comment, which goes to the line's end.
const COMMENT: char = '%';

/// White space, or the mark with which some editors begin a text. Lines and places in them count from 0.
fn blank(c: char, line: usize, at: usize) -> bool {
    c.is_whitespace() || (line == 0 && at == 0 && c == '\u{feff}')
}

/// The tokens of a text; the last one is `End`.
pub fn tokens(text: &str) -> Vec<(Token, Span)> {
    let mut found = Vec::new();
    let mut last = Span {
        line: 1,
        column: 1,
        length: 0,
    };
    for (index, line) in text.lines().enumerate() {
        let line: Vec<char> = line.chars().collect();
        let mut at = 0;
        while at < line.len() && line[at] != COMMENT {
            if blank(line[at], index, at) {
                at += 1;
                continue;
            }
            let (token, length) = token(&line[at..]);
            found.push((
                token,
                Span {
                    line: index + 1,
                    column: at + 1,
                    length,
                },
            ));
            at += length;
        }
        last = Span {
            line: index + 1,
            column: line.len() + 1,
            length: 0,
        };
    }
    found.push((Token::End, last));
    found
}

fn word(rest: &[char]) -> String {
    rest.iter()
        .take_while(|c| c.is_alphanumeric() || **c == '_')
        .collect()
}

/// The token that a line's rest starts with, and its length. The rest is not empty.
fn token(rest: &[char]) -> (Token, usize) {
    match (rest[0], rest.get(1)) {
        ('<', Some('-')) => (Token::Strict, 2),
        ('-', Some('<')) => (Token::Defeasible, 2),
        (':', Some('-')) => (Token::Directive, 2),
        ('~', _) => (Token::Not, 1),
        (':', _) => (Token::Colon, 1),
        (',', _) => (Token::Comma, 1),
        ('.', _) => (Token::Dot, 1),
        ('>', _) => (Token::Greater, 1),
        ('(', _) => (Token::Open, 1),
        (')', _) => (Token::Close, 1),
        (c, _) if c.is_alphanumeric() || c == '_' => {
            let word = word(rest);
            let length = word.chars().count();
            if c.is_numeric() {
                (Token::Number(word), length)
            } else {
                (Token::Name(word), length)
            }
        }
        (c, _) => (Token::Stray(c), 1),
    }
}

/// A line without its comment.
pub fn uncommented(line: &str) -> &str {
    line.split(COMMENT).next().unwrap_or("")
}

/// What stands between white space in a line, each with its place. Lines count from 0 here.
pub fn fields(index: usize, line: &str) -> Vec<(String, Span)> {
    let mut found: Vec<(String, Span)> = Vec::new();
    let whole = line.chars().enumerate();
    for (at, c) in whole.filter(|&(at, c)| !blank(c, index, at)) {
        let one = Span {
            line: index + 1,
            column: at + 1,
            length: 1,
        };
        match found.last_mut() {
            Some((field, before)) if before.touches(one) => {
                field.push(c);
                *before = before.to(one);
            }
            _ => found.push((c.to_string(), one)),
        }
    }
    found
}

/// The number that digits alone make; the greatest there is where they make a greater one.
pub fn number(field: &str) -> Option<u64> {
    let digits = !field.is_empty() && field.bytes().all(|byte| byte.is_ascii_digit());
    digits.then(|| field.parse().unwrap_or(u64::MAX))
}
