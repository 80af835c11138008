//! Reads a program text: facts, rules, labels, preferences and the directive that numbers the atoms.

use crate::fault::{Flaw, Span};
use crate::lexer::{tokens, Token};
use crate::preference::beats;
use crate::source::{Literal, Named, Preference, Rule, Source};

/// Terms nest no deeper, so that no text can use up the stack.
const DEEPEST: usize = 16;

/// The body of a rule that rests on nothing; no atom has this name.
const TRUE: &str = "true";

const NEGATION: &str = "strong negation is written `~`, as in `~fits`";
const ARROWS: &str = "a strict rule is written with `<-`, a defeasible one with `-<`";

pub fn read(text: &str) -> Result<Source, Flaw> {
    let mut reader = Reader {
        tokens: tokens(text),
        at: 0,
    };
    let mut source = Source::default();
    while *reader.peek() != Token::End {
        reader.statement(&mut source)?;
    }
    Ok(source)
}

/// One literal that is the whole text, as on a command line.
pub fn read_literal(text: &str) -> Result<Literal, Flaw> {
    let mut reader = Reader {
        tokens: tokens(text),
        at: 0,
    };
    let literal = reader.literal()?;
    match reader.peek() {
        Token::End => Ok(literal),
        other => {
            let what = format!("{} after the literal", other.shown());
            let help = reader
                .underscored()
                .unwrap_or_else(|| "ask about one literal, such as `fits` or `~fits`".to_string());
            Err(Flaw::new(reader.span(), what, help))
        }
    }
}

struct Reader {
    tokens: Vec<(Token, Span)>,
    at: usize,
}

impl Reader {
    fn ahead(&self, count: usize) -> &Token {
        &self.tokens[(self.at + count).min(self.tokens.len() - 1)].0
    }

    fn peek(&self) -> &Token {
        self.ahead(0)
    }

    fn span(&self) -> Span {
        self.tokens[self.at].1
    }

    /// The token read, with the place moved on; the end is never passed.
    fn next(&mut self) -> (Token, Span) {
        let read = self.tokens[self.at].clone();
        self.at = (self.at + 1).min(self.tokens.len() - 1);
        read
    }

    fn take(&mut self, token: Token) -> bool {
        let found = *self.peek() == token;
        if found {
            self.next();
        }
        found
    }

    fn statement(&mut self, source: &mut Source) -> Result<(), Flaw> {
        match (self.peek(), self.ahead(1)) {
            (Token::Directive, _) => self.directive(&mut source.declared),
            (Token::Number(number), Token::Colon | Token::Greater) => Err(Flaw::new(
                self.span(),
                format!("`{number}` where a rule's label should stand"),
                format!("a label begins with a letter: write `r{number}`"),
            )),
            (Token::Name(_), Token::Greater) => self.preference(&mut source.preferences),
            (Token::Name(_), Token::Colon) => {
                let label = self.label()?;
                self.next();
                self.rule(Some(label), &mut source.rules)
            }
            _ => self.rule(None, &mut source.rules),
        }
    }

    fn directive(&mut self, declared: &mut Vec<Named>) -> Result<(), Flaw> {
        self.next();
        let (word, at) = self.next();
        if word != Token::Name("atoms".to_string()) {
            let what = format!("{} is no directive", word.shown());
            return Err(Flaw::new(
                at,
                what,
                "the one directive is `:- atoms a, b, c.`",
            ));
        }
        loop {
            if *self.peek() == Token::Not {
                return Err(Flaw::new(
                    self.span(),
                    "a `~` among the atoms",
                    "write the atom alone; it stands for both signs",
                ));
            }
            declared.push(self.atom("an atom")?);
            if !self.take(Token::Comma) {
                return self.stop("`,` and the next atom, or `.`");
            }
        }
    }

    fn label(&mut self) -> Result<Named, Flaw> {
        match self.next() {
            (Token::Name(name), at) => Ok(Named { name, at }),
            (other, at) => {
                let what = format!("{} where a rule's label should stand", other.shown());
                Err(Flaw::new(
                    at,
                    what,
                    "write two labels, as in `bulletin_7 > bulletin_3.`",
                ))
            }
        }
    }

    fn preference(&mut self, preferences: &mut Vec<Preference>) -> Result<(), Flaw> {
        let first = self.label()?;
        self.next();
        let second = self.label()?;
        if *self.peek() == Token::Greater {
            let help = one_by_one([&first.name, &second.name], self.ahead(1));
            return Err(Flaw::new(
                self.span(),
                "a second `>` in one preference",
                help,
            ));
        }
        preferences.push(Preference { first, second });
        self.stop("`.`")
    }

    fn rule(&mut self, label: Option<Named>, rules: &mut Vec<Rule>) -> Result<(), Flaw> {
        let head = self.literal()?;
        let sign = self.span();
        let mut rule = Rule {
            label,
            defeasible: *self.peek() == Token::Defeasible,
            head,
            body: Vec::new(),
        };
        let mut expected = "`.`, `<-` or `-<`";
        match self.peek() {
            Token::Strict | Token::Defeasible => {
                self.next();
                self.body(&mut rule, sign)?;
                expected = match rule.body.is_empty() {
                    true => "`.`",
                    false => "`,` and the next literal, or `.`",
                };
            }
            other => {
                if let Some((what, help)) = wrong_sign(other) {
                    return Err(Flaw::new(sign, what, help));
                }
            }
        }
        self.stop(expected)?;
        rules.push(rule);
        Ok(())
    }

    fn body(&mut self, rule: &mut Rule, sign: Span) -> Result<(), Flaw> {
        let head = rule.head.text();
        let truth = self.empty_body();
        if truth && !rule.defeasible {
            self.next();
            return Ok(());
        }
        if truth || *self.peek() == Token::Dot {
            let at = if truth { self.span() } else { sign };
            return Err(if rule.defeasible {
                let help = format!(
                    "the engine takes no presumptions, so a defeasible rule rests on something: \
                     name it, as in `{head} -< reason.`, or write the fact `{head}.`"
                );
                Flaw::new(at, "a defeasible rule without a body", help)
            } else {
                Flaw::new(
                    at,
                    "a strict rule without a body",
                    format!("write the fact as `{head}.`"),
                )
            });
        }
        loop {
            rule.body.push(self.literal()?);
            if !self.take(Token::Comma) {
                return Ok(());
            }
        }
    }

    /// Whether the body is `true` alone.
    fn empty_body(&self) -> bool {
        *self.peek() == Token::Name(TRUE.to_string())
            && !matches!(self.ahead(1), Token::Comma | Token::Open)
    }

    fn literal(&mut self) -> Result<Literal, Flaw> {
        let start = self.span();
        let negated = self.take(Token::Not);
        if *self.peek() == Token::Not {
            return Err(Flaw::new(
                self.span(),
                "a second `~`",
                "write the literal with one `~` or with none",
            ));
        }
        let atom = self.atom("a literal")?;
        let at = start.to(atom.at);
        Ok(Literal { atom, negated, at })
    }

    fn atom(&mut self, wanted: &str) -> Result<Named, Flaw> {
        let Token::Name(name) = self.peek().clone() else {
            return Err(self.stray(wanted));
        };
        let (_, at) = self.next();
        if name == TRUE && *self.peek() != Token::Open {
            let help = "`a <- true.` is the fact `a.`: take `true` out, or write another name";
            return Err(Flaw::new(at, "`true` is reserved for the empty body", help));
        }
        if name == "not" && matches!(self.peek(), Token::Name(_) | Token::Not) {
            let help = "there is no negation as failure here; `~` is strong negation";
            return Err(Flaw::new(at, "`not` before a literal", help));
        }
        if is_variable(&name) {
            let small = name.trim_start_matches('_').to_lowercase();
            let small = if small.starts_with(char::is_alphabetic) {
                small
            } else {
                format!("a{small}")
            };
            let what = format!("`{name}` is written like a variable");
            return Err(Flaw::new(
                at,
                what,
                format!("an atom starts with a small letter: write `{small}`"),
            ));
        }
        let inner = if self.take(Token::Open) {
            self.terms(at, 1)?
        } else {
            String::new()
        };
        let last = self.tokens[self.at.saturating_sub(1)].1;
        Ok(Named {
            name: name + &inner,
            at: at.to(last),
        })
    }

    /// The arguments of a term after its `(`, in one spelling whatever the blanks.
    fn terms(&mut self, open: Span, depth: usize) -> Result<String, Flaw> {
        if depth > DEEPEST {
            let help =
                format!("terms nest at most {DEEPEST} deep: give the inner one a name of its own");
            return Err(Flaw::new(open, "a term nested too deep", help));
        }
        let mut terms = Vec::new();
        loop {
            terms.push(self.term(depth)?);
            let joined = self.underscored();
            match self.next() {
                (Token::Comma, _) => {}
                (Token::Close, _) => return Ok(format!("({})", terms.join(", "))),
                (other, at) => {
                    let what = format!("expected `,` or `)`, found {}", other.shown());
                    let help = joined.unwrap_or_else(|| {
                        "write a term as `bird(tina)` or `flies(tina, high)`".to_string()
                    });
                    return Err(Flaw::new(at, what, help));
                }
            }
        }
    }

    fn term(&mut self, depth: usize) -> Result<String, Flaw> {
        match self.next() {
            (Token::Name(name), at) if is_variable(&name) => {
                let help = "write the ground atom, one rule for each thing it is about, as in `bird(tina)`";
                Err(Flaw::new(at, format!("`{name}` is a variable"), help))
            }
            (Token::Name(name), at) => {
                let inner = if self.take(Token::Open) {
                    self.terms(at, depth + 1)?
                } else {
                    String::new()
                };
                Ok(name + &inner)
            }
            (Token::Number(number), _) => Ok(number),
            (other, at) => {
                let what = format!("expected an argument, found {}", other.shown());
                Err(Flaw::new(
                    at,
                    what,
                    "write a term as `bird(tina)` or `flies(tina, high)`",
                ))
            }
        }
    }

    /// The stop of a statement. Where the next token is on a later line, the flaw is at the end of this one.
    fn stop(&mut self, expected: &str) -> Result<(), Flaw> {
        if self.take(Token::Dot) {
            return Ok(());
        }
        let last = self.tokens[self.at.saturating_sub(1)].1;
        let here = self.span();
        if *self.peek() == Token::End || here.line > last.line {
            let at = Span {
                line: last.line,
                column: last.column + last.length,
                length: 1,
            };
            return Err(Flaw::new(
                at,
                "a `.` is missing",
                "end each fact, rule and preference with `.`",
            ));
        }
        let what = format!("expected {expected}, found {}", self.peek().shown());
        let help = self.advice().unwrap_or_else(|| {
            "write `head.`, `head <- body.`, `head -< body.` or `label > label.`".to_string()
        });
        Err(Flaw::new(here, what, help))
    }

    /// A token where a literal or an atom should stand.
    fn stray(&self, wanted: &str) -> Flaw {
        let what = format!("expected {wanted}, found {}", self.peek().shown());
        let help = self.advice().unwrap_or_else(|| {
            match self.peek() {
                Token::Number(_) => "an atom starts with a small letter",
                _ if wanted == "an atom" => "name the atoms, as in `:- atoms a, b, c.`",
                _ => "a literal is an atom such as `fits` or `bird(tina)`, with `~` before it where it is negated",
            }
            .to_string()
        });
        Flaw::new(self.span(), what, help)
    }

    /// What to write for the character here, which other languages use, by what stands around it.
    fn advice(&self) -> Option<String> {
        let Token::Stray(here) = *self.peek() else {
            return None;
        };
        let precise = match here {
            '<' => self.turned().or_else(|| self.look_alike()),
            ';' => Some(self.semicolon().to_string()),
            _ if is_dash(here) => self.look_alike().or_else(|| self.underscored()),
            _ => None,
        };
        precise.or_else(|| Some(stray_help(here).to_string()))
    }

    /// For `x < y` between two labels: the preference that was meant.
    fn turned(&self) -> Option<String> {
        let (Some((Token::Name(lesser), _)), Token::Name(greater)) =
            (self.tokens[..self.at].last(), self.ahead(1))
        else {
            return None;
        };
        let labels = self.is_label(lesser) && self.is_label(greater);
        labels.then(|| {
            format!("a preference names the rule that wins first: write `{greater} > {lesser}.`")
        })
    }

    fn is_label(&self, name: &str) -> bool {
        self.tokens.windows(2).any(|pair| {
            pair[1].0 == Token::Colon && matches!(&pair[0].0, Token::Name(label) if label == name)
        })
    }

    /// For an arrow with a dash that only looks like `-`.
    fn look_alike(&self) -> Option<String> {
        let (Token::Stray(one), Token::Stray(other)) = (self.peek(), self.ahead(1)) else {
            return None;
        };
        let dash = match (*one, *other) {
            ('<', dash) | (dash, '<' | '≺') if is_dash(dash) => dash,
            _ => return None,
        };
        Some(match dash {
            '-' => ARROWS.to_string(),
            _ => format!("`{dash}` is not `-`, though it looks like it: write `-<` or `<-`"),
        })
    }

    /// For a dash within a name, as in `steel-ring`: the name with `_`.
    fn underscored(&self) -> Option<String> {
        let mut at = self.at.checked_sub(1)?;
        let mut name = self.tokens[at].0.word()?.to_string();
        while let [(_, before), (Token::Stray(dash), here), (next, after), ..] = &self.tokens[at..]
        {
            match next.word() {
                Some(word) if is_dash(*dash) && before.touches(*here) && here.touches(*after) => {
                    name = format!("{name}_{word}");
                    at += 2;
                }
                _ => break,
            }
        }
        let joined = at + 1 > self.at;
        joined.then(|| format!("names use `_`: write `{name}`"))
    }

    fn semicolon(&self) -> &'static str {
        let statement = self.tokens[..self.at]
            .iter()
            .rev()
            .map(|(token, _)| token)
            .take_while(|token| **token != Token::Dot);
        let opens = statement
            .filter(|token| matches!(token, Token::Strict | Token::Defeasible | Token::Directive))
            .last();
        let last =
            *self.ahead(1) == Token::End || self.tokens[self.at + 1].1.line > self.span().line;
        match opens {
            Some(Token::Directive) if !last => "write `,` between the atoms",
            Some(_) if !last => {
                "write `,` between the literals of a body, which all must hold; for `or` write one rule for each"
            }
            _ => "end each fact, rule and preference with `.`",
        }
    }
}

/// For a chain in one line: its pairs, and what they come to.
fn one_by_one([first, second]: [&String; 2], third: &Token) -> String {
    let lead = "write each pair as its own line";
    match third {
        Token::Name(third) if first != second && second != third => format!(
            "{lead}, `{first} > {second}.` and `{second} > {third}.`; then {}",
            beats(&[first, second, third].map(String::clone))
        ),
        _ => format!("{lead}, as in `a > b.` and `b > c.`"),
    }
}

fn is_variable(name: &str) -> bool {
    name.starts_with(|c: char| c == '_' || c.is_uppercase())
}

/// What is wrong with a token right after a head, and what to write.
fn wrong_sign(token: &Token) -> Option<(&'static str, &'static str)> {
    match token {
        Token::Directive => Some((
            "`:-` in a rule",
            "write `<-` for a strict rule or `-<` for a defeasible one",
        )),
        Token::Comma => Some((
            "`,` after a head",
            "a rule has one head: write one rule for each, or `.` after a fact",
        )),
        Token::Colon => Some((
            "`:` after a literal",
            "a label is one name, as in `bulletin_7: fits -< base.`",
        )),
        Token::Greater => Some((
            "`>` after a literal",
            "a preference is between labels: write `label: ` before each of the two rules",
        )),
        _ => None,
    }
}

/// What to write for a character that other languages use.
fn stray_help(here: char) -> &'static str {
    match here {
        '!' | '¬' | '\\' | '∼' | '˜' | '～' => NEGATION,
        _ if is_dash(here) => NEGATION,
        '<' | '=' | '≺' | '⤙' | '←' | '⟵' | '⇐' | '⟸' => ARROWS,
        '/' | '#' => "a comment starts with `%`",
        _ if here.is_control() => "a program is plain text; the name of an image ends in .img",
        _ => "names have letters, digits and `_`",
    }
}

/// `-` and what an editor or a printed page puts in its place.
fn is_dash(c: char) -> bool {
    matches!(
        c,
        '-' | '\u{2010}'..='\u{2015}' | '\u{2212}' | '\u{fe63}' | '\u{ff0d}'
    )
}
