//! A program text as it was read: names with their places.

use crate::fault::Span;

/// A name with its place: an atom, or a rule's label.
#[derive(Clone, Debug)]
pub struct Named {
    pub name: String,
    pub at: Span,
}

#[derive(Clone, Debug)]
pub struct Literal {
    pub atom: Named,
    pub negated: bool,
    /// From the sign on.
    pub at: Span,
}

impl Literal {
    pub fn text(&self) -> String {
        format!("{}{}", if self.negated { "~" } else { "" }, self.atom.name)
    }
}

#[derive(Clone, Debug)]
pub struct Rule {
    pub label: Option<Named>,
    pub defeasible: bool,
    pub head: Literal,
    pub body: Vec<Literal>,
}

impl Rule {
    /// Where it begins.
    pub fn at(&self) -> Span {
        match &self.label {
            Some(label) => label.at,
            None => self.head.at,
        }
    }

    /// The rule on one line, its body in the order in which it was typed.
    pub fn text(&self) -> String {
        let label = match &self.label {
            Some(label) => format!("{}: ", label.name),
            None => String::new(),
        };
        let body: Vec<String> = self.body.iter().map(Literal::text).collect();
        let body = match (self.defeasible, body.is_empty()) {
            (_, true) => String::new(),
            (true, _) => format!(" -< {}", body.join(", ")),
            (false, _) => format!(" <- {}", body.join(", ")),
        };
        format!("{label}{}{body}.", self.head.text())
    }
}

#[derive(Clone, Debug)]
pub struct Preference {
    pub first: Named,
    pub second: Named,
}

#[derive(Clone, Debug, Default)]
pub struct Source {
    pub declared: Vec<Named>,
    pub rules: Vec<Rule>,
    pub preferences: Vec<Preference>,
}
