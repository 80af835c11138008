//! What clashes in a program whose facts and strict rules contradict each other: a few of them that do, in words.

use crate::compile::MOST_DEFEASIBLE;
use crate::engine::{self, CONTRADICTORY};
use crate::fault::Flaw;
use crate::program::Program;
use crate::reason::{closure, contradiction};
use crate::source::{Rule, Source};

/// Rules that contradict each other, and no longer do without any single one of them. The engine has found them.
pub struct Clash {
    /// Their numbers, ascending.
    pub rules: Vec<usize>,
    /// The literal and its complement that they derive.
    pub derived: [u8; 2],
}

impl Clash {
    /// The clash in a program's image, None where the engine finds none.
    pub fn find(image: &[u8], program: &Program) -> Option<Clash> {
        let rules = engine::clash(image).ok()?;
        let alone = Program {
            rules: rules.iter().map(|&n| program.rules[n].clone()).collect(),
            ..Program::default()
        };
        // There is one such literal only, as every one of the rules is needed for any.
        let literal = contradiction(closure(&alone, 0))?;
        let derived = [literal, literal + 1];
        Some(Clash { rules, derived })
    }

    /// A flaw of the text, at the last of the rules and with all of them.
    pub fn flaw(&self, program: &Program, source: &Source) -> Flaw {
        let typed: Vec<&Rule> = self.rules.iter().map(|&n| &source.rules[n]).collect();
        let [one, other] = self.derived.map(|literal| program.literal(literal));
        let what = format!(
            "{CONTRADICTORY}: these {} derive `{one}` and `{other}`",
            typed.len()
        );
        let bodies = typed.iter().any(|rule| !rule.body.is_empty());
        let defeasible = program.rules.iter().filter(|rule| rule.defeasible).count();
        let or = match bodies && defeasible < MOST_DEFEASIBLE {
            true => ", or turn `<-` into `-<` in one",
            false => "",
        };
        let help = format!("take one of them out{or}; then try again, there may be another clash");
        let rules = typed.iter().map(|rule| (rule.at(), rule.text()));
        Flaw::with_rules(what, rules.collect(), help)
    }

    /// What is added to the refusal of an image: its rules have numbers and no places.
    pub fn told(&self, program: &Program) -> String {
        let [one, other] = self.derived.map(|literal| program.literal(literal));
        let mut told = format!(": these {} derive {one} and {other}", self.rules.len());
        for &number in &self.rules {
            told += &format!("\n rule {number}: {}.", program.rule_text(number));
        }
        told
    }
}
