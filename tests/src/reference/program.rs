//! Programs as plain data.

use std::collections::BTreeSet;

use super::literal::Literal;

#[derive(Clone, Copy, Debug, PartialEq, Eq)]
pub enum Kind {
    Strict,
    Defeasible,
}

#[derive(Clone, Debug, PartialEq, Eq)]
pub struct Rule {
    pub kind: Kind,
    pub head: Literal,
    pub body: Vec<Literal>,
}

/// A program as read from an image: the rules in table order and the preference pairs.
#[derive(Clone, Debug, PartialEq, Eq)]
pub struct Program {
    pub atoms: usize,
    pub rules: Vec<Rule>,
    /// The listed pairs, of rule numbers: the first beats the second.
    pub pairs: Vec<(usize, usize)>,
}

/// A set of defeasible rules: the sum of 2^bit.
pub type Mask = u32;

impl Program {
    /// Π: all facts and strict rules.
    pub fn strict_rules(&self) -> Vec<&Rule> {
        self.rules
            .iter()
            .filter(|rule| rule.kind == Kind::Strict)
            .collect()
    }

    /// The rule numbers of the defeasible rules; the position in this list is the bit.
    pub fn defeasible_numbers(&self) -> Vec<usize> {
        (0..self.rules.len())
            .filter(|&number| self.rules[number].kind == Kind::Defeasible)
            .collect()
    }

    /// Π together with the defeasible rules of a mask.
    pub fn rules_with(&self, mask: Mask) -> Vec<&Rule> {
        let mut chosen = self.strict_rules();
        for (bit, number) in self.defeasible_numbers().into_iter().enumerate() {
            if mask >> bit & 1 == 1 {
                chosen.push(&self.rules[number]);
            }
        }
        chosen
    }

    /// The mask of those defeasible rules whose numbers are given.
    pub fn mask_of(&self, rules: &BTreeSet<usize>) -> Mask {
        self.defeasible_numbers()
            .into_iter()
            .enumerate()
            .filter(|(_, number)| rules.contains(number))
            .map(|(bit, _)| 1 << bit)
            .sum()
    }

    /// True if the literal's atom is in the head or body of some rule, with either sign.
    pub fn mentions_atom_of(&self, literal: Literal) -> bool {
        let same_atom = |other: &Literal| other.atom() == literal.atom();
        self.rules
            .iter()
            .any(|rule| same_atom(&rule.head) || rule.body.iter().any(same_atom))
    }
}
