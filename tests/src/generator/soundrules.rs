//! Sound rules at random, with a strict part that is free of contradiction by construction.

use std::collections::BTreeSet;

use super::description::RuleText;
use super::random::Random;

/// A supply of different sound rules over some atoms.
///
/// Each atom is either settled or open, and each settled atom has one sign. Without defeasible
/// rules, only settled literals of the settled sign can ever be derived: a strict rule with any
/// other head has a literal in its body that is not of that sort. So Π is not contradictory.
pub struct RuleSupply {
    atoms: usize,
    settled: Vec<Option<u8>>,
    used: BTreeSet<Vec<u8>>,
}

impl RuleSupply {
    pub fn new(random: &mut Random, atoms: usize) -> RuleSupply {
        let settled = (0..atoms)
            .map(|_| random.chance(60).then(|| random.below(2) as u8))
            .collect();
        RuleSupply::with_settled(settled)
    }

    /// A supply over as many atoms as the list has, with the sign of each settled one.
    pub fn with_settled(settled: Vec<Option<u8>>) -> RuleSupply {
        RuleSupply {
            atoms: settled.len(),
            settled,
            used: BTreeSet::new(),
        }
    }

    pub fn literals(&self) -> Vec<u8> {
        (0..2 * self.atoms as u8).collect()
    }

    /// True if Π may derive the literal.
    pub fn is_settled(&self, literal: u8) -> bool {
        self.settled[usize::from(literal / 2)] == Some(literal % 2)
    }

    /// Takes a rule into use; false if it is used already.
    pub fn take(&mut self, rule: &RuleText) -> bool {
        self.used.insert(rule.bytes())
    }

    /// True if a strict rule keeps Π within the settled literals.
    pub fn is_safe(&self, head: u8, body: &[u8]) -> bool {
        self.is_settled(head) || body.iter().any(|&literal| !self.is_settled(literal))
    }

    /// A new sound rule of the wanted kind.
    pub fn rule(&mut self, random: &mut Random, defeasible: bool) -> RuleText {
        let literals = self.literals();
        loop {
            let longest = if random.chance(70) { 3 } else { 8 }.min(literals.len());
            let shortest = usize::from(defeasible);
            let length = random.between(shortest, longest);
            let rule = RuleText {
                defeasible,
                head: random.pick(&literals),
                body: random.sample(&literals, length),
            };
            let sound = defeasible || self.is_safe(rule.head, &rule.body);
            if sound && self.take(&rule) {
                return rule;
            }
        }
    }
}
