//! Definition 1: what a set of rules derives.

use super::literal::{Literal, LiteralSet};
use super::program::Rule;

/// All literals derived from the rules with some literals added as facts.
///
/// A rule is applied as soon as its whole body was derived earlier; when a pass over all rules
/// adds nothing, no chain of rules leads any further.
pub fn derived(rules: &[&Rule], added_facts: &[Literal]) -> LiteralSet {
    let mut known: LiteralSet = added_facts.iter().copied().collect();
    let steps: Vec<(LiteralSet, Literal)> = rules
        .iter()
        .map(|rule| (rule.body.iter().copied().collect(), rule.head))
        .collect();
    loop {
        let before = known;
        for &(body, head) in &steps {
            if body.is_subset_of(known) {
                known.insert(head);
            }
        }
        if known == before {
            return known;
        }
    }
}

/// A gathering as document 02 has it under C-14: what it derives, and what it looked at on the way.
pub struct Gathering {
    pub derived: LiteralSet,
    /// How many bodies each round has read, the last one's, which added nothing, among them.
    pub bodies: Vec<usize>,
}

/// Rounds over the rules in their order, until one adds no literal. A rule whose head is derived when its turn comes is passed
/// over; of any other the body is read.
pub fn gathering(rules: &[&Rule], added_facts: &[Literal]) -> Gathering {
    let mut derived: LiteralSet = added_facts.iter().copied().collect();
    let mut bodies = Vec::new();
    loop {
        let (mut read, mut added) = (0, false);
        for rule in rules {
            if derived.contains(rule.head) {
                continue;
            }
            read += 1;
            if rule.body.iter().all(|&needed| derived.contains(needed)) {
                derived.insert(rule.head);
                added = true;
            }
        }
        bodies.push(read);
        if !added {
            return Gathering { derived, bodies };
        }
    }
}

/// True if the rules derive some literal and its complement.
pub fn contradictory(rules: &[&Rule], added_facts: &[Literal]) -> bool {
    derived(rules, added_facts).has_complements()
}
