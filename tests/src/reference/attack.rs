//! Definitions 3 and 4: exclusion, attack, preference, defeat.

use std::collections::BTreeSet;

use super::argument::Argument;
use super::derivation::contradictory;
use super::literal::Literal;
use super::program::{Mask, Program};

#[derive(Clone, Copy, Debug, PartialEq, Eq)]
pub enum Defeat {
    Proper,
    Blocking,
}

/// Which literals exclude each other, for all literals that some argument supports.
pub struct Exclusion {
    pairs: BTreeSet<(Literal, Literal)>,
}

impl Exclusion {
    pub fn among(program: &Program, arguments: &[Argument]) -> Exclusion {
        let supported: BTreeSet<Literal> = arguments.iter().map(|a| a.literal).collect();
        let strict = program.strict_rules();
        let mut pairs = BTreeSet::new();
        for &one in &supported {
            for &other in &supported {
                if contradictory(&strict, &[one, other]) {
                    pairs.insert((one, other));
                }
            }
        }
        Exclusion { pairs }
    }

    pub fn excludes(&self, one: Literal, other: Literal) -> bool {
        self.pairs.contains(&(one, other))
    }
}

/// Which rules beat which: a chain of one or more listed pairs leads from the first to the second.
pub struct Preference {
    /// For each defeasible rule, by its bit, the set of all rules that it beats.
    pub beaten: Vec<Mask>,
}

impl Preference {
    pub fn of(program: &Program) -> Preference {
        let numbers = program.defeasible_numbers();
        Preference {
            beaten: numbers
                .iter()
                .map(|&rule| program.mask_of(&ends_of_chains(rule, &program.pairs)))
                .collect(),
        }
    }

    /// True if some rule of the first mask beats some rule of the second.
    pub fn some_rule_beats(&self, first: Mask, second: Mask) -> bool {
        self.beaten
            .iter()
            .enumerate()
            .any(|(bit, &beaten)| first >> bit & 1 == 1 && beaten & second != 0)
    }

    pub fn preferred(&self, x: Argument, z: Argument) -> bool {
        self.some_rule_beats(x.mask, z.mask) && !self.some_rule_beats(z.mask, x.mask)
    }
}

/// The numbers of all rules to which a chain of one or more listed pairs leads from a rule. The
/// rule itself is among them only if a chain comes back to it.
fn ends_of_chains(rule: usize, pairs: &[(usize, usize)]) -> BTreeSet<usize> {
    let mut ends = BTreeSet::new();
    let mut to_follow = vec![rule];
    while let Some(last) = to_follow.pop() {
        for &(winner, loser) in pairs {
            if winner == last && ends.insert(loser) {
                to_follow.push(loser);
            }
        }
    }
    ends
}

/// The sub-arguments of one argument, put together by what each literal attacks among them.
struct AttackedSubArguments {
    by_attacking_literal: Vec<Vec<Argument>>,
}

impl AttackedSubArguments {
    fn of(y: Argument, arguments: &[Argument], exclusion: &Exclusion) -> AttackedSubArguments {
        let sub_arguments: Vec<Argument> = arguments
            .iter()
            .copied()
            .filter(|z| z.is_sub_argument_of(y))
            .collect();
        AttackedSubArguments {
            by_attacking_literal: Literal::all()
                .map(|literal| {
                    sub_arguments
                        .iter()
                        .copied()
                        .filter(|z| exclusion.excludes(literal, z.literal))
                        .collect()
                })
                .collect(),
        }
    }

    fn by(&self, x: Argument) -> &[Argument] {
        &self.by_attacking_literal[usize::from(x.literal.number())]
    }
}

/// All defeaters of an argument as positions in the list, in list order, with their kind.
pub fn defeaters_of(
    y: Argument,
    arguments: &[Argument],
    exclusion: &Exclusion,
    preference: &Preference,
) -> Vec<(usize, Defeat)> {
    let attacked = AttackedSubArguments::of(y, arguments, exclusion);
    let mut defeaters = Vec::new();
    for (index, &x) in arguments.iter().enumerate() {
        if let Some(kind) = kind_of_defeat(x, attacked.by(x), preference) {
            defeaters.push((index, kind));
        }
    }
    defeaters
}

/// How X defeats an argument, given the sub-arguments at which X attacks it.
fn kind_of_defeat(x: Argument, attacked: &[Argument], preference: &Preference) -> Option<Defeat> {
    if attacked.iter().any(|&z| preference.preferred(x, z)) {
        return Some(Defeat::Proper);
    }
    let unrelated = |z: Argument| !preference.preferred(x, z) && !preference.preferred(z, x);
    if attacked.iter().any(|&z| unrelated(z)) {
        return Some(Defeat::Blocking);
    }
    None
}
