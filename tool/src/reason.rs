//! Why one argument defeats another: which literal it attacks, and which rules decide. The engine has settled
//! that it does, and how; this finds the words for it from the same definitions.

use std::collections::HashMap;

use crate::engine::Argument;
use crate::preference::{chain, Chain};
use crate::program::Program;

/// The literals that facts and strict rules derive together with those given, each a bit.
pub fn closure(program: &Program, given: u128) -> u128 {
    let mut derived = given;
    loop {
        let before = derived;
        for rule in program.rules.iter().filter(|rule| !rule.defeasible) {
            if rule.body.iter().all(|&literal| has(derived, literal)) {
                derived |= 1u128.checked_shl(rule.head.into()).unwrap_or(0);
            }
        }
        if derived == before {
            return derived;
        }
    }
}

fn has(set: u128, literal: u8) -> bool {
    literal < 128 && set >> literal & 1 == 1
}

/// The lowest atom with both its literals in a set, as its positive literal.
pub fn contradiction(set: u128) -> Option<u8> {
    (0..128)
        .step_by(2)
        .find(|&literal| has(set, literal) && has(set, literal + 1))
}

/// How the two stand at the attacked sub-argument.
#[derive(Clone, Debug, PartialEq, Eq)]
pub enum Standing {
    /// A chain leads from a rule of the attacker to one of the sub-argument, and none leads back.
    Preferred(Chain),
    /// No chain leads either way.
    NoChain,
    /// A chain leads from the attacker to the sub-argument, and one leads back.
    Mutual(Chain, Chain),
}

#[derive(Clone, Debug, PartialEq, Eq)]
pub struct Attack {
    /// What the attacked sub-argument concludes.
    pub literal: u8,
    pub standing: Standing,
}

pub struct Reasons<'a> {
    program: &'a Program,
    arguments: &'a [Argument],
    excluded: HashMap<(u8, u8), bool>,
}

impl<'a> Reasons<'a> {
    pub fn new(program: &'a Program, arguments: &'a [Argument]) -> Reasons<'a> {
        Reasons {
            program,
            arguments,
            excluded: HashMap::new(),
        }
    }

    /// The attack that makes `attacker` a defeater of `target` of this kind (1 proper, 2 blocking): the one at the
    /// target itself where that will do, else the first in list order.
    pub fn attack(&mut self, attacker: Argument, target: Argument, kind: u8) -> Option<Attack> {
        let arguments = self.arguments;
        let inner = arguments
            .iter()
            .filter(|part| part.mask & !target.mask == 0);
        for part in std::iter::once(&target).chain(inner) {
            if !self.exclude(attacker.literal, part.literal) {
                continue;
            }
            let Some(standing) = self.standing(attacker, *part) else {
                continue;
            };
            let proper = matches!(standing, Standing::Preferred(_));
            if proper == (kind == 1) {
                return Some(Attack {
                    literal: part.literal,
                    standing,
                });
            }
        }
        None
    }

    fn exclude(&mut self, one: u8, other: u8) -> bool {
        let program = self.program;
        let both = || contradiction(closure(program, 1u128 << one | 1u128 << other)).is_some();
        *self.excluded.entry((one, other)).or_insert_with(both)
    }

    /// None where the sub-argument is preferred.
    fn standing(&self, attacker: Argument, part: Argument) -> Option<Standing> {
        let (mine, its) = (
            self.program.rules_of(attacker.mask),
            self.program.rules_of(part.mask),
        );
        let there = chain(self.program, &mine, &its);
        match (there, chain(self.program, &its, &mine)) {
            (Some(there), None) => Some(Standing::Preferred(there)),
            (None, None) => Some(Standing::NoChain),
            (Some(there), Some(back)) => Some(Standing::Mutual(there, back)),
            (None, Some(_)) => None,
        }
    }
}
