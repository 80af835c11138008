//! One small clash among the strict rules, as request C-20 finds it.

use std::collections::BTreeSet;

use super::derivation::contradictory;
use super::program::{Kind, Program};

/// The numbers of the rules that remain where the strict rules contradict each other: from all of them, and from the highest
/// number down, each rule is left out without which the rest stays contradictory.
pub fn small_clash(program: &Program) -> BTreeSet<usize> {
    let all = 0..program.rules.len();
    let strict = |number: &usize| program.rules[*number].kind == Kind::Strict;
    let mut remaining: BTreeSet<usize> = all.clone().filter(strict).collect();
    for number in all.rev() {
        let mut rest = remaining.clone();
        rest.remove(&number);
        if is_contradictory(program, &rest) {
            remaining = rest;
        }
    }
    remaining
}

fn is_contradictory(program: &Program, numbers: &BTreeSet<usize>) -> bool {
    let rules: Vec<_> = numbers.iter().map(|&n| &program.rules[n]).collect();
    contradictory(&rules, &[])
}
