//! Which rule beats which: chains of listed pairs, and the circles that they close.

use std::collections::VecDeque;

use crate::program::Program;

/// Rule numbers, two or more: each with the next is a listed pair, and so the first beats the last.
pub type Chain = Vec<usize>;

/// A shortest chain from a rule of the one set to a rule of the other; of several, the one with the lowest rule
/// numbers in order. The first set ascends.
pub fn chain(program: &Program, from: &[usize], to: &[usize]) -> Option<Chain> {
    let mut reached = from.to_vec();
    // By length and then by rule numbers, as pairs ascend: the first to arrive is the one.
    let mut waiting: VecDeque<Vec<usize>> = from.iter().map(|&rule| vec![rule]).collect();
    while let Some(chain) = waiting.pop_front() {
        for next in beaten(program, chain[chain.len() - 1]) {
            let longer = [&chain[..], &[next]].concat();
            // Asked before what was reached: a rule of both sets may beat itself.
            if to.contains(&next) {
                return Some(longer);
            }
            if !reached.contains(&next) {
                reached.push(next);
                waiting.push_back(longer);
            }
        }
    }
    None
}

/// The rules that a rule beats by a listed pair, ascending.
fn beaten(program: &Program, rule: usize) -> impl Iterator<Item = usize> + '_ {
    let pairs = program.pairs.iter();
    pairs
        .filter(move |&&(first, _)| usize::from(first) == rule)
        .map(|&(_, second)| usize::from(second))
}

/// Rules that all beat each other and themselves.
#[derive(Clone, Debug, PartialEq, Eq)]
pub struct Circle {
    /// A shortest chain from the lowest of them back to it.
    pub closed: Chain,
    /// Those that are not on that chain.
    pub further: Vec<usize>,
}

impl Circle {
    fn has(&self, rule: usize) -> bool {
        self.closed.contains(&rule) || self.further.contains(&rule)
    }
}

/// The circles of a program, by their lowest rules.
pub fn circles(program: &Program) -> Vec<Circle> {
    let beats = |one: usize, other: usize| chain(program, &[one], &[other]).is_some();
    let mut circles: Vec<Circle> = Vec::new();
    for rule in 0..program.rules.len() {
        if circles.iter().any(|circle| circle.has(rule)) {
            continue;
        }
        if let Some(closed) = chain(program, &[rule], &[rule]) {
            let further = (0..program.rules.len())
                .filter(|other| !closed.contains(other))
                .filter(|&other| beats(rule, other) && beats(other, rule))
                .collect();
            circles.push(Circle { closed, further });
        }
    }
    circles
}

/// What a chain says, from the names of its rules: `a beats b through c and d`.
pub fn beats(names: &[String]) -> String {
    let [first, between @ .., last] = names else {
        return String::new();
    };
    match between {
        [] => format!("{first} beats {last}"),
        _ => format!("{first} beats {last} through {}", listing(between)),
    }
}

/// `a`, `a and b`, `a, b and c`.
pub fn listing(names: &[String]) -> String {
    match names {
        [] => String::new(),
        [one] => one.clone(),
        [rest @ .., last] => format!("{} and {last}", rest.join(", ")),
    }
}
