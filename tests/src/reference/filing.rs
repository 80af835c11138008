//! The filed form of a program: one order of its rules and pairs, whatever order they were typed in; and the way back.

use super::literal::Literal;
use super::program::{Kind, Program, Rule};

/// What rules ascend by: kind byte, head, number of body literals, body bytes.
fn key(rule: &Rule) -> (u8, u8, usize, Vec<u8>) {
    let body: Vec<u8> = rule.body.iter().map(|literal| literal.number()).collect();
    (kind_byte(rule.kind), rule.head.number(), body.len(), body)
}

/// The number that each filed rule has in the program, in filed order.
pub fn old_numbers(program: &Program) -> Vec<usize> {
    let mut numbers: Vec<usize> = (0..program.rules.len()).collect();
    numbers.sort_by_key(|&old| key(&program.rules[old]));
    numbers
}

/// The program with its rules in filed order, and its pairs renumbered and sorted.
pub fn filed(program: &Program) -> Program {
    let old_numbers = old_numbers(program);
    let new_number = |rule: usize| {
        let place = old_numbers.iter().position(|&old| old == rule);
        place.expect("each rule has a place in the filed form")
    };
    let new_numbers: Vec<usize> = (0..program.rules.len()).map(new_number).collect();
    renumbered(program, &new_numbers)
}

/// A filed program with its rules in old order, and its pairs sorted for it, by the old number of each rule.
pub fn unfiled(program: &Program, old_numbers: &[usize]) -> Program {
    renumbered(program, old_numbers)
}

/// The program in which each rule has another number, with its pairs renumbered and sorted.
fn renumbered(program: &Program, numbers: &[usize]) -> Program {
    let mut rules: Vec<(usize, &Rule)> = numbers.iter().copied().zip(&program.rules).collect();
    rules.sort_by_key(|&(number, _)| number);
    let mut pairs: Vec<(usize, usize)> = Vec::new();
    for &(winner, loser) in &program.pairs {
        pairs.push((numbers[winner], numbers[loser]));
    }
    pairs.sort_unstable();
    Program {
        atoms: program.atoms,
        rules: rules.into_iter().map(|(_, rule)| rule.clone()).collect(),
        pairs,
    }
}

/// The image that holds a program.
pub fn write_image(program: &Program) -> Vec<u8> {
    let rules = program.rules.iter().map(rule_part);
    let mut parts: Vec<Vec<u8>> = rules.collect();
    let pairs = program.pairs.iter();
    parts.push(pairs.flat_map(|&(a, b)| [a as u8, b as u8]).collect());

    let (atoms, pairs) = (program.atoms, program.pairs.len());
    let mut numbers = vec![atoms, program.rules.len(), pairs, 0];
    let mut offset = 8 + 4 * parts.len();
    for part in &parts {
        numbers.extend([offset, part.len()]);
        offset += part.len();
    }
    let two_bytes = |number: &usize| [(number % 256) as u8, (number / 256) as u8];
    let mut image: Vec<u8> = numbers.iter().flat_map(two_bytes).collect();
    image.extend(parts.concat());
    image
}

fn rule_part(rule: &Rule) -> Vec<u8> {
    let mut part = vec![kind_byte(rule.kind), rule.head.number()];
    part.extend(rule.body.iter().copied().map(Literal::number));
    part
}

fn kind_byte(kind: Kind) -> u8 {
    match kind {
        Kind::Strict => 0,
        Kind::Defeasible => 1,
    }
}
