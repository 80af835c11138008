//! Programs to file: one program typed in other orders, programs that differ from it in one thing, and rules that are as
//! alike as can be.

use std::cmp::Reverse;

use super::description::{strict, Description, RuleText};
use super::random::Random;

/// The same program with its rules in another order, and its pairs renumbered and sorted for it.
pub fn retyped(random: &mut Random, program: &Description) -> Description {
    let mut order: Vec<u8> = (0..program.rules.len() as u8).collect();
    random.shuffle(&mut order);
    in_order(program, &order)
}

/// The program with the rules that are named by their numbers, in that order, and the pairs that remain.
pub(super) fn in_order(program: &Description, order: &[u8]) -> Description {
    let place = |rule: u8| order.iter().position(|&old| old == rule);
    let pairs = program.pairs.iter().filter_map(|&(first, second)| {
        let (first, second) = (place(first)?, place(second)?);
        Some((first as u8, second as u8))
    });
    let mut pairs: Vec<(u8, u8)> = pairs.collect();
    pairs.sort_unstable();
    let rule = |&old: &u8| program.rules[usize::from(old)].clone();
    Description {
        atoms: program.atoms,
        rules: order.iter().map(rule).collect(),
        pairs,
    }
}

/// The same program from the last rule in filed order to the first.
pub fn turned(program: &Description) -> Description {
    let mut order: Vec<u8> = (0..program.rules.len() as u8).collect();
    order.sort_by_key(|&number| {
        let RuleText {
            defeasible,
            head,
            body,
        } = &program.rules[usize::from(number)];
        Reverse((*defeasible, *head, body.len(), body.clone()))
    });
    in_order(program, &order)
}

/// Programs in which a later key would have it otherwise, each with what decides and its filed form.
pub const BY_KEY: [(&str, &str, &str); 14] = [
    ("kind", "d 2<0; 4", "4; d 2<0"),
    ("kind", "d 0<3; 5<0,1,2", "5<0,1,2; d 0<3"),
    ("head", "4; 2<0; 3<0,1; 2", "2; 2<0; 3<0,1; 4"),
    ("sign of the head", "d 3<0; d 2<5", "d 2<5; d 3<0"),
    ("length", "2<0,1; 2<5; 2", "2; 2<5; 2<0,1"),
    (
        "length",
        "d 2<0,1,3; d 2<4,5; d 2<7",
        "d 2<7; d 2<4,5; d 2<0,1,3",
    ),
    ("first literal", "2<1,3; 2<0,9", "2<0,9; 2<1,3"),
    ("last literal", "2<0,1,9; 2<0,1,8", "2<0,1,8; 2<0,1,9"),
    ("pairs", "d 4<0; d 2<0; (0,1)", "d 2<0; d 4<0; (1,0)"),
    (
        "pairs",
        "d 4<0; d 6<0; d 2<0; (0,1); (1,2)",
        "d 2<0; d 4<0; d 6<0; (1,2); (2,0)",
    ),
    (
        "pairs",
        "d 6<0; d 4<0; d 2<0; (0,1); (0,2); (1,2); (2,0)",
        "d 2<0; d 4<0; d 6<0; (0,2); (1,0); (2,0); (2,1)",
    ),
    (
        "literals",
        "127; d 100<127; d 9<127; (1,2)",
        "127; d 9<127; d 100<127; (2,1)",
    ),
    ("atoms", "atoms 64; 3; 0", "atoms 64; 0; 3"),
    ("nothing", "", ""),
];

/// A way to change one thing in a program. None where there is nothing to change in this way.
type Change = fn(&mut Random, &Description) -> Option<Description>;

/// Every way, by its name.
pub const CHANGES: [(&str, Change); 14] = [
    ("an atom more", |_, program| {
        let mut other = program.clone();
        other.atoms += 1;
        Some(other)
    }),
    ("a rule dropped", |random, program| {
        let mut order: Vec<u8> = (0..program.rules.len() as u8).collect();
        if order.is_empty() {
            return None;
        }
        order.remove(random.below(order.len()));
        Some(in_order(program, &order))
    }),
    ("a fact added", |random, program| {
        let mut other = program.clone();
        let head = literal(random, program)?;
        other.rules.push(strict(head, &[]));
        Some(other)
    }),
    ("a rule added", |random, program| {
        let mut other = program.clone();
        let mut added = random_rule(random, program)?;
        let more = literal(random, program)?;
        added.body.push(more);
        other.rules.push(sorted(added));
        Some(other)
    }),
    ("the other kind", |random, program| {
        changed_rule(random, program, |rule, _, _| {
            rule.defeasible = !rule.defeasible
        })
    }),
    ("the head negated", |random, program| {
        changed_rule(random, program, |rule, _, _| rule.head ^= 1)
    }),
    ("another head", |random, program| {
        changed_rule(random, program, |rule, more, _| rule.head = more)
    }),
    ("a literal more in a body", |random, program| {
        changed_rule(random, program, |rule, more, _| rule.body.push(more))
    }),
    ("a literal less in a body", |random, program| {
        changed_rule(random, program, |rule, _, place| {
            if place < rule.body.len() {
                rule.body.remove(place);
            }
        })
    }),
    ("another literal in a body", |random, program| {
        changed_rule(random, program, |rule, more, place| {
            if let Some(old) = rule.body.get_mut(place) {
                *old = more;
            }
        })
    }),
    ("a literal of a body negated", |random, program| {
        changed_rule(random, program, |rule, _, place| {
            if let Some(old) = rule.body.get_mut(place) {
                *old ^= 1;
            }
        })
    }),
    ("a pair dropped", |random, program| {
        let dropped = random_pair(random, program)?;
        let mut other = program.clone();
        other.pairs.retain(|&pair| pair != dropped);
        Some(other)
    }),
    ("a pair added", |random, program| {
        let names: Vec<u8> = (0..program.rules.len() as u8)
            .filter(|&number| program.rules[usize::from(number)].defeasible)
            .collect();
        if names.is_empty() {
            return None;
        }
        let added = (random.pick(&names), random.pick(&names));
        with_pair(program, program.pairs.clone(), added)
    }),
    ("a pair turned", |random, program| {
        let (first, second) = random_pair(random, program)?;
        let mut others = program.pairs.clone();
        others.retain(|&pair| pair != (first, second));
        with_pair(program, others, (second, first))
    }),
];

fn literal(random: &mut Random, program: &Description) -> Option<u8> {
    let literals = 2 * usize::from(program.atoms);
    (literals > 0).then(|| random.below(literals) as u8)
}

fn random_rule(random: &mut Random, program: &Description) -> Option<RuleText> {
    let rules = program.rules.len();
    (rules > 0).then(|| program.rules[random.below(rules)].clone())
}

fn random_pair(random: &mut Random, program: &Description) -> Option<(u8, u8)> {
    let pairs = program.pairs.len();
    (pairs > 0).then(|| program.pairs[random.below(pairs)])
}

/// Changes some rule by a literal at random and a place in its body.
fn changed_rule(
    random: &mut Random,
    program: &Description,
    change: fn(&mut RuleText, u8, usize),
) -> Option<Description> {
    let more = literal(random, program)?;
    let mut other = program.clone();
    let count = other.rules.len();
    let rule = other.rules.get_mut(random.below(count.max(1)))?;
    let place = random.below(rule.body.len().max(1));
    change(rule, more, place);
    *rule = sorted(rule.clone());
    (other != *program).then_some(other)
}

fn sorted(mut rule: RuleText) -> RuleText {
    rule.body.sort_unstable();
    rule.body.dedup();
    rule
}

/// The program with these pairs and one more, unless that is among them.
fn with_pair(
    program: &Description,
    mut pairs: Vec<(u8, u8)>,
    added: (u8, u8),
) -> Option<Description> {
    if pairs.contains(&added) {
        return None;
    }
    pairs.push(added);
    pairs.sort_unstable();
    Some(Description {
        pairs,
        ..program.clone()
    })
}

/// 96 rules that differ in their last byte only, from the last in filed order to the first.
pub fn alike() -> Description {
    let rule = |last: u8| strict(126, &[0, 2, 4, 6, 8, 10, 12, last]);
    Description {
        atoms: 64,
        rules: (14..110).rev().map(rule).collect(),
        pairs: Vec::new(),
    }
}
