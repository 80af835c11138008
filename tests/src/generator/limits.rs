//! The limits of document 01, each from both sides.

use super::description::{defeasible, strict, Description, Parts, RuleText};
use super::random::Random;
use super::soundrules::RuleSupply;
use super::{Case, Verdict};

const ACCEPTED: Verdict = (0, 0);

type Limit = fn(&mut Random) -> (Vec<u8>, Verdict);

/// All limits; those that belong together stand together.
pub const LIMITS: &[(&str, Limit)] = &[
    ("64 atoms", |r| atoms(r, 64, ACCEPTED)),
    ("65 atoms", |r| atoms(r, 65, (2, 0))),
    ("96 rules", |r| rules(r, 96, ACCEPTED)),
    ("97 rules", |r| rules(r, 97, (2, 0))),
    ("240 pairs", |r| many_pairs(r, false)),
    ("241 pairs", |r| many_pairs(r, true)),
    ("byte 6 is 1", |r| reserved(r, 6)),
    ("byte 7 is 1", |r| reserved(r, 7)),
    ("12 bytes", |r| empty(r, 12, ACCEPTED)),
    ("11 bytes", |r| empty(r, 11, (1, 0))),
    ("no bytes", |r| empty(r, 0, (1, 0))),
    ("1,836 bytes", |r| full(r, 0)),
    ("1,837 bytes", |r| full(r, 1)),
    ("rule part of 10 bytes", |r| body_of(r, 8)),
    ("rule part of 11 bytes", |r| body_of(r, 9)),
    ("rule part of 2 bytes", |r| rule_part(r, 2)),
    ("rule part of 1 byte", |r| rule_part(r, 1)),
    ("rule part of no byte", |r| rule_part(r, 0)),
    ("kind 1", |r| kind(r, 1)),
    ("kind 2", |r| kind(r, 2)),
    ("head 2A - 1", |r| head(r, 0)),
    ("head 2A", |r| head(r, 1)),
    ("body literal 2A - 1", |r| body_literal(r, 0)),
    ("body literal 2A", |r| body_literal(r, 1)),
    ("literal without atoms", |_| literal_without_atoms()),
    ("body ascends by one", |r| body_step(r, 1)),
    ("body stays", |r| body_step(r, 0)),
    ("body descends by one", |r| body_step(r, -1)),
    ("defeasible, one in the body", |r| defeasible_body(r, 1)),
    ("defeasible, none in the body", |r| defeasible_body(r, 0)),
    ("16 defeasible", |r| defeasible_rules(r, 16)),
    ("17 defeasible", |r| defeasible_rules(r, 17)),
    ("same rule of another kind", |r| repeated(r, true)),
    ("same rule", |r| repeated(r, false)),
    ("last part one byte short", |r| last_part(r, -1)),
    ("last part fits", |r| last_part(r, 0)),
    ("last part one byte long", |r| last_part(r, 1)),
    ("pair without rules", |_| pair_without_rules(true)),
    ("pair missing without rules", |_| pair_without_rules(false)),
    ("pair names rule R - 1", |r| pair_name(r, 0)),
    ("pair names rule R", |r| pair_name(r, 1)),
    ("second number ascends by one", |r| pair_step(r, 1)),
    ("pair twice", |r| pair_step(r, 0)),
    ("second number descends by one", |r| pair_step(r, -1)),
    ("first number ascends", |_| first_number_ascends()),
    ("contradiction by a defeasible rule", |r| {
        against_fact(r, true)
    }),
    ("contradiction by a strict rule", |r| against_fact(r, false)),
];

pub fn limit(random: &mut Random, index: usize) -> Case {
    let (name, make) = LIMITS[index % LIMITS.len()];
    let (image, expected) = make(random);
    let planted = match expected {
        ACCEPTED => Vec::new(),
        _ => vec![expected],
    };
    Case::with_faults(image, planted, format!("limit: {name}"))
}

/// So many different sound rules in any order, the given number of them defeasible.
fn sound(random: &mut Random, atoms: usize, count: usize, defeasible: usize) -> Description {
    let mut supply = RuleSupply::new(random, atoms);
    let mut kinds = vec![false; count - defeasible];
    kinds.extend(vec![true; defeasible]);
    random.shuffle(&mut kinds);
    Description {
        atoms: atoms as u16,
        rules: kinds
            .into_iter()
            .map(|kind| supply.rule(random, kind))
            .collect(),
        pairs: Vec::new(),
    }
}

/// A sound program whose rules all have bodies, with one more part put in at the place that is
/// handed back. The bodies have one literal each, so a part with more or fewer is no repetition.
fn around(random: &mut Random, atoms: usize, part: Vec<u8>) -> (Parts, usize) {
    let literals: Vec<u8> = (0..2 * atoms as u8).collect();
    let count = random.below(10).min(literals.len());
    let mut parts = Description {
        atoms: atoms as u16,
        rules: random
            .sample(&literals, count)
            .into_iter()
            .map(|literal| strict(literal, &[random.pick(&literals)]))
            .collect(),
        pairs: Vec::new(),
    }
    .parts();
    random.shuffle(&mut parts.rules);
    let place = random.between(0, parts.rules.len());
    parts.rules.insert(place, part);
    (parts, place)
}

/// The image with the part, and the cause at the part's place unless it is 0.
fn put_in(random: &mut Random, atoms: usize, part: Vec<u8>, cause: u32) -> (Vec<u8>, Verdict) {
    let (parts, place) = around(random, atoms, part);
    let expected = match cause {
        0 => ACCEPTED,
        _ => (cause, place as u32),
    };
    (parts.image(), expected)
}

fn atoms(random: &mut Random, count: u16, expected: Verdict) -> (Vec<u8>, Verdict) {
    let mut parts = sound(random, 64, 5, 2).parts();
    parts.rules.push(defeasible(126, &[127]).bytes());
    parts.rules.push(defeasible(127, &[126]).bytes());
    parts.rules.sort_unstable();
    parts.rules.dedup();
    parts.atoms = count;
    (parts.image(), expected)
}

fn rules(random: &mut Random, count: usize, expected: Verdict) -> (Vec<u8>, Verdict) {
    let atoms = random.between(4, 64);
    let defeasible = random.below(17);
    (sound(random, atoms, count, defeasible).image(), expected)
}

fn all_pairs(description: &Description) -> Vec<(u8, u8)> {
    let names: Vec<u8> = (0..description.rules.len())
        .filter(|&number| description.rules[number].defeasible)
        .map(|number| number as u8)
        .collect();
    let mut pairs = Vec::new();
    for &first in &names {
        for &second in &names {
            if first != second {
                pairs.push((first, second));
            }
        }
    }
    pairs
}

/// Sixteen rules have just 240 pairs, so a 241st can only repeat one.
fn many_pairs(random: &mut Random, one_more: bool) -> (Vec<u8>, Verdict) {
    let rules = random.between(16, 60);
    let mut description = sound(random, 20, rules, 16);
    description.pairs = all_pairs(&description);
    if !one_more {
        return (description.image(), ACCEPTED);
    }
    let last = description.pairs[description.pairs.len() - 1];
    description.pairs.push(last);
    (description.image(), (2, 0))
}

fn reserved(random: &mut Random, which: usize) -> (Vec<u8>, Verdict) {
    let mut image = sound(random, 10, 4, 2).image();
    image[which] = 1;
    (image, (2, 0))
}

fn empty(random: &mut Random, length: usize, expected: Verdict) -> (Vec<u8>, Verdict) {
    let mut image = Description {
        atoms: random.between(0, 64) as u16,
        ..Description::default()
    }
    .image();
    image.truncate(length);
    (image, expected)
}

/// Everything at its greatest. No rule is without a body, so Π derives nothing.
fn full(random: &mut Random, more: usize) -> (Vec<u8>, Verdict) {
    let atoms = random.between(8, 64);
    let literals: Vec<u8> = (0..2 * atoms as u8).collect();
    let mut rules: Vec<RuleText> = Vec::new();
    while rules.len() < 96 {
        let rule = RuleText {
            defeasible: rules.len() < 16,
            head: random.pick(&literals),
            body: random.sample(&literals, 8),
        };
        if !rules.contains(&rule) {
            rules.push(rule);
        }
    }
    random.shuffle(&mut rules);
    let mut description = Description {
        atoms: atoms as u16,
        rules,
        pairs: Vec::new(),
    };
    description.pairs = all_pairs(&description);
    let mut parts = description.parts();
    assert_eq!(parts.image().len(), 1836, "the greatest image");
    if more == 0 {
        return (parts.image(), ACCEPTED);
    }
    let mut image = parts.image();
    if random.chance(50) {
        parts.last.push(0);
        image = parts.image();
    } else {
        image.push(0);
    }
    (image, (1, 0))
}

fn body_of(random: &mut Random, length: usize) -> (Vec<u8>, Verdict) {
    let atoms = random.between(length.div_ceil(2), 64);
    let literals: Vec<u8> = (0..2 * atoms as u8).collect();
    let rule = defeasible(random.pick(&literals), &random.sample(&literals, length));
    put_in(random, atoms, rule.bytes(), if length > 8 { 4 } else { 0 })
}

fn rule_part(random: &mut Random, length: usize) -> (Vec<u8>, Verdict) {
    let mut part = strict(random.below(8) as u8, &[]).bytes();
    part.truncate(length);
    if length < 2 {
        return put_in(random, 4, part, 4);
    }
    // With other rules around it, a fact could bring a contradiction.
    let description = Description {
        atoms: 4,
        rules: vec![defeasible(1, &[0]), strict(part[1], &[])],
        pairs: Vec::new(),
    };
    (description.image(), ACCEPTED)
}

fn kind(random: &mut Random, kind: u8) -> (Vec<u8>, Verdict) {
    let part = vec![kind, random.below(8) as u8, random.below(8) as u8];
    put_in(random, 4, part, if kind > 1 { 5 } else { 0 })
}

fn head(random: &mut Random, over: usize) -> (Vec<u8>, Verdict) {
    let atoms = random.between(1, 64);
    let rule = defeasible((2 * atoms - 1 + over) as u8, &[random.below(2) as u8]);
    put_in(random, atoms, rule.bytes(), if over > 0 { 6 } else { 0 })
}

/// The greatest literal is in the last place of a body of any length.
fn body_literal(random: &mut Random, over: usize) -> (Vec<u8>, Verdict) {
    let atoms = random.between(5, 64);
    let others: Vec<u8> = (0..2 * atoms as u8 - 1).collect();
    let length = random.below(8);
    let mut body = random.sample(&others, length);
    body.push((2 * atoms - 1 + over) as u8);
    let rule = defeasible(random.pick(&others), &body);
    put_in(random, atoms, rule.bytes(), if over > 0 { 6 } else { 0 })
}

fn literal_without_atoms() -> (Vec<u8>, Verdict) {
    let description = Description {
        atoms: 0,
        rules: vec![strict(0, &[])],
        pairs: Vec::new(),
    };
    (description.image(), (6, 0))
}

fn body_step(random: &mut Random, step: i32) -> (Vec<u8>, Verdict) {
    let atoms = random.between(6, 64);
    let first = random.between(1, 2 * atoms - 2) as u8;
    let second = (i32::from(first) + step) as u8;
    // Lower literals in front leave the two last as the only fault.
    let lower: Vec<u8> = (0..first.min(second)).collect();
    let count = random.below(7).min(lower.len());
    let mut body = random.sample(&lower, count);
    body.extend([first, second]);
    let rule = defeasible(0, &body);
    put_in(random, atoms, rule.bytes(), if step > 0 { 0 } else { 7 })
}

fn defeasible_body(random: &mut Random, length: usize) -> (Vec<u8>, Verdict) {
    let rule = defeasible(random.below(8) as u8, &[0, 1, 2][..length]);
    put_in(random, 4, rule.bytes(), if length == 0 { 8 } else { 0 })
}

fn defeasible_rules(random: &mut Random, count: usize) -> (Vec<u8>, Verdict) {
    let atoms = random.between(5, 64);
    let others = random.below(20);
    let description = sound(random, atoms, count + others, count);
    let seventeenth = (0..description.rules.len())
        .filter(|&number| description.rules[number].defeasible)
        .nth(16);
    let expected = match seventeenth {
        Some(number) => (9, number as u32),
        None => ACCEPTED,
    };
    (description.image(), expected)
}

fn repeated(random: &mut Random, other_kind: bool) -> (Vec<u8>, Verdict) {
    let first = random.pick(&[2, 3, 4, 5]);
    let mut rules = vec![strict(0, &[]), defeasible(first, &[0])];
    for between in 0..random.below(4) {
        rules.push(defeasible(6 + between as u8, &[0]));
    }
    let place = rules.len() as u32;
    let expected = if other_kind {
        rules.push(strict(first, &[0]));
        ACCEPTED
    } else {
        rules.push(defeasible(first, &[0]));
        (10, place)
    };
    let description = Description {
        atoms: 5,
        rules,
        pairs: Vec::new(),
    };
    (description.image(), expected)
}

fn with_some_pairs(random: &mut Random) -> Description {
    let rules = random.between(3, 12);
    let mut description = sound(random, 6, rules, 3);
    let all = all_pairs(&description);
    let count = random.between(1, all.len());
    description.pairs = random.sample(&all, count);
    description
}

fn last_part(random: &mut Random, more: i32) -> (Vec<u8>, Verdict) {
    let mut parts = with_some_pairs(random).parts();
    if more < 0 {
        parts.last.pop();
    }
    if more > 0 {
        parts.last.push(random.byte());
    }
    let expected = if more == 0 { ACCEPTED } else { (11, 0) };
    (parts.image(), expected)
}

fn pair_without_rules(present: bool) -> (Vec<u8>, Verdict) {
    let mut parts = Description {
        atoms: 2,
        rules: Vec::new(),
        pairs: vec![(0, 1)],
    }
    .parts();
    if present {
        return (parts.image(), (12, 0));
    }
    parts.last.clear();
    (parts.image(), (11, 0))
}

/// The last rule is defeasible, and so is the rule that the other number names.
fn pair_name(random: &mut Random, over: u8) -> (Vec<u8>, Verdict) {
    let mut rules = vec![defeasible(2, &[0])];
    for _ in 0..random.below(5) {
        rules.push(strict(4 + 2 * rules.len() as u8, &[0]));
    }
    rules.push(defeasible(3, &[0]));
    let last = rules.len() as u8 - 1;
    let mut pairs = Vec::new();
    if random.chance(50) && over > 0 {
        pairs.push((0, last));
    }
    let place = pairs.len() as u32;
    pairs.push(if random.chance(50) && place == 0 {
        (0, last + over)
    } else {
        (last + over, 0)
    });
    let description = Description {
        atoms: 10,
        rules,
        pairs,
    };
    let expected = if over > 0 { (12, place) } else { ACCEPTED };
    (description.image(), expected)
}

fn pair_step(random: &mut Random, step: i32) -> (Vec<u8>, Verdict) {
    let rules = (0..8).map(|n| defeasible(2 + n, &[0])).collect();
    let mut pairs = Vec::new();
    if random.chance(50) {
        pairs.push((0, 1));
    }
    let first = random.between(1, 2) as u8;
    let second = random.between(4, 6) as u8;
    pairs.push((first, second));
    let place = pairs.len() as u32;
    pairs.push((first, (i32::from(second) + step) as u8));
    let description = Description {
        atoms: 5,
        rules,
        pairs,
    };
    let expected = if step > 0 { ACCEPTED } else { (13, place) };
    (description.image(), expected)
}

/// The second number may fall when the first ascends.
fn first_number_ascends() -> (Vec<u8>, Verdict) {
    let description = Description {
        atoms: 3,
        rules: vec![
            defeasible(2, &[0]),
            defeasible(3, &[0]),
            defeasible(4, &[0]),
        ],
        pairs: vec![(0, 2), (1, 0), (2, 0)],
    };
    (description.image(), ACCEPTED)
}

fn against_fact(random: &mut Random, by_defeasible: bool) -> (Vec<u8>, Verdict) {
    let fact = random.below(6) as u8;
    let against = RuleText {
        defeasible: by_defeasible,
        head: fact ^ 1,
        body: vec![fact],
    };
    let mut rules = vec![strict(fact, &[]), against];
    random.shuffle(&mut rules);
    let description = Description {
        atoms: 3,
        rules,
        pairs: Vec::new(),
    };
    let expected = if by_defeasible { ACCEPTED } else { (14, 0) };
    (description.image(), expected)
}
