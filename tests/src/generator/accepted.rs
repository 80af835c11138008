//! Sound programs of many shapes, and now and then one with a contradictory strict part.

use super::damage::contradiction;
use super::description::{Description, RuleText};
use super::random::Random;
use super::soundrules::RuleSupply;
use super::{Case, Verdict};

/// The rough measures of a program.
struct Shape {
    name: &'static str,
    atoms: usize,
    facts: usize,
    strict: usize,
    defeasible: usize,
    longest_body: usize,
    /// Chance of each possible pair, in a hundred.
    pairs: usize,
}

/// `count` images without faults, but for a few with cause 14.
pub fn accepted(seed: u64, count: usize) -> impl Iterator<Item = Case> {
    let mut random = Random::seeded(seed);
    (0..count).map(move |index| match index % 16 {
        0..=5 => shaped(&mut random, small),
        6..=7 => contested(&mut random, 4),
        8..=9 => contested(&mut random, 7),
        10..=12 => shaped(&mut random, medium),
        13 => shaped(&mut random, large),
        14 => chains(&mut random),
        _ => unconnected(&mut random),
    })
}

/// Only the small shapes, whose arguments attack each other a lot.
pub fn small_programs(seed: u64, count: usize) -> impl Iterator<Item = Case> {
    let mut random = Random::seeded(seed);
    (0..count).map(move |index| match index % 2 {
        0 => shaped(&mut random, small),
        _ => contested(&mut random, 4),
    })
}

/// Only programs with one atom that has many arguments on both sides, for large trees.
pub fn contested_programs(
    seed: u64,
    count: usize,
    most_per_side: usize,
) -> impl Iterator<Item = Case> {
    let mut random = Random::seeded(seed);
    (0..count).map(move |_| contested(&mut random, most_per_side))
}

fn small(random: &mut Random) -> Shape {
    Shape {
        name: "small",
        atoms: random.between(2, 6),
        facts: random.between(1, 2),
        strict: random.below(5),
        defeasible: random.between(2, 8),
        longest_body: 2,
        pairs: random.pick(&[0, 5, 10, 20, 40]),
    }
}

fn medium(random: &mut Random) -> Shape {
    Shape {
        name: "medium",
        atoms: random.between(6, 16),
        facts: random.between(1, 5),
        strict: random.between(1, 16),
        defeasible: random.between(5, 12),
        longest_body: 3,
        pairs: random.pick(&[0, 5, 10, 30]),
    }
}

fn large(random: &mut Random) -> Shape {
    let facts = random.between(1, 12);
    let defeasible = random.between(10, 16);
    Shape {
        name: "large",
        atoms: random.between(16, 64),
        facts,
        strict: random.between(10, 96 - facts - defeasible),
        defeasible,
        longest_body: 8,
        pairs: random.pick(&[0, 10, 50, 100]),
    }
}

/// A program grown from its facts: most bodies are made of literals that were heads before.
fn shaped(random: &mut Random, measure: fn(&mut Random) -> Shape) -> Case {
    let shape = measure(random);
    let facts = shape.facts.min(shape.atoms - 1);
    let mut settled: Vec<Option<u8>> = vec![None; shape.atoms];
    for atom in settled.iter_mut().take(facts) {
        *atom = Some(random.below(2) as u8);
    }
    let mut rules = Vec::new();
    let mut heads: Vec<u8> = Vec::new();
    for (atom, sign) in settled.iter().enumerate() {
        if let Some(sign) = sign {
            let head = 2 * atom as u8 + sign;
            heads.push(head);
            rules.push(fact(head));
        }
    }
    // Strict rules may settle some more atoms.
    for atom in settled.iter_mut().skip(facts) {
        if random.chance(15) {
            *atom = Some(random.below(2) as u8);
        }
    }
    let mut supply = RuleSupply::with_settled(settled);
    for rule in &rules {
        supply.take(rule);
    }
    let mut kinds = vec![true; shape.defeasible];
    kinds.extend(vec![false; shape.strict]);
    random.shuffle(&mut kinds);
    for defeasible in kinds {
        if let Some(rule) = connected(random, &mut supply, &heads, defeasible, &shape) {
            heads.push(rule.head);
            rules.push(rule);
        }
    }
    finish(random, shape.name, shape.atoms, rules, shape.pairs)
}

pub(super) fn fact(head: u8) -> RuleText {
    RuleText {
        defeasible: false,
        head,
        body: Vec::new(),
    }
}

/// A new rule over the heads there are, often against one of them. None if none was found.
fn connected(
    random: &mut Random,
    supply: &mut RuleSupply,
    heads: &[u8],
    defeasible: bool,
    shape: &Shape,
) -> Option<RuleText> {
    let literals = supply.literals();
    for _ in 0..50 {
        let head = if random.chance(45) {
            random.pick(heads) ^ 1
        } else {
            random.pick(&literals)
        };
        let longest = if random.chance(80) {
            2.min(shape.longest_body)
        } else {
            shape.longest_body
        };
        let length = random.between(1, longest);
        let mut body: Vec<u8> = (0..length)
            .map(|_| {
                if random.chance(90) {
                    random.pick(heads)
                } else {
                    random.pick(&literals)
                }
            })
            .collect();
        body.sort_unstable();
        body.dedup();
        let rule = RuleText {
            defeasible,
            head,
            body,
        };
        let against_itself = rule.body.contains(&rule.head) && random.chance(90);
        let sound = defeasible || supply.is_safe(rule.head, &rule.body);
        if sound && !against_itself && supply.take(&rule) {
            return Some(rule);
        }
    }
    None
}

/// The rules of a program with one atom that has many arguments on both sides.
pub(super) struct Contest {
    pub atoms: usize,
    pub rules: Vec<RuleText>,
    /// The literals of each side.
    pub sides: [Vec<u8>; 2],
    /// Chance of each possible pair, in a hundred.
    pairs: usize,
}

/// Each side has literals of its own, reached by defeasible rules from the facts, and rules that
/// lead from some of them to the contested literal. A side's arguments go together, so the
/// lines grow long wherever the pairs allow it.
pub(super) fn contest(random: &mut Random, most_per_side: usize) -> Contest {
    let facts = random.between(1, 3);
    let fewest_per_side = most_per_side.div_ceil(2);
    let sizes = [
        random.between(fewest_per_side, most_per_side),
        random.between(fewest_per_side, most_per_side),
    ];
    let atoms = facts + sizes[0] + sizes[1] + 1 + random.below(3);
    let literal = |random: &mut Random, atom: usize| (2 * atom + random.below(2)) as u8;
    let mut rules = Vec::new();
    let mut heads = Vec::new();
    for atom in 0..facts {
        let head = literal(random, atom);
        heads.push(head);
        rules.push(fact(head));
    }
    let mut settled: Vec<Option<u8>> = vec![None; atoms];
    for head in &heads {
        settled[usize::from(head / 2)] = Some(head % 2);
    }
    let mut supply = RuleSupply::with_settled(settled);
    for rule in &rules {
        supply.take(rule);
    }
    let mut defeasible_left = 16;
    let mut next_atom = facts;
    let mut sides = [Vec::new(), Vec::new()];
    for (side, size) in sides.iter_mut().zip(sizes) {
        for _ in 0..size {
            let head = literal(random, next_atom);
            next_atom += 1;
            side.push(head);
            let count = random.between(1, heads.len().min(2));
            let mut body = random.sample(&heads, count);
            body.sort_unstable();
            let rule = RuleText {
                defeasible: true,
                head,
                body,
            };
            supply.take(&rule);
            rules.push(rule);
            defeasible_left -= 1;
        }
    }
    let at_stake = literal(random, next_atom);
    for (side, head) in sides.iter().zip([at_stake, at_stake ^ 1]) {
        // A body of one literal outdoes all longer ones with it, so mostly there is none.
        let shortest = random.pick(&[1, 2, 2, 2]);
        for _ in 0..random.between(side.len(), 3 * side.len()) {
            let length = random.between(shortest, side.len().min(3));
            let mut body = random.sample(side, length);
            body.sort_unstable();
            let defeasible = defeasible_left > 0 && random.chance(10);
            let rule = RuleText {
                defeasible,
                head,
                body,
            };
            if supply.take(&rule) {
                defeasible_left -= usize::from(defeasible);
                rules.push(rule);
            }
        }
    }
    // Members of one side that don't go together make concordance matter.
    if random.chance(60) {
        for _ in 0..random.between(1, 3) {
            let side = &sides[random.below(2)];
            let two = random.sample(side, 2);
            let rule = RuleText {
                defeasible: false,
                head: two[1] ^ 1,
                body: vec![two[0]],
            };
            if supply.take(&rule) {
                rules.push(rule);
            }
        }
    }
    heads.extend(sides.concat());
    heads.extend([at_stake, at_stake ^ 1]);
    let shape = Shape {
        name: "contested",
        atoms,
        facts,
        strict: random.below(2),
        defeasible: random.below(2).min(defeasible_left),
        longest_body: 2,
        pairs: random.pick(&[5, 10, 20, 30]),
    };
    for more in 0..shape.strict + shape.defeasible {
        let defeasible = more >= shape.strict;
        rules.extend(connected(random, &mut supply, &heads, defeasible, &shape));
    }
    Contest {
        atoms,
        rules,
        sides,
        pairs: shape.pairs,
    }
}

fn contested(random: &mut Random, most_per_side: usize) -> Case {
    let Contest {
        atoms,
        mut rules,
        sides,
        pairs,
    } = contest(random, most_per_side);
    if random.chance(40) {
        return finish(random, "contested", atoms, rules, pairs);
    }
    // Pairs between the sides only, so that many arguments are preferred over another.
    random.shuffle(&mut rules);
    let side_of = |rule: &RuleText| sides.iter().position(|side| side.contains(&rule.head));
    let chances = [random.pick(&[10, 20, 40]), random.pick(&[0, 10, 20])];
    let swapped = random.below(2);
    let mut pairs = Vec::new();
    for (first, winner) in rules.iter().enumerate() {
        for (second, loser) in rules.iter().enumerate() {
            if !winner.defeasible || !loser.defeasible {
                continue;
            }
            if let (Some(one), Some(other)) = (side_of(winner), side_of(loser)) {
                if one != other && random.chance(chances[one ^ swapped]) {
                    pairs.push((first as u8, second as u8));
                }
            }
        }
    }
    case("contested", atoms, rules, pairs, (0, 0))
}

/// Long chains of strict and of defeasible rules in the order that suits derivation least.
fn chains(random: &mut Random) -> Case {
    let atoms = random.between(12, 64);
    let strict = random.between(4, (atoms - 4).min(70));
    let defeasible = random.between(2, 16);
    let mut rules = vec![fact(0)];
    for link in 0..strict {
        // Atom 1 is reached by defeasible rules only, so the chain is out of Π's reach.
        rules.push(RuleText {
            defeasible: false,
            head: 2 * (link + 2) as u8,
            body: vec![2 * (link + 1) as u8],
        });
    }
    rules.reverse();
    let literals: Vec<u8> = (0..2 * atoms as u8).collect();
    let mut supply = RuleSupply::with_settled(vec![None; atoms]);
    let mut heads = vec![0, 2, 2, 3];
    for _ in 0..defeasible {
        let rule = RuleText {
            defeasible: true,
            head: if random.chance(50) {
                random.pick(&[2, 3])
            } else {
                random.pick(&literals)
            },
            body: vec![random.pick(&heads)],
        };
        if supply.take(&rule) {
            heads.push(rule.head);
            rules.push(rule);
        }
    }
    let pairs = random.pick(&[0, 10, 40]);
    let order_matters = random.chance(70);
    if order_matters {
        let pairs = random_pairs(random, &rules, pairs);
        return case("chains", atoms, rules, pairs, (0, 0));
    }
    finish(random, "chains", atoms, rules, pairs)
}

/// Sound rules that have nothing to do with each other, from no rule at all to 96.
fn unconnected(random: &mut Random) -> Case {
    let atoms = random.between(4, 64);
    let count = random.pick(&[0, 1, 2, 5, 20, 60, 96]);
    let mut supply = RuleSupply::new(random, atoms);
    let mut defeasible_left = random.below(17);
    let mut rules = Vec::new();
    for _ in 0..count {
        let defeasible = defeasible_left > 0 && random.chance(50);
        defeasible_left -= usize::from(defeasible);
        rules.push(supply.rule(random, defeasible));
    }
    let pairs = random.pick(&[0, 30, 100]);
    finish(random, "unconnected", atoms, rules, pairs)
}

/// Shuffles the rules, chooses pairs, and sometimes makes the strict part contradictory.
fn finish(
    random: &mut Random,
    name: &str,
    atoms: usize,
    mut rules: Vec<RuleText>,
    pairs: usize,
) -> Case {
    let mut expected = (0, 0);
    if random.chance(4) && rules.len() < 90 {
        for rule in contradiction(random, atoms) {
            if !rules.contains(&rule) {
                rules.push(rule);
            }
        }
        expected = (14, 0);
    }
    random.shuffle(&mut rules);
    let pairs = random_pairs(random, &rules, pairs);
    case(name, atoms, rules, pairs, expected)
}

pub(super) fn random_pairs(
    random: &mut Random,
    rules: &[RuleText],
    percent: usize,
) -> Vec<(u8, u8)> {
    let numbers: Vec<u8> = (0..rules.len())
        .filter(|&number| rules[number].defeasible)
        .map(|number| number as u8)
        .collect();
    some_pairs(random, &numbers, percent)
}

/// Each pair of two of the rules with the given chance in a hundred.
pub(super) fn some_pairs(random: &mut Random, rules: &[u8], percent: usize) -> Vec<(u8, u8)> {
    let mut pairs = Vec::new();
    for &first in rules {
        for &second in rules {
            if first != second && random.chance(percent) {
                pairs.push((first, second));
            }
        }
    }
    pairs
}

pub(super) fn case(
    name: &str,
    atoms: usize,
    rules: Vec<RuleText>,
    pairs: Vec<(u8, u8)>,
    expected: Verdict,
) -> Case {
    let description = Description {
        atoms: atoms as u16,
        rules,
        pairs,
    };
    Case {
        image: description.image(),
        expected: Some(expected),
        planted: if expected == (0, 0) {
            Vec::new()
        } else {
            vec![expected]
        },
        scenario: None,
        note: format!("{name} program"),
    }
}
