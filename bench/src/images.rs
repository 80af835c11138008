//! Seeded programs, grown from their facts.

use std::ops::Range;

use foqtirel_tests::generator::random::Random;
use foqtirel_tests::generator::soundrules::RuleSupply;
use foqtirel_tests::generator::{Description, RuleText};

fn rule(defeasible: bool, head: u8, body: &[u8]) -> RuleText {
    RuleText {
        defeasible,
        head,
        body: body.to_vec(),
    }
}

/// So many rules, so many of them defeasible, over half as many atoms, with a fact for every eight rules and a pair for
/// every two defeasible ones. A body's atoms are below the head's and have been heads before, so that most rules apply.
/// Many heads of defeasible rules are negated, so that arguments meet others against them, but few heads of strict rules,
/// as else most sets of rules would be contradictory.
pub fn grown(seed: u64, count: usize, defeasible: usize) -> Vec<u8> {
    let mut random = Random::seeded(seed);
    let (atoms, facts) = (count / 2, count / 8);
    let settled = (0..atoms).map(|atom| (atom < facts).then_some(0)).collect();
    let mut supply = RuleSupply::with_settled(settled);
    let mut rules: Vec<RuleText> = (0..facts).map(|n| rule(false, 2 * n as u8, &[])).collect();
    // The first rules after the facts are defeasible: Π derives nothing but its facts.
    let mut kinds = vec![true; defeasible];
    kinds.resize(count - facts, false);
    random.shuffle(&mut kinds[defeasible / 2..]);
    let mut heads: Vec<u8> = rules.iter().map(|rule| rule.head).collect();
    for kind in kinds {
        let next = applicable(&mut random, &mut supply, &heads, kind, facts..atoms);
        heads.push(next.head);
        rules.push(next);
    }
    random.shuffle(&mut rules);
    let pairs = some_pairs(&mut random, &rules, defeasible / 2);
    Description {
        atoms: atoms as u16,
        rules,
        pairs,
    }
    .image()
}

/// A new rule that applies where the heads in its body are derived, such that Π stays free of contradiction.
fn applicable(
    random: &mut Random,
    supply: &mut RuleSupply,
    heads: &[u8],
    defeasible: bool,
    atoms: Range<usize>,
) -> RuleText {
    loop {
        let atom = random.between(atoms.start, atoms.end - 1) as u8;
        let negated = random.chance(if defeasible { 40 } else { 8 });
        let head = 2 * atom + u8::from(negated);
        let mut body: Vec<u8> = (0..random.between(1, 2))
            .map(|_| random.pick(heads))
            .filter(|literal| literal / 2 < atom)
            .collect();
        body.sort_unstable();
        body.dedup();
        let next = rule(defeasible, head, &body);
        let sound = !body.is_empty() && (defeasible || supply.is_safe(head, &body));
        if sound && supply.take(&next) {
            return next;
        }
    }
}

/// At most so many pairs of two defeasible rules.
fn some_pairs(random: &mut Random, rules: &[RuleText], most: usize) -> Vec<(u8, u8)> {
    let names: Vec<u8> = (0..rules.len() as u8)
        .filter(|&number| rules[usize::from(number)].defeasible)
        .collect();
    let mut pairs: Vec<(u8, u8)> = (0..most)
        .map(|_| (random.pick(&names), random.pick(&names)))
        .filter(|(first, second)| first != second)
        .collect();
    pairs.sort_unstable();
    pairs.dedup();
    pairs
}
