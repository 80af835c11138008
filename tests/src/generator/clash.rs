//! Programs that are sound but for their strict part, which contradicts itself in many ways.

use std::collections::BTreeSet;

use super::accepted::{fact, random_pairs};
use super::damage::contradiction;
use super::description::{strict, Description, RuleText};
use super::random::Random;

const MOST_RULES: usize = 96;
const MOST_ATOMS: usize = 64;

/// Strict rules, at most 96, that contradict each other.
type Make = fn(&mut Random) -> Vec<RuleText>;

/// Every shape, by its name.
pub const SHAPES: [(&str, Make); 9] = [
    ("facts", facts),
    ("a chain", chain),
    ("two chains", two_chains),
    ("a chain that parts", parting),
    ("several rules for each head", layers),
    ("several clashes", several),
    ("rings", rings),
    ("long bodies", long_bodies),
    ("any rules", any_rules),
];

/// `count` programs of all shapes in turn, each with the shape's name.
pub fn clashing(seed: u64, count: usize) -> impl Iterator<Item = (&'static str, Description)> {
    let mut random = Random::seeded(seed);
    (0..count).map(move |index| {
        let (name, make) = SHAPES[index % SHAPES.len()];
        let rules = make(&mut random);
        (name, among_others(&mut random, rules))
    })
}

/// A program with two facts at its end that clash, in the place of its last rules where it has too many.
pub fn with_clash(program: &Description) -> Description {
    let mut clashing = program.clone();
    let facts = [fact(0), fact(1)];
    clashing.rules.retain(|rule| !facts.contains(rule));
    clashing.rules.truncate(MOST_RULES - facts.len());
    clashing.rules.extend(facts);
    // The rules may have other numbers now.
    clashing.pairs.clear();
    clashing.atoms = clashing.atoms.max(1);
    clashing
}

/// 96 rules of which 65 clash: each round over them derives one literal more, from the last rule of the chain to the first.
/// The others never apply.
pub fn slow_clash() -> Description {
    let last = 2 * (MOST_ATOMS as u8 - 1);
    let mut rules = vec![strict(1, &[0])];
    rules.extend((0..last).step_by(2).map(|head| strict(head, &[head + 2])));
    rules.push(fact(last));
    let others = (rules.len()..MOST_RULES).map(|number| number as u8);
    rules.extend(others.map(|number| strict(number, &[last + 1])));
    Description {
        atoms: MOST_ATOMS as u16,
        rules,
        pairs: Vec::new(),
    }
}

/// So many literals of different atoms.
fn literals(random: &mut Random, count: usize) -> Vec<u8> {
    let end = random.pick(&[count, MOST_ATOMS]) as u8;
    let atoms: Vec<u8> = (0..end).collect();
    let mut chosen = random.sample(&atoms, count);
    random.shuffle(&mut chosen);
    let signed = |atom: u8| 2 * atom + random.below(2) as u8;
    chosen.into_iter().map(signed).collect()
}

/// A rule from each literal to the next.
fn links(literals: &[u8]) -> impl Iterator<Item = RuleText> + '_ {
    literals.windows(2).map(|two| strict(two[1], &two[..1]))
}

fn sorted(mut body: Vec<u8>) -> Vec<u8> {
    body.sort_unstable();
    body
}

/// Facts, and the complements of some.
fn facts(random: &mut Random) -> Vec<RuleText> {
    let count = random.between(1, 48);
    let heads = literals(random, count);
    let both = random.between(1, count);
    let complements = random.sample(&heads, both);
    let complements = complements.into_iter().map(|head| head ^ 1);
    let all = heads.iter().copied().chain(complements);
    all.map(fact).collect()
}

/// From a fact to the complement of a head on the way.
fn chain(random: &mut Random) -> Vec<RuleText> {
    let count = random.between(1, MOST_ATOMS);
    let way = literals(random, count);
    let mut rules = vec![fact(way[0])];
    rules.extend(links(&way));
    rules.push(strict(random.pick(&way) ^ 1, &way[count - 1..]));
    rules
}

/// From two facts to a literal and its complement, with no rule on both ways.
fn two_chains(random: &mut Random) -> Vec<RuleText> {
    let count = random.between(2, MOST_ATOMS);
    let heads = literals(random, count);
    let (one, other) = heads.split_at(random.between(1, count - 1));
    let mut rules = vec![fact(one[0]), fact(other[0])];
    rules.extend(links(one).chain(links(other)));
    rules.push(strict(one[one.len() - 1] ^ 1, &other[other.len() - 1..]));
    rules
}

/// From a fact to a literal and its complement, by rules that both need and then by ways of different lengths.
fn parting(random: &mut Random) -> Vec<RuleText> {
    let count = random.between(3, MOST_ATOMS);
    let way = literals(random, count);
    let shared = random.between(1, count - 2);
    let end = way[count - 1];
    let mut rules = vec![fact(way[0]), strict(end, &way[shared - 1..shared])];
    rules.extend(links(&way[..count - 1]));
    rules.push(strict(end ^ 1, &way[count - 2..count - 1]));
    rules
}

/// Heads with several rules each, from any heads before, and so for the complement of one of them.
fn layers(random: &mut Random) -> Vec<RuleText> {
    let count = random.between(2, 20);
    let mut heads = literals(random, count);
    heads.push(random.pick(&heads) ^ 1);
    let mut rules = Vec::new();
    for (place, &head) in heads.iter().enumerate() {
        for _ in 0..random.between(1, 4) {
            let length = random.below(place.min(3) + 1);
            let body = random.sample(&heads[..place], length);
            rules.push(strict(head, &sorted(body)));
        }
    }
    rules
}

/// Small clashes that may share atoms.
fn several(random: &mut Random) -> Vec<RuleText> {
    let atoms = random.between(2, 20);
    let count = random.between(2, 12);
    (0..count)
        .flat_map(|_| contradiction(random, atoms))
        .collect()
}

/// Two rings of rules, each with two rules that lead from it to a literal and its complement. A fact leads into one of them.
fn rings(random: &mut Random) -> Vec<RuleText> {
    let count = random.between(5, 24);
    let heads = literals(random, count);
    let ([start, end], rest) = heads.split_first_chunk().expect("two literals");
    let (entered, idle) = rest.split_at(random.between(1, rest.len() - 1));
    let mut rules = vec![fact(*start), strict(random.pick(entered), &[*start])];
    for ring in [entered, idle] {
        let round = [ring, &ring[..1]].concat();
        rules.extend(links(&round));
        rules.push(strict(*end, &[random.pick(ring)]));
        rules.push(strict(end ^ 1, &[random.pick(ring)]));
    }
    rules
}

/// A literal and its complement from many facts, and one of them from fewer.
fn long_bodies(random: &mut Random) -> Vec<RuleText> {
    let needed = random.between(2, 8);
    let heads = literals(random, needed + 1);
    let (end, given) = heads.split_first().expect("a literal");
    let mut rules: Vec<RuleText> = given.iter().copied().map(fact).collect();
    for head in [*end, *end ^ 1, *end] {
        let length = random.between(needed / 2, needed);
        rules.push(strict(head, &sorted(random.sample(given, length))));
    }
    rules
}

/// Rules over few atoms, with a clash among them.
fn any_rules(random: &mut Random) -> Vec<RuleText> {
    let atoms = random.between(2, 9);
    let mut rules = contradiction(random, atoms);
    let all: Vec<u8> = (0..2 * atoms as u8).collect();
    for _ in 0..random.below(80) {
        rules.push(any_rule(random, &all, 0));
    }
    rules
}

fn any_rule(random: &mut Random, literals: &[u8], shortest: usize) -> RuleText {
    let length = random.between(shortest, 3.min(literals.len()));
    let body = random.sample(literals, length);
    strict(random.pick(literals), &sorted(body))
}

/// The rules with others between or among them, defeasible ones too, up to 96 in all. Some of the others clash as well.
fn among_others(random: &mut Random, rules: Vec<RuleText>) -> Description {
    let rules = different(rules);
    let most = MOST_RULES - rules.len();
    let mut others = others(random, &rules);
    others.truncate(most);
    let place = random.below(rules.len() + 1);
    let mut all = [&rules[..place], &others, &rules[place..]].concat();
    match random.below(4) {
        0 => {}
        1 => all.reverse(),
        _ => random.shuffle(&mut all),
    }
    let atom = |rule: &RuleText| rule.body.iter().chain([&rule.head]).max().map(|l| l / 2);
    let last = all.iter().filter_map(atom).max().expect("a rule");
    let least = usize::from(last) + 1;
    Description {
        atoms: random.pick(&[least, least, MOST_ATOMS]) as u16,
        pairs: random_pairs(random, &all, 20),
        rules: all,
    }
}

/// Rules that are not among these, over the same literals: strict ones with a body, and up to 16 defeasible ones, of which
/// some are as a strict one but for their kind.
fn others(random: &mut Random, rules: &[RuleText]) -> Vec<RuleText> {
    let heads = rules.iter().flat_map(|rule| [rule.head, rule.head ^ 1]);
    let literals: BTreeSet<u8> = heads.collect();
    let literals: Vec<u8> = literals.into_iter().collect();
    let (count, defeasible) = (random.pick(&[0, 4, 20, 96]), random.pick(&[0, 3, 16]));
    let mut others = Vec::new();
    for number in 0..count + defeasible {
        let like = &rules[random.below(rules.len())];
        let mut rule = any_rule(random, &literals, 1);
        rule.defeasible = number < defeasible;
        if rule.defeasible && !like.body.is_empty() && random.chance(40) {
            rule = RuleText {
                defeasible: true,
                ..like.clone()
            };
        }
        others.push(rule);
    }
    let mut others = different(others);
    others.retain(|rule| !rules.contains(rule));
    others
}

/// Each rule once, in the order in which they come.
fn different(rules: Vec<RuleText>) -> Vec<RuleText> {
    let mut used = BTreeSet::new();
    let mut rules = rules;
    rules.retain(|rule| used.insert(rule.bytes()));
    rules
}
