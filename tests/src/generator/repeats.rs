//! Cause 10 and what only looks like it: rules that agree in some of kind, head and body, with any number of rules between.

use super::description::{defeasible, strict, Description, RuleText};
use super::{Case, Verdict};

const RULES: usize = 96;
/// In no head, so that a strict rule with it in its body derives nothing.
const UNDERIVED: u8 = 127;
/// Heads of neighbouring literals, and of some that are 64 apart.
const HEADS: [u8; 6] = [7, 71, 6, 70, 126, 0];

fn case(rules: Vec<RuleText>, faults: Vec<Verdict>, note: &str) -> Case {
    let description = Description {
        atoms: 64,
        rules,
        pairs: Vec::new(),
    };
    Case::with_faults(description.image(), faults, note)
}

/// 96 rules with different bodies, the first so many heads in turn. Every sixth is defeasible, so the last is the 16th.
fn table(heads: usize) -> Vec<RuleText> {
    let rule = |n: usize| {
        let (head, body) = (HEADS[n % heads], [n as u8, UNDERIVED]);
        match n % 6 {
            5 => defeasible(head, &body),
            _ => strict(head, &body),
        }
    };
    (0..RULES).map(rule).collect()
}

/// Every rule of a table at every later place.
pub fn at_every_place() -> Vec<Case> {
    let mut cases = Vec::new();
    for heads in [1, 6] {
        cases.push(case(table(heads), Vec::new(), "no repeat"));
        for place in 1..RULES {
            for earlier in 0..place {
                let mut rules = table(heads);
                rules[place] = rules[earlier].clone();
                let mut faults = vec![(10, place as u32)];
                if rules.iter().filter(|rule| rule.defeasible).count() > 16 {
                    faults.push((9, RULES as u32 - 1));
                }
                cases.push(case(rules, faults, "repeat"));
            }
        }
    }
    cases
}

/// Each rule of a table once more with another kind, another head or another body, next to it and last: no repeat.
pub fn nearly() -> Vec<Case> {
    let mut cases = Vec::new();
    for heads in [1, 6] {
        let table = table(heads);
        for earlier in 0..RULES - 1 {
            for changed in nearly_same(&table[earlier]) {
                for place in [earlier + 1, RULES - 1] {
                    let mut rules = table.clone();
                    rules[place] = changed.clone();
                    if rules.iter().filter(|rule| rule.defeasible).count() > 16 {
                        let spared = |n: &usize| *n == place || *n == earlier;
                        let mut others = (0..RULES).filter(|n| !spared(n) && rules[*n].defeasible);
                        let other = others.next().expect("15 others");
                        rules[other].defeasible = false;
                    }
                    cases.push(case(rules, Vec::new(), "nearly a repeat"));
                }
            }
        }
    }
    cases
}

/// The same rule but for its kind, its head or its body. All of these are in no table.
fn nearly_same(rule: &RuleText) -> Vec<RuleText> {
    let mut found = vec![RuleText {
        defeasible: !rule.defeasible,
        ..rule.clone()
    }];
    let others = HEADS.iter().filter(|&&head| head != rule.head);
    found.extend(others.map(|&head| RuleText {
        head,
        ..rule.clone()
    }));
    let first = rule.body[0];
    let bodies: [&[u8]; 6] = [
        &[],
        &[first],
        &[UNDERIVED],
        &[first, UNDERIVED - 1],
        &[first, 100, UNDERIVED],
        &[first, UNDERIVED - 1, UNDERIVED],
    ];
    let bodies = bodies.iter().skip(usize::from(rule.defeasible));
    found.extend(bodies.map(|body| RuleText {
        body: body.to_vec(),
        ..rule.clone()
    }));
    found
}

/// All rows of up to five rules out of four that have one head, or one body, or one kind: the first that stands there already
/// is the repeat.
pub fn rows() -> Vec<Case> {
    let four = [
        strict(7, &[]),
        strict(7, &[UNDERIVED]),
        defeasible(7, &[UNDERIVED]),
        strict(71, &[UNDERIVED]),
    ];
    let mut cases = Vec::new();
    for length in 1..=5 {
        for number in 0..4usize.pow(length) {
            let chosen: Vec<usize> = (0..length).map(|n| number / 4usize.pow(n) % 4).collect();
            let repeats = (0..chosen.len()).filter(|&n| chosen[..n].contains(&chosen[n]));
            let faults = repeats.map(|place| (10, place as u32)).collect();
            let rules = chosen.iter().map(|&n| four[n].clone()).collect();
            cases.push(case(rules, faults, "row"));
        }
    }
    cases
}

/// As many facts as can be, and each of them once more; by themselves and with rules of the same heads between.
pub fn facts() -> Vec<Case> {
    let facts: Vec<RuleText> = (0..64)
        .map(|atom| strict(2 * atom + atom % 2, &[]))
        .collect();
    let mut between = facts.clone();
    between.extend((0..31).map(|n| strict(facts[2 * n].head, &[facts[n].head])));
    let mut cases = Vec::new();
    for rules in [facts.clone(), between] {
        cases.push(case(rules.clone(), Vec::new(), "facts"));
        for fact in &facts {
            let place = rules.len() as u32;
            let mut rules = rules.clone();
            rules.push(fact.clone());
            cases.push(case(rules, vec![(10, place)], "a fact twice"));
        }
    }
    cases
}

/// A 17th defeasible rule that repeats each of the first 16; and each of these once more as a strict rule, which may stay.
pub fn seventeenth() -> Vec<Case> {
    let sixteen: Vec<RuleText> = (0..16).map(|n| defeasible(7, &[8 * n])).collect();
    let mut cases = Vec::new();
    for rule in &sixteen {
        let mut rules = sixteen.clone();
        rules.push(strict(rule.head, &rule.body));
        cases.push(case(rules.clone(), Vec::new(), "of another kind"));
        rules.push(rule.clone());
        cases.push(case(rules.clone(), vec![(9, 17), (10, 17)], "17th"));
        rules.swap(16, 17);
        cases.push(case(rules.clone(), vec![(9, 16), (10, 16)], "17th"));
        rules[16] = strict(rule.head, &rule.body);
        let faults = vec![(10, 17)];
        cases.push(case(rules, faults, "a strict one twice"));
    }
    cases
}
