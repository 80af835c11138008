//! The damaged images: what is known of them from construction against the reference, and
//! whether the planted faults are really there.

use std::collections::{BTreeMap, BTreeSet, HashSet};

use foqtirel_tests::generator::limits::LIMITS;
use foqtirel_tests::generator::meetings;
use foqtirel_tests::generator::scenario::can_share_a_place;
use foqtirel_tests::generator::{
    accepted, all_scenarios, changed, damaged, first_fault, Arrangement, Case, Scenario, Verdict,
    MADE_BY_RULE,
};
use foqtirel_tests::reference::check;

const SEED: u64 = 20_250_101;
const COUNT: usize = 24_000;

fn verdict(image: &[u8]) -> Verdict {
    match check(image) {
        Ok(()) => (0, 0),
        Err(refusal) => (refusal.cause.number(), refusal.place as u32),
    }
}

#[track_caller]
fn assert_expected(case: &Case) {
    if let Some(expected) = case.expected {
        assert_eq!(verdict(&case.image), expected, "{case:02X?}");
    }
}

#[test]
fn construction_and_reference_agree() {
    let mut known = 0;
    let mut by_cause: BTreeMap<u32, usize> = BTreeMap::new();
    for case in damaged(SEED, COUNT) {
        assert_expected(&case);
        if let Some((cause, _)) = case.expected {
            known += 1;
            *by_cause.entry(cause).or_default() += 1;
        }
    }
    assert!(known >= 20_000, "only {known} outcomes are known");
    for cause in 0..=14 {
        let seen = by_cause.get(&cause).copied().unwrap_or(0);
        assert!(seen >= 100, "cause {cause} was seen {seen} times");
    }
}

#[test]
fn sound_images_are_accepted() {
    let mut contradictory = 0;
    for case in accepted(SEED, 5_000) {
        assert_expected(&case);
        contradictory += usize::from(case.expected == Some((14, 0)));
    }
    assert!((50..500).contains(&contradictory), "{contradictory}");
}

#[test]
fn every_scenario_and_every_limit_occurs() {
    let mut scenarios: BTreeMap<Scenario, usize> = BTreeMap::new();
    let mut notes: BTreeMap<String, usize> = BTreeMap::new();
    for case in damaged(SEED, COUNT) {
        if let Some(scenario) = case.scenario {
            *scenarios.entry(scenario).or_default() += 1;
        }
        *notes.entry(case.note).or_default() += 1;
    }
    for scenario in all_scenarios() {
        let seen = scenarios.get(&scenario).copied().unwrap_or(0);
        assert!(seen >= 50, "{scenario:?} was seen {seen} times");
    }
    for (name, _) in LIMITS {
        let seen = notes.get(&format!("limit: {name}")).copied().unwrap_or(0);
        assert!(seen >= 20, "{name} was seen {seen} times");
    }
}

/// All causes alone, and all two that can stand together, in so many arrangements as can be.
#[test]
fn the_scenarios_are_complete() {
    let all = all_scenarios();
    for first in 1..=14 {
        let alone = Scenario {
            first,
            second: None,
            arrangement: Arrangement::Alone,
        };
        assert!(all.contains(&alone), "{first}");
        for second in first + 1..=14 {
            let found: Vec<Arrangement> = all
                .iter()
                .filter(|s| s.first == first && s.second == Some(second))
                .map(|s| s.arrangement)
                .collect();
            let placed_alike = (4..=10).contains(&first) && (4..=10).contains(&second)
                || (first, second) == (12, 13);
            let expected: &[Arrangement] = if placed_alike {
                &[Arrangement::FirstEarlier, Arrangement::SecondEarlier]
            } else {
                &[Arrangement::Apart]
            };
            for arrangement in expected {
                assert!(found.contains(arrangement), "{first} {second}");
            }
        }
    }
    let together: Vec<(u32, u32)> = all
        .iter()
        .filter(|s| s.arrangement == Arrangement::Together)
        .filter_map(|s| Some((s.first, s.second?)))
        .collect();
    assert_eq!(
        together,
        [
            (4, 5),
            (4, 6),
            (4, 7),
            (4, 8),
            (4, 9),
            (5, 6),
            (5, 7),
            (6, 7),
            (6, 8),
            (6, 9),
            (7, 9),
            (8, 9),
            (9, 10),
            (12, 13)
        ]
    );
}

#[test]
fn the_first_fault_follows_the_document() {
    assert_eq!(first_fault(&[]), (0, 0));
    assert_eq!(first_fault(&[(9, 3), (7, 3)]), (7, 3));
    assert_eq!(first_fault(&[(4, 5), (6, 2)]), (6, 2));
    assert_eq!(first_fault(&[(4, 7), (10, 1)]), (10, 1));
    assert_eq!(first_fault(&[(12, 0), (11, 0)]), (11, 0));
    assert_eq!(first_fault(&[(13, 4), (12, 4)]), (12, 4));
    assert_eq!(first_fault(&[(12, 4), (13, 2)]), (13, 2));
    assert_eq!(first_fault(&[(14, 0), (13, 200)]), (13, 200));
    assert_eq!(first_fault(&[(10, 95), (11, 0)]), (10, 95));
    assert_eq!(first_fault(&[(4, 0), (3, 0), (2, 0), (1, 0)]), (1, 0));
}

#[test]
fn the_same_seed_gives_the_same_images() {
    let images = |seed: u64| -> Vec<Vec<u8>> { damaged(seed, 500).map(|c| c.image).collect() };
    assert_eq!(images(7), images(7));
    assert_ne!(images(7), images(8));
}

/// All faults of the rules and pairs, not only the first.
fn census(image: &[u8]) -> Vec<Verdict> {
    let number = |at: usize| usize::from(u16::from_le_bytes([image[at], image[at + 1]]));
    let (atoms, rules, pairs) = (number(0), number(2), number(4));
    let part = |entry: usize| {
        let offset = number(8 + 4 * entry);
        &image[offset..offset + number(10 + 4 * entry)]
    };
    let says_defeasible = |entry: usize| part(entry).first() == Some(&1);
    let mut faults = Vec::new();
    for rule in 0..rules {
        let bytes = part(rule);
        let literals = bytes.get(1..).unwrap_or_default();
        let body = bytes.get(2..).unwrap_or_default();
        let defeasible_before = (0..rule).filter(|&other| says_defeasible(other)).count();
        let present = [
            (4, !(2..=10).contains(&bytes.len())),
            (5, bytes.first().is_some_and(|&kind| kind > 1)),
            (6, literals.iter().any(|&l| usize::from(l) >= 2 * atoms)),
            (7, body.windows(2).any(|two| two[0] >= two[1])),
            (8, says_defeasible(rule) && body.is_empty()),
            (9, says_defeasible(rule) && defeasible_before == 16),
            (10, (0..rule).any(|other| part(other) == bytes)),
        ];
        for (cause, here) in present {
            if here {
                faults.push((cause, rule as u32));
            }
        }
    }
    let last = part(rules);
    if last.len() != 2 * pairs {
        faults.push((11, 0));
    }
    let mut previous: Option<(u8, u8)> = None;
    for (place, bytes) in last.chunks_exact(2).enumerate() {
        let pair = (bytes[0], bytes[1]);
        let sound = |name: u8| usize::from(name) < rules && says_defeasible(usize::from(name));
        if pair.0 == pair.1 || !sound(pair.0) || !sound(pair.1) {
            faults.push((12, place as u32));
        }
        if previous.is_some_and(|previous| previous >= pair) {
            faults.push((13, place as u32));
        }
        previous = Some(pair);
    }
    faults
}

/// Losing faults must be there too, or an image would not show which of two wins.
#[test]
fn every_planted_fault_is_there() {
    let mut looked_at = 0;
    for case in damaged(SEED, COUNT).chain(accepted(SEED, 1000)) {
        let unreadable = case.planted.iter().any(|&(cause, _)| cause <= 3);
        if unreadable || case.expected.is_none() {
            continue;
        }
        let there = census(&case.image);
        let pairs_lost = case.planted.contains(&(11, 0));
        for fault in &case.planted {
            let hidden = fault.0 == 14 || pairs_lost && (12..=13).contains(&fault.0);
            assert!(hidden || there.contains(fault), "{fault:?} in {case:02X?}");
        }
        if case.planted.iter().all(|&(cause, _)| cause == 14) {
            assert_eq!(there, [], "{case:02X?}");
        }
        looked_at += 1;
    }
    assert!(looked_at > 10_000, "only {looked_at}");
}

/// A single fault in a rule or pair stands alone: nothing else is wrong before it.
#[test]
fn nothing_comes_before_the_first_planted_fault() {
    for case in damaged(SEED + 1, COUNT) {
        let unreadable = case.planted.iter().any(|&(cause, _)| cause <= 3);
        if unreadable || case.expected.is_none() {
            continue;
        }
        let there = census(&case.image);
        let expected = first_fault(&case.planted);
        if expected.0 != 14 {
            assert_eq!(first_fault(&there), expected, "{case:02X?}");
        }
    }
}

fn made_by_rule() -> impl Iterator<Item = Case> {
    MADE_BY_RULE.iter().flat_map(|(_, make)| make())
}

#[test]
fn images_made_by_rule_and_reference_agree() {
    let mut by_cause: BTreeMap<u32, usize> = BTreeMap::new();
    let mut different: HashSet<Vec<u8>> = HashSet::new();
    for case in made_by_rule() {
        assert_expected(&case);
        *by_cause.entry(case.expected.expect("known").0).or_default() += 1;
        different.insert(case.image);
    }
    println!("{} images made by rule: {by_cause:?}", different.len());
    assert!(different.len() >= 150_000, "only {}", different.len());
    for cause in 0..=14 {
        let seen = by_cause.get(&cause).copied().unwrap_or(0);
        assert!(seen >= 20, "cause {cause} was seen {seen} times");
    }
}

/// What is said of an image made by rule is there, and nothing comes before it. Where every fault is said, there are no others.
#[test]
fn images_made_by_rule_have_their_faults() {
    let rule_or_pair = |fault: &Verdict| (4..=13).contains(&fault.0);
    let mut looked_at = 0;
    for case in made_by_rule() {
        if case.planted.iter().any(|&(cause, _)| cause <= 3) {
            continue;
        }
        let there = census(&case.image);
        let expected = first_fault(&case.planted);
        if rule_or_pair(&expected) {
            assert_eq!(first_fault(&there), expected, "{case:02X?}");
        } else {
            assert_eq!(there, [], "{case:02X?}");
        }
        looked_at += 1;
    }
    assert!(looked_at > 30_000, "only {looked_at}");
    for case in meetings::in_rules().into_iter().chain(meetings::in_pairs()) {
        let mut planted = case.planted.clone();
        let mut there = census(&case.image);
        if planted.contains(&(11, 0)) {
            planted.retain(|&(cause, _)| cause <= 11);
            there.retain(|&(cause, _)| cause <= 11);
        }
        let planted: BTreeSet<Verdict> = planted.into_iter().filter(rule_or_pair).collect();
        let there: BTreeSet<Verdict> = there.into_iter().collect();
        assert_eq!(there, planted, "{case:02X?}");
    }
}

/// Every two causes are together in some image: in one rule or pair where that can be, in neighbouring ones in both orders, and
/// in the image as a whole.
#[test]
fn every_two_causes_meet() {
    let mut anywhere: BTreeSet<(u32, u32)> = BTreeSet::new();
    let mut in_one: BTreeSet<(u32, u32)> = BTreeSet::new();
    let mut in_neighbours: BTreeSet<(u32, u32)> = BTreeSet::new();
    for case in made_by_rule() {
        for one in &case.planted {
            for two in &case.planted {
                let causes = (one.0, two.0);
                let placed = |cause: u32| (4..=10).contains(&cause) || (12..=13).contains(&cause);
                let alike = placed(one.0) && placed(two.0) && (one.0 <= 10) == (two.0 <= 10);
                if one.0 < two.0 {
                    anywhere.insert(causes);
                    if alike && one.1 == two.1 {
                        in_one.insert(causes);
                    }
                }
                if alike && one.1 + 1 == two.1 {
                    in_neighbours.insert(causes);
                }
            }
        }
    }
    let every_two: BTreeSet<(u32, u32)> = (1..=14)
        .flat_map(|one| (one + 1..=14).map(move |two| (one, two)))
        .collect();
    assert_eq!(anywhere, every_two);
    for (one, two) in every_two {
        let can_be = can_share_a_place(one, two);
        // A faulty rule can repeat a faulty one, which is then refused first.
        let twin = (4..=8).contains(&one) && two == 10;
        assert_eq!(in_one.contains(&(one, two)), can_be || twin, "{one} {two}");
    }
    let rules = 4..=10;
    let mut wanted: BTreeSet<(u32, u32)> = rules
        .clone()
        .flat_map(|one| rules.clone().map(move |two| (one, two)))
        .collect();
    // Only one rule is the 17th that is defeasible.
    wanted.remove(&(9, 9));
    wanted.extend([(12, 12), (12, 13), (13, 12), (13, 13)]);
    assert_eq!(in_neighbours, wanted);
}

/// Another look at the changed images: where the directory is sound, the first of all faults that are there.
#[test]
fn changed_images_have_the_fault_that_the_reference_says() {
    let mut by_cause: BTreeMap<u32, usize> = BTreeMap::new();
    let mut different: HashSet<Vec<u8>> = HashSet::new();
    for case in changed() {
        let given = verdict(&case.image);
        *by_cause.entry(given.0).or_default() += 1;
        if given.0 == 0 || given.0 == 14 {
            assert_eq!(census(&case.image), [], "{case:02X?}");
        } else if given.0 > 3 {
            assert_eq!(first_fault(&census(&case.image)), given, "{case:02X?}");
        }
        different.insert(case.image);
    }
    println!("{} changed images: {by_cause:?}", different.len());
    assert!(different.len() >= 100_000, "only {}", different.len());
    // No change is one of the length.
    for cause in (0..=14).filter(|&cause| cause != 1) {
        let seen = by_cause.get(&cause).copied().unwrap_or(0);
        assert!(seen > 0, "no change leads to cause {cause}");
    }
}
