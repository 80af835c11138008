//! The programs with chains of listed pairs are worth asking about: chains decide answers, and every
//! misreading of them gives others.

use std::collections::BTreeMap;

use foqtirel_tests::generator::{chained, chained_sixteen};
use foqtirel_tests::reference::attack::Preference;
use foqtirel_tests::reference::program::Mask;
use foqtirel_tests::reference::{Analysis, Answer, NodeEntry};

const SEED: u64 = 11;
/// So many programs of each way of listing pairs, of which there are eleven.
const EACH: usize = 60;
/// The same with sixteen rules, in four ways.
const EACH_OF_SIXTEEN: usize = 3;
const BUDGET: u32 = 1000;
const MOST_RULES: usize = 16;

/// What each defeasible rule is taken to beat, by its bit.
type Misreading = fn(&Analysis) -> Vec<Mask>;

const MISREADINGS: [(&str, Misreading); 6] = [
    ("pairs count one by one", |analysis| {
        in_chains_of(1, &listed(analysis))
    }),
    ("chains have two pairs at most", |analysis| {
        in_chains_of(2, &listed(analysis))
    }),
    ("no rule beats itself", |analysis| {
        let beaten = analysis.preference.beaten.iter().enumerate();
        beaten.map(|(bit, mask)| mask & !(1 << bit)).collect()
    }),
    ("only rules of arguments link", |analysis| {
        let of_arguments = analysis.arguments.iter().fold(0, |all, a| all | a.mask);
        let mut linking = listed(analysis);
        linking.retain(|(first, second)| of_arguments >> first & of_arguments >> second & 1 == 1);
        in_chains_of(MOST_RULES, &linking)
    }),
    ("chains are found in one pass forwards", |analysis| {
        in_one_pass(listed(analysis).into_iter())
    }),
    ("chains are found in one pass backwards", |analysis| {
        in_one_pass(listed(analysis).into_iter().rev())
    }),
];

/// The listed pairs, with bits in place of rule numbers.
fn listed(analysis: &Analysis) -> Vec<(usize, usize)> {
    let numbers = analysis.program.defeasible_numbers();
    let bit = |rule: usize| numbers.iter().position(|&number| number == rule);
    let pairs = analysis.program.pairs.iter();
    pairs
        .map(|&(first, second)| (bit(first).unwrap(), bit(second).unwrap()))
        .collect()
}

fn in_chains_of(most: usize, listed: &[(usize, usize)]) -> Vec<Mask> {
    let mut beaten = vec![0; MOST_RULES];
    for _ in 0..most {
        let shorter = beaten.clone();
        for &(first, second) in listed {
            beaten[first] |= 1 << second | shorter[second];
        }
    }
    beaten
}

fn in_one_pass(listed: impl Iterator<Item = (usize, usize)>) -> Vec<Mask> {
    let mut beaten = vec![0; MOST_RULES];
    for (first, second) in listed {
        beaten[first] |= 1 << second | beaten[second];
    }
    beaten
}

/// The answer to each literal.
fn answers(analysis: &Analysis) -> Vec<Answer> {
    let mut arguments = vec![0; analysis.arguments.len()];
    let mut nodes = vec![NodeEntry::default(); BUDGET as usize];
    (0..2 * analysis.program.atoms as u32)
        .map(|literal| analysis.query(literal, BUDGET, &mut arguments, &mut nodes))
        .map(|answer| answer.expect("an answer"))
        .collect()
}

#[test]
fn every_misreading_of_chains_shows() {
    let quick = chained(SEED, 11 * EACH);
    let slow = chained_sixteen(SEED, 4 * EACH_OF_SIXTEEN);
    let mut programs: BTreeMap<String, usize> = BTreeMap::new();
    let mut shown: BTreeMap<(&str, String), usize> = BTreeMap::new();
    for case in quick.chain(slow) {
        let mut analysis = Analysis::of_image(&case.image).expect("a sound image");
        *programs.entry(case.note.clone()).or_default() += 1;
        let right = answers(&analysis);
        for (name, beaten) in MISREADINGS.map(|(name, misread)| (name, misread(&analysis))) {
            analysis = analysis.with(Preference { beaten });
            let shows = usize::from(answers(&analysis) != right);
            *shown.entry((name, case.note.clone())).or_default() += shows;
        }
    }
    assert_eq!(programs.len(), 15, "ways of listing pairs");
    let (one_by_one, _) = MISREADINGS[0];
    for (way, count) in &programs {
        let decided = shown[&(one_by_one, way.clone())];
        assert!(10 * decided >= *count, "{way}: chains decide {decided}");
    }
    for (name, _) in MISREADINGS {
        let by_way = programs.keys().map(|way| shown[&(name, way.clone())]);
        let programs: usize = by_way.sum();
        println!("{name}: shows in {programs} programs");
        assert!(programs >= 10, "{name}: shows in {programs} programs");
    }
}
