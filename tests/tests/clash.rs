//! One small clash of a contradictory strict part, as request C-20 has it: of the reference, and with the feature `library` of
//! the proved calls.

use std::collections::{BTreeMap, BTreeSet};

use foqtirel_tests::generator::clash::{clashing, slow_clash, SHAPES};
use foqtirel_tests::generator::late::late;
use foqtirel_tests::generator::lengths::greatest;
use foqtirel_tests::generator::{all_scenarios, damage, Description, Random};
use foqtirel_tests::reference;
use foqtirel_tests::sides::{parts, refused, sides, sound, IMAGE_ACCEPTED, MARK_TABLE};
use foqtirel_tests::vectors::clashes;

const SEED: u64 = 20;
/// More bytes than there are rules at most.
const AMPLE: usize = 255;
const CONTRADICTION: u64 = 14 << 32;

fn image(program: &str) -> Vec<u8> {
    Description::parse(program).expect("a program").image()
}

/// Whether the rules with these numbers derive a literal and its complement.
fn contradict(program: &Description, numbers: &BTreeSet<usize>) -> bool {
    let mut derived = BTreeSet::new();
    let mut waiting = numbers.clone();
    loop {
        let applies = |number: &usize| {
            let body = &program.rules[*number].body;
            body.iter().all(|literal| derived.contains(literal))
        };
        let next: Vec<usize> = waiting.iter().copied().filter(applies).collect();
        if next.is_empty() {
            return derived
                .iter()
                .any(|literal| derived.contains(&(literal ^ 1)));
        }
        for number in next {
            waiting.remove(&number);
            derived.insert(program.rules[number].head);
        }
    }
}

fn strict_numbers(program: &Description) -> BTreeSet<usize> {
    let all = 0..program.rules.len();
    all.filter(|&number| !program.rules[number].defeasible)
        .collect()
}

fn without(numbers: &BTreeSet<usize>, number: usize) -> BTreeSet<usize> {
    let others = numbers.iter().copied();
    others.filter(|&other| other != number).collect()
}

/// Of all strict rules, each is struck out from the last to the first that the rest can do without.
fn struck_out(program: &Description) -> BTreeSet<usize> {
    let strict = strict_numbers(program);
    let mut left = strict.clone();
    for &number in strict.iter().rev() {
        let rest = without(&left, number);
        if contradict(program, &rest) {
            left = rest;
        }
    }
    left
}

/// The set of strict rules that contradicts itself and has the least number, the sum of 2^i for each rule i of it. Leaving out
/// from the highest number down comes to this one.
fn least(program: &Description) -> BTreeSet<usize> {
    let strict: Vec<usize> = strict_numbers(program).into_iter().collect();
    let chosen = |set: usize| -> BTreeSet<usize> {
        let places = (0..strict.len()).filter(|place| set >> place & 1 == 1);
        places.map(|place| strict[place]).collect()
    };
    let mut sets = (0..1 << strict.len()).map(chosen);
    let least = sets.find(|numbers| contradict(program, numbers));
    least.expect("a strict part that contradicts itself")
}

fn marks(program: &Description, clash: &BTreeSet<usize>) -> Vec<u8> {
    let all = 0..program.rules.len();
    all.map(|number| clash.contains(&number).into()).collect()
}

/// Programs of every shape with their clashes.
fn cases(seed: u64, count: usize) -> Vec<(Description, BTreeSet<usize>)> {
    let programs = clashing(seed, count).map(|(_, program)| program);
    let with_clash = |program: Description| {
        let clash = struck_out(&program);
        (program, clash)
    };
    programs.map(with_clash).collect()
}

#[test]
fn vectors_are_marked_as_written() {
    let vectors = clashes();
    let mut outcomes: BTreeMap<u32, usize> = BTreeMap::new();
    for vector in &vectors {
        let number = vector
            .outcome
            .as_ref()
            .err()
            .map_or(0, |&(number, _)| number);
        *outcomes.entry(number).or_default() += 1;
        let wanted = vector.outcome.as_deref();
        let wanted = wanted.map_err(|&(number, place)| u64::from(number) << 32 | u64::from(place));
        for side in sides() {
            side.assert_marks(&vector.image, vector.room, wanted);
        }
    }
    assert_eq!(outcomes, BTreeMap::from([(0, 28), (28, 17), (29, 5)]));
}

/// Programs, with the marks that the request's words give them.
const BY_HAND: [(&str, &[u8]); 20] = [
    ("0; 2<0; 3<0; d 1<2; 4", &[1, 1, 1, 0, 0]),
    ("0; 2<0; 3<0; 1<2; 4", &[1, 1, 1, 0, 0]),
    ("0; 2<0; 4; 3<0; 1<2", &[1, 1, 0, 1, 0]),
    ("0; 1", &[1, 1]),
    ("1; 4; 0", &[1, 0, 1]),
    ("126; 127", &[1, 1]),
    // Of two clashes of facts the one that leaves out the highest number; so of two that overlap.
    ("0; 2; 1; 3", &[1, 0, 1, 0]),
    ("0; 2; 3; 1", &[0, 1, 1, 0]),
    ("2; 3<2; 3", &[1, 1, 0]),
    ("2; 3; 3<2", &[1, 1, 0]),
    // The clash with more rules, as the last rule is left out first.
    ("0; 2<0; 4<2; 6<4; 7<6; 1", &[1, 1, 1, 1, 1, 0]),
    ("1; 0; 2<0; 4<2; 6<4; 7<6", &[1, 1, 0, 0, 0, 0]),
    // A rule whose head another derives as well, on one side and on both.
    ("0; 2<0; 2; 3", &[1, 1, 0, 1]),
    ("2; 0; 2<0; 3<0; 3", &[1, 1, 0, 1, 0]),
    // A rule against its own body, and two that support each other.
    ("0; 1<0", &[1, 1]),
    ("1<0; 0", &[1, 1]),
    ("2<0; 0<2; 3<2; 2; 4; 5", &[0, 0, 1, 1, 0, 0]),
    // Defeasible rules neither clash nor help, wherever they stand.
    ("d 1<0; 0; d 2<0; 2; d 3<0; 3", &[0, 0, 0, 1, 0, 1]),
    ("d 3<0; 2; 0; 3<0; d 1<2", &[0, 1, 1, 1, 0]),
    // A body of eight, all of it needed.
    (
        "0; 2; 4; 6; 8; 10; 12; 14; 16; 18<0,2,4,6,8,10,12,14; 19",
        &[1, 1, 1, 1, 1, 1, 1, 1, 0, 1, 1],
    ),
];

#[test]
fn examples_by_hand() {
    for (program, marks) in BY_HAND {
        let image = image(program);
        assert_eq!(
            reference::check(&image).map_err(|r| r.packed()),
            Err(CONTRADICTION)
        );
        for side in sides() {
            for room in [marks.len(), marks.len() + 1, 96, AMPLE] {
                side.assert_marks(&image, room, Ok(marks));
            }
        }
    }
}

/// What is marked is what the words of the request come to, on programs of every shape and size.
#[test]
fn programs_of_every_shape_are_marked() {
    let (mut most_rules, mut most_marked, mut last_marked) = (0, 0, 0);
    for (program, clash) in cases(SEED, 9_000) {
        let image = program.image();
        let marks = marks(&program, &clash);
        for side in sides() {
            assert_eq!((side.check)(&image), CONTRADICTION, "{program:?}");
            side.assert_marks(&image, marks.len(), Ok(&marks));
        }
        most_rules = most_rules.max(marks.len());
        most_marked = most_marked.max(clash.len());
        last_marked += usize::from(marks.last() == Some(&1));
    }
    assert_eq!(most_rules, 96);
    assert!(most_marked > 60, "{most_marked}");
    assert!(last_marked > 500, "{last_marked}");
}

/// Of few rules, every set of them is tried.
#[test]
fn the_least_set_of_few_rules_is_marked() {
    let mut tried: BTreeMap<&str, usize> = BTreeMap::new();
    for (shape, program) in clashing(!SEED, 6_000) {
        if strict_numbers(&program).len() > 13 {
            continue;
        }
        let least = least(&program);
        assert_eq!(least, struck_out(&program), "{program:?}");
        for side in sides() {
            let marks = marks(&program, &least);
            side.assert_marks(&program.image(), marks.len(), Ok(&marks));
        }
        *tried.entry(shape).or_default() += 1;
    }
    assert_eq!(tried.len(), SHAPES.len(), "{tried:?}");
    assert!(tried.values().all(|&count| count > 20), "{tried:?}");
}

/// The marked rules are strict and contradict each other, and without any single one of them they don't: by each side's own
/// check, on images with these rules alone.
#[test]
fn what_is_marked_is_a_clash_and_minimal() {
    let mut needed = 0;
    for (_, program) in clashing(SEED ^ 5, 4_000) {
        let image = program.image();
        for side in sides() {
            let mut marks = vec![9; program.rules.len()];
            let count = (side.clash)(&image, &mut marks);
            assert_eq!(count, marks.len() as u64, "{}: {image:02X?}", side.name);
            assert!(marks.iter().all(|&mark| mark <= 1), "{marks:?}");
            let numbers = (0..marks.len()).filter(|&number| marks[number] == 1);
            let numbers: BTreeSet<usize> = numbers.collect();
            assert!(numbers.is_subset(&strict_numbers(&program)), "{marks:?}");
            let check = |numbers: &BTreeSet<usize>| {
                let rules = numbers.iter().map(|&n| program.rules[n].clone()).collect();
                let (atoms, pairs) = (program.atoms, Vec::new());
                (side.check)(
                    &Description {
                        atoms,
                        rules,
                        pairs,
                    }
                    .image(),
                )
            };
            assert_eq!(check(&numbers), CONTRADICTION, "{}: {marks:?}", side.name);
            for &number in &numbers {
                let rest = check(&without(&numbers, number));
                assert_eq!(rest, 0, "{}: without {number}: {marks:?}", side.name);
                needed += 1;
            }
        }
    }
    assert!(needed > 20_000, "{needed}");
}

/// The same rules in another order have the clash that this order makes the least, and so its rules may be others.
#[test]
fn the_order_of_the_rules_decides() {
    let mut others = 0;
    for (program, clash) in cases(SEED ^ 6, 1_000) {
        let mut turned = program.clone();
        turned.pairs.clear();
        turned.rules.reverse();
        let last = program.rules.len() - 1;
        let its = struck_out(&turned);
        let marks = marks(&turned, &its);
        for side in sides() {
            side.assert_marks(&turned.image(), marks.len(), Ok(&marks));
        }
        others += usize::from(
            !its.iter()
                .map(|number| last - number)
                .eq(clash.into_iter().rev()),
        );
    }
    assert!(others > 400, "{others}");
}

#[test]
fn a_table_that_is_short_or_long() {
    for (program, clash) in cases(SEED ^ 7, 900) {
        let (image, rules) = (program.image(), program.rules.len());
        let marks = marks(&program, &clash);
        for side in sides() {
            for room in [0, 1, rules / 2, rules - 1] {
                side.assert_marks(&image, room, Err(MARK_TABLE));
            }
            for room in [rules, rules + 1, rules + 2, 96.max(rules), AMPLE, 70_000] {
                side.assert_marks(&image, room, Ok(&marks));
            }
        }
    }
}

/// The largest clash, in the order that takes the most rounds: its rules are the first 65 of 96.
#[test]
fn a_clash_of_65_rules() {
    let program = slow_clash();
    let marks = [[1; 65].to_vec(), [0; 31].to_vec()].concat();
    let turned = Description {
        rules: program.rules.iter().rev().cloned().collect(),
        ..program.clone()
    };
    for side in sides() {
        side.assert_marks(&program.image(), 96, Ok(&marks));
        let marks: Vec<u8> = marks.iter().rev().copied().collect();
        side.assert_marks(&turned.image(), AMPLE, Ok(&marks));
    }
}

/// Each room below and above the number of rules of the longest contradictory image.
#[test]
fn every_room_for_the_longest_image() {
    let mut program = greatest();
    program.rules[3].body.clear();
    program.rules[91].body.clear();
    program.rules[91].head = program.rules[3].head ^ 1;
    program.pairs.clear();
    let clash = BTreeSet::from([3, 91]);
    assert!(strict_numbers(&program).is_superset(&clash));
    let marks = marks(&program, &clash);
    for side in sides() {
        for room in 0..200 {
            let wanted = if room < 96 {
                Err(MARK_TABLE)
            } else {
                Ok(&marks[..])
            };
            side.assert_marks(&program.image(), room, wanted);
        }
    }
}

/// What a check accepts has no clash, whatever room there is.
#[test]
fn accepted_images_are_refused() {
    let accepted = sound(SEED, 2_000);
    assert!(accepted.len() > 2_500, "{}", accepted.len());
    assert!(accepted.iter().any(|image| parts(image).is_empty()));
    for image in accepted {
        let rules = parts(&image).len();
        for side in sides() {
            for room in [0, rules.saturating_sub(1), rules, rules + 1, AMPLE] {
                side.assert_marks(&image, room, Err(IMAGE_ACCEPTED));
            }
        }
    }
}

/// Causes 1 to 13 with their places come first, whatever room there is, and where a check finds 14 there is a clash.
#[test]
fn causes_of_the_image_come_first() {
    for (image, refusal) in refused(SEED, 4_000) {
        for side in sides() {
            if refusal == CONTRADICTION {
                let program = Description::of_image(&image);
                let marks = marks(&program, &struck_out(&program));
                side.assert_marks(&image, marks.len(), Ok(&marks));
                side.assert_marks(&image, marks.len() - 1, Err(MARK_TABLE));
                continue;
            }
            for room in [0, 1, 95, 96, AMPLE] {
                side.assert_marks(&image, room, Err(refusal));
            }
        }
    }
}

/// Each cause from 1 to 13 alone, and together with a contradiction: its own number and place are given, and never 28 or 29.
#[test]
fn each_cause_alone_and_beside_a_contradiction() {
    let mut random = Random::seeded(SEED);
    let mut seen: BTreeMap<(u32, bool), usize> = BTreeMap::new();
    for _ in 0..20 {
        for scenario in all_scenarios() {
            let beside = match scenario.second {
                None => false,
                Some(14) => true,
                Some(_) => continue,
            };
            if scenario.first == 14 {
                continue;
            }
            let case = damage::staged(&mut random, scenario);
            let (number, place) = case.expected.expect("a known outcome");
            assert_eq!(number, scenario.first, "{}", case.note);
            let wanted = Err(u64::from(number) << 32 | u64::from(place));
            for side in sides() {
                for room in [0, 96, AMPLE] {
                    side.assert_marks(&case.image, room, wanted);
                }
            }
            *seen.entry((number, beside)).or_default() += 1;
        }
    }
    let every = (1..=13).flat_map(|number| [(number, false), (number, true)]);
    assert!(seen.keys().copied().eq(every), "{seen:?}");
}

/// 13, then 28 and 29: whichever come together, the first is given.
#[test]
fn causes_in_their_order() {
    for chosen in 0..8 {
        let has = |cause: usize| chosen >> cause & 1 == 1;
        let pairs = if has(0) {
            "(3,2); (2,3)"
        } else {
            "(2,3); (3,2)"
        };
        let fact = if has(1) { "4" } else { "1" };
        let image = image(&format!("0; {fact}; d 2<0; d 3<0; {pairs}"));
        let room = if has(2) { 3 } else { 4 };
        let wanted: Result<&[u8], u64> = match chosen {
            0 => Ok(&[1, 1, 0, 0]),
            _ if has(0) => Err(13 << 32 | 1),
            _ if has(1) => Err(IMAGE_ACCEPTED),
            _ => Err(MARK_TABLE),
        };
        for side in sides() {
            side.assert_marks(&image, room, wanted);
        }
    }
}

/// A refusal at the last rule or pair leaves the table, and a contradiction that only the last rules make is marked.
#[test]
fn refusals_that_come_late() {
    for case in late() {
        let (number, place) = case.expected.expect("a known outcome");
        let mut wanted = [0; 96];
        wanted[91] = 1;
        wanted[94] = 1;
        let wanted = match number {
            14 => Ok(&wanted[..]),
            _ => Err(u64::from(number) << 32 | u64::from(place)),
        };
        for side in sides() {
            side.assert_marks(&case.image, AMPLE, wanted);
        }
    }
}

/// Null with no bytes is a table without bytes, and an image of length zero.
#[cfg(feature = "library")]
#[test]
fn null_is_no_byte() {
    use foqtirel_binding::raw::foqtirel_clash;
    use foqtirel_tests::sides::lent;
    use std::ptr::{null, null_mut};

    let clash = |image: &[u8], marks, room| {
        // SAFETY: the table has as many bytes as the call is told.
        unsafe { foqtirel_clash(image.as_ptr(), image.len(), marks, room) }
    };
    assert_eq!(clash(&image("0; 1"), null_mut(), 0), MARK_TABLE);
    assert_eq!(clash(&image("0; 2"), null_mut(), 0), IMAGE_ACCEPTED);
    assert_eq!(clash(&image("atoms 3"), null_mut(), 0), IMAGE_ACCEPTED);
    let mut table = lent(8, false);
    // SAFETY: nothing is read from an image of no bytes.
    unsafe {
        assert_eq!(foqtirel_clash(null(), 0, null_mut(), 0), 1 << 32);
        assert_eq!(foqtirel_clash(null(), 0, table.as_mut_ptr(), 8), 1 << 32);
    }
    assert_eq!(table, lent(8, false));
}
