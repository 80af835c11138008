//! From the filed form back to the order of typing, as request C-16 has it: of the reference, and with the feature `library`
//! of the proved calls.

use std::collections::BTreeSet;

use foqtirel_tests::fittings::G_WITH_PAIR;
use foqtirel_tests::generator::filing::{alike, retyped, BY_KEY};
use foqtirel_tests::generator::lengths::greatest;
use foqtirel_tests::generator::unfiling::{exchanged, faulty, numbers};
use foqtirel_tests::generator::{Description, Random};
use foqtirel_tests::sides::{
    parts, refused, sides, sound, Side, MISFILED, NUMBER_TABLE, OUTPUT_TABLE, REFERENCE,
};
use foqtirel_tests::vectors::unfilings;

const SEED: u64 = 16;
/// More than the longest image has bytes.
const AMPLE: usize = 2000;

fn image(program: &str) -> Vec<u8> {
    Description::parse(program).expect("a program").image()
}

/// A filed program without rules, one with a single rule, and the longest.
fn edges() -> [Vec<u8>; 3] {
    let longest = REFERENCE.form(&greatest().image());
    assert_eq!((longest.len(), parts(&longest).len()), (1836, 96));
    [image("atoms 5"), image("4"), longest]
}

/// The filed forms of many programs.
fn forms(count: usize) -> BTreeSet<Vec<u8>> {
    let images = sound(SEED, count).into_iter().chain(edges());
    images.map(|image| REFERENCE.form(&image)).collect()
}

/// A filed image with each rule at its old number and the pairs renumbered and sorted: the definition on the bytes.
fn in_old_order(form: &[u8], numbers: &[u8]) -> Vec<u8> {
    let old = |rule: u8| numbers[usize::from(rule)];
    let filed = Description::of_image(form);
    let mut typed = filed.clone();
    for (rule, &number) in filed.rules.iter().zip(numbers) {
        typed.rules[usize::from(number)] = rule.clone();
    }
    typed.pairs = filed.pairs.iter().map(|&(a, b)| (old(a), old(b))).collect();
    typed.pairs.sort_unstable();
    typed.image()
}

#[test]
fn vectors_are_unfiled_as_written() {
    let vectors = unfilings();
    assert_eq!(vectors.len(), 20, "vectors of the request");
    let refusals = vectors
        .iter()
        .filter_map(|vector| vector.outcome.clone().err());
    let refusals: BTreeSet<u32> = refusals.map(|(number, _)| number).collect();
    assert!(refusals.is_superset(&BTreeSet::from([24, 26])));
    for vector in &vectors {
        let wanted = vector.outcome.as_deref();
        let wanted = wanted.map_err(|&(number, place)| u64::from(number) << 32 | u64::from(place));
        for side in sides() {
            side.assert_unfiles(&vector.image, &vector.numbers, vector.room, wanted);
        }
    }
}

/// Filing and the way back give each accepted image its exact bytes, whatever stands past the numbers.
#[test]
fn there_and_back() {
    let mut moved = 0;
    for image in sound(SEED, 1500).into_iter().chain(edges()) {
        for side in sides() {
            let (form, numbers) = side.filed(&image);
            let (length, rules) = (image.len(), parts(&image).len());
            moved += usize::from(form != image);
            for (room, past) in [
                (length, &[][..]),
                (length + 1, &[0]),
                (length + 7, &[255, 255, 96]),
                (AMPLE, &numbers[..rules / 2]),
            ] {
                let lent = [&numbers, past].concat();
                side.assert_unfiles(&form, &lent, room, Ok(&image));
            }
        }
    }
    assert!(moved > 1000, "{moved}");
}

/// Any order of the numbers is an order of typing: what comes of it is sound, and filing it gives the filed image and the
/// numbers again.
#[test]
fn back_and_there() {
    let mut random = Random::seeded(SEED);
    for form in forms(800) {
        let rules = parts(&form).len();
        for numbers in [numbers(&mut random, rules), numbers(&mut random, rules)] {
            let wanted = in_old_order(&form, &numbers);
            for side in sides() {
                let typed = side.unfiled(&form, &numbers);
                assert_eq!(typed, wanted, "{}: {numbers:?} {form:02X?}", side.name);
                assert_eq!((side.check)(&typed), 0, "{}: {typed:02X?}", side.name);
                assert_eq!(side.filed(&typed), (form.clone(), numbers.clone()));
            }
        }
    }
}

/// All lists of so many of these numbers.
fn lists(numbers: &[u8], length: usize) -> Vec<Vec<u8>> {
    let mut all = vec![Vec::new()];
    for _ in 0..length {
        let longer = |list: &Vec<u8>| {
            let longer = numbers.iter().map(|&next| [&list[..], &[next]].concat());
            longer.collect::<Vec<_>>()
        };
        all = all.iter().flat_map(longer).collect();
    }
    all
}

/// Of all tables for a few rules, those go back that have each number below the rule count once.
#[test]
fn every_table_of_few_numbers() {
    for program in [
        "",
        "2",
        "2; d 4<2",
        "d 2<0; d 4<0; d 6<0; (0,1); (1,2); (2,0)",
        "0; d 2<0; d 3<0; d 4<0; (1,2); (1,3); (3,2)",
    ] {
        let form = image(program);
        let rules = parts(&form).len();
        let mut tried: Vec<u8> = (0..=rules as u8 + 1).collect();
        tried.push(255);
        let mut sound = 0;
        for numbers in lists(&tried, rules) {
            let different: BTreeSet<&u8> = numbers.iter().collect();
            let each_once = different.into_iter().copied().eq(0..rules as u8);
            sound += usize::from(each_once);
            let typed = each_once.then(|| in_old_order(&form, &numbers));
            for side in sides() {
                let wanted = typed.as_deref().ok_or(MISFILED);
                side.assert_unfiles(&form, &numbers, form.len(), wanted);
            }
        }
        assert_eq!(sound, (1..=rules).product::<usize>(), "{program}");
    }
}

/// A number out of range or used twice, at the first, a middle or the last place.
#[test]
fn faulty_numbers_are_refused() {
    let mut random = Random::seeded(SEED);
    for form in forms(300) {
        let rules = parts(&form).len();
        for numbers in faulty(&numbers(&mut random, rules)) {
            for side in sides() {
                side.assert_unfiles(&form, &numbers, form.len(), Err(MISFILED));
                // What stands past the rules mends nothing.
                let longer = [&numbers[..], &numbers[..], &[0, 1]].concat();
                side.assert_unfiles(&form, &longer, form.len() + 3, Err(MISFILED));
            }
        }
    }
}

/// Sound numbers with every other byte at every place of the longest image.
#[test]
fn each_byte_of_the_longest_table_is_looked_at() {
    let [_, _, form] = edges();
    let numbers = numbers(&mut Random::seeded(SEED), 96);
    for side in sides() {
        for place in 0..96 {
            for by in 1..=255 {
                let mut other = numbers.clone();
                other[place] = other[place].wrapping_add(by);
                let mut out = vec![0; form.len()];
                let given = (side.unfile)(&form, &other, &mut out);
                assert_eq!(given, MISFILED, "{}: {place} {by}", side.name);
                assert!(out.iter().all(|&byte| byte == 0), "{}", side.name);
            }
        }
    }
}

#[test]
fn a_number_table_that_is_short_or_long() {
    let mut random = Random::seeded(!SEED);
    for form in forms(300) {
        let rules = parts(&form).len();
        let numbers = numbers(&mut random, rules);
        let typed = in_old_order(&form, &numbers);
        for side in sides() {
            for count in [0, rules / 2, rules.saturating_sub(1)] {
                if count < rules {
                    let short = &numbers[..count];
                    side.assert_unfiles(&form, short, form.len(), Err(NUMBER_TABLE));
                }
            }
            for more in [0, 1, 2, 96, 300] {
                let long = [numbers.clone(), vec![random.byte(); more]].concat();
                side.assert_unfiles(&form, &long, form.len(), Ok(&typed));
            }
        }
    }
}

#[test]
fn a_byte_table_that_is_short_or_long() {
    let mut random = Random::seeded(SEED);
    for form in forms(300) {
        let (length, rules) = (form.len(), parts(&form).len());
        let numbers = numbers(&mut random, rules);
        let typed = in_old_order(&form, &numbers);
        for side in sides() {
            for room in [0, 1, 11, length / 2, length - 1] {
                side.assert_unfiles(&form, &numbers, room, Err(OUTPUT_TABLE));
            }
            for room in [length, length + 1, AMPLE, 70_000] {
                side.assert_unfiles(&form, &numbers, room, Ok(&typed));
            }
        }
    }
}

/// Refuses an image with each of some tables that would be sound, in a table that is long enough.
#[track_caller]
fn assert_not_filed(side: &Side, image: &[u8], random: &mut Random) {
    let rules = parts(image).len();
    let as_it_is = (0..rules as u8).collect();
    for numbers in [as_it_is, side.filed(image).1, numbers(random, rules)] {
        side.assert_unfiles(image, &numbers, image.len(), Err(MISFILED));
    }
}

#[test]
fn rules_out_of_order_by_each_key_are_refused() {
    let mut random = Random::seeded(SEED);
    for side in sides() {
        for (key, typed, filed) in BY_KEY {
            if typed != filed {
                assert_not_filed(&side, &image(typed), &mut random);
            }
            let (form, numbers) = side.filed(&image(typed));
            assert_eq!(side.unfiled(&form, &numbers), image(typed), "{key}");
        }
    }
}

/// Every two neighbours of 96 rules that differ in their last byte only, and of the longest image; and any two rules, and any
/// other order, of many programs.
#[test]
fn images_that_are_not_filed_are_refused() {
    let mut random = Random::seeded(SEED);
    let mut others = Vec::new();
    for program in [alike(), greatest()] {
        let program = Description::of_image(&REFERENCE.form(&program.image()));
        others.extend((1..96).map(|rule| exchanged(&program, rule - 1, rule)));
    }
    for form in forms(500) {
        let program = Description::of_image(&form);
        let rules = program.rules.len();
        if rules > 1 {
            let one = random.below(rules - 1);
            let other = random.between(one + 1, rules - 1);
            let orders = [
                exchanged(&program, one, other),
                retyped(&mut random, &program),
            ];
            others.extend(orders.into_iter().filter(|order| *order != program));
        }
    }
    assert!(others.len() > 900, "{}", others.len());
    for other in others {
        for side in sides() {
            assert_not_filed(&side, &other.image(), &mut random);
        }
    }
}

/// 14, then 24, 25 and 26: whichever come together, by the numbers or by the form or by both, the first is given.
#[test]
fn causes_in_their_order() {
    let causes = [14 << 32, OUTPUT_TABLE, NUMBER_TABLE, MISFILED, MISFILED];
    for chosen in 0..1 << causes.len() {
        let has = |cause: usize| chosen >> cause & 1 == 1;
        let strict = if has(0) { "0; 1" } else { "0" };
        let rules = if has(4) {
            "d 4<0; d 2<0"
        } else {
            "d 2<0; d 4<0"
        };
        let image = image(&format!("{strict}; {rules}"));
        let mut numbers: Vec<u8> = (0..parts(&image).len() as u8).rev().collect();
        let room = image.len() - usize::from(has(1));
        if has(3) {
            numbers[0] = 0;
        }
        if has(2) {
            numbers.pop();
        }
        let first = (0..causes.len()).find(|&cause| has(cause));
        let refusal = first.map(|cause| causes[cause]);
        let typed = refusal.is_none().then(|| in_old_order(&image, &numbers));
        for side in sides() {
            let wanted = typed.as_deref().ok_or(refusal.unwrap_or(0));
            side.assert_unfiles(&image, &numbers, room, wanted);
        }
    }
}

/// Causes 1 to 14 with their places come first, whatever numbers and room there are.
#[test]
fn causes_of_the_image_come_first() {
    let sound: Vec<u8> = (0..96).collect();
    let refused = refused(SEED, 3000);
    for side in sides() {
        for (image, refusal) in &refused {
            let length = image.len();
            for (numbers, room) in [
                (&[][..], 0),
                (&[255; 96], length),
                (&sound, length.saturating_sub(1)),
                (&sound, length + 9),
            ] {
                side.assert_unfiles(image, numbers, room, Err(*refusal));
            }
        }
    }
}

/// Null with no bytes is a table without bytes, which is enough for the numbers of no rule, and an image of length zero.
#[cfg(feature = "library")]
#[test]
fn null_is_no_byte() {
    use foqtirel_binding::raw::foqtirel_unfile;
    use foqtirel_tests::sides::lent;
    use std::ptr::{null, null_mut};

    let ([without_rules, one_rule, _], numbers) = (edges(), [0; 1]);
    let mut out = lent(40, false);
    let table = out.as_mut_ptr();
    let unfile = |image: &[u8], numbers, count, table, room| {
        let (bytes, length) = (image.as_ptr(), image.len());
        // SAFETY: the tables have as many bytes as the call is told.
        unsafe { foqtirel_unfile(bytes, length, numbers, count, table, room) }
    };
    let entries = numbers.as_ptr();
    let given = unfile(&one_rule, entries, 1, null_mut(), 0);
    assert_eq!(given, OUTPUT_TABLE);
    assert_eq!(unfile(&one_rule, null(), 0, table, 40), NUMBER_TABLE);
    // SAFETY: nothing is read from an image of no bytes.
    unsafe {
        let refused = 1 << 32;
        let given = foqtirel_unfile(null(), 0, null(), 0, null_mut(), 0);
        assert_eq!(given, refused);
        let given = foqtirel_unfile(null(), 0, entries, 1, table, 40);
        assert_eq!(given, refused);
    }
    assert_eq!(out, lent(40, false));
    assert_eq!(unfile(&without_rules, null(), 0, table, 40), 12);
    let left = &lent(40, false)[12..];
    assert_eq!((&out[..12], &out[12..]), (&without_rules[..], left));
}

/// What `G` with its pair is filed as, and the way back, written out.
#[test]
fn an_example_by_hand() {
    let typed = image(G_WITH_PAIR);
    let form = image("0; d 2<0; d 3<4; d 4<0; d 5<0; (4,3)");
    for side in sides() {
        assert_eq!(side.filed(&typed), (form.clone(), vec![0, 1, 3, 2, 4]));
        assert_eq!(side.unfiled(&form, &[0, 1, 3, 2, 4]), typed);
        let turned = image("d 5<0; d 4<0; d 3<4; d 2<0; 0; (0,1)");
        assert_eq!(side.unfiled(&form, &[4, 3, 2, 1, 0]), turned);
    }
}
