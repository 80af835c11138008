//! The filed form of an image and its old numbers, as requests C-12 and C-16 have them: of the reference, and with the feature
//! `library` of the proved calls.

use std::collections::{BTreeMap, BTreeSet};

use foqtirel_tests::fittings::F;
use foqtirel_tests::generator::accepted::{contested_programs, small_programs};
use foqtirel_tests::generator::filing::{retyped, BY_KEY, CHANGES};
use foqtirel_tests::generator::lengths::greatest;
use foqtirel_tests::generator::{chained, Description, Random};
use foqtirel_tests::reference;
use foqtirel_tests::sides::{
    old_numbers, parts, refused, sides, sound, Side, NUMBER_TABLE, OUTPUT_TABLE, REFERENCE,
};
use foqtirel_tests::vectors::{filings, numbered_filings, Filed, Filing};

const SEED: u64 = 12;
const MOST_IMAGE: usize = 1836;
const MOST_RULES: usize = 96;
/// Budgets beside those around a forest's number of nodes.
const BUDGETS: [u32; 5] = [0, 1, 2, 4096, 4097];

fn image(program: &str) -> Vec<u8> {
    Description::parse(program).expect("a program").image()
}

#[test]
fn vectors_are_filed_as_written() {
    let (forms, numbered) = (filings(), numbered_filings());
    assert_eq!((forms.len(), numbered.len()), (40, 40), "vectors");
    let vectors: Vec<Filing> = forms.into_iter().chain(numbered).collect();
    for cause in [24, 25] {
        let given = |vector: &&Filing| vector.outcome.as_ref().err() == Some(&(cause, 0));
        assert!(vectors.iter().filter(given).count() >= 5, "{cause}");
    }
    let mut with_numbers = 0;
    for vector in &vectors {
        let wanted = match &vector.outcome {
            Ok(Filed { form, numbers }) => {
                if let Some(numbers) = numbers {
                    assert_eq!(*numbers, old_numbers(&vector.image, form));
                    with_numbers += 1;
                }
                Ok(form.as_slice())
            }
            Err((number, place)) => Err(u64::from(*number) << 32 | u64::from(*place)),
        };
        for side in sides() {
            side.assert_files(&vector.image, vector.rooms, wanted);
        }
    }
    assert!(with_numbers >= 15, "{with_numbers}");
}

#[test]
fn each_key_decides_before_the_next() {
    for side in sides() {
        for (key, typed, filed) in BY_KEY {
            let form = side.form(&image(typed));
            assert_eq!(form, image(filed), "{}: {key}: {typed}", side.name);
        }
    }
}

/// The rules ascend, the pairs do, and both are those of the image.
#[test]
fn filed_images_hold_the_same_in_order() {
    for side in sides() {
        for image in sound(SEED, 2000) {
            let form = side.form(&image);
            let name = side.name;
            assert_eq!((side.check)(&form), 0, "{name}: {image:02X?}");
            let rules = parts(&form);
            let key = |part: &[u8]| (part[0], part[1], part.len(), part[2..].to_vec());
            let ascend = rules.windows(2).all(|two| key(&two[0]) < key(&two[1]));
            assert!(ascend, "{name}: {image:02X?}");
            let content = |image: &[u8]| {
                let Description { atoms, pairs, .. } = Description::of_image(image);
                let rules = parts(image);
                let rule = |number: u8| rules[usize::from(number)].clone();
                let pairs = pairs
                    .iter()
                    .map(|&(first, second)| (rule(first), rule(second)));
                let pairs: BTreeSet<(Vec<u8>, Vec<u8>)> = pairs.collect();
                (atoms, BTreeSet::from_iter(rules.clone()), pairs)
            };
            assert_eq!(content(&form), content(&image), "{name}: {image:02X?}");
        }
    }
}

/// The library writes what the reference does, whatever room there is, and touches nothing else. Entries past the rules
/// remain.
#[test]
fn sound_images_with_every_room() {
    for image in sound(SEED, 600) {
        let form = REFERENCE.form(&image);
        let (length, rules) = (image.len(), parts(&image).len());
        let enough = [length, length + 1, length + 7, MOST_IMAGE, 70_000];
        let numbers_enough = [rules, rules + 1, rules + 5, MOST_RULES, 1000];
        let short = [0, 1, 11, length / 2, length - 1];
        let numbers_short = [0, rules / 2, rules.saturating_sub(1)];
        for side in sides() {
            for (room, number_room) in enough.into_iter().zip(numbers_enough) {
                side.assert_files(&image, (room, number_room), Ok(&form));
            }
            for (room, number_room) in short.into_iter().zip(numbers_enough) {
                side.assert_files(&image, (room, number_room), Err(OUTPUT_TABLE));
            }
            for number_room in numbers_short.into_iter().filter(|&room| room < rules) {
                let rooms = (length, number_room);
                side.assert_files(&image, rooms, Err(NUMBER_TABLE));
            }
        }
    }
}

/// Every length of either table for the longest image.
#[test]
fn a_table_one_entry_short_is_refused() {
    let image = greatest().image();
    assert_eq!(image.len(), MOST_IMAGE);
    let form = REFERENCE.form(&image);
    for side in sides() {
        for room in 0..MOST_IMAGE {
            side.assert_files(&image, (room, MOST_RULES), Err(OUTPUT_TABLE));
        }
        for number_room in 0..MOST_RULES {
            side.assert_files(&image, (MOST_IMAGE, number_room), Err(NUMBER_TABLE));
        }
        side.assert_files(&image, (MOST_IMAGE, MOST_RULES), Ok(&form));
    }
}

/// Causes 1 to 14 with their places come before 24 and 25, in tables that would be long enough and in ones that are not.
#[test]
fn causes_of_the_image_come_first() {
    let refused = refused(SEED, 3000);
    for side in sides() {
        for (image, refusal) in &refused {
            let length = image.len();
            for rooms in [
                (0, 0),
                (length.saturating_sub(1), MOST_RULES),
                (length, 0),
                (length + 9, MOST_RULES),
            ] {
                side.assert_files(image, rooms, Err(*refusal));
            }
        }
    }
}

/// 14, then 24, then 25: whichever come together, the first is given.
#[test]
fn causes_in_their_order() {
    let contradictory = image(&format!("{F}; 1"));
    for side in sides() {
        for chosen in 1..8 {
            let image = if chosen & 1 == 1 {
                &contradictory
            } else {
                &image(F)
            };
            let room = image.len() - (chosen >> 1 & 1);
            let number_room = parts(image).len() - (chosen >> 2 & 1);
            let causes = [14 << 32, OUTPUT_TABLE, NUMBER_TABLE];
            let first = (0..3).find(|cause| chosen >> cause & 1 == 1);
            let wanted = Err(causes[first.expect("a cause")]);
            side.assert_files(image, (room, number_room), wanted);
        }
    }
}

/// One program in whatever order gives the same bytes, and these are their own filed form.
#[test]
fn every_order_has_one_filed_form() {
    let mut random = Random::seeded(SEED);
    let (mut moved, mut pairs_moved) = (0, 0);
    for image in sound(SEED, 800) {
        let program = Description::of_image(&image);
        let orders: Vec<Description> = (0..4).map(|_| retyped(&mut random, &program)).collect();
        for side in sides() {
            let form = side.form(&image);
            assert_eq!(side.form(&form), form, "{}: twice: {image:02X?}", side.name);
            for other in &orders {
                assert_eq!(side.form(&other.image()), form, "{}: {other:?}", side.name);
            }
        }
        moved += orders
            .iter()
            .filter(|other| other.rules != program.rules)
            .count();
        pairs_moved += orders
            .iter()
            .filter(|other| other.pairs != program.pairs)
            .count();
    }
    assert!(moved > 2000 && pairs_moved > 1000, "{moved} {pairs_moved}");
}

/// Whatever is changed in a program, the filed form is another.
#[test]
fn every_change_has_another_filed_form() {
    let mut random = Random::seeded(!SEED);
    let mut seen: BTreeMap<&str, usize> = BTreeMap::new();
    for image in sound(SEED, 800) {
        let program = Description::of_image(&image);
        for (name, change) in CHANGES {
            let Some(other) = change(&mut random, &program) else {
                continue;
            };
            let other = retyped(&mut random, &other).image();
            if reference::check(&other).is_err() {
                continue;
            }
            for side in sides() {
                let differ = side.form(&image) != side.form(&other);
                assert!(differ, "{}: {name}: {program:?}", side.name);
            }
            *seen.entry(name).or_default() += 1;
        }
    }
    println!("{seen:?}");
    for (name, _) in CHANGES {
        let times = seen.get(name).copied().unwrap_or(0);
        assert!(times >= 100, "{name}: {times} times");
    }
}

/// Equal bytes exactly where the programs hold the same: every two of all programs with up to three rules out of six.
#[test]
fn equal_bytes_exactly_for_the_same_program() {
    let rules = ["0", "3", "2<0", "d 2<0", "d 3<0", "d 2<0,3"];
    let mut programs: BTreeMap<Vec<u8>, BTreeSet<String>> = BTreeMap::new();
    let mut images = 0;
    for atoms in [2, 3] {
        for order in orders(rules.len(), 3) {
            let text: Vec<&str> = order.iter().map(|&rule| rules[rule]).collect();
            let loose: Vec<usize> = (0..order.len()).filter(|&n| order[n] > 2).collect();
            for pairs in some_pairs(&loose) {
                let listed = pairs.iter().map(|(a, b)| format!("; ({a},{b})"));
                let typed = format!(
                    "atoms {atoms}; {}{}",
                    text.join("; "),
                    listed.collect::<String>()
                );
                let mut held: Vec<String> = text.iter().map(|rule| rule.to_string()).collect();
                held.extend(
                    pairs
                        .iter()
                        .map(|&(a, b)| format!("{} beats {}", text[a], text[b])),
                );
                held.sort();
                let content = format!("{atoms}: {}", held.join("; "));
                if reference::check(&image(&typed)).is_ok() {
                    images += 1;
                    for side in sides() {
                        let form = side.form(&image(&typed));
                        programs.entry(form).or_default().insert(content.clone());
                    }
                }
            }
        }
    }
    let contents: BTreeSet<&String> = programs.values().flatten().collect();
    assert!(
        programs.values().all(|held| held.len() == 1),
        "one form, two programs"
    );
    assert_eq!(programs.len(), contents.len(), "one program, two forms");
    println!("{images} images of {} programs", programs.len());
    assert!(
        images > 500 && programs.len() > 100,
        "{images} {}",
        programs.len()
    );
}

/// All lists of up to so many different numbers below an end.
fn orders(end: usize, most: usize) -> Vec<Vec<usize>> {
    let mut all = vec![Vec::new()];
    let mut last = all.clone();
    for _ in 0..most {
        let longer = |order: &Vec<usize>| {
            let others = (0..end).filter(|next| !order.contains(next));
            others
                .map(|next| [&order[..], &[next]].concat())
                .collect::<Vec<_>>()
        };
        last = last.iter().flat_map(longer).collect();
        all.extend(last.clone());
    }
    all
}

/// All sets of pairs of two of these rules, ascending.
fn some_pairs(rules: &[usize]) -> Vec<Vec<(usize, usize)>> {
    let pairs = rules
        .iter()
        .flat_map(|&a| rules.iter().map(move |&b| (a, b)));
    let pairs: Vec<(usize, usize)> = pairs.filter(|(a, b)| a != b).collect();
    let chosen = |set: usize| {
        pairs
            .iter()
            .enumerate()
            .filter(move |(n, _)| set >> n & 1 == 1)
    };
    let sets = 0..1 << pairs.len();
    sets.map(|set| chosen(set).map(|(_, &pair)| pair).collect())
        .collect()
}

/// Each call on both images, with equal tables: the same count, the same answers and nodes, the same refusals.
#[test]
fn queries_do_not_see_the_order() {
    for side in sides() {
        let mut results: BTreeMap<u64, usize> = BTreeMap::new();
        // How many programs are asked about all their literals.
        let asked = if side.quick { 400 } else { 12 };
        let programs = small_programs(SEED, asked)
            .chain(chained(SEED, asked))
            .chain(contested_programs(SEED, asked / 8, 4));
        for case in programs {
            if reference::check(&case.image).is_ok() {
                ask_both(&side, &case.image, &mut results);
            }
        }
        for code in 1..=5 {
            let seen = results.get(&code).copied().unwrap_or(0);
            assert!(seen >= 20, "{}: code {code}: {seen}", side.name);
        }
        for number in 20..=23 {
            let seen = results.get(&(number << 16)).copied().unwrap_or(0);
            assert!(seen >= 20, "{}: refusal {number}: {seen}", side.name);
        }
    }
}

/// Counts the answers by their codes, and refusals by their number in the upper half.
fn ask_both(side: &Side, image: &[u8], results: &mut BTreeMap<u64, usize>) {
    let form = side.form(image);
    let name = side.name;
    let same = |what: &str, given: u64, wanted: u64| {
        assert_eq!(given, wanted, "{name}: {what}: {image:02X?}");
    };
    let count = (side.list)(image, &mut [0; 4096]);
    let arguments = count as usize;
    for room in [4096, arguments, arguments.saturating_sub(1), 0] {
        let listed = (side.list)(image, &mut vec![0; room]);
        same("list", (side.list)(&form, &mut vec![0; room]), listed);
    }
    for literal in (0..2 * u32::from(image[0]) + 1).chain([127, 128]) {
        let nodes = (side.query)(image, literal, 4096) & 65_535;
        let mut budgets = BTreeSet::from(BUDGETS);
        budgets.extend([nodes.saturating_sub(1), nodes, nodes + 1]);
        for budget in budgets {
            let answer = (side.query)(image, literal, budget);
            same(
                "query",
                (side.query)(&form, literal, budget).into(),
                answer.into(),
            );
            let node_room = budget as usize;
            for lengths in [
                (arguments, node_room),
                (arguments.saturating_sub(1), node_room),
                (arguments, node_room.saturating_sub(1)),
            ] {
                let answer = (side.trees)(image, literal, budget, lengths);
                same(
                    "trees",
                    (side.trees)(&form, literal, budget, lengths),
                    answer,
                );
                *results.entry(answer >> 16).or_default() += 1;
            }
        }
    }
}

/// Null with no bytes is a table without bytes, and an image of length zero.
#[cfg(feature = "library")]
#[test]
fn null_is_no_byte() {
    use foqtirel_binding::raw::foqtirel_file;
    use foqtirel_tests::sides::lent;
    use std::ptr::{null, null_mut};

    let (sound, empty) = (image("0; d 2<0"), image(""));
    let (mut out, mut numbers) = (lent(40, false), lent(2, false));
    let (table, entries) = (out.as_mut_ptr(), numbers.as_mut_ptr());
    let file = |image: &[u8], table, room, entries, number_room| {
        let (bytes, length) = (image.as_ptr(), image.len());
        // SAFETY: the tables have as many bytes as the call is told.
        unsafe { foqtirel_file(bytes, length, table, room, entries, number_room) }
    };
    assert_eq!(file(&sound, null_mut(), 0, entries, 2), OUTPUT_TABLE);
    assert_eq!(file(&sound, table, 40, null_mut(), 0), NUMBER_TABLE);
    assert_eq!(file(&sound, null_mut(), 0, null_mut(), 0), OUTPUT_TABLE);
    // SAFETY: nothing is read from an image of no bytes.
    unsafe {
        let refused = 1 << 32;
        let given = foqtirel_file(null(), 0, table, 40, entries, 2);
        assert_eq!(given, refused);
        let given = foqtirel_file(null(), 0, null_mut(), 0, null_mut(), 0);
        assert_eq!(given, refused);
    }
    assert_eq!((out.clone(), numbers), (lent(40, false), lent(2, false)));
    // An image without rules has no numbers.
    assert_eq!(file(&empty, table, 40, null_mut(), 0), 12);
    assert_eq!(
        (&out[..12], &out[12..]),
        (&empty[..], &lent(40, false)[12..])
    );
}
