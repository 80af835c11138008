//! Filing: reference and library, each with its result and both tables whole. And of the library by itself: one form for
//! every order, another for every change, and the same answers for an image and its form.

use foqtirel_binding::{self as library, answered_with_trees, Node};
use foqtirel_tests::generator::accepted::small_programs;
use foqtirel_tests::generator::filing::{alike, retyped, CHANGES};
use foqtirel_tests::generator::{
    accepted, chained, changed, damaged, Description, Random, MADE_BY_RULE,
};
use foqtirel_tests::lent;
use foqtirel_tests::reference::{self, MOST_NODES};
use foqtirel_tests::vectors;

use crate::filereport::FileReport;
use crate::results::{differed, result_of};
use crate::unfile;

const MIXED: usize = 4_000;
const SMALL: usize = 1_500;
const CHAINED: usize = 550;
const DAMAGED: usize = 20_000;
/// A table of 65,536 bytes or more is lent for one image in so many.
const LONG_TABLE_EVERY: usize = 25;
/// Other orders of each program, and questions about it.
const ORDERS: usize = 2;
const QUESTIONS: usize = 24;
const MOST: u32 = MOST_NODES as u32;
const MOST_RULES: usize = 96;

pub fn compare(seed: u64, report: &mut FileReport) {
    let mut random = Random::seeded(seed ^ 0x6669_6C65);
    let programs = accepted(seed ^ 0x666F_726D, MIXED)
        .chain(small_programs(!seed, SMALL))
        .chain(chained(seed ^ 0x6F72_6465, CHAINED))
        .map(|case| case.image);
    for image in programs.chain(vectors::images()).chain([alike().image()]) {
        compare_rooms(&image, &mut random, report);
        if let Some(filed) = filed(&image, &mut random, report) {
            compare_orders(&image, &filed.form, &mut random, report);
            compare_changes(&image, &filed.form, &mut random, report);
            compare_answers(&image, &filed.form, &mut random, report);
            unfile::compare(&image, &filed, &mut random, report);
        } else {
            unfile::compare_any(&image, image.len(), &mut random, report);
        }
    }
    let made = MADE_BY_RULE.iter().flat_map(|(_, make)| make());
    let damaged = damaged(seed ^ 0x6272_6F6B, DAMAGED).chain(made);
    for case in damaged.chain(changed()) {
        let length = case.image.len();
        let short = random.pick(&[0, length.saturating_sub(1)]);
        let room = random.pick(&[short, length, length + 3]);
        let number_room = random.pick(&[0, 1, MOST_RULES, MOST_RULES]);
        compare_call(&case.image, (room, number_room), &mut random, report);
        unfile::compare_any(&case.image, room, &mut random, report);
    }
}

/// A filed form, and the old numbers of its rules.
#[derive(PartialEq, Eq)]
pub struct Filed {
    pub form: Vec<u8>,
    pub numbers: Vec<u8>,
}

/// The number of rules that an image says it has.
pub fn rule_count(image: &[u8]) -> usize {
    image.get(2).copied().unwrap_or(0).into()
}

fn compare_rooms(image: &[u8], random: &mut Random, report: &mut FileReport) {
    let (length, rules) = (image.len(), rule_count(image));
    let longer = length + random.between(2, 500);
    let mut rooms = vec![0, length.saturating_sub(1), length, length + 1, longer];
    if random.below(LONG_TABLE_EVERY) == 0 {
        rooms.push(65_536 + random.pick(&[0, 1, length]));
    }
    for room in rooms {
        let longer = rules + random.between(2, 500);
        let short = random.below(rules.max(1));
        let number_room = random.pick(&[rules, rules, rules + 1, longer, short]);
        compare_call(image, (room, number_room), random, report);
    }
    for number_room in [0, rules.saturating_sub(1)] {
        compare_call(image, (length, number_room), random, report);
    }
}

/// Calls both with equal tables; returns the fronts of the library's, if both agree in all and filed.
fn compare_call(
    image: &[u8],
    (room, number_room): (usize, usize),
    random: &mut Random,
    report: &mut FileReport,
) -> Option<Filed> {
    let mut by_library = [lent::bytes(room, random), lent::bytes(number_room, random)];
    let mut by_reference = by_library.clone();
    let [out, numbers] = by_reference.each_mut().map(|lent| lent.table());
    let wanted = reference::file(image, out, numbers);
    let [out, numbers] = by_library.each_mut().map(|lent| lent.table());
    let given = library::file(image, out, numbers);
    let places = [0, 1].map(|n| by_library[n].first_difference(&by_reference[n]));
    if given == result_of(wanted) && places == [None; 2] {
        report.filing.agreed(wanted);
        let length = wanted.ok()?;
        let [out, numbers] = by_library.each_mut().map(|lent| lent.table());
        return Some(Filed {
            form: out[..length].to_vec(),
            numbers: numbers[..rule_count(image)].to_vec(),
        });
    }
    let about = format!("tables of {room} and {number_room} bytes");
    let results = (wanted, given);
    differed(
        &mut report.faults,
        "filing",
        image,
        results,
        (about, &places),
    );
    None
}

pub fn filed(image: &[u8], random: &mut Random, report: &mut FileReport) -> Option<Filed> {
    compare_call(image, (image.len(), rule_count(image)), random, report)
}

/// The filed form alone.
fn form(image: &[u8], random: &mut Random, report: &mut FileReport) -> Option<Vec<u8>> {
    filed(image, random, report).map(|filed| filed.form)
}

/// Every order of one program has the same form, which is sound and its own.
fn compare_orders(image: &[u8], form: &[u8], random: &mut Random, report: &mut FileReport) {
    let program = Description::of_image(image);
    let orders = (0..ORDERS).map(|_| retyped(random, &program).image());
    for other in orders.chain([form.to_vec()]).collect::<Vec<_>>() {
        let same = self::form(&other, random, report).as_deref() == Some(form);
        report.order(image, same);
    }
    report.order(image, library::check(form) == 0);
}

/// Every change that leaves the program sound has another form.
fn compare_changes(image: &[u8], form: &[u8], random: &mut Random, report: &mut FileReport) {
    let program = Description::of_image(image);
    let (name, change) = random.pick(&CHANGES);
    let Some(other) = change(random, &program) else {
        return;
    };
    if let Some(other) = self::form(&other.image(), random, report) {
        report.change(image, name, other != form);
    }
}

/// Questions about both, with tables of the same lengths.
fn compare_answers(image: &[u8], form: &[u8], random: &mut Random, report: &mut FileReport) {
    let mut table = vec![0; MOST_NODES];
    let count = library::list(image, &mut table);
    report.answer(image, "list", count, library::list(form, &mut table));
    let arguments = count as u32 as usize;
    for _ in 0..QUESTIONS {
        let any = random.below(2 * usize::from(image[0]) + 2) as u32;
        let literal = random.pick(&[any, any, any, any, any, any, 127, 128]);
        let nodes = library::query(image, literal, MOST) & 65_535;
        let less = nodes.saturating_sub(1);
        let budget = random.pick(&[0, 1, less, nodes, nodes, nodes + 1, MOST, MOST + 1]);
        let asked = |image: &[u8]| u64::from(library::query(image, literal, budget));
        report.answer(image, "query", asked(image), asked(form));
        let short = arguments.saturating_sub(1);
        let room = random.pick(&[arguments, arguments, arguments + 3, short]);
        let node_room = budget as usize + random.pick(&[0, 0, 0, 3]);
        let node_room = node_room.saturating_sub(random.pick(&[0, 0, 0, 1]));
        let asked = |image: &[u8]| {
            let mut nodes = vec![Node::default(); node_room];
            library::trees(image, literal, budget, &mut vec![0; room], &mut nodes)
        };
        let answer = asked(image);
        report.answer(image, "trees", answer, asked(form));
        report.asked(answered_with_trees(answer));
    }
}
