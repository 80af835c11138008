//! The way back from filed form: reference and library, each with its result and the whole byte table. And of the library by
//! itself: what was filed comes back in its exact bytes, and what comes of any order of the numbers is filed as it was.

use foqtirel_binding as library;
use foqtirel_tests::generator::unfiling::{faulty, numbers};
use foqtirel_tests::generator::Random;
use foqtirel_tests::reference;

use crate::file::{filed, rule_count, Filed};
use crate::filereport::FileReport;
use crate::results::Call;

/// Faulty tables of numbers that are tried on each image.
const FAULTY: usize = 3;

/// An image and what it was filed as.
pub fn compare(image: &[u8], filed: &Filed, random: &mut Random, report: &mut FileReport) {
    let Filed { form, numbers: old } = filed;
    let length = form.len();
    let back = compare_call(form, old, length, random, report);
    report.way_back(image, back.as_deref() == Some(image));
    compare_order(form, random, report);
    compare_rooms(form, old, random, report);
    let faulty = faulty(old);
    for _ in 0..FAULTY.min(faulty.len()) {
        let numbers = &faulty[random.below(faulty.len())];
        compare_call(form, numbers, length, random, report);
    }
    // What was typed is most often not in filed form.
    compare_call(image, old, length, random, report);
}

/// Any image in any state, with any numbers.
pub fn compare_any(image: &[u8], room: usize, random: &mut Random, report: &mut FileReport) {
    let rules = rule_count(image);
    let count = random.pick(&[rules, rules, 0, 96]);
    let mut numbers = numbers(random, count);
    if random.chance(20) {
        numbers.fill(random.byte());
    }
    compare_call(image, &numbers, room, random, report);
}

/// Some order of the rules, and its filed form.
fn compare_order(form: &[u8], random: &mut Random, report: &mut FileReport) {
    let numbers = numbers(random, rule_count(form));
    if let Some(typed) = compare_call(form, &numbers, form.len(), random, report) {
        let form = form.to_vec();
        let again = filed(&typed, random, report);
        report.way_back(&typed, again == Some(Filed { form, numbers }));
    }
}

/// Tables that are too short, exact and too long, with junk past the numbers.
fn compare_rooms(form: &[u8], old: &[u8], random: &mut Random, report: &mut FileReport) {
    let (length, rules) = (form.len(), old.len());
    let longer = length + random.between(2, 500);
    for room in [0, length - 1, length + 1, longer] {
        let mut numbers = old.to_vec();
        numbers.resize(rules + random.below(9), random.byte());
        compare_call(form, &numbers, room, random, report);
    }
    for count in [0, rules.saturating_sub(1)] {
        compare_call(form, &old[..count], length, random, report);
    }
}

/// Calls both with equal tables; returns the front of the library's, if both agree in all and wrote.
fn compare_call(
    image: &[u8],
    numbers: &[u8],
    room: usize,
    random: &mut Random,
    report: &mut FileReport,
) -> Option<Vec<u8>> {
    let call = Call {
        name: "unfiling",
        image,
        numbers,
        reference: &|out| reference::unfile(image, numbers, out),
        library: &|out| library::unfile(image, numbers, out),
    };
    call.compare(room, random, &mut report.unfiling, &mut report.faults)
}
