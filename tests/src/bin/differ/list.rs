//! The list of arguments: reference and library, each with its result and the whole table.

use foqtirel_binding as library;
use foqtirel_tests::generator::accepted::small_programs;
use foqtirel_tests::generator::{accepted, damaged, many_arguments, Case, Random, MANY_ARGUMENTS};
use foqtirel_tests::lent;
use foqtirel_tests::reference::image::defeasible_rules;
use foqtirel_tests::reference::{Analysis, Refusal};
use foqtirel_tests::vectors;

use crate::images::{still_sound, Source};
use crate::listreport::ListReport;

const MIXED: usize = 4_900;
const SMALL: usize = 1_200;
const DAMAGED: usize = 4_000;
/// A table of 65,536 entries or more is lent for one image in so many.
const LONG_TABLE_EVERY: usize = 25;
const REFUSED_23: u64 = 23 << 32;

pub fn compare(seed: u64, report: &mut ListReport) {
    let mut random = Random::seeded(seed ^ 0x6C69_7374);
    let programs = accepted(seed, MIXED).chain(small_programs(seed, SMALL));
    compare_cases(Source::Program, programs, &mut random, report);
    let damaged = damaged(seed, DAMAGED).chain(still_sound());
    compare_cases(Source::Damaged, damaged, &mut random, report);
    compare_vectors(&mut random, report);
    compare_around_4096(&mut random, report);
    compare_many_arguments(&mut random, report);
}

fn compare_cases(
    source: Source,
    cases: impl Iterator<Item = Case>,
    random: &mut Random,
    report: &mut ListReport,
) {
    for case in cases {
        if report.images.admit(source, &case.image) {
            compare_image(source, &case.image, random, report);
        }
    }
}

fn compare_image(source: Source, image: &[u8], random: &mut Random, report: &mut ListReport) {
    let analysis = Analysis::of_image(image);
    let lengths = match &analysis {
        Ok(analysis) => lengths_around(analysis.arguments.len(), random),
        Err(_) => vec![0, random.between(1, 100)],
    };
    for length in lengths {
        compare_call(image, &analysis, length, random, report);
    }
    if random.below(LONG_TABLE_EVERY) == 0 {
        let more = random.between(2, 20_000);
        let length = 65_536 + random.pick(&[0, 1, more]);
        compare_call(image, &analysis, length, random, report);
    }
    let defeasible = defeasible_rules(image);
    report.images.count(source, analysis.is_ok(), defeasible);
}

fn lengths_around(count: usize, random: &mut Random) -> Vec<usize> {
    let longer = count + random.between(8, 500);
    let mut lengths = vec![0, count, count + 1, count + 7, longer];
    // One less is no length of a table, or the same as none, if there is hardly an argument.
    if count > 1 {
        lengths.push(count - 1);
    }
    lengths
}

/// Calls both with equal tables; returns what both returned, if they agree in all.
fn compare_call(
    image: &[u8],
    analysis: &Result<Analysis, Refusal>,
    length: usize,
    random: &mut Random,
    report: &mut ListReport,
) -> Option<u64> {
    let mut by_library = lent::arguments(length, random);
    let mut by_reference = by_library.clone();
    let wanted = packed(match analysis {
        Ok(analysis) => analysis.list(by_reference.table()),
        Err(refusal) => Err(*refusal),
    });
    let given = library::list(image, by_library.table());
    let place = by_library.first_difference(&by_reference);
    if given == wanted && place.is_none() {
        report.agreed(wanted, length);
        return Some(given);
    }
    let told = |result: u64| format!("{} * 2^32 + {}", result >> 32, result as u32);
    report.faults.differed(
        image,
        &[
            ("reference", told(wanted)),
            ("library", told(given)),
            ("table length", length.to_string()),
            ("first differing entry", format!("{place:?}")),
        ],
    );
    None
}

/// The count, or number * 2^32 + place.
fn packed(result: Result<usize, Refusal>) -> u64 {
    result.map_or_else(Refusal::packed, |count| count as u64)
}

fn compare_vectors(random: &mut Random, report: &mut ListReport) {
    for image in vectors::images() {
        compare_image(Source::Vector, &image, random, report);
    }
}

/// The host program's table has 4,096 entries, and one argument more doesn't fit.
fn compare_around_4096(random: &mut Random, report: &mut ListReport) {
    let image = vectors::image("args4097");
    let analysis = Analysis::of_image(&image);
    let short = compare_call(&image, &analysis, 4096, random, report);
    let enough = compare_call(&image, &analysis, 4097, random, report);
    report
        .faults
        .demand("args4097, 4,096 entries: 23", short == Some(REFUSED_23));
    report
        .faults
        .demand("args4097, 4,097 entries: 4097", enough == Some(4097));
}

/// A list can be longer than the number of masks.
fn compare_many_arguments(random: &mut Random, report: &mut ListReport) {
    let count = MANY_ARGUMENTS;
    let image = many_arguments().image();
    let analysis = Analysis::of_image(&image);
    for length in [0, 65_536, count - 1] {
        let short = compare_call(&image, &analysis, length, random, report);
        report
            .faults
            .demand("many arguments, too short: 23", short == Some(REFUSED_23));
    }
    for length in [count, count + 1, count + 7] {
        let enough = compare_call(&image, &analysis, length, random, report);
        let all = enough == Some(count as u64);
        report
            .faults
            .demand("many arguments, long enough: all", all);
    }
}
