//! What clashes in a strict part: reference and library, each with its result and the whole byte table. And of the library by
//! itself: the marked rules alone are refused with 14, and accepted without any single one of them.

use foqtirel_binding as library;
use foqtirel_tests::generator::clash::clashing;
use foqtirel_tests::generator::{accepted, changed, damaged, Description, Random, MADE_BY_RULE};
use foqtirel_tests::reference;
use foqtirel_tests::vectors;

use crate::file::rule_count;
use crate::report::Faults;
use crate::results::{Call, Results, Wanted};

const CLASHING: usize = 9_000;
const ACCEPTED: usize = 1_500;
const DAMAGED: usize = 20_000;
const MOST_RULES: usize = 96;
const CONTRADICTION: u64 = 14 << 32;

const LEAST_MARKED: usize = 30_000;
const LEAST_NEEDED: usize = 50_000;

#[derive(Default)]
pub struct ClashReport {
    faults: Faults,
    results: Results,
    /// Marked rules that were left out, and the most of one clash.
    needed: usize,
    largest: usize,
}

pub fn compare(seed: u64, report: &mut ClashReport) {
    let mut random = Random::seeded(seed ^ 0x636C_6173);
    let programs = clashing(seed, CLASHING).map(|(_, program)| program.image());
    let sound = accepted(seed ^ 0x736F_756E, ACCEPTED).map(|case| case.image);
    for image in programs.chain(sound).chain(vectors::images()) {
        compare_rooms(&image, &mut random, report);
        if let Some(marks) = compare_call(&image, rule_count(&image), &mut random, report) {
            compare_rules(&image, &marks, report);
        }
    }
    let made = MADE_BY_RULE.iter().flat_map(|(_, make)| make());
    let damaged = damaged(seed ^ 0x6D61_726B, DAMAGED).chain(made);
    for case in damaged.chain(changed()) {
        let room = random.pick(&[0, 1, MOST_RULES, MOST_RULES]);
        compare_call(&case.image, room, &mut random, report);
    }
}

/// Tables that are too short and too long.
fn compare_rooms(image: &[u8], random: &mut Random, report: &mut ClashReport) {
    let rules = rule_count(image);
    let longer = rules + random.between(2, 500);
    for room in [0, rules.saturating_sub(1), rules + 1, MOST_RULES, longer] {
        compare_call(image, room, random, report);
    }
}

/// Calls both with equal tables; returns the library's marks, if both agree in all and marked.
fn compare_call(
    image: &[u8],
    room: usize,
    random: &mut Random,
    report: &mut ClashReport,
) -> Option<Vec<u8>> {
    let call = Call {
        name: "clash",
        image,
        numbers: &[],
        reference: &|marks| reference::clash(image, marks),
        library: &|marks| library::clash(image, marks),
    };
    call.compare(room, random, &mut report.results, &mut report.faults)
}

/// The marked rules in images of their own.
fn compare_rules(image: &[u8], marks: &[u8], report: &mut ClashReport) {
    let program = Description::of_image(image);
    let marked = program.rules.iter().zip(marks);
    let marked = marked.filter(|(_, &mark)| mark == 1);
    let alone = Description {
        atoms: program.atoms,
        rules: marked.map(|(rule, _)| rule.clone()).collect(),
        pairs: Vec::new(),
    };
    let mut sound = library::check(&alone.image()) == CONTRADICTION;
    for left_out in 0..alone.rules.len() {
        let mut rest = alone.clone();
        rest.rules.remove(left_out);
        sound &= library::check(&rest.image()) == 0;
    }
    report.needed += alone.rules.len();
    report.largest = report.largest.max(alone.rules.len());
    if !sound {
        let told = [("clash: no minimal clash is marked", format!("{marks:?}"))];
        report.faults.differed(image, &told);
    }
}

impl ClashReport {
    /// Prints the summary; true if nothing differed and enough was seen.
    pub fn finish(mut self) -> bool {
        let causes: Vec<u32> = (1..=13).chain([28, 29]).collect();
        let wanted = Wanted {
            causes: &causes,
            written: LEAST_MARKED,
            longest: MOST_RULES,
        };
        self.results.finish("clash", wanted, &mut self.faults);
        let (needed, largest) = (self.needed, self.largest);
        println!("clash: {needed} marked rules left out; the largest clash has {largest}");
        self.faults
            .demand("clash: enough left out", needed >= LEAST_NEEDED);
        self.faults.demand("clash: a large clash", largest > 60);
        self.faults.finish("clash")
    }
}
