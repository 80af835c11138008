//! The check of an image: construction, reference and library.

use foqtirel_tests::generator::{accepted, changed, damaged, Case, Verdict, MADE_BY_RULE};
use foqtirel_tests::reference;

use crate::report::Report;

pub fn compare(seed: u64, damaged_count: usize, accepted_count: usize, report: &mut Report) {
    let cases = damaged(seed, damaged_count).chain(accepted(!seed, accepted_count));
    for case in cases {
        compare_one(&case, report);
    }
    for (name, make) in MADE_BY_RULE {
        let cases = make();
        println!("check: {name}: {} images", cases.len());
        for case in cases {
            compare_one(&case, report);
        }
    }
    let mut changes = 0;
    for case in changed() {
        compare_one(&case, report);
        changes += 1;
    }
    println!("check: one byte or two or the parts changed: {changes} images");
}

fn compare_one(case: &Case, report: &mut Report) {
    let reference = reference_opinion(&case.image);
    let library = library_opinion(&case.image);
    let construction_agrees = case.expected.is_none_or(|expected| expected == reference);
    if construction_agrees && library == reference {
        report.agreed(reference);
    } else {
        let told = |(number, place): Verdict| format!("{number} {place}");
        let construction = case.expected.map_or("none".to_string(), told);
        report.differed(
            &case.image,
            &[
                ("construction", construction),
                ("reference", told(reference)),
                ("library", told(library)),
                ("note", case.note.clone()),
            ],
        );
    }
}

fn reference_opinion(image: &[u8]) -> Verdict {
    match reference::check(image) {
        Ok(()) => (0, 0),
        Err(refusal) => (refusal.cause.number(), refusal.place as u32),
    }
}

fn library_opinion(image: &[u8]) -> Verdict {
    let packed = foqtirel_binding::check(image);
    ((packed >> 32) as u32, packed as u32)
}
