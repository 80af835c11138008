//! Bills: reference and library, each with its shares and its refusal. And of the library by itself: the lines in another order
//! make the same bill.

use std::collections::BTreeMap;

use foqtirel_binding as library;
use foqtirel_tests::generator::bill::{bad_lines, bills, SHAPES};
use foqtirel_tests::generator::Random;
use foqtirel_tests::reference::bill::{Line, BRANCHES};
use foqtirel_tests::reference::{self, Refusal};
use foqtirel_tests::vectors;

use crate::report::Faults;
use crate::results::demand_each;

const BILLS: usize = 180_000;

const LEAST_SHARED: usize = 100_000;
const LEAST_PER_SHAPE: usize = 9_000;
const LEAST_PER_CAUSE: usize = 9_000;
/// So often each number of cents must have been missing.
const LEAST_PER_MISSING: usize = 1_000;
/// The share of a branch with nothing but the dearest lines.
const MOST_SHARE: u32 = 773_161;

#[derive(Default)]
pub struct BillReport {
    faults: Faults,
    by_shape: BTreeMap<&'static str, usize>,
    by_cause: BTreeMap<u32, usize>,
    /// Shared bills by how many cents went to branches beyond their own parts.
    by_missing: BTreeMap<u32, usize>,
    largest: u32,
}

pub fn compare(seed: u64, report: &mut BillReport) {
    let mut random = Random::seeded(seed ^ 0x6269_6C6C);
    for (shape, lines) in bills(seed ^ 0x6C69_6E65, BILLS) {
        if compare_bill(&lines, report) {
            compare_order(&lines, &mut random, report);
        }
        *report.by_shape.entry(shape).or_default() += 1;
    }
    for vector in vectors::bills() {
        compare_bill(&vector.lines, report);
    }
    for bad in bad_lines() {
        compare_bill(&[bad], report);
    }
}

/// True if both agree in all and shared the bill out.
fn compare_bill(lines: &[u64], report: &mut BillReport) -> bool {
    let wanted = reference::bill(lines);
    let given = library::bill(lines);
    if given != in_c(wanted) {
        let told = [
            ("reference", format!("{wanted:?}")),
            ("library", format!("{given:?}")),
        ];
        report.faults.bill_differed(lines, &told);
        return false;
    }
    match wanted {
        Ok(shares) => {
            *report
                .by_missing
                .entry(missing(lines, &shares))
                .or_default() += 1;
            report.largest = shares.into_iter().fold(report.largest, u32::max);
        }
        Err(refusal) => *report.by_cause.entry(refusal.cause.number()).or_default() += 1,
    }
    wanted.is_ok()
}

/// What the call for C returns for a result of the reference.
fn in_c(result: Result<[u32; BRANCHES], Refusal>) -> library::Billed {
    let (number, place) = match result {
        Ok(_) => (0, 0),
        Err(refusal) => (refusal.cause.number(), refusal.place as u32),
    };
    library::Billed {
        number,
        place,
        shares: result.unwrap_or_default(),
    }
}

fn missing(lines: &[u64], shares: &[u32; BRANCHES]) -> u32 {
    let mut sums = [0; BRANCHES];
    for line in lines.iter().copied().map(Line::of_number) {
        sums[line.branch as usize] += line.cost();
    }
    let own: u32 = sums.iter().map(|sum| 88 * sum / 100).sum();
    shares.iter().sum::<u32>() - own
}

fn compare_order(lines: &[u64], random: &mut Random, report: &mut BillReport) {
    let mut others = lines.to_vec();
    random.shuffle(&mut others);
    let (given, of_others) = (library::bill(lines), library::bill(&others));
    if given != of_others {
        let told = format!("{of_others:?} of {others:#X?}");
        let told = [("bill: another order has", told)];
        report.faults.bill_differed(lines, &told);
    }
}

impl BillReport {
    /// Prints the summary; true if nothing differed and enough was seen.
    pub fn finish(mut self) -> bool {
        let faults = &mut self.faults;
        let (largest, shared) = (self.largest, self.by_missing.values().sum::<usize>());
        println!("bill: {shared} bills shared out, the largest share {largest} cents");
        println!("bill: by missing cents: {:?}", self.by_missing);
        println!("bill: refusals: {:?}", self.by_cause);
        faults.demand("bill: enough shared out", shared >= LEAST_SHARED);
        faults.demand("bill: the largest share", largest == MOST_SHARE);
        let causes = self.by_cause.keys().copied();
        faults.demand("bill: no other cause", causes.eq([34, 35]));
        let shapes = SHAPES.iter().map(|&(name, _)| name);
        demand_each(
            faults,
            "bill: shape",
            shapes,
            &self.by_shape,
            LEAST_PER_SHAPE,
        );
        demand_each(
            faults,
            "bill: cause",
            34..=35,
            &self.by_cause,
            LEAST_PER_CAUSE,
        );
        demand_each(
            faults,
            "bill: missing",
            0..=BRANCHES as u32,
            &self.by_missing,
            LEAST_PER_MISSING,
        );
        faults.finish("bill")
    }
}
