//! Counting and the summary of the comparison of filing and of the way back.

use std::collections::BTreeMap;

use foqtirel_binding::{self as library, Answer};
use foqtirel_tests::generator::filing::CHANGES;

use crate::report::Faults;
use crate::results::{demand_each, Results, Wanted};

const LEAST_FILED: usize = 40_000;
const LEAST_BACK: usize = 20_000;
/// So many other orders must have the same form, and so many forms go back and there again.
const LEAST_ORDERS: usize = 10_000;
const LEAST_PER_CHANGE: usize = 20;
const LEAST_PER_RESULT: usize = 100;

#[derive(Default)]
pub struct FileReport {
    pub faults: Faults,
    pub filing: Results,
    pub unfiling: Results,
    orders: usize,
    ways_back: usize,
    by_change: BTreeMap<&'static str, usize>,
    /// What an image and its filed form were both asked: answers by their code, refusals by their number.
    answers: BTreeMap<u32, usize>,
    refusals: BTreeMap<u32, usize>,
}

impl FileReport {
    pub fn order(&mut self, image: &[u8], same: bool) {
        self.orders += 1;
        if !same {
            let told = [("filing: another order has", "another form".to_string())];
            self.faults.differed(image, &told);
        }
    }

    /// Whether an image came back as it was.
    pub fn way_back(&mut self, image: &[u8], same: bool) {
        self.ways_back += 1;
        if !same {
            let told = [("unfiling: there and back gives", "other bytes".to_string())];
            self.faults.differed(image, &told);
        }
    }

    pub fn change(&mut self, image: &[u8], name: &'static str, another: bool) {
        *self.by_change.entry(name).or_default() += 1;
        if !another {
            self.faults
                .differed(image, &[("filing: no change seen", name.to_string())]);
        }
    }

    pub fn answer(&mut self, image: &[u8], call: &str, given: u64, of_form: u64) {
        if given != of_form {
            let results = format!("{given:#x} of the image, {of_form:#x} of its filed form");
            self.faults.differed(image, &[(call, results)]);
        }
    }

    pub fn asked(&mut self, result: Result<Answer, library::Refusal>) {
        let seen = match result {
            Ok(answer) => self.answers.entry(answer.code),
            Err(refusal) => self.refusals.entry(refusal.number),
        };
        *seen.or_default() += 1;
    }

    /// Prints the summary; true if nothing differed and enough was seen.
    pub fn finish(mut self) -> bool {
        let faults = &mut self.faults;
        for (call, results, last_cause, written) in [
            ("file", &self.filing, 25, LEAST_FILED),
            ("unfile", &self.unfiling, 26, LEAST_BACK),
        ] {
            let causes: Vec<u32> = (1..=14).chain(24..=last_cause).collect();
            let wanted = Wanted {
                causes: &causes,
                written,
                longest: 1836,
            };
            results.finish(call, wanted, faults);
        }
        let (orders, ways_back) = (self.orders, self.ways_back);
        println!("file: {orders} other orders; {ways_back} ways back, or back and there");
        println!("file: changes: {:?}", self.by_change);
        println!(
            "file: asked of both: answers {:?}, refusals {:?}",
            self.answers, self.refusals
        );
        faults.demand("file: enough orders", orders >= LEAST_ORDERS);
        faults.demand("file: enough ways back", ways_back >= LEAST_ORDERS);
        let changes = CHANGES.iter().map(|&(name, _)| name);
        demand_each(
            faults,
            "file: change",
            changes,
            &self.by_change,
            LEAST_PER_CHANGE,
        );
        demand_each(
            faults,
            "file: answer",
            1..=5,
            &self.answers,
            LEAST_PER_RESULT,
        );
        demand_each(
            faults,
            "file: refusal",
            20..=23,
            &self.refusals,
            LEAST_PER_RESULT,
        );
        faults.finish("file")
    }
}
