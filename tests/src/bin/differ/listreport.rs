//! Counting and the summary of the list's comparison.

use crate::images::Images;
use crate::report::Faults;

const LEAST_PROGRAMS: usize = 5_000;
const LEAST_23: usize = 1_000;

#[derive(Default)]
pub struct ListReport {
    pub images: Images,
    pub faults: Faults,
    calls: usize,
    with_23: usize,
    with_other_causes: usize,
    longest_list: u64,
    longest_table: usize,
}

impl ListReport {
    pub fn agreed(&mut self, result: u64, table: usize) {
        self.calls += 1;
        self.longest_table = self.longest_table.max(table);
        match result >> 32 {
            0 => self.longest_list = self.longest_list.max(result),
            23 => self.with_23 += 1,
            _ => self.with_other_causes += 1,
        }
    }

    /// Prints the summary; true if nothing differed and enough was seen.
    pub fn finish(mut self) -> bool {
        self.images.finish("list", LEAST_PROGRAMS, &mut self.faults);
        println!(
            "list: {} calls agreed, {} refused with 23, {} with 1 to 14; longest list {}, longest table {}",
            self.calls, self.with_23, self.with_other_causes, self.longest_list, self.longest_table
        );
        let enough = self.with_23 >= LEAST_23;
        self.faults.demand("at least 1,000 refusals 23", enough);
        self.faults.finish("list")
    }
}
