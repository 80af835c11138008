//! Counting, progress lines and the summary.

use std::collections::BTreeMap;

use foqtirel_tests::generator::Verdict;

const PROGRESS_EVERY: usize = 50_000;
/// Each of the causes 1 to 14 must be seen so often.
const LEAST_PER_CAUSE: usize = 100;
/// Differences beyond these are counted but not printed.
const MOST_PRINTED: usize = 20;

/// What went wrong in a comparison.
#[derive(Default)]
pub struct Faults {
    differences: usize,
    unmet: usize,
}

impl Faults {
    pub fn differed(&mut self, image: &[u8], opinions: &[(&str, String)]) {
        let bytes = image.iter().map(|byte| format!("{byte:02X}"));
        self.print("an image", "bytes", bytes, opinions);
    }

    pub fn bill_differed(&mut self, lines: &[u64], opinions: &[(&str, String)]) {
        let lines = lines.iter().map(|line| format!("{line:X}"));
        self.print("a bill", "lines", lines, opinions);
    }

    /// Counts a difference, and prints it with all of what it is about.
    fn print(
        &mut self,
        what: &str,
        parts: &str,
        hexadecimal: impl Iterator<Item = String>,
        opinions: &[(&str, String)],
    ) {
        self.differences += 1;
        if self.differences > MOST_PRINTED {
            return;
        }
        let hexadecimal: Vec<String> = hexadecimal.collect();
        println!("DIFFERENCE in {what} of {} {parts}", hexadecimal.len());
        for (who, what) in opinions {
            println!("  {who}: {what}");
        }
        println!("  {parts}: {}", hexadecimal.join(" "));
    }

    /// Something that must hold of the calls whatever the reference says.
    pub fn demand(&mut self, what: &str, holds: bool) {
        if !holds {
            self.unmet += 1;
            if self.unmet <= MOST_PRINTED {
                println!("NOT MET: {what}");
            }
        }
    }

    /// Prints the verdict; true if nothing went wrong.
    pub fn finish(&self, name: &str) -> bool {
        let sound = self.differences == 0 && self.unmet == 0;
        println!(
            "{name}: {} differences, {} demands not met: {}",
            self.differences,
            self.unmet,
            if sound { "passed" } else { "FAILED" }
        );
        sound
    }
}

#[derive(Default)]
pub struct Report {
    compared: usize,
    faults: Faults,
    by_cause: BTreeMap<u32, usize>,
}

impl Report {
    pub fn agreed(&mut self, verdict: Verdict) {
        *self.by_cause.entry(verdict.0).or_default() += 1;
        self.count_one();
    }

    pub fn differed(&mut self, image: &[u8], opinions: &[(&str, String)]) {
        self.faults.differed(image, opinions);
        self.count_one();
    }

    fn count_one(&mut self) {
        self.compared += 1;
        if self.compared.is_multiple_of(PROGRESS_EVERY) {
            println!("check: {} images", self.compared);
        }
    }

    /// Prints the summary; true if nothing differed and every cause was seen often enough.
    pub fn finish(mut self) -> bool {
        let seen = |cause: u32| self.by_cause.get(&cause).copied().unwrap_or(0);
        println!("accepted: {} images agreed", seen(0));
        for cause in 1..=14 {
            println!("cause {cause}: {} images agreed", seen(cause));
            let what = format!("cause {cause} at least {LEAST_PER_CAUSE} times");
            self.faults.demand(&what, seen(cause) >= LEAST_PER_CAUSE);
        }
        println!("check: {} images compared", self.compared);
        self.faults.finish("check")
    }
}
