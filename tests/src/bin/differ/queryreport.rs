//! Counting and the summary of the query's and the C call's comparison.

use std::collections::BTreeMap;

use foqtirel_tests::reference::{Answer, Cause, Code, Refusal};

use crate::images::Images;
use crate::report::Faults;

const LEAST_PROGRAMS: usize = 10_000;
const LEAST_CHAINED: usize = 2_000;
const LEAST_DAMAGED: usize = 20_000;
/// Each size of forest must be seen so often.
const LEAST_FORESTS: usize = 100;
const CODES: [Code; 5] = [
    Code::Yes,
    Code::No,
    Code::Undecided,
    Code::Unknown,
    Code::Unfinished,
];
/// One more than the greatest literal that is asked about for each image.
pub const LITERALS: usize = 131;

/// The results of one call, by answer and by refusal.
#[derive(Default)]
struct Results {
    calls: usize,
    answers: BTreeMap<Code, usize>,
    refusals: BTreeMap<Cause, usize>,
}

impl Results {
    fn count(&mut self, result: Result<Answer, Refusal>) {
        self.calls += 1;
        match result {
            Ok(answer) => *self.answers.entry(answer.code).or_default() += 1,
            Err(refusal) => *self.refusals.entry(refusal.cause).or_default() += 1,
        }
    }

    /// Prints the counts and demands some of each, but for causes that the call can't give.
    fn finish(&self, name: &str, never: &[Cause], faults: &mut Faults) {
        println!("{name}: {} calls agreed", self.calls);
        let mut line = String::new();
        for code in CODES {
            let seen = self.answers.get(&code).copied().unwrap_or(0);
            line += &format!(" {} {seen}", code.word());
            faults.demand(&format!("{name}: some {}", code.word()), seen > 0);
        }
        println!("{name}: answers:{line}");
        let mut line = String::new();
        for cause in Cause::ALL {
            let seen = self.refusals.get(&cause).copied().unwrap_or(0);
            line += &format!(" {}: {seen}", cause.number());
            let what = format!("{name}: refusal {}", cause.number());
            faults.demand(&what, (seen > 0) != never.contains(&cause));
        }
        println!("{name}: refusals:{line}");
    }
}

pub struct QueryReport {
    pub images: Images,
    pub faults: Faults,
    query: Results,
    host: Results,
    /// Calls by their literal.
    asked: [usize; LITERALS],
    /// Programs that were asked about all their literals.
    asked_wholly: usize,
    exact_tables: usize,
    /// Finished forests by how many digits their number of nodes has; none for an empty one.
    forests: [usize; 5],
    largest_forest: usize,
    kept_apart: usize,
    both_granted: usize,
}

impl Default for QueryReport {
    fn default() -> QueryReport {
        QueryReport {
            images: Images::default(),
            faults: Faults::default(),
            query: Results::default(),
            host: Results::default(),
            asked: [0; LITERALS],
            asked_wholly: 0,
            exact_tables: 0,
            forests: [0; 5],
            largest_forest: 0,
            kept_apart: 0,
            both_granted: 0,
        }
    }
}

impl QueryReport {
    pub fn query_agreed(&mut self, literal: u32, exact: bool, result: Result<Answer, Refusal>) {
        self.query.count(result);
        self.exact_tables += usize::from(exact && result.is_ok());
        if let Some(calls) = self.asked.get_mut(literal as usize) {
            *calls += 1;
        }
        if let Ok(answer) = result {
            if !matches!(answer.code, Code::Unknown | Code::Unfinished) {
                self.largest_forest = self.largest_forest.max(answer.nodes);
                self.forests[digits(answer.nodes)] += 1;
            }
        }
    }

    pub fn host_agreed(&mut self, result: Result<Answer, Refusal>) {
        self.host.count(result);
    }

    pub fn asked_wholly(&mut self) {
        self.asked_wholly += 1;
    }

    /// Two literals that exclude each other both got YES.
    pub fn both_granted(&mut self, image: &[u8], literals: String) {
        let opinions = [("both YES though they exclude each other", literals)];
        self.faults.differed(image, &opinions);
        self.both_granted += 1;
    }

    pub fn kept_apart(&mut self, pairs: usize) {
        self.kept_apart += pairs;
    }

    /// Prints the summary; true if nothing differed and enough was seen.
    pub fn finish(mut self) -> bool {
        let faults = &mut self.faults;
        self.images.finish("query", LEAST_PROGRAMS, faults);
        // Those are of calls that fill byte tables.
        let after_23 = |cause: &Cause| *cause > Cause::ArgumentTable;
        let mut never: Vec<Cause> = Cause::ALL.into_iter().filter(after_23).collect();
        self.query.finish("query", &never, faults);
        never.push(Cause::NodeTable);
        self.host.finish("C call", &never, faults);
        let least = self.asked.iter().min().copied().unwrap_or(0);
        println!(
            "query: {} answers in tables of the exact lengths; largest finished forest {}; each literal 0 to 130 at least {least} times",
            self.exact_tables, self.largest_forest
        );
        println!(
            "query: finished forests with 0, 1 to 9, 10 to 99, 100 to 999 and more nodes: {:?}",
            self.forests
        );
        println!(
            "query: {} programs asked about all their literals; {} pairs that exclude each other with YES to one, {} with YES to both",
            self.asked_wholly, self.kept_apart, self.both_granted
        );
        let chained = self.images.chained();
        println!("query: {chained} programs with chains of listed pairs");
        faults.demand("enough programs with chains", chained >= LEAST_CHAINED);
        let damaged = self.images.damaged();
        faults.demand("enough damaged images", damaged >= LEAST_DAMAGED);
        faults.demand("each literal 0 to 130", least > 0);
        let every = self.forests.iter().all(|&forests| forests >= LEAST_FORESTS);
        faults.demand("enough forests of every size", every);
        faults.demand("answers in exact tables", self.exact_tables > 0);
        faults.demand("the greatest budget used up", self.largest_forest == 4096);
        faults.demand("some pairs kept apart", self.kept_apart > 0);
        faults.finish("query")
    }
}

fn digits(number: usize) -> usize {
    number.checked_ilog10().map_or(0, |log| log as usize + 1)
}
