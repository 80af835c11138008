//! The queries and the runs of `advise` that take the most, of every literal of every vector and of every image that is
//! timed. All are timed; only the slowest queries are counted, since counting takes a hundred times as long.

use std::collections::BTreeSet;
use std::time::Instant;

use crate::anchor;
use crate::calls::{proved, Call, Tables};
use crate::cases::{self, Case};
use crate::child::{advised, instructions, Side};
use crate::measuring::{end_of_table, progress, word, PATIENCE};
use crate::table::shown;
use foqtirel_binding::answered_with_trees;
use foqtirel_tests::reference::Code;
use foqtirel_tests::vectors;

/// The instructions of a query with the greatest budget, and the seconds of a run of `advise`.
const MOST_INSTRUCTIONS: u64 = 200_000_000;
const MOST_SECONDS: f64 = 2.0;
/// How many of the slowest are shown, each of another image.
const SHOWN: usize = 10;
/// Seconds of a run in which an interruption does not show.
const LONG: f64 = 0.1;

/// Each sound image once, if its name has the text in it.
fn images(only: &str) -> Vec<Case> {
    let case = |(name, image)| Case {
        name,
        image,
        literal: 0,
        calls: &[],
    };
    // Those of the requests come after the ones with names.
    let named = vectors::names("img").into_iter();
    let names = named.chain((1..).map(|number| format!("request image {number}")));
    let vectors = names.zip(vectors::images()).map(case);
    let timed = cases::all().into_iter();
    let anchored = anchor::all().into_iter().map(|image| image.case);
    let mut seen = BTreeSet::new();
    anchored
        .chain(vectors)
        .chain(timed.filter(|case| !case.calls.contains(&Call::Bill)))
        .filter(|case| case.name.contains(only))
        .filter(|case| proved(Call::Check, &case.image, 0, &mut Tables::new()) == 0)
        .filter(|case| seen.insert(case.image.clone()))
        .collect()
}

/// The number of literals that the image has an answer for.
fn literals(case: &Case) -> u32 {
    2 * u32::from(case.image[0])
}

/// Prints the slowest of both, and holds them against the targets.
pub fn table(only: &str) {
    let cases = images(only);
    if cases.is_empty() {
        return;
    }
    let queries: u32 = cases.iter().map(literals).sum();
    println!("of {queries} queries on {} images\n", cases.len());
    let advised = slowest_advised(&cases);
    println!("image              advise s");
    for (seconds, case) in &advised {
        println!("{:<18} {seconds:>8.3}", case.name);
    }
    advise_line(&advised);
    println!();
    counted(&slowest(cases.into_iter().map(with_slowest_literal)));
}

/// Some of those with their seconds, from the slowest on.
fn slowest<Timed>(all: impl Iterator<Item = (f64, Timed)>) -> Vec<(f64, Timed)> {
    let mut all: Vec<(f64, Timed)> = all.collect();
    all.sort_by(|one, other| other.0.total_cmp(&one.0));
    all.truncate(SHOWN);
    all
}

fn slowest_advised(cases: &[Case]) -> Vec<(f64, &Case)> {
    slowest(cases.iter().map(|case| (advise_seconds(case), case)))
}

fn advise_seconds(case: &Case) -> f64 {
    progress(&format!("advise, {}", case.name));
    let start = Instant::now();
    advised(&case.image);
    start.elapsed().as_secs_f64()
}

/// Holds the slowest run of `advise` against the target.
pub fn advise_target(only: &str) {
    advise_line(&slowest_advised(&images(only)));
}

fn advise_line(slowest: &[(f64, &Case)]) {
    if let Some((seconds, case)) = slowest.first() {
        println!(
            "advise: at most {seconds:.2} s ({}), target {MOST_SECONDS} s: {}",
            case.name,
            word(*seconds < MOST_SECONDS)
        );
    }
}

/// The shorter of two runs where an interruption of one would show.
fn query_seconds(case: &Case) -> f64 {
    let mut lent = Tables::new();
    let mut once = || {
        let start = Instant::now();
        proved(Call::Query, &case.image, case.literal, &mut lent);
        start.elapsed().as_secs_f64()
    };
    let first = once();
    if first > LONG {
        first
    } else {
        first.min(once())
    }
}

fn with_slowest_literal(mut case: Case) -> (f64, Case) {
    progress(&format!("queries, {}", case.name));
    let mut most = (0.0, 0);
    for literal in 0..literals(&case) {
        case.literal = literal;
        let seconds = query_seconds(&case);
        if seconds > most.0 {
            most = (seconds, literal);
        }
    }
    case.literal = most.1;
    (most.0, case)
}

/// Counts these queries, and holds the one with the most instructions against the target.
fn counted(queries: &[(f64, Case)]) {
    println!("image              literal  query ms   instructions");
    let count = |(seconds, case): &(f64, Case)| {
        progress(&format!("query, {}", case.name));
        let count = instructions(case, Call::Query, Side::Proved, PATIENCE);
        println!(
            "{:<18} {:>7} {:>9.2} {:>14}{}",
            case.name,
            case.literal,
            1e3 * seconds,
            shown(count),
            if unfinished(case) { " unfinished" } else { "" }
        );
        count
    };
    let counts: Vec<Option<u64>> = queries.iter().map(count).collect();
    end_of_table(PATIENCE);
    let known: Option<Vec<u64>> = counts.into_iter().collect();
    let most = known.and_then(|counts| counts.into_iter().max());
    println!(
        "query: at most {} instructions, target {MOST_INSTRUCTIONS}: {}",
        shown(most),
        word(most.is_some_and(|most| most < MOST_INSTRUCTIONS))
    );
}

fn unfinished(case: &Case) -> bool {
    let result = proved(Call::Query, &case.image, case.literal, &mut Tables::new());
    answered_with_trees(result).is_ok_and(|answer| answer.code == Code::Unfinished.number())
}
