//! The table of the calls, that of the calls against the anchor, and the targets.

use std::io::{stderr, IsTerminal};
use std::time::Duration;

use crate::anchor::{self, Against, Held};
use crate::calls::{plain, proved, Call, Tables};
use crate::cases::{self, Case};
use crate::child::{ends_within, instructions, Side};
use crate::table::{Row, HEAD};
use crate::timing::{best_alone, best_of};
use crate::worst;

/// The most that one call may take, by itself or counted; others are left out.
const LIMIT: Duration = Duration::from_secs(10);
/// The same where a bar waits for the count.
pub const PATIENCE: Duration = Duration::from_secs(60);
/// A counted call takes about so many times as long.
const COUNTING: u32 = 60;
/// About how long the turns of one row take together.
const TURNS_SECONDS: f64 = 4.0;
const MOST_TURNS: usize = 9;

/// A typical query's instructions, from the image's bytes to the answer.
const MOST_INSTRUCTIONS: u64 = 400_000;
/// How many times a check's instructions filing the longest image may take.
const MOST_FILING: f64 = 3.0;

/// Says what is measured of a program.
const ADVISE: &str = "advise: a whole run of the program; its time has the start of a process in it, its instructions are \
     those above a run on an empty input";

/// Prints the row of every call on the images whose name has the text in it.
pub fn table(only: &str) -> Vec<Row> {
    let mut cases = cases::all();
    cases.retain(|case| case.name.contains(only));
    if cases.is_empty() {
        return Vec::new();
    }
    println!("{HEAD}");
    let mut rows = Vec::new();
    for case in &cases {
        for &call in case.calls {
            progress(&format!("{}, {}", case.name, call.name()));
            rows.push(row(case, call));
            println!("{}", rows[rows.len() - 1].line());
        }
    }
    println!("{ADVISE}");
    end_of_table(LIMIT);
    rows
}

/// Says what is missing in a table.
pub fn end_of_table(limit: Duration) {
    println!("-: would take over {} s\n", limit.as_secs());
}

fn row(case: &Case, call: Call) -> Row {
    let lent = || Tables::for_call(call, &case.image);
    let (mut lent, mut other) = (lent(), lent());
    let ours = || proved(call, &case.image, case.literal, &mut lent);
    let theirs = || plain(call, &case.image, case.literal, &mut other);
    let alone = |side| ends_within(case, call, side, LIMIT);
    let (our_time, their_time) = (alone(Side::Proved), alone(Side::Plain));
    let (seconds, plain_seconds) = match our_time.zip(their_time) {
        Some((one, other)) => {
            let turns = (TURNS_SECONDS / (one + other).as_secs_f64()) as usize;
            let best = best_of(turns.clamp(2, MOST_TURNS), ours, theirs);
            (best.0, Some(best.1))
        }
        None => (best_alone(2, ours), None),
    };
    let count = |side, time: Option<Duration>| {
        time.filter(|&time| time * COUNTING < LIMIT)
            .and_then(|_| instructions(case, call, side, LIMIT))
    };
    Row {
        image: case.name.clone(),
        call: call.name().into(),
        proved: 1e6 * seconds,
        plain: plain_seconds.map(|seconds| 1e6 * seconds),
        instructions: count(Side::Proved, our_time),
        plain_instructions: count(Side::Plain, their_time),
        anchor: None,
    }
}

/// Prints what the calls take on the anchor's images whose name has the text in it, and what the anchor takes.
pub fn anchored(only: &str) -> Vec<Against> {
    let mut images = anchor::all();
    images.retain(|image| image.case.name.contains(only));
    if images.is_empty() {
        return Vec::new();
    }
    println!("{}", anchor::HEAD);
    let mut rows = Vec::new();
    for image in &images {
        for held in image.held {
            progress(&format!("{}, {}", image.case.name, held.call.name()));
            let row = counted(&image.case, held);
            let most = held.most;
            rows.push(Against { row, most });
            println!("{}", rows[rows.len() - 1].line());
        }
    }
    println!("{ADVISE}");
    println!("C call: held against the anchor's query; advise: against the anchor's call alone");
    end_of_table(PATIENCE);
    rows
}

/// The row of a call that the anchor makes and the reference does not.
fn counted(case: &Case, held: Held) -> Row {
    let call = held.call;
    let mut lent = Tables::new();
    let refused = proved(Call::Check, &case.image, case.literal, &mut lent);
    assert_eq!(refused, 0, "{} is refused", case.name);
    let ours = || proved(call, &case.image, case.literal, &mut lent);
    Row {
        image: case.name.clone(),
        call: call.name().into(),
        proved: 1e6 * best_alone(2, ours),
        plain: None,
        instructions: instructions(case, call, Side::Proved, PATIENCE),
        plain_instructions: None,
        anchor: Some(held.anchor),
    }
}

/// What filing an image and putting it back take, and what checking it does.
struct Filing<'a> {
    image: &'a str,
    check: u64,
    file: u64,
    unfile: u64,
}

impl Filing<'_> {
    fn times(&self, count: u64) -> f64 {
        count as f64 / self.check as f64
    }
}

/// The images for which all three were counted.
fn filings(rows: &[Row]) -> impl Iterator<Item = Filing<'_>> {
    let count = |image: &str, call: Call| {
        let row = |row: &&Row| row.image == image && row.call == call.name();
        rows.iter().find(row)?.instructions
    };
    let files = rows.iter().filter(|row| row.call == Call::File.name());
    files.filter_map(move |row| {
        Some(Filing {
            image: &row.image,
            check: count(&row.image, Call::Check)?,
            file: row.instructions?,
            unfile: count(&row.image, Call::Unfile)?,
        })
    })
}

/// Prints how many times a check's instructions filing takes, and the way back. The check is a part of both.
pub fn filed(rows: &[Row]) {
    if filings(rows).next().is_none() {
        return;
    }
    println!("image               check instr.   file instr.    ratio unfile instr.    ratio");
    for filing in filings(rows) {
        let Filing {
            image,
            check,
            file,
            unfile,
        } = filing;
        let [there, back] = [file, unfile].map(|count| filing.times(count));
        println!("{image:<18} {check:>13} {file:>13} {there:>8.2} {unfile:>13} {back:>8.2}");
    }
    println!();
}

/// Holds what was measured, and the time to advise on each image whose name has the text in it, against the targets.
pub fn targets(rows: &[Row], against: &[Against], only: &str) {
    for call in [Call::Query, Call::Host] {
        typical_target(rows, call);
    }
    file_target(rows);
    anchor_targets(against);
    worst::advise_target(only);
}

fn typical_target(rows: &[Row], call: Call) {
    let counts = rows
        .iter()
        .filter(|row| row.image.starts_with(cases::TYPICAL) && row.call == call.name())
        .filter_map(|row| row.instructions);
    if let Some(most) = counts.max() {
        println!(
            "typical {}: at most {most} instructions, target {MOST_INSTRUCTIONS}: {}",
            call.name(),
            word(most < MOST_INSTRUCTIONS)
        );
    }
}

fn file_target(rows: &[Row]) {
    if let Some(filing) = filings(rows).find(|filing| filing.image == cases::LONGEST) {
        let times = filing.times(filing.file);
        println!(
            "file against check on the longest image: {times:.2} times, target {MOST_FILING}: {}",
            word(times <= MOST_FILING)
        );
    }
}

/// Names the bars that do not hold.
fn anchor_targets(against: &[Against]) {
    let bars = against.iter().filter(|against| against.most.is_some());
    let bars = bars.count();
    if bars == 0 {
        return;
    }
    let complaints: Vec<String> = against.iter().filter_map(Against::complaint).collect();
    println!(
        "against the anchor: {} of {bars} bars do not hold",
        complaints.len()
    );
    for complaint in complaints {
        println!("  {complaint}");
    }
}

/// Shows on a terminal what is under way, to be written over by what comes next.
pub fn progress(text: &str) {
    if stderr().is_terminal() {
        eprint!("{text:<30}\r");
    }
}

pub fn word(met: bool) -> &'static str {
    if met {
        "met"
    } else {
        "missed"
    }
}
