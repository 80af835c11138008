//! Runs the proved library against the reference and against what is known from construction.
//!
//! `differ [seed] [damaged images] [accepted images]`; the two counts are those of the check, which takes all that are made by
//! rule besides. `--query` compares queries alone, `--file` filing and the way back alone, `--clash` clashes alone, `--bill` bills
//! alone.

mod bill;
mod check;
mod clash;
mod file;
mod filereport;
mod granted;
mod images;
mod list;
mod listreport;
mod query;
mod queryreport;
mod report;
mod results;
mod unfile;

use std::process::ExitCode;

const DEFAULT_SEED: u64 = 1;
const DEFAULT_DAMAGED: usize = 24_000;
const DEFAULT_ACCEPTED: usize = 6_000;

fn main() -> ExitCode {
    let mut alone: Option<&str> = None;
    let mut numbers: Vec<u64> = Vec::new();
    for word in std::env::args().skip(1) {
        match word.parse() {
            _ if word == "--query" => alone = Some("query"),
            _ if word == "--file" => alone = Some("file"),
            _ if word == "--clash" => alone = Some("clash"),
            _ if word == "--bill" => alone = Some("bill"),
            Ok(number) => numbers.push(number),
            Err(_) => {
                let alone = "[--query | --file | --clash | --bill]";
                eprintln!("usage: differ {alone} [seed] [damaged] [accepted]");
                return ExitCode::from(2);
            }
        }
    }
    let seed = numbers.first().copied().unwrap_or(DEFAULT_SEED);
    let count = |position: usize, default: usize| {
        numbers
            .get(position)
            .map_or(default, |&number| number as usize)
    };
    let damaged = count(1, DEFAULT_DAMAGED);
    let accepted = count(2, DEFAULT_ACCEPTED);
    println!("seed {seed}, {damaged} damaged images, {accepted} accepted ones");

    let mut sound = true;
    let wanted = |part: &str| alone.is_none_or(|alone| alone == part);
    if wanted("check") {
        let mut report = report::Report::default();
        check::compare(seed, damaged, accepted, &mut report);
        sound &= report.finish();
    }
    if wanted("clash") {
        let mut report = clash::ClashReport::default();
        clash::compare(seed, &mut report);
        sound &= report.finish();
    }
    if wanted("bill") {
        let mut report = bill::BillReport::default();
        bill::compare(seed, &mut report);
        sound &= report.finish();
    }
    if wanted("file") {
        let mut report = filereport::FileReport::default();
        file::compare(seed, &mut report);
        sound &= report.finish();
    }
    if wanted("list") {
        let mut report = listreport::ListReport::default();
        list::compare(seed, &mut report);
        sound &= report.finish();
    }
    if wanted("query") {
        let mut report = queryreport::QueryReport::default();
        query::compare(seed, &mut report);
        sound &= report.finish();
    }
    if sound {
        ExitCode::SUCCESS
    } else {
        ExitCode::FAILURE
    }
}
