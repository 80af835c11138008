//! A sample of calls to run under a memory checker: every vector, sound programs, contradictory ones, damaged images, bills.
//!
//! The image, the lines of a bill and the tables are allocations of exactly the length that the call is told, and the
//! tables are not written before. So a step outside them shows, and so does an answer that depends
//! on what stood in a table, or an entry that was left out. What the answers should be is for
//! `differ` to say.

use std::process::ExitCode;

use foqtirel_binding::raw::{
    foqtirel_bill, foqtirel_clash, foqtirel_file, foqtirel_list, foqtirel_trees, foqtirel_unfile,
};
use foqtirel_binding::{answered, answered_with_trees, check, granted, query, Node};
use foqtirel_tests::generator::accepted::small_programs;
use foqtirel_tests::generator::bill::{bad_lines, bills, longest};
use foqtirel_tests::generator::clash::clashing;
use foqtirel_tests::generator::filing::alike;
use foqtirel_tests::generator::late::late;
use foqtirel_tests::generator::lengths::{cut_and_continued, greatest};
use foqtirel_tests::generator::unfiling::faulty;
use foqtirel_tests::generator::{accepted, chained, damaged};
use foqtirel_tests::reference::image::defeasible_rules;
use foqtirel_tests::vectors;

const SEED: u64 = 5;
/// More defeasible rules take a memory checker too long, but for a few calls on vectors.
const MOST_RULES: usize = 10;
/// More than any image of the sample has arguments, but for one vector.
const MOST_ARGUMENTS: usize = 4096;
/// The part of as many lines as there may be, all of them the dearest.
const MOST_SHARE: u32 = 773_161;

fn main() -> ExitCode {
    let mut counts = Counts::default();
    run(&mut counts);
    println!(
        "{} calls: {} answers, {} refusals; {} entries looked at, {} of them odd",
        counts.answers + counts.refusals,
        counts.answers,
        counts.refusals,
        counts.entries,
        counts.odd
    );
    let enough = counts.answers > 3_000 && counts.refusals > 3_000 && counts.entries > 50_000;
    if enough && counts.odd == 0 {
        ExitCode::SUCCESS
    } else {
        ExitCode::FAILURE
    }
}

#[derive(Default)]
struct Counts {
    answers: usize,
    refusals: usize,
    entries: usize,
    odd: usize,
}

fn run(counts: &mut Counts) {
    for image in vectors::images() {
        let slow = defeasible_rules(&image) > MOST_RULES;
        let literals: &[u32] = if slow { &[20, 22] } else { &[0, 2, 20, 22, 28] };
        for &literal in literals {
            ask(&image, literal, 4096, 0, counts);
        }
        ask(&image, 127, 7, 1, counts);
    }
    let programs = accepted(SEED, 60).chain(small_programs(SEED, 40));
    for (turn, case) in programs.chain(chained(SEED, 22)).enumerate() {
        if defeasible_rules(&case.image) <= MOST_RULES {
            for literal in [0, 3, 4, turn as u32] {
                ask(&case.image, literal, 4096, turn % 3, counts);
                ask(&case.image, literal, turn as u32 % 9, 0, counts);
            }
        }
    }
    for (turn, case) in damaged(SEED, 300).enumerate() {
        if defeasible_rules(&case.image) <= MOST_RULES {
            ask(&case.image, turn as u32 % 131, 12, turn % 3, counts);
        }
    }
    // Where an image ends early, or is refused when nearly all of it has been read.
    for case in cut_and_continued().into_iter().chain(late()) {
        let image: Box<[u8]> = case.image.into();
        counts.result(granted(check(&image)).is_ok());
        let rules = rule_count(&image);
        clash(&image, 0, counts);
        file(&image, (image.len(), rules), counts);
        unfile(&image, &vec![0; rules], 0, image.len(), counts);
    }
    for (turn, (_, program)) in clashing(SEED, 180).enumerate() {
        let image: Box<[u8]> = program.image().into();
        clash(&image, turn % 3, counts);
    }
    for longest in [greatest(), alike()] {
        there_and_back(&longest.image(), 0, counts);
    }
    let vectors = vectors::bills().into_iter().map(|vector| vector.lines);
    let made = bills(SEED, 540).map(|(_, lines)| lines);
    let bad = bad_lines().into_iter().map(|line| vec![line]);
    for lines in vectors.chain(made).chain(bad).chain([longest()]) {
        bill(&lines, counts);
    }
}

/// A bill, with every number of what comes back looked at: a share is at most the part of the dearest lines, and 0 with a
/// refusal.
fn bill(lines: &[u64], counts: &mut Counts) {
    let lines: Box<[u64]> = lines.into();
    // SAFETY: the pointer and the length are those of the allocation.
    let billed = unsafe { foqtirel_bill(lines.as_ptr(), lines.len()) };
    counts.result(billed.number == 0);
    counts.entries += billed.shares.len();
    let most = if billed.number == 0 { MOST_SHARE } else { 0 };
    counts.odd += billed.shares.iter().filter(|&&share| share > most).count();
    let outside = billed.place != 0 && billed.place as usize >= lines.len();
    counts.odd += usize::from(outside);
}

/// One literal by every call, and with a table too short by an entry.
fn ask(image: &[u8], literal: u32, budget: u32, more: usize, counts: &mut Counts) {
    let image: Box<[u8]> = image.into();
    counts.result(granted(check(&image)).is_ok());
    clash(&image, more, counts);
    there_and_back(&image, more, counts);
    counts.result(answered(query(&image, literal, budget)).is_ok());
    let count = list(&image, MOST_ARGUMENTS, counts).unwrap_or(more);
    let nodes = budget as usize;
    for (room, node_room) in [
        (count + more, nodes + more),
        (count.saturating_sub(1), nodes),
        (count, nodes.saturating_sub(1)),
    ] {
        list(&image, room, counts);
        trees(&image, literal, budget, (room, node_room), count, counts);
    }
}

/// The number of rules that an image says it has.
fn rule_count(image: &[u8]) -> usize {
    image.get(2).copied().unwrap_or(0).into()
}

/// What clashes, with so many bytes more than are needed and with one too few.
fn clash(image: &[u8], more: usize, counts: &mut Counts) {
    let rules = rule_count(image);
    for room in [rules.saturating_sub(1), rules + more] {
        let mut marks: Vec<u8> = Vec::with_capacity(room);
        // SAFETY: pointers and lengths are those of the allocations, and the call has written as many bytes as it says.
        let given = unsafe {
            let table = marks.as_mut_ptr();
            let given = granted(foqtirel_clash(image.as_ptr(), image.len(), table, room));
            marks.set_len(room.min(given.unwrap_or(0) as usize));
            given
        };
        counts.result(given.is_ok());
        counts.entries += marks.len();
        counts.odd += marks.iter().filter(|&&mark| mark > 1).count();
    }
}

/// Filed and back again, with so many entries more than are needed; with each table too short by an entry; and with faulty
/// numbers.
fn there_and_back(image: &[u8], more: usize, counts: &mut Counts) {
    let (length, rules) = (image.len(), rule_count(image));
    file(image, (length.saturating_sub(1), rules), counts);
    file(image, (length, rules.saturating_sub(1)), counts);
    let Some((form, numbers)) = file(image, (length + more, rules + more), counts) else {
        return unfile(image, &vec![0; rules], more, length, counts);
    };
    unfile(&form, &numbers, more, length + more, counts);
    unfile(&form, &numbers, more, length - 1, counts);
    let short = &numbers[..rules.saturating_sub(1)];
    unfile(&form, short, 0, length, counts);
    for numbers in faulty(&numbers).iter().step_by(4) {
        unfile(&form, numbers, more, length, counts);
    }
}

/// A filed form and its old numbers. The form is checked, which depends on every byte of it; the way back depends on every
/// number.
fn file(
    image: &[u8],
    (room, number_room): (usize, usize),
    counts: &mut Counts,
) -> Option<(Box<[u8]>, Vec<u8>)> {
    let mut out: Vec<u8> = Vec::with_capacity(room);
    let mut numbers: Vec<u8> = Vec::with_capacity(number_room);
    // SAFETY: pointers and lengths are those of the allocations, and the call has written as many bytes as it says.
    let filed = unsafe {
        let given = granted(foqtirel_file(
            image.as_ptr(),
            image.len(),
            out.as_mut_ptr(),
            room,
            numbers.as_mut_ptr(),
            number_room,
        ));
        if let Ok(length) = given {
            out.set_len(room.min(length as usize));
            numbers.set_len(number_room.min(rule_count(image)));
        }
        given.is_ok()
    };
    counts.result(filed);
    counts.entries += out.len() + numbers.len();
    counts.odd += usize::from(filed && granted(check(&out)).is_err());
    filed.then(|| (out.into(), numbers))
}

/// Back to old order, from a table of these numbers and so many entries more that are not written. What comes of it is
/// checked.
fn unfile(image: &[u8], numbers: &[u8], more: usize, room: usize, counts: &mut Counts) {
    let count = numbers.len() + more;
    let mut lent: Vec<u8> = Vec::with_capacity(count);
    lent.extend(numbers);
    let mut out: Vec<u8> = Vec::with_capacity(room);
    // SAFETY: pointers and lengths are those of the allocations, and the call has written as many bytes as it says.
    let unfiled = unsafe {
        let (bytes, table) = (image.as_ptr(), out.as_mut_ptr());
        let given = foqtirel_unfile(bytes, image.len(), lent.as_ptr(), count, table, room);
        let given = granted(given);
        out.set_len(room.min(given.unwrap_or(0) as usize));
        given.is_ok()
    };
    counts.result(unfiled);
    counts.entries += out.len();
    counts.odd += usize::from(unfiled && granted(check(&out)).is_err());
}

/// The number of arguments, unless the list is refused.
fn list(image: &[u8], room: usize, counts: &mut Counts) -> Option<usize> {
    let mut arguments: Vec<u32> = Vec::with_capacity(room);
    // SAFETY: pointers and lengths are those of the allocations, and the call has written as many entries as it says.
    let listed = unsafe {
        let table = arguments.as_mut_ptr();
        let given = granted(foqtirel_list(image.as_ptr(), image.len(), table, room));
        if let Ok(count) = given {
            arguments.set_len(room.min(count as usize));
        }
        given
    };
    counts.result(listed.is_ok());
    counts.look_at(&arguments, &[]);
    listed.ok().map(|count| count as usize)
}

fn trees(
    image: &[u8],
    literal: u32,
    budget: u32,
    (room, node_room): (usize, usize),
    count: usize,
    counts: &mut Counts,
) {
    let mut arguments: Vec<u32> = Vec::with_capacity(room);
    let mut nodes: Vec<Node> = Vec::with_capacity(node_room);
    // SAFETY: pointers and lengths are those of the allocations; what the call answers makes the entries that are
    // looked at below written ones.
    unsafe {
        let given = answered_with_trees(foqtirel_trees(
            image.as_ptr(),
            image.len(),
            literal,
            budget,
            arguments.as_mut_ptr(),
            room,
            nodes.as_mut_ptr(),
            node_room,
        ));
        counts.result(given.is_ok());
        if let Ok(answer) = given {
            arguments.set_len(room.min(count));
            nodes.set_len(node_room.min(answer.nodes as usize));
        }
    }
    counts.look_at(&arguments, &nodes);
}

impl Counts {
    fn result(&mut self, answered: bool) {
        if answered {
            self.answers += 1;
        } else {
            self.refusals += 1;
        }
    }

    /// Branches on all of every entry, which is what a memory checker notices.
    fn look_at(&mut self, arguments: &[u32], nodes: &[Node]) {
        self.entries += arguments.len() + nodes.len();
        self.odd += arguments.windows(2).filter(|two| two[0] >= two[1]).count();
        for (number, node) in nodes.iter().enumerate() {
            let inside = (node.argument as usize) < arguments.len().max(1);
            let before = node.parent as usize <= number;
            let known = node.kind <= 2 && node.mark <= 2;
            self.odd += usize::from(!inside) + usize::from(!before) + usize::from(!known);
        }
    }
}
