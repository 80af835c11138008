//! The proved calls on the vectors, the fittings and every cause of a refusal in its order.

use std::collections::BTreeSet;
use std::ptr::{null, null_mut};
use std::thread;

use foqtirel_binding::{
    answered, answered_with_trees, check, clash, file, granted, list, query, raw, trees, unfile,
    Answer, Node, Refusal,
};
use foqtirel_tests::fittings::{F, FITTINGS};
use foqtirel_tests::generator::late::late;
use foqtirel_tests::generator::{damaged, Case, Description, MADE_BY_RULE};
use foqtirel_tests::reference::{self, Analysis, Cause, Code, NodeEntry};
use foqtirel_tests::vectors;

const TABLE: usize = 4096;
const SEED: u64 = 11;
const DAMAGED: usize = 3_000;

fn image(program: &str) -> Vec<u8> {
    Description::parse(program).expect("a program").image()
}

/// A literal's answer, by one of the two calls that give it.
type Call = fn(&[u8], u32, u32) -> Result<Answer, Refusal>;

fn by_trees(image: &[u8], literal: u32, budget: u32) -> Result<Answer, Refusal> {
    let mut arguments = vec![0; TABLE];
    let mut nodes = vec![Node::default(); TABLE];
    answered_with_trees(trees(image, literal, budget, &mut arguments, &mut nodes))
}

/// This call names no place, so 0 stands for it.
fn by_query(image: &[u8], literal: u32, budget: u32) -> Result<Answer, Refusal> {
    answered(query(image, literal, budget)).map_err(|number| refusal(number, 0))
}

fn refusal(number: u32, place: u32) -> Refusal {
    Refusal { number, place }
}

fn word(code: u32) -> &'static str {
    let codes = [
        Code::Yes,
        Code::No,
        Code::Undecided,
        Code::Unknown,
        Code::Unfinished,
    ];
    let known = codes.into_iter().find(|known| known.number() == code);
    known
        .unwrap_or_else(|| panic!("no answer has the code {code}"))
        .word()
}

/// What `advise` prints, by the list call and one of the calls that answer.
fn advise(image: &[u8], call: Call) -> String {
    let mut arguments = vec![0; TABLE];
    let count = match granted(list(image, &mut arguments)) {
        Ok(count) => count,
        Err(Refusal { number, place }) => return format!("refused {number} {place}\n"),
    };
    let mut text = format!("arguments {count}\n");
    for literal in 0..2 * u32::from(image[0]) {
        match call(image, literal, 4096) {
            Ok(Answer { code, nodes }) => text += &format!("{literal} {} {nodes}\n", word(code)),
            Err(refusal) => text += &format!("{literal} {refusal:?}\n"),
        }
    }
    text
}

#[test]
fn every_vector_is_advised_as_written() {
    for name in vectors::names("img") {
        let image = vectors::image(&name);
        assert_eq!(advise(&image, by_trees), vectors::advice(&name), "{name}");
        assert_eq!(advise(&image, by_query), vectors::advice(&name), "{name}");
    }
}

#[test]
fn every_request_is_advised_as_written() {
    for request in vectors::REQUESTS {
        for (image, text) in vectors::of_request(request) {
            assert_eq!(advise(&image, by_trees), text, "{request}: {image:02x?}");
            assert_eq!(advise(&image, by_query), text, "{request}: {image:02x?}");
        }
    }
}

/// Where the list is refused, so is every query, with the same number and place.
#[test]
fn refused_vectors_are_refused_by_every_call() {
    let mut refused = 0;
    for name in vectors::names("img") {
        let advice = vectors::advice(&name);
        let Some(cause) = advice.trim_end().strip_prefix("refused ") else {
            continue;
        };
        let (number, place) = cause.split_once(' ').expect("number and place");
        let number: u32 = number.parse().expect("a number");
        let place: u32 = place.parse().expect("a place");
        let image = vectors::image(&name);
        assert_eq!(
            by_trees(&image, 0, 4096),
            Err(refusal(number, place)),
            "{name}"
        );
        assert_eq!(by_query(&image, 0, 4096), Err(refusal(number, 0)), "{name}");
        refused += 1;
    }
    assert!(refused >= 3, "only {refused} vectors are refused");
}

#[test]
fn whole_forests_are_as_written() {
    let forests = vectors::whole_forests();
    assert_eq!(forests.len(), 7, "forests in the README");
    for forest in forests {
        let about = format!("{} {}", forest.name, forest.literal);
        let image = vectors::image(&forest.name);
        // The least tables that will do, so that a node or an argument more has no room.
        let count = forest.nodes.len();
        for more in [0, 1, 50] {
            let (mut arguments, mut nodes) = tables(forest.list.len() + more, count + more);
            let (old_arguments, old_nodes) = (arguments.clone(), nodes.clone());
            let budget = count as u32;
            let given = trees(&image, forest.literal, budget, &mut arguments, &mut nodes);
            let wanted = u64::from(forest.code) * 65_536 + count as u64;
            assert_eq!(given, wanted, "{about}");
            let listed = forest.list.len();
            assert_eq!(arguments[..listed], forest.list, "{about}");
            assert_eq!(arguments[listed..], old_arguments[listed..], "{about}");
            let written: Vec<NodeEntry> = nodes.iter().map(|&n| n.into()).collect();
            assert_eq!(written[..count], forest.nodes, "{about}");
            assert_eq!(nodes[count..], old_nodes[count..], "{about}");
        }
    }
}

#[test]
fn the_twelve_fittings_by_both_calls() {
    for (name, program, literal, budget, code, nodes) in FITTINGS {
        let wanted = Ok(Answer {
            code: code.number(),
            nodes: nodes as u32,
        });
        assert_eq!(by_trees(&image(program), literal, budget), wanted, "{name}");
        assert_eq!(by_query(&image(program), literal, budget), wanted, "{name}");
    }
}

/// Tables with contents that no call writes by chance.
fn tables(arguments: usize, nodes: usize) -> (Vec<u32>, Vec<Node>) {
    let old_arguments = (0..arguments).map(|n| 0x5000_0000 + n as u32).collect();
    let old_nodes = (0..nodes as u32)
        .map(|n| Node {
            argument: 0x6000_0000 + n,
            parent: 0x6100_0000 + n,
            kind: 0x62,
            mark: 0x63,
        })
        .collect();
    (old_arguments, old_nodes)
}

/// A byte table with such contents.
fn bytes(room: usize) -> Vec<u8> {
    (0..room).map(|n| 0xA0 ^ n as u8).collect()
}

#[track_caller]
fn assert_refused(image: &[u8], literal: u32, budget: u32, lengths: (usize, usize), cause: Cause) {
    let (mut arguments, mut nodes) = tables(lengths.0, lengths.1);
    let given = trees(image, literal, budget, &mut arguments, &mut nodes);
    assert_eq!(granted(given), Err(refusal(cause.number(), 0)));
    let before = tables(lengths.0, lengths.1);
    assert_eq!(arguments, before.0, "the argument table was touched");
    assert_eq!(nodes, before.1, "the node table was touched");
}

/// Each cause of a query alone. F has three arguments, and literal 2 has three nodes.
#[test]
fn each_cause_alone() {
    let f = image(F);
    for literal in [128, 129, 130, 255, 256, 258, 65_536, 1 << 31, u32::MAX] {
        assert_refused(&f, literal, 3, (3, 3), Cause::QueryLiteral);
        assert_eq!(
            by_query(&f, literal, 4096),
            Err(refusal(20, 0)),
            "{literal}"
        );
    }
    for budget in [4097, 65_535, 65_536, 65_539, 1 << 31, u32::MAX] {
        assert_refused(&f, 2, budget, (3, 5000), Cause::Budget);
        assert_refused(&f, 2, budget, (3, 70_000), Cause::Budget);
        assert_eq!(by_query(&f, 2, budget), Err(refusal(21, 0)), "{budget}");
    }
    for (budget, length) in [(1, 0), (3, 2), (4, 3), (4096, 4095), (4096, 0)] {
        assert_refused(&f, 2, budget, (3, length), Cause::NodeTable);
    }
    for length in [0, 1, 2] {
        assert_refused(&f, 2, 3, (length, 3), Cause::ArgumentTable);
    }
    let full = vectors::image("args4097");
    assert_refused(&full, 2, 0, (4096, 0), Cause::ArgumentTable);
    assert_eq!(by_query(&full, 2, 0), Err(refusal(23, 0)));
}

/// What each cause adds to a call that would be answered: so every two can be put together.
fn with_cause(cause: Cause, call: &mut (Vec<u8>, u32, u32, (usize, usize))) {
    match cause {
        Cause::StrictContradiction => call.0 = image("0; 1; d 2<0; d 3<0; (2,3)"),
        Cause::QueryLiteral => call.1 = 128,
        Cause::Budget => call.2 = 4097,
        Cause::NodeTable => call.3 .1 = call.2 as usize - 1,
        Cause::ArgumentTable => call.3 .0 = 2,
        _ => panic!("no cause of a query that is named after the image's: {cause:?}"),
    }
}

/// 14, then 20 to 23: whichever causes come together, the first is given.
#[test]
fn causes_in_their_order() {
    let order = [
        Cause::StrictContradiction,
        Cause::QueryLiteral,
        Cause::Budget,
        Cause::NodeTable,
        Cause::ArgumentTable,
    ];
    for chosen in 1..1 << order.len() {
        let mut call = (image(F), 2, 3, (3, 3));
        let mut causes = Vec::new();
        for (position, &cause) in order.iter().enumerate() {
            if chosen >> position & 1 == 1 {
                with_cause(cause, &mut call);
                causes.push(cause);
            }
        }
        let (image, literal, budget, lengths) = call;
        assert_refused(&image, literal, budget, lengths, causes[0]);
        // The C call has tables of 4,096 entries, so for it only the first three can apply.
        let host = causes.iter().find(|&&cause| cause <= Cause::Budget);
        let given = by_query(&image, literal, budget);
        assert_eq!(given.err(), host.map(|cause| refusal(cause.number(), 0)));
    }
}

/// An image's own causes come before those of the query, with their place.
#[test]
fn an_image_comes_before_the_query() {
    let f = image(F);
    assert_refused(&f[..11], 128, 4097, (0, 0), Cause::ImageLength);
    let repeated = image("0; d 2<0; 4<0; d 2<0");
    assert_eq!(by_trees(&repeated, 128, 4097), Err(refusal(10, 3)));
    assert_eq!(by_query(&repeated, 128, 4097), Err(refusal(10, 0)));
    assert_eq!(by_query(&image("0; 1"), 128, 4097), Err(refusal(14, 0)));
}

/// UNKNOWN comes after all refusals, and 0 nodes need no table.
#[test]
fn unknown_comes_last() {
    let f = image(F);
    assert_refused(&f, 127, 4097, (3, 5000), Cause::Budget);
    assert_refused(&f, 127, 1, (3, 0), Cause::NodeTable);
    assert_refused(&f, 127, 0, (2, 0), Cause::ArgumentTable);
    let (mut arguments, mut nodes) = tables(3, 0);
    let given = trees(&f, 127, 0, &mut arguments, &mut nodes);
    assert_eq!(given, 4 * 65_536);
    assert_eq!(arguments, [0, 130, 259]);
}

/// Literal 2 of F has three nodes.
#[test]
fn unfinished_zeroes_the_budget() {
    for budget in 0..3 {
        let (mut arguments, mut nodes) = tables(4, 5);
        let (old_arguments, old_nodes) = tables(4, 5);
        let given = trees(&image(F), 2, budget as u32, &mut arguments, &mut nodes);
        assert_eq!(given, 5 * 65_536 + budget as u64);
        assert_eq!(arguments[..3], [0, 130, 259]);
        assert_eq!(arguments[3..], old_arguments[3..]);
        assert_eq!(nodes[..budget], vec![Node::default(); budget]);
        assert_eq!(nodes[budget..], old_nodes[budget..]);
    }
}

/// How the call for a clash refuses an image that others refuse so, where it has room for one mark: an image with a
/// contradiction has two rules at least.
fn of_clash(refused: Refusal) -> Refusal {
    match refused.number {
        14 => refusal(29, 0),
        _ => refused,
    }
}

/// Every cause of an image, in each call that reads one: the reference's number and place, and tables as they were.
#[test]
fn refused_images_leave_the_tables() {
    let mut seen: BTreeSet<u32> = BTreeSet::new();
    let refused = vectors::images().into_iter().map(|image| (image, 0));
    let damaged = damaged(SEED, DAMAGED).map(|case| case.image);
    for (image, literal) in refused.chain(damaged.zip(0..)) {
        let Err(cause) = reference::check(&image) else {
            continue;
        };
        assert_eq!(check(&image), cause.packed());
        let (mut out, mut numbers) = (bytes(image.len()), bytes(96));
        assert_eq!(file(&image, &mut out, &mut numbers), cause.packed());
        assert_eq!(unfile(&image, &numbers, &mut out), cause.packed());
        let refused = granted(clash(&image, &mut numbers[..1]));
        let wanted = refusal(cause.cause.number(), cause.place as u32);
        assert_eq!(refused, Err(of_clash(wanted)));
        assert_eq!((out, numbers), (bytes(image.len()), bytes(96)));
        let (mut arguments, mut nodes) = tables(9, 9);
        assert_eq!(list(&image, &mut arguments), cause.packed());
        let given = trees(&image, literal, 9, &mut arguments, &mut nodes);
        assert_eq!(given, cause.packed());
        assert_eq!((arguments, nodes), tables(9, 9));
        assert_eq!(query(&image, literal, 9), cause.cause.number());
        seen.insert(cause.cause.number());
    }
    assert_eq!(seen, (1..=14).collect());
}

/// Every call refuses the image with what is expected, and leaves tables of these lengths as they were.
#[track_caller]
fn assert_refused_by_every_call(case: &Case, lengths: (usize, usize)) {
    let (number, place) = case.expected.expect("a known outcome");
    let image = &case.image;
    let wanted = Err(refusal(number, place));
    assert_eq!(granted(check(image)), wanted, "{case:02X?}");
    let mut marks = bytes(1);
    let clashing = granted(clash(image, &mut marks));
    assert_eq!(clashing, wanted.map_err(of_clash), "{case:02X?}");
    assert_eq!(marks, bytes(1), "marks touched: {case:02X?}");
    for (room, number_room) in [lengths, (image.len(), 96)] {
        let (mut out, mut numbers) = (bytes(room), bytes(number_room));
        let filed = granted(file(image, &mut out, &mut numbers));
        assert_eq!(filed, wanted, "{case:02X?}");
        let unfiled = granted(unfile(image, &numbers, &mut out));
        assert_eq!(unfiled, wanted, "{case:02X?}");
        let left = (bytes(room), bytes(number_room));
        assert!((out, numbers) == left, "bytes touched: {case:02X?}");
    }
    let (mut arguments, mut nodes) = tables(lengths.0, lengths.1);
    let listed = granted(list(image, &mut arguments));
    assert_eq!(listed, wanted, "{case:02X?}");
    for (literal, budget) in [(0, lengths.1 as u32), (200, 9999)] {
        let given = granted(trees(image, literal, budget, &mut arguments, &mut nodes));
        assert_eq!(given, wanted, "{case:02X?}");
        assert_eq!(query(image, literal, budget), number, "{case:02X?}");
    }
    assert!(
        (arguments, nodes) == tables(lengths.0, lengths.1),
        "tables touched: {case:02X?}"
    );
}

/// The images made by rule, in each call that reads one. One of 16 defeasible rules takes long to list.
#[test]
fn images_made_by_rule_are_refused_by_every_call() {
    let mut refused = 0;
    for (_, make) in MADE_BY_RULE {
        for case in make() {
            match case.expected.expect("a known outcome") {
                (0, 0) => assert_eq!(check(&case.image), 0, "{case:02X?}"),
                _ => {
                    assert_refused_by_every_call(&case, (5, 3));
                    refused += 1;
                }
            }
        }
    }
    assert!(refused > 100_000, "only {refused} images were refused");
}

/// A refusal at the last rule, at the last pair or after it leaves tables of any length as they were.
#[test]
fn late_refusals_leave_the_tables() {
    let mut seen: BTreeSet<(u32, u32)> = BTreeSet::new();
    for case in late() {
        seen.extend(case.expected);
        for lengths in [(0, 0), (1, 1), (96, 16), (TABLE, TABLE), (70_000, 5000)] {
            assert_refused_by_every_call(&case, lengths);
        }
    }
    assert_eq!(
        seen.into_iter().collect::<Vec<_>>(),
        [(10, 95), (12, 239), (13, 239), (14, 0)]
    );
}

/// Null with no entries is a table without entries: enough for a program without arguments, and for a budget of 0.
#[test]
fn null_tables_have_no_entries() {
    let mut answers = 0;
    for name in vectors::names("img") {
        let image = vectors::image(&name);
        let analysis = Analysis::of_image(&image);
        let listed = analysis.as_ref().map_err(|&refusal| refusal);
        let listed = listed.and_then(|analysis| analysis.list(&mut []));
        let wanted = listed.map_or_else(reference::Refusal::packed, |count| count as u64);
        assert_eq!(list(&image, &mut []), wanted, "{name}");
        // SAFETY: nothing is written to tables without entries.
        let given = unsafe { raw::foqtirel_list(image.as_ptr(), image.len(), null_mut(), 0) };
        assert_eq!(given, wanted, "{name}");
        for literal in [0, 2, 127, 128] {
            for budget in [0, 1] {
                let answer = analysis.as_ref().map_err(|&refusal| refusal);
                let answer = answer.and_then(|a| a.query(literal, budget, &mut [], &mut []));
                let wanted = match answer {
                    Ok(_) => u64::from(reference::host_number(answer)),
                    Err(refusal) => refusal.packed(),
                };
                answers += usize::from(granted(wanted).is_ok());
                let given = trees(&image, literal, budget, &mut [], &mut []);
                assert_eq!(given, wanted, "{name} {literal} {budget}");
                // SAFETY: nothing is written to tables without entries.
                let given = unsafe {
                    raw::foqtirel_trees(
                        image.as_ptr(),
                        image.len(),
                        literal,
                        budget,
                        null_mut(),
                        0,
                        null_mut(),
                        0,
                    )
                };
                assert_eq!(given, wanted, "{name} {literal} {budget}");
            }
        }
    }
    assert!(answers >= 9, "{answers} answers without tables");
}

#[test]
fn no_bytes_are_an_image_of_length_zero() {
    let refused = 1 << 32;
    let (mut arguments, mut nodes) = tables(3, 3);
    let (entries, rows) = (arguments.as_mut_ptr(), nodes.as_mut_ptr());
    // SAFETY: nothing is read from an image of no bytes, and the tables have as many entries as the calls are told.
    unsafe {
        assert_eq!(raw::foqtirel_check(null(), 0), refused);
        assert_eq!(raw::foqtirel_clash(null(), 0, null_mut(), 0), refused);
        assert_eq!(raw::foqtirel_list(null(), 0, entries, 3), refused);
        assert_eq!(
            raw::foqtirel_trees(null(), 0, 2, 3, entries, 3, rows, 3),
            refused
        );
        assert_eq!(
            raw::foqtirel_trees(null(), 0, 2, 0, null_mut(), 0, null_mut(), 0),
            refused
        );
        assert_eq!(raw::foqtirel_query(null(), 0, 200, 9999), 1);
    }
    assert_eq!((arguments, nodes), tables(3, 3));
}

/// Nothing is kept between calls, so threads don't disturb each other.
#[test]
fn threads_may_call_at_once() {
    let names = ["F", "T", "concord", "n4096"];
    let work = |start: usize| {
        for turn in 0..200 {
            let name = names[(start + turn) % names.len()];
            let image = vectors::image(name);
            assert_eq!(advise(&image, by_query), vectors::advice(name), "{name}");
        }
    };
    thread::scope(|scope| {
        for start in 0..names.len() {
            scope.spawn(move || work(start));
        }
    });
}
