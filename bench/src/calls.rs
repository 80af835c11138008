//! The calls of both sides, each with one number as its result, so that the two can be held against each other.

use crate::child::advised;
use foqtirel_binding::{self as library, Node};
use foqtirel_tests::reference::{self, host_number, NodeEntry, Refusal, MOST_NODES};

const BUDGET: u32 = MOST_NODES as u32;
const MOST_IMAGE: usize = 1836;
const MOST_RULES: usize = 96;

#[derive(Clone, Copy, PartialEq)]
pub enum Call {
    Check,
    File,
    /// Of the image's filed form.
    Unfile,
    List,
    /// With lent tables.
    Query,
    /// The C call.
    Host,
    /// The program `advise`, which answers every literal of the image.
    Advise,
    /// Of an image in which something clashes.
    Clash,
    /// Of lines instead of an image, eight bytes each.
    Bill,
}

impl Call {
    /// Those of a sound image.
    pub const SOUND: [Call; 7] = [
        Call::Check,
        Call::File,
        Call::Unfile,
        Call::List,
        Call::Query,
        Call::Host,
        Call::Advise,
    ];

    pub fn named(name: &str) -> Option<Call> {
        let mut all = Call::SOUND.into_iter().chain([Call::Clash, Call::Bill]);
        all.find(|call| call.name() == name)
    }

    pub fn name(self) -> &'static str {
        match self {
            Call::Check => "check",
            Call::File => "file",
            Call::Unfile => "unfile",
            Call::List => "list",
            Call::Query => "query",
            Call::Host => "C call",
            Call::Advise => "advise",
            Call::Clash => "clash",
            Call::Bill => "bill",
        }
    }
}

/// What a caller lends.
pub struct Tables {
    bytes: Vec<u8>,
    numbers: Vec<u8>,
    /// Read, for the way back.
    form: Vec<u8>,
    /// Read, for a bill.
    lines: Vec<u64>,
    arguments: Vec<u32>,
    nodes: Vec<Node>,
    entries: Vec<NodeEntry>,
}

impl Tables {
    pub fn new() -> Tables {
        Tables {
            bytes: vec![0; MOST_IMAGE],
            numbers: vec![0; MOST_RULES],
            form: Vec::new(),
            lines: Vec::new(),
            arguments: vec![0; MOST_NODES],
            nodes: vec![Node::default(); MOST_NODES],
            entries: vec![NodeEntry::default(); MOST_NODES],
        }
    }

    /// With the filed form and the old numbers for the way back, and the lines of a bill, which are no part of those calls.
    pub fn for_call(call: Call, image: &[u8]) -> Tables {
        let mut tables = Tables::new();
        if call == Call::Unfile {
            tables.form = image.to_vec();
            let filed = reference::file(image, &mut tables.form, &mut tables.numbers);
            filed.expect("a sound image");
        }
        if call == Call::Bill {
            let line = |bytes: &[u8]| bytes.try_into().map(u64::from_le_bytes);
            let lines = image.chunks(8).map(line).collect::<Result<_, _>>();
            tables.lines = lines.expect("eight bytes for each line");
        }
        tables
    }
}

pub fn proved(call: Call, image: &[u8], literal: u32, lent: &mut Tables) -> u64 {
    let (arguments, nodes) = (&mut lent.arguments, &mut lent.nodes);
    match call {
        Call::Check => library::check(image) >> 32,
        Call::File => library::file(image, &mut lent.bytes, &mut lent.numbers),
        Call::Unfile => library::unfile(&lent.form, &lent.numbers, &mut lent.bytes),
        Call::List => library::list(image, arguments),
        Call::Query => library::trees(image, literal, BUDGET, arguments, nodes),
        Call::Host => library::query(image, literal, BUDGET).into(),
        Call::Advise => in_one(advised(image)),
        Call::Clash => library::clash(image, &mut lent.numbers),
        Call::Bill => {
            let shares = library::bill(&lent.lines).shares();
            shares.map_or_else(|refusal| refusal.number.into(), in_one)
        }
    }
}

pub fn plain(call: Call, image: &[u8], literal: u32, lent: &mut Tables) -> u64 {
    let (arguments, entries) = (&mut lent.arguments, &mut lent.entries);
    match call {
        Call::Check => reference::check(image).map_or_else(number, |()| 0),
        Call::File => length(reference::file(image, &mut lent.bytes, &mut lent.numbers)),
        Call::Unfile => {
            let written = reference::unfile(&lent.form, &lent.numbers, &mut lent.bytes);
            length(written)
        }
        Call::List => reference::list(image, arguments).map_or_else(number, |count| count as u64),
        Call::Query => {
            let answer = reference::query(image, literal, BUDGET, arguments, entries);
            host_number(answer).into()
        }
        Call::Host => reference::host_call(image, literal, BUDGET).into(),
        Call::Advise => in_one(reference::advise(image).into_bytes()),
        Call::Clash => length(reference::clash(image, &mut lent.numbers)),
        Call::Bill => reference::bill(&lent.lines).map_or_else(number, in_one),
    }
}

fn length(written: Result<usize, Refusal>) -> u64 {
    written.map_or_else(number, |length| length as u64)
}

fn number(refusal: Refusal) -> u64 {
    refusal.cause.number().into()
}

/// All shares, or all bytes of a text, in one number, in which two that changed places show.
fn in_one(numbers: impl IntoIterator<Item = impl Into<u64>>) -> u64 {
    let with_next = |all: u64, next: u64| all.wrapping_mul(31).wrapping_add(next);
    numbers.into_iter().map(Into::into).fold(0, with_next)
}
