//! The calls of both implementations in one form, so that the same tests hold both to the same: the reference, and with the
//! feature `library` the proved calls. With tables to lend them, and images to try them on.

use std::collections::BTreeSet;

use crate::generator::accepted::{contested_programs, small_programs};
use crate::generator::filing::alike;
use crate::generator::late::late;
use crate::generator::lengths::sound_images;
use crate::generator::{accepted, chained, damaged, Description, Verdict, MADE_BY_RULE};
use crate::reference::bill::BRANCHES;
use crate::reference::{self, NodeEntry, Refusal};
use crate::vectors;

/// The refusals of the calls that fill a byte table.
pub const OUTPUT_TABLE: u64 = 24 << 32;
pub const NUMBER_TABLE: u64 = 25 << 32;
pub const MISFILED: u64 = 26 << 32;
pub const IMAGE_ACCEPTED: u64 = 28 << 32;
pub const MARK_TABLE: u64 = 29 << 32;

/// What a bill comes to: the number and place of its refusal, which are 0 where there is none, and the shares.
pub type Billed = (Verdict, [u32; BRANCHES]);

/// The lengths of two tables that are lent to one call.
pub type Lengths = (usize, usize);

/// One implementation of the calls. Each returns what its C call does, and `trees` is lent tables of these lengths.
pub struct Side {
    pub name: &'static str,
    pub check: fn(&[u8]) -> u64,
    pub clash: fn(&[u8], &mut [u8]) -> u64,
    pub file: fn(&[u8], &mut [u8], &mut [u8]) -> u64,
    pub unfile: fn(&[u8], &[u8], &mut [u8]) -> u64,
    pub list: fn(&[u8], &mut [u32]) -> u64,
    pub trees: fn(&[u8], u32, u32, Lengths) -> u64,
    pub query: fn(&[u8], u32, u32) -> u32,
    pub bill: fn(&[u64]) -> Billed,
    /// False where answers take long.
    pub quick: bool,
}

fn packed(result: Result<usize, Refusal>) -> u64 {
    result.map_or_else(Refusal::packed, |number| number as u64)
}

/// A bill or its refusal, with which every share is 0.
pub fn billed(outcome: Result<[u32; BRANCHES], Verdict>) -> Billed {
    match outcome {
        Ok(shares) => ((0, 0), shares),
        Err(refusal) => (refusal, [0; BRANCHES]),
    }
}

pub const REFERENCE: Side = Side {
    name: "reference",
    check: |image| packed(reference::check(image).map(|()| 0)),
    clash: |image, marks| packed(reference::clash(image, marks)),
    file: |image, out, numbers| packed(reference::file(image, out, numbers)),
    unfile: |image, numbers, out| packed(reference::unfile(image, numbers, out)),
    list: |image, arguments| packed(reference::list(image, arguments)),
    trees: |image, literal, budget, (room, node_room)| {
        let (mut arguments, mut nodes) = (vec![0; room], vec![NodeEntry::default(); node_room]);
        let answer = reference::query(image, literal, budget, &mut arguments, &mut nodes);
        packed(answer.map(|_| reference::host_number(answer) as usize))
    },
    query: reference::host_call,
    bill: |lines| {
        let refused = |refusal: Refusal| (refusal.cause.number(), refusal.place as u32);
        billed(reference::bill(lines).map_err(refused))
    },
    quick: false,
};

#[cfg(feature = "library")]
const LIBRARY: Side = Side {
    name: "library",
    check: foqtirel_binding::check,
    clash: foqtirel_binding::clash,
    file: foqtirel_binding::file,
    unfile: foqtirel_binding::unfile,
    list: foqtirel_binding::list,
    trees: |image, literal, budget, (room, node_room)| {
        let mut nodes = vec![foqtirel_binding::Node::default(); node_room];
        foqtirel_binding::trees(image, literal, budget, &mut vec![0; room], &mut nodes)
    },
    query: foqtirel_binding::query,
    bill: |lines| {
        let foqtirel_binding::Billed {
            number,
            place,
            shares,
        } = foqtirel_binding::bill(lines);
        ((number, place), shares)
    },
    quick: true,
};

pub fn sides() -> Vec<Side> {
    vec![
        REFERENCE,
        #[cfg(feature = "library")]
        LIBRARY,
    ]
}

/// A byte table with contents of its own; two of them agree in no byte.
pub fn lent(room: usize, turned: bool) -> Vec<u8> {
    let byte = |place: usize| (31 * place + 165) as u8;
    let bytes = (0..room).map(byte);
    bytes.map(|b| if turned { !b } else { b }).collect()
}

/// The table after a call: what it wrote at the front and the rest as it was.
fn written(room: usize, turned: bool, front: &[u8]) -> Vec<u8> {
    let mut table = lent(room, turned);
    table[..front.len()].copy_from_slice(front);
    table
}

/// The rules of a sound image as their parts.
pub fn parts(image: &[u8]) -> Vec<Vec<u8>> {
    Description::of_image(image).parts().rules
}

/// The number that each rule of a filed form has in the image, where no rule stands twice.
pub fn old_numbers(image: &[u8], form: &[u8]) -> Vec<u8> {
    let typed = parts(image);
    let number = |rule: &Vec<u8>| typed.iter().position(|other| other == rule);
    let numbers = parts(form).iter().map(number).collect::<Option<Vec<_>>>();
    let numbers = numbers.expect("the rules of the image");
    numbers.into_iter().map(|number| number as u8).collect()
}

/// Lends a call a byte table of so many bytes, and holds the result and the table to what is wanted: these bytes at its front
/// and the rest as it was, or a refusal and all as it was.
#[track_caller]
fn assert_writes(
    call: impl Fn(&mut [u8]) -> u64,
    room: usize,
    wanted: Result<&[u8], u64>,
    about: impl Fn() -> String,
) {
    let result = wanted.map_or_else(|refusal| refusal, |front| front.len() as u64);
    for turned in [false, true] {
        let mut table = lent(room, turned);
        let given = call(&mut table);
        assert_eq!(given, result, "{}", about());
        let left = written(room, turned, wanted.unwrap_or_default());
        assert!(table == left, "the table is not as wanted: {}", about());
    }
}

impl Side {
    /// Files into a byte table and a number table of these lengths, and holds the result and both tables to what is wanted: the
    /// form and the old numbers at their fronts and the rest as it was, or a refusal and all as it was.
    #[track_caller]
    pub fn assert_files(&self, image: &[u8], rooms: Lengths, wanted: Result<&[u8], u64>) {
        let (form, numbers) = match wanted {
            Ok(form) => (form, old_numbers(image, form)),
            Err(_) => (&[][..], Vec::new()),
        };
        let result = wanted.map_or_else(|refusal| refusal, |form| form.len() as u64);
        for turned in [false, true] {
            let (mut out, mut table) = (lent(rooms.0, turned), lent(rooms.1, !turned));
            let given = (self.file)(image, &mut out, &mut table);
            let about = || format!("{}: rooms {rooms:?}: {image:02X?}", self.name);
            assert_eq!(given, result, "{}", about());
            let left = written(rooms.0, turned, form);
            assert!(out == left, "the byte table: {}", about());
            let left = written(rooms.1, !turned, &numbers);
            assert!(table == left, "the number table: {}", about());
        }
    }

    /// The filed form of a sound image, and the old numbers.
    #[track_caller]
    pub fn filed(&self, image: &[u8]) -> (Vec<u8>, Vec<u8>) {
        let rules = usize::from(image[2]);
        let (mut form, mut numbers) = (lent(image.len(), false), lent(rules, false));
        let length = (self.file)(image, &mut form, &mut numbers);
        assert_eq!(length, image.len() as u64, "{}: {image:02X?}", self.name);
        (form, numbers)
    }

    /// The filed form of a sound image alone.
    #[track_caller]
    pub fn form(&self, image: &[u8]) -> Vec<u8> {
        self.filed(image).0
    }

    /// Goes back to old order in a byte table of so many bytes, and holds the result and every byte to what is wanted.
    #[track_caller]
    pub fn assert_unfiles(
        &self,
        image: &[u8],
        numbers: &[u8],
        room: usize,
        wanted: Result<&[u8], u64>,
    ) {
        let unfile = |out: &mut [u8]| (self.unfile)(image, numbers, out);
        let about = || format!("{}: room {room}: {numbers:?} {image:02X?}", self.name);
        assert_writes(unfile, room, wanted, about);
    }

    /// Marks a clash in a byte table of so many bytes, and holds the result and every byte to what is wanted.
    #[track_caller]
    pub fn assert_marks(&self, image: &[u8], room: usize, wanted: Result<&[u8], u64>) {
        let clash = |marks: &mut [u8]| (self.clash)(image, marks);
        let about = || format!("{}: room {room}: {image:02X?}", self.name);
        assert_writes(clash, room, wanted, about);
    }

    /// Holds a bill to what is wanted: the shares, or a refusal with every share 0.
    #[track_caller]
    pub fn assert_bills(&self, lines: &[u64], wanted: Result<[u32; BRANCHES], Verdict>) {
        let given = (self.bill)(lines);
        assert_eq!(given, billed(wanted), "{}: {lines:#X?}", self.name);
    }

    /// A filed image in the order that sound numbers give.
    #[track_caller]
    pub fn unfiled(&self, image: &[u8], numbers: &[u8]) -> Vec<u8> {
        let mut typed = lent(image.len(), false);
        let length = (self.unfile)(image, numbers, &mut typed);
        let about = format!("{}: {numbers:?} {image:02X?}", self.name);
        assert_eq!(length, image.len() as u64, "{about}");
        typed
    }
}

/// Sound programs of many shapes, the vectors and the longest images.
pub fn sound(seed: u64, count: usize) -> Vec<Vec<u8>> {
    let programs = accepted(seed, count)
        .chain(small_programs(seed, count / 4))
        .chain(contested_programs(seed, count / 8, 7))
        .chain(chained(seed, count / 4));
    let mut images = vectors::images();
    images.extend(programs.map(|case| case.image));
    images.extend(sound_images());
    images.push(alike().image());
    images.retain(|image| reference::check(image).is_ok());
    images
}

/// Images of every sort that a check refuses, for each of its causes, with the refusals.
pub fn refused(seed: u64, count: usize) -> Vec<(Vec<u8>, u64)> {
    let made = MADE_BY_RULE
        .iter()
        .flat_map(|(_, make)| make().into_iter().step_by(9));
    let cases = damaged(seed, count).chain(late()).chain(made);
    let mut refused: Vec<(Vec<u8>, u64)> = Vec::new();
    for image in vectors::images()
        .into_iter()
        .chain(cases.map(|case| case.image))
    {
        if let Err(refusal) = reference::check(&image) {
            refused.push((image, refusal.packed()));
        }
    }
    let causes: BTreeSet<u64> = refused.iter().map(|(_, refusal)| refusal >> 32).collect();
    assert!(causes.into_iter().eq(1..=14), "every cause");
    refused
}
