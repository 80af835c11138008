//! The images that are timed, each with the calls on it and the literal that is asked about: one with many nodes for the
//! image. And bills, whose lines stand in the place of an image.

use std::path::PathBuf;
use std::{env, fs};

use crate::calls::Call;
use crate::images::grown;
use foqtirel_tests::generator::bill::{all_get_a_cent, longest};
use foqtirel_tests::generator::clash::{slow_clash, with_clash};
use foqtirel_tests::generator::filing::{alike, turned};
use foqtirel_tests::generator::{all_applicable, Description};
use foqtirel_tests::vectors;

pub struct Case {
    pub name: String,
    pub image: Vec<u8>,
    pub literal: u32,
    pub calls: &'static [Call],
}

impl Case {
    /// The image as a file, for a process of its own and for anyone with a profiler.
    pub fn file(&self) -> PathBuf {
        let directory = env::temp_dir().join("foqtirel-bench");
        fs::create_dir_all(&directory).expect("a temporary directory");
        let file = directory.join(format!("{}.img", self.name.replace([' ', '/'], "-")));
        fs::write(&file, &self.image).expect("a temporary file");
        file
    }
}

/// How the names of the typical ones begin, for the target.
pub const TYPICAL: &str = "typical";
/// The name of the longest image, for the target.
pub const LONGEST: &str = "full1836";

pub fn all() -> Vec<Case> {
    let mut cases = Vec::new();
    let mut add = |name: String, image, literal| {
        cases.push(Case {
            name,
            image,
            literal,
            calls: &Call::SOUND,
        })
    };
    for (seed, rules, defeasible, literal) in [
        (3, 20, 6, 14),
        (5, 27, 8, 18),
        (7, 33, 9, 28),
        (2, 40, 10, 38),
    ] {
        let image = grown(seed, rules, defeasible);
        add(format!("{TYPICAL} {rules}/{defeasible}"), image, literal);
    }
    for (seed, letter) in [(1, 'a'), (6, 'b')] {
        add(format!("large 96/12 {letter}"), grown(seed, 96, 12), 94);
    }
    add("16 all apply".into(), all_applicable(16).image(), 32);
    for (name, literal) in [
        ("slowchain", 126),
        ("bodies8", 116),
        ("n4096", 20),
        ("args4096", 102),
        ("deep180", 22),
    ] {
        add(name.into(), vectors::image(name), literal);
    }
    cases.extend(to_file());
    cases.extend(to_clash());
    cases.extend(to_bill());
    cases
}

/// Images that are hard to file and to put back: the longest one, as it is and in the reverse of its filed order, and 96 rules that only
/// their last byte tells apart.
fn to_file() -> [Case; 3] {
    let longest = vectors::image(LONGEST);
    let reverse = turned(&Description::of_image(&longest)).image();
    [
        (LONGEST, longest),
        ("full1836 turned", reverse),
        ("96 alike", alike().image()),
    ]
    .map(|(name, image)| Case {
        name: name.into(),
        image,
        literal: 0,
        calls: &[Call::Check, Call::File, Call::Unfile],
    })
}

/// Images in which something clashes: 65 rules that are all needed, among 96 and in the worst order; two facts behind as many
/// other rules as there can be; and those behind a program of common size.
fn to_clash() -> [Case; 3] {
    [
        ("clash of 65", slow_clash()),
        ("clash of 2/96", with_clash(&alike())),
        (
            "clash of 2/42",
            with_clash(&Description::of_image(&grown(2, 40, 10))),
        ),
    ]
    .map(|(name, program)| Case {
        name: name.into(),
        image: program.image(),
        literal: 0,
        calls: &[Call::Clash],
    })
}

/// As many lines as there may be, of all branches and answers; and one line for each branch, all of which get a cent more.
fn to_bill() -> [Case; 2] {
    [("bill of 512", longest()), ("bill of 12", all_get_a_cent())].map(|(name, lines)| Case {
        name: name.into(),
        image: lines.into_iter().flat_map(u64::to_le_bytes).collect(),
        literal: 0,
        calls: &[Call::Bill],
    })
}
