//! The images of `anchor/`, each with what the anchor takes on it, the fastest engine without proofs that is known, and with
//! the bars that our calls are held to.

use std::fs;
use std::path::{Path, PathBuf};

use crate::calls::Call;
use crate::cases::Case;
use crate::measuring::word;
use crate::table::{shown, Row};

/// How the names of these images begin.
const ANCHOR: &str = "anchor";

/// How many times the anchor's instructions a check may take, on any image.
const MOST_OF_CHECK: f64 = 1.5;

/// The same of a list, a query and a C call, by image. over23 has no bar.
const MOST: [(f64, &[&str]); 3] = [
    (
        2.0,
        &[
            "shop1", "shop3", "shop4", "large1", "counter1", "counter2", "counter3", "counter4",
        ],
    ),
    (
        4.0,
        &[
            "all16",
            "all16c",
            "forest4k",
            "args4k",
            "masks4k",
            "fiveofeight",
        ],
    ),
    (8.0, &["chain", "chainx", "forestx"]),
];

/// A call with the anchor's instructions, and how many times these it may take, if there is a bar.
#[derive(Clone, Copy)]
pub struct Held {
    pub call: Call,
    pub anchor: u64,
    pub most: Option<f64>,
}

/// The calls on the image are those that are held against the anchor.
pub struct Anchored {
    pub case: Case,
    pub held: [Held; 5],
}

/// The images in the order of the anchor's table.
pub fn all() -> Vec<Anchored> {
    let file = directory().join("anchor.tsv");
    let text = fs::read_to_string(file).expect("the anchor's table");
    let parsed = |line| parse(line).unwrap_or_else(|| panic!("no line of the anchor's: {line}"));
    text.lines().skip(1).map(parsed).collect()
}

fn directory() -> PathBuf {
    Path::new(env!("CARGO_MANIFEST_DIR")).join(ANCHOR)
}

/// The anchor has no call that brings its own tables: the C call is held against its query.
fn parse(line: &str) -> Option<Anchored> {
    let fields: Vec<&str> = line.split('\t').collect();
    let [name, literal, check, list, query, advise] = fields[..] else {
        return None;
    };
    let of_image = MOST.iter().find(|(_, names)| names.contains(&name));
    let most = of_image.map(|&(most, _)| most);
    let held = |call, count: &str, most| {
        let anchor = count.parse().ok()?;
        Some(Held { call, anchor, most })
    };
    Some(Anchored {
        case: Case {
            name: format!("{ANCHOR} {name}"),
            image: fs::read(directory().join(format!("{name}.img"))).ok()?,
            literal: literal.parse().ok()?,
            calls: &[],
        },
        held: [
            held(Call::Check, check, Some(MOST_OF_CHECK))?,
            held(Call::List, list, most)?,
            held(Call::Query, query, most)?,
            held(Call::Host, query, most)?,
            held(Call::Advise, advise, None)?,
        ],
    })
}

/// A row of such an image, with the bar of its call.
pub struct Against {
    pub row: Row,
    pub most: Option<f64>,
}

pub const HEAD: &str = "image              call     proved instr.  anchor instr.    ratio  bar";

impl Against {
    pub fn line(&self) -> String {
        format!(
            "{:<18} {:<7} {:>14} {:>14} {:>8}{}",
            self.row.image,
            self.row.call,
            shown(self.row.instructions),
            shown(self.row.anchor),
            self.shown_ratio(),
            self.most.map_or(String::new(), |most| {
                format!(" {most:>4} {}", word(self.holds(most)))
            }),
        )
    }

    /// False where nothing was counted.
    fn holds(&self, most: f64) -> bool {
        self.row.times_anchor().is_some_and(|ratio| ratio <= most)
    }

    fn shown_ratio(&self) -> String {
        let ratio = self.row.times_anchor();
        shown(ratio.map(|ratio| format!("{ratio:.2}")))
    }

    /// What is said of a bar that does not hold.
    pub fn complaint(&self) -> Option<String> {
        let most = self.most.filter(|&most| !self.holds(most))?;
        let Row { image, call, .. } = &self.row;
        Some(format!(
            "{image}, {call}: {} times, bar {most}",
            self.shown_ratio()
        ))
    }
}
