//! Seeded images: sound programs of many shapes, and images damaged on purpose. And seeded bills.

pub mod accepted;
pub mod bill;
pub mod chained;
pub mod changes;
pub mod clash;
pub mod damage;
pub mod description;
pub mod filing;
pub mod late;
pub mod lengths;
pub mod limits;
pub mod listing;
pub mod meetings;
pub mod noise;
pub mod random;
pub mod repeats;
pub mod scenario;
pub mod soundrules;
pub mod spoil;
pub mod unfiling;

pub use accepted::accepted;
pub use chained::{chained, chained_sixteen};
pub use description::{Description, Parts, RuleText};
pub use listing::{all_applicable, many_arguments, taking_turns, MANY_ARGUMENTS};
pub use random::Random;
pub use scenario::{all_scenarios, Arrangement, Scenario};

/// The number and place of a refusal; (0, 0) is acceptance.
pub type Verdict = (u32, u32);

/// One image to try.
#[derive(Clone, Debug)]
pub struct Case {
    pub image: Vec<u8>,
    /// What document 01 says of the image, as known from how it was made. None if unknown.
    pub expected: Option<Verdict>,
    /// The faults put in, as number and place each.
    pub planted: Vec<Verdict>,
    /// The scenario the image was made for, if any.
    pub scenario: Option<Scenario>,
    pub note: String,
}

impl Case {
    /// An image with these faults, the first of which is to be reported; accepted if there are none.
    pub fn with_faults(image: Vec<u8>, planted: Vec<Verdict>, note: impl Into<String>) -> Case {
        Case {
            image,
            expected: Some(first_fault(&planted)),
            planted,
            scenario: None,
            note: note.into(),
        }
    }

    /// An image of which nothing is known.
    pub fn unknown(image: Vec<u8>, note: impl Into<String>) -> Case {
        Case {
            image,
            expected: None,
            planted: Vec::new(),
            scenario: None,
            note: note.into(),
        }
    }
}

/// `count` images, most of them damaged with a known outcome: all scenarios in turn, and among
/// them several faults at once, the limits from both sides, and noise.
pub fn damaged(seed: u64, count: usize) -> impl Iterator<Item = Case> {
    let mut random = Random::seeded(seed);
    let scenarios = all_scenarios();
    let mut next_scenario = 0;
    let mut next_limit = 0;
    (0..count).map(move |index| match index % 10 {
        7 => damage::several(&mut random),
        8 => {
            next_limit += 1;
            limits::limit(&mut random, next_limit - 1)
        }
        9 => noise::noise(&mut random),
        _ => {
            let scenario = scenarios[next_scenario % scenarios.len()];
            next_scenario += 1;
            damage::staged(&mut random, scenario)
        }
    })
}

type Make = fn() -> Vec<Case>;

/// Images that are made by rule and not at random, all with a known outcome, by what they are about.
pub const MADE_BY_RULE: &[(&str, Make)] = &[
    (
        "a faulty rule with others and with pairs",
        meetings::in_rules,
    ),
    ("a faulty rule and the directory", meetings::with_directory),
    ("length, header, directory and rule", meetings::with_header),
    ("length and header", meetings::short_headers),
    ("faulty pairs", meetings::in_pairs),
    ("repeats at every place", repeats::at_every_place),
    ("no repeats, though nearly", repeats::nearly),
    ("rows of four rules", repeats::rows),
    ("facts twice", repeats::facts),
    ("a 17th rule that repeats", repeats::seventeenth),
    ("cut short and continued", lengths::cut_and_continued),
    ("up to 12 equal bytes", lengths::uniform),
    ("no rules", lengths::without_rules),
    ("empty parts", lengths::empty_parts),
    ("one long part", lengths::one_long_part),
    ("refused late", late::late),
];

/// Sound images with one byte or two or the parts changed, whatever comes of it.
pub fn changed() -> impl Iterator<Item = Case> {
    changes::of_one_byte()
        .chain(changes::of_two_bytes())
        .chain(changes::of_the_directory())
        .chain(changes::of_the_parts())
        .chain(changes::of_the_greatest())
}

/// The fault that document 01's order reaches first; acceptance if there is none.
pub fn first_fault(planted: &[Verdict]) -> Verdict {
    planted
        .iter()
        .copied()
        .min_by_key(|&fault| checking_order(fault))
        .unwrap_or((0, 0))
}

/// 1 to 3; 4 to 10 for each rule in turn; 11; 12 and 13 for each pair in turn; 14.
fn checking_order((cause, place): Verdict) -> (u32, u32, u32) {
    match cause {
        1..=3 => (cause, 0, 0),
        4..=10 => (4, place, cause),
        11 => (5, 0, 0),
        12..=13 => (6, place, cause),
        14 => (7, 0, 0),
        _ => panic!("no image has the cause {cause}"),
    }
}
