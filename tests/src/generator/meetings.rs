//! Every two causes that can meet, next to each other: in one rule, in neighbouring rules, in a rule and each entry of the
//! directory, in a rule and the pairs, in one pair and in neighbouring ones. Nothing here is random.

use super::description::{defeasible, strict, Parts};
use super::{Case, Verdict};

const ATOMS: u8 = 20;
/// The first byte that is no literal.
const OVER: u8 = 2 * ATOMS;

/// Rule parts with their causes 4 to 8, and 10 where the part is one of the sound rules. A part that says defeasible has 9, too,
/// where it is the 17th.
const PARTS: &[(&[u8], &[u32])] = &[
    (&[], &[4]),
    (&[0], &[4]),
    (&[1], &[4, 8]),
    (&[2], &[4, 5]),
    (&[0, 2, 3, 4, 5, 6, 7, 8, 9, 10, 11], &[4]),
    (&[1, 2, 3, 4, 5, 6, 7, 8, 9, 10, 11], &[4]),
    (&[2, 2, 3, 4, 5, 6, 7, 8, 9, 10, 11], &[4, 5]),
    (&[0, OVER, 3, 4, 5, 6, 7, 8, 9, 10, 11], &[4, 6]),
    (&[0, 2, 3, 4, 5, 6, 7, 8, 9, 10, OVER], &[4, 6]),
    (&[0, 2, 3, 4, 5, 6, 7, 8, 9, 10, 10], &[4, 7]),
    (&[255; 11], &[4, 5, 6, 7]),
    (&[255; 40], &[4, 5, 6, 7]),
    (&[2, 2], &[5]),
    (&[2, 2, 4], &[5]),
    (&[255, 2, 4], &[5]),
    (&[129, 2, 4], &[5]),
    (&[2, OVER], &[5, 6]),
    (&[2, 2, OVER], &[5, 6]),
    (&[2, 2, 4, 4], &[5, 7]),
    (&[2, 2, OVER, 4], &[5, 6, 7]),
    (&[0, OVER], &[6]),
    (&[0, 255], &[6]),
    (&[0, OVER, 4], &[6]),
    (&[0, 2, OVER], &[6]),
    (&[0, 2, 128], &[6]),
    (&[0, 2, 4, 5, 6, 7, 8, 9, 10, OVER], &[6]),
    (&[1, OVER], &[6, 8]),
    (&[1, OVER, 4], &[6]),
    (&[1, 2, OVER], &[6]),
    // The literal out of range stands before the two out of order, is one of them, or stands after them.
    (&[0, OVER, 6, 4], &[6, 7]),
    (&[0, 2, OVER, 6, 4], &[6, 7]),
    (&[0, 2, OVER, 4], &[6, 7]),
    (&[0, 2, OVER, OVER], &[6, 7]),
    (&[0, 2, 6, 4, OVER], &[6, 7]),
    (&[0, 2, 4, 4, OVER], &[6, 7]),
    (&[0, 2, 6, 4, 8, 10, 12, 14, 16, 255], &[6, 7]),
    (&[1, 2, 6, 4, OVER], &[6, 7]),
    (&[0, 2, 4, 4], &[7]),
    (&[0, 2, 6, 4], &[7]),
    (&[0, 2, 0, 0], &[7]),
    (&[0, 2, 3, 4, 5, 6, 7, 8, 9, 9], &[7]),
    (&[0, 2, 3, 3, 5, 6, 7, 8, 9, 10], &[7]),
    (&[0, 2, OVER - 1, 0], &[7]),
    (&[1, 2, 4, 4], &[7]),
    (&[1, 2, 6, 4], &[7]),
    (&[1, 2], &[8]),
    (&[1, 0], &[8]),
    (&[1, 2, 4], &[]),
    (&[1, 2, 3, 4, 5, 6, 7, 8, 9, 10], &[]),
    (&FACT, &[10]),
    (&DEFEASIBLE, &[10]),
    (&STRICT, &[10]),
];

/// Sound rules that every base has, and that parts repeat.
const FACT: [u8; 2] = [0, 0];
const DEFEASIBLE: [u8; 3] = [1, 2, 0];
const STRICT: [u8; 4] = [0, 20, 30, 39];
/// Another that every base has; without its body it is the fact's complement.
const LOOSE: [u8; 3] = [0, 1, 39];

/// Sound rules around one or two parts. Only the fact's literal is derived from the strict ones.
struct Base {
    name: &'static str,
    before: Vec<Vec<u8>>,
    after: Vec<Vec<u8>>,
}

impl Base {
    /// Nothing before the parts; a few rules; 15 or 16 defeasible ones; and the greatest table that has room for two parts.
    fn all() -> [Base; 5] {
        let mut rules = vec![FACT.to_vec(), LOOSE.to_vec()];
        rules.extend((0..16).map(|n| defeasible(2 + n, &[0]).bytes()));
        rules.extend((0..76).map(|n| strict(20 + n % 10, &[30 + n / 10, 39]).bytes()));
        let some = |defeasible: usize, strict: usize| {
            [&rules[..2 + defeasible], &rules[18..18 + strict]].concat()
        };
        let base = |name, before: Vec<Vec<u8>>, after: Vec<Vec<u8>>| Base {
            name,
            before,
            after,
        };
        [
            base("first", Vec::new(), some(2, 1)),
            base("few", some(2, 1), rules[19..22].to_vec()),
            base("fifteen", some(15, 1), rules[19..21].to_vec()),
            base("sixteen", some(16, 1), rules[19..21].to_vec()),
            base("last", rules.clone(), Vec::new()),
        ]
    }

    /// The number of the first part.
    fn place(&self) -> u32 {
        self.before.len() as u32
    }

    /// The parts that have some cause right after the rules before them, or after one part more.
    fn faulty_parts(&self, earlier: Option<&[u8]>) -> Vec<(&'static [u8], Vec<u32>)> {
        let before = self.before.iter().map(Vec::as_slice).chain(earlier);
        let says_defeasible = |rule: &[u8]| rule.first() == Some(&1);
        let defeasible = before.filter(|rule| says_defeasible(rule)).count();
        let mut parts = Vec::new();
        for &(part, own) in PARTS {
            let mut causes = own.to_vec();
            if self.before.is_empty() {
                causes.retain(|&cause| cause != 10);
            }
            if says_defeasible(part) && defeasible == 16 {
                causes.push(9);
            }
            if earlier == Some(part) && !causes.contains(&10) {
                causes.push(10);
            }
            if !causes.is_empty() {
                parts.push((part, causes));
            }
        }
        parts
    }

    fn with(&self, parts: &[&[u8]], tail: &Tail) -> Parts {
        let mut rules = self.before.clone();
        rules.extend(parts.iter().map(|part| part.to_vec()));
        rules.extend(self.after.clone());
        let of_parts = self.before.len()..self.before.len() + parts.len();
        let sound = |number: &usize| !of_parts.contains(number);
        let numbers: Vec<usize> = (0..rules.len()).filter(sound).collect();
        let mut names = numbers.iter().filter(|&&number| rules[number][0] == 1);
        let mut name = || *names.next().expect("two defeasible rules") as u8;
        let (one, two) = (name(), name());
        if tail.contradiction() {
            let loose = numbers.iter().find(|&&number| rules[number] == LOOSE);
            rules[*loose.expect("in every base")].pop();
        }
        let named = |&name: &u8| match name {
            1 => one,
            2 => two,
            other => other,
        };
        Parts {
            atoms: u16::from(ATOMS),
            pair_count: tail.pair_count,
            rules,
            last: tail.last.iter().map(named).collect(),
        }
    }
}

/// What stands after the rules, where 1 and 2 name two defeasible ones, and the causes 11 to 14.
struct Tail {
    pair_count: u16,
    last: &'static [u8],
    faults: &'static [Verdict],
}

impl Tail {
    fn contradiction(&self) -> bool {
        self.faults.contains(&(14, 0))
    }
}

const fn tail(pair_count: u16, last: &'static [u8], faults: &'static [Verdict]) -> Tail {
    Tail {
        pair_count,
        last,
        faults,
    }
}

const SOUND: Tail = tail(2, &[1, 2, 2, 1], &[]);

const TAILS: &[Tail] = &[
    SOUND,
    tail(0, &[], &[]),
    tail(2, &[1, 2, 2], &[(11, 0)]),
    tail(2, &[1, 2, 2, 1, 200], &[(11, 0)]),
    tail(1, &[1, 2, 2, 1], &[(11, 0)]),
    tail(3, &[1, 2, 2, 1], &[(11, 0)]),
    tail(2, &[], &[(11, 0)]),
    tail(0, &[1, 2], &[(11, 0)]),
    tail(2, &[1, 1, 2, 1], &[(12, 0)]),
    tail(2, &[1, 2, 2, 200], &[(12, 1)]),
    tail(2, &[1, 2, 1, 2], &[(13, 1)]),
    tail(2, &[2, 1, 1, 2], &[(13, 1)]),
    tail(2, &[2, 1, 1, 1], &[(12, 1), (13, 1)]),
    tail(2, &[1, 2, 2, 1], &[(14, 0)]),
    tail(0, &[], &[(14, 0)]),
    tail(2, &[1, 1, 2], &[(11, 0), (14, 0)]),
    tail(3, &[1, 1, 1, 1], &[(11, 0), (14, 0)]),
    tail(2, &[2, 1, 200, 200], &[(12, 1), (14, 0)]),
    tail(2, &[2, 1, 1, 2], &[(13, 1), (14, 0)]),
];

fn at(place: u32, causes: &[u32]) -> impl Iterator<Item = Verdict> + '_ {
    causes.iter().map(move |&cause| (cause, place))
}

/// Each faulty part with everything that can stand after the rules, and every two faulty parts as neighbours.
pub fn in_rules() -> Vec<Case> {
    let mut cases = Vec::new();
    for base in Base::all() {
        let place = base.place();
        for (part, causes) in base.faulty_parts(None) {
            for tail in TAILS {
                let faults = at(place, &causes).chain(tail.faults.iter().copied());
                let image = base.with(&[part], tail).image();
                cases.push(Case::with_faults(image, faults.collect(), base.name));
            }
            for (next, its_causes) in base.faulty_parts(Some(part)) {
                let faults = at(place, &causes).chain(at(place + 1, &its_causes));
                let image = base.with(&[part, next], &SOUND).image();
                cases.push(Case::with_faults(image, faults.collect(), base.name));
            }
        }
    }
    cases
}

/// Each faulty part with a directory that is wrong in each entry, and with what can stand after the rules in turn; for the
/// greatest table not all the parts.
pub fn with_directory() -> Vec<Case> {
    let mut cases = Vec::new();
    for base in Base::all() {
        let step = if base.name == "last" { 16 } else { 1 };
        let parts = base
            .faulty_parts(None)
            .into_iter()
            .zip(TAILS.iter().cycle());
        for ((part, causes), tail) in parts.step_by(step) {
            let mut faults: Vec<Verdict> = at(base.place(), &causes).collect();
            faults.extend(tail.faults);
            faults.push((3, 0));
            for image in broken_directories(&base.with(&[part], tail)) {
                cases.push(Case::with_faults(image, faults.clone(), base.name));
            }
        }
    }
    cases
}

/// The image with each entry of its directory wrong in turn: another offset or length, a gap, an overlap, a part past the
/// end, a sum that wraps; and all that are too short or too long for their directory.
pub fn broken_directories(parts: &Parts) -> Vec<Vec<u8>> {
    let sound = parts.directory();
    let contents = parts.contents();
    let image = parts.image();
    let start = usize::from(sound[0].0);
    let mut images = Vec::new();
    for entry in 0..sound.len() {
        let (offset, length) = sound[entry];
        let moved = |from: usize, by: u16, length: u16| {
            let mut entries = sound.clone();
            entries[entry].1 = length;
            for later in &mut entries[from..] {
                later.0 = later.0.wrapping_add(by);
            }
            entries
        };
        for other in [offset + 1, offset - 1, offset ^ 256, 0, 65_535] {
            let mut entries = sound.clone();
            entries[entry].0 = other;
            images.push(parts.image_with(&entries, &contents));
        }
        for by in [1, 65_535, 256, 65_535 - length, 65_535 - offset - length] {
            let other = length.wrapping_add(by);
            images.push(parts.image_with(&moved(entry, 0, other), &contents));
            // The later offsets follow the length, modulo 65,536 if need be.
            if entry + 1 < sound.len() {
                images.push(parts.image_with(&moved(entry + 1, by, other), &contents));
            }
        }
        let place = usize::from(offset) - start;
        let mut with_gap = contents.clone();
        with_gap.insert(place, 0);
        images.push(parts.image_with(&moved(entry, 1, length), &with_gap));
        if entry + 1 < sound.len() && !contents.is_empty() {
            let fewer = &contents[..contents.len() - 1];
            images.push(parts.image_with(&moved(entry + 1, 65_535, length), fewer));
        }
    }
    images.extend((12..image.len()).map(|length| image[..length].to_vec()));
    for more in [0, 1, 255] {
        images.push([&image[..], &[more]].concat());
        images.push([&image[..], &[more; 4]].concat());
    }
    images
}

/// Other values for the bytes of the header, each of them cause 2.
const HEADER: [(usize, u8); 8] = [
    (0, 65),
    (1, 1),
    (2, 97),
    (3, 1),
    (4, 241),
    (5, 1),
    (6, 1),
    (7, 1),
];

/// Length and header with a fault each, over directories, parts and pairs that have theirs.
pub fn with_header() -> Vec<Case> {
    let mut cases = Vec::new();
    for base in Base::all() {
        let parts = base
            .faulty_parts(None)
            .into_iter()
            .zip(TAILS.iter().cycle());
        for ((part, causes), tail) in parts.step_by(3) {
            let parts = base.with(&[part], tail);
            let mut faults: Vec<Verdict> = at(base.place(), &causes).collect();
            faults.extend(tail.faults);
            let mut images = vec![(parts.image(), faults.clone())];
            faults.push((3, 0));
            let broken = broken_directories(&parts).into_iter().step_by(41);
            images.extend(broken.map(|image| (image, faults.clone())));
            for (mut image, mut faults) in images {
                let sound: [u8; 8] = image[..8].try_into().expect("a header");
                faults.push((2, 0));
                for (place, byte) in HEADER {
                    image[..8].copy_from_slice(&sound);
                    image[place] = byte;
                    cases.push(Case::with_faults(image.clone(), faults.clone(), base.name));
                    let all = [&faults[..], &[(1, 0)]].concat();
                    let mut long = image.clone();
                    long.resize(1837 + place, byte);
                    cases.push(Case::with_faults(long, all, base.name));
                }
            }
        }
    }
    cases
}

/// Too short, with every fault that a header can have.
pub fn short_headers() -> Vec<Case> {
    let sound = [20, 0, 3, 0, 2, 0, 0, 0, 255, 255, 255];
    let mut cases = Vec::new();
    for (place, byte) in HEADER {
        let mut bytes = sound;
        bytes[place] = byte;
        for length in place + 1..=bytes.len() {
            let image = bytes[..length].to_vec();
            cases.push(Case::with_faults(image, vec![(1, 0), (2, 0)], "short"));
        }
    }
    cases
}

/// Every two pairs next to each other, by themselves and after a sound one, with and without a contradiction; and some of them
/// in a last part that is too long or too short.
pub fn in_pairs() -> Vec<Case> {
    // Rules 0, 1 and 5 are strict, 6 and 200 absent.
    let numbers = [0, 1, 2, 3, 4, 5, 6, 200];
    let pairs: Vec<(u8, u8)> = numbers
        .iter()
        .flat_map(|&first| numbers.iter().map(move |&second| (first, second)))
        .collect();
    let mut cases = Vec::new();
    for (count, &one) in pairs.iter().enumerate() {
        for &two in &pairs {
            for contradiction in [false, true] {
                cases.push(listing(&[one, two], 0, contradiction));
                cases.push(listing(&[(2, 4), one, two], 0, contradiction));
            }
            if count % 5 == 0 {
                for by in [-1, 1, 2] {
                    cases.push(listing(&[one, two], by, count % 2 == 0));
                }
            }
        }
    }
    cases
}

/// Three strict and three defeasible rules with these pairs. The header counts as many more as said; with 2 the last part has
/// a byte more instead.
fn listing(pairs: &[(u8, u8)], more: i32, contradiction: bool) -> Case {
    let against: &[u8] = if contradiction { &[] } else { &[39] };
    let rules = [
        strict(0, &[]),
        strict(1, against),
        defeasible(2, &[0]),
        defeasible(3, &[0]),
        defeasible(4, &[0]),
        strict(20, &[39]),
    ];
    let mut parts = Parts {
        atoms: u16::from(ATOMS),
        pair_count: pairs.len() as u16,
        rules: rules.iter().map(|rule| rule.bytes()).collect(),
        last: pairs.iter().flat_map(|pair| [pair.0, pair.1]).collect(),
    };
    let mut faults: Vec<Verdict> = Vec::new();
    for (place, pair) in pairs.iter().enumerate() {
        let named = |name: u8| (2..=4).contains(&name);
        if !named(pair.0) || !named(pair.1) || pair.0 == pair.1 {
            faults.push((12, place as u32));
        }
        if place > 0 && pairs[place - 1] >= *pair {
            faults.push((13, place as u32));
        }
    }
    if contradiction {
        faults.push((14, 0));
    }
    match more {
        0 => {}
        2 => parts.last.push(0),
        _ => parts.pair_count = (i32::from(parts.pair_count) + more) as u16,
    }
    if more != 0 {
        faults.push((11, 0));
    }
    Case::with_faults(parts.image(), faults, "pairs")
}
