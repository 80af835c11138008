//! The single damages: what is done to a rule, the pairs, the directory and the header.

use super::description::Parts;
use super::random::Random;

/// A byte that is no literal of a program with so many atoms.
fn literal_out_of_range(random: &mut Random, atoms: usize) -> u8 {
    if random.chance(50) {
        2 * atoms as u8
    } else {
        random.between(2 * atoms, 255) as u8
    }
}

/// A rule with all of the causes 4 to 8 that are named, made from a sound one. Cause 9 comes
/// from where the rule stands and needs nothing here.
pub fn rule(random: &mut Random, atoms: usize, sound: &[u8], causes: &[u32]) -> Vec<u8> {
    let literals: Vec<u8> = (0..2 * atoms as u8).collect();
    let mut kind = sound[0];
    let mut head = sound[1];
    let mut body = sound[2..].to_vec();
    let wanted = |cause: u32| causes.contains(&cause);
    if wanted(7) {
        body = body_out_of_order(random, &literals);
    }
    if wanted(8) {
        body.clear();
    }
    if wanted(6) {
        let bad = literal_out_of_range(random, atoms);
        if wanted(7) && body.len() < 8 && random.chance(40) {
            // After those out of order.
            body.push(bad);
        } else if wanted(7) && random.chance(50) {
            // In front of a smaller literal, it is out of order and out of range in one.
            body[0] = bad;
        } else if !wanted(7) && !body.is_empty() && random.chance(60) {
            // The greatest comes last, so the body stays in order.
            *body.last_mut().expect("not empty") = bad;
        } else {
            head = bad;
        }
    }
    if wanted(5) {
        kind = random.between(2, 255) as u8;
    }
    if wanted(4) {
        let bad_kind_only = !wanted(6) && !wanted(7) && !wanted(9);
        if wanted(8) {
            return vec![kind];
        }
        if bad_kind_only && random.chance(50) {
            return if wanted(5) || random.chance(50) {
                vec![kind]
            } else {
                Vec::new()
            };
        }
        lengthen(random, &mut body, &literals, wanted(6) || wanted(7));
    }
    let mut bytes = vec![kind, head];
    bytes.extend_from_slice(&body);
    bytes
}

/// Two to eight literals in range, with two neighbours equal or the wrong way round.
fn body_out_of_order(random: &mut Random, literals: &[u8]) -> Vec<u8> {
    let length = random.between(2, 8);
    let mut body = random.sample(literals, length);
    let place = random.below(length - 1);
    if random.chance(50) {
        body[place + 1] = body[place];
    } else {
        body.swap(place, place + 1);
    }
    body
}

/// A body of more than eight literals: in order and in range if there are enough literals and
/// nothing in the body has to stay.
fn lengthen(random: &mut Random, body: &mut Vec<u8>, literals: &[u8], keep: bool) {
    let length = if random.chance(60) {
        9
    } else {
        random.between(9, 24)
    };
    if keep || literals.len() < length {
        while body.len() < length {
            body.push(random.pick(literals));
        }
    } else {
        *body = random.sample(literals, length);
    }
}

/// The rules that pairs can name, by their numbers.
pub struct RuleNames {
    pub defeasible: Vec<u8>,
    pub strict: Vec<u8>,
    /// Rules in all; numbers from here on are absent.
    pub count: usize,
}

impl RuleNames {
    fn is_sound(&self, pair: (u8, u8)) -> bool {
        pair.0 != pair.1 && self.defeasible.contains(&pair.0) && self.defeasible.contains(&pair.1)
    }

    fn absent(&self, random: &mut Random) -> u8 {
        if random.chance(40) {
            self.count as u8
        } else {
            random.between(self.count, 255) as u8
        }
    }

    /// A pair with cause 12.
    fn bad_pair(&self, random: &mut Random) -> (u8, u8) {
        let some = random.pick(&self.defeasible);
        let strict = (!self.strict.is_empty()).then(|| random.pick(&self.strict));
        match (random.below(6), strict) {
            (0, _) => (self.absent(random), some),
            (1, _) => (some, self.absent(random)),
            (2, Some(strict)) => (strict, some),
            (3, Some(strict)) => (some, strict),
            (4, _) => (self.absent(random), self.absent(random)),
            _ => (some, some),
        }
    }

    fn sound_pairs_up_to(&self, last: (u8, u8)) -> Vec<(u8, u8)> {
        let mut found = Vec::new();
        for &first in &self.defeasible {
            for &second in &self.defeasible {
                let pair = (first, second);
                if pair <= last && self.is_sound(pair) {
                    found.push(pair);
                }
            }
        }
        found
    }
}

/// Puts causes 12 and 13 into the pairs and tells where, slot by slot in ascending order. Each
/// change concerns one pair, so all pairs before the first slot stay sound. None if there is no
/// room.
pub fn pairs(
    random: &mut Random,
    pairs: &mut [(u8, u8)],
    slots: &[Vec<u32>],
    names: &RuleNames,
) -> Option<Vec<usize>> {
    if slots.is_empty() {
        return Some(Vec::new());
    }
    let all: Vec<usize> = (0..pairs.len()).collect();
    let places = random.sample(&all, slots.len());
    for (causes, &place) in slots.iter().zip(&places) {
        if causes.contains(&13) && place == 0 {
            return None;
        }
        pairs[place] = match (causes.contains(&12), causes.contains(&13)) {
            (true, false) => names.bad_pair(random),
            (true, true) => bad_pair_up_to(random, pairs[place - 1], names),
            _ => {
                let lower = names.sound_pairs_up_to(pairs[place - 1]);
                if lower.is_empty() {
                    return None;
                }
                if lower.contains(&pairs[place - 1]) && random.chance(50) {
                    pairs[place - 1]
                } else {
                    random.pick(&lower)
                }
            }
        };
    }
    Some(places)
}

/// A pair with cause 12 that isn't above the one before it.
fn bad_pair_up_to(random: &mut Random, previous: (u8, u8), names: &RuleNames) -> (u8, u8) {
    for _ in 0..20 {
        let pair = names.bad_pair(random);
        if pair <= previous {
            return pair;
        }
    }
    // One rule twice, and no pair is lower.
    (0, 0)
}

/// Cause 11.
pub fn last_part(random: &mut Random, parts: &mut Parts) {
    let some = !parts.last.is_empty();
    match random.below(6) {
        0 if some => {
            parts.last.pop();
        }
        1 if parts.pair_count > 0 => parts.pair_count -= 1,
        2 if some => parts.last.clear(),
        3 if parts.pair_count < 240 => parts.pair_count += 1,
        4 => {
            parts.last.push(random.byte());
            parts.last.push(random.byte());
        }
        _ => parts.last.push(random.byte()),
    }
}

/// Makes a rule part or the last part so long that the image has the wanted length.
pub fn grow_a_part(random: &mut Random, parts: &mut Parts, wanted_length: usize) {
    let missing = wanted_length.saturating_sub(parts.image().len());
    let part = if random.chance(50) {
        &mut parts.last
    } else {
        let rule = random.below(parts.rules.len());
        &mut parts.rules[rule]
    };
    for _ in 0..missing {
        part.push(random.byte());
    }
}

/// Cause 2: one of the header's numbers is over its limit, or bytes 6-7 are not zero.
pub fn header(random: &mut Random, image: &mut [u8], keep_atoms: bool) {
    let over = |random: &mut Random, limit: usize| -> [u8; 2] {
        let number = match random.below(3) {
            0 => limit + 1,
            // The low byte by itself would be in range.
            1 => 256 * random.between(1, 255),
            _ => random.between(limit + 1, 65_535),
        };
        (number as u16).to_le_bytes()
    };
    match random.below(4) {
        0 if !keep_atoms => image[0..2].copy_from_slice(&over(random, 64)),
        1 => image[2..4].copy_from_slice(&over(random, 96)),
        2 => image[4..6].copy_from_slice(&over(random, 240)),
        _ => {
            let which = random.pick(&[6, 7]);
            image[which] = random.between(1, 255) as u8;
        }
    }
}

fn other_number(random: &mut Random, number: u16) -> u16 {
    match random.below(3) {
        0 => number.wrapping_add(1),
        1 => number.wrapping_sub(1),
        _ => loop {
            let other = random.number() as u16;
            if other != number {
                break other;
            }
        },
    }
}

/// Cause 3: an image with these parts, at least one of them a rule, and a broken directory.
pub fn directory(random: &mut Random, parts: &Parts) -> Vec<u8> {
    let mut entries = parts.directory();
    let mut contents = parts.contents();
    let start = 12 + 4 * parts.rules.len();
    let length = start + contents.len();
    // An entry that has a successor, and the successor's first byte within the contents.
    let entry = random.below(entries.len() - 1);
    let after = usize::from(entries[entry + 1].0) - start;
    match random.below(11) {
        // Each offset follows from what stands before it, so a single other one is wrong.
        0 => {
            let which = random.below(entries.len());
            entries[which].0 = other_number(random, entries[which].0);
        }
        // Likewise a single other length: the next offset or the end no longer fits.
        1 => {
            let which = random.below(entries.len());
            entries[which].1 = other_number(random, entries[which].1);
        }
        // A gap in front of the first part; all else fits.
        2 => {
            let gap = random.between(1, 4);
            for other in &mut entries {
                other.0 += gap as u16;
            }
            contents.splice(0..0, (0..gap).map(|_| random.byte()));
        }
        // A gap between two parts; all else fits.
        3 => {
            let gap = random.between(1, 4);
            for other in &mut entries[entry + 1..] {
                other.0 += gap as u16;
            }
            contents.splice(after..after, (0..gap).map(|_| random.byte()));
        }
        // Two parts overlap; all else fits.
        4 if contents.len() > 4 => {
            let overlap = random.between(1, 4);
            for other in &mut entries[entry + 1..] {
                other.0 -= overlap as u16;
            }
            contents.truncate(contents.len() - overlap);
        }
        // The image goes on after the last part.
        5 => {
            let count = random.between(1, 6);
            contents.extend((0..count).map(|_| random.byte()));
        }
        // The image ends early, perhaps within the directory.
        6 => {
            let mut image = parts.image();
            let shorter = random.between(12, length - 1);
            image.truncate(shorter);
            return image;
        }
        // Another rule count: the first offset no longer fits, or not even the directory does.
        7 => {
            let mut image = parts.image();
            let count = parts.rules.len();
            let other = loop {
                let other = random.between(0, 96);
                if other != count {
                    break other;
                }
            };
            image[2..4].copy_from_slice(&(other as u16).to_le_bytes());
            return image;
        }
        // Offset and length add up to the next offset only when the sum wraps at 65,536.
        8 => wrap(random, &mut entries, entry, length),
        // Two neighbouring entries in each other's place; one of them is not empty.
        9 if entries[entry].1 > 0 || entries[entry + 1].1 > 0 => {
            entries.swap(entry, entry + 1);
        }
        // The last part is said to be longer or shorter than it is.
        _ => {
            let last = entries.len() - 1;
            entries[last].1 = other_number(random, entries[last].1);
        }
    }
    parts.image_with(&entries, &contents)
}

fn wrap(random: &mut Random, entries: &mut [(u16, u16)], entry: usize, image_length: usize) {
    let back = random.between(1, 8) as u16;
    entries[entry].1 = 0u16.wrapping_sub(back);
    let mut offset = entries[entry].0 - back;
    for other in &mut entries[entry + 1..] {
        other.0 = offset;
        offset += other.1;
    }
    let last = entries.len() - 1;
    entries[last].1 = (image_length - usize::from(entries[last].0)) as u16;
}
