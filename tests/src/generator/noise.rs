//! Images damaged without a plan. What they come to is known only for a few.

use super::accepted::accepted;
use super::random::Random;
use super::{Case, Verdict};

pub fn noise(random: &mut Random) -> Case {
    let sound = accepted(random.number(), 16)
        .nth(random.below(16))
        .expect("sixteen were asked for")
        .image;
    match random.below(8) {
        0 => truncated(random, sound),
        1 => continued(random, sound),
        2 => flipped(random, sound, 0),
        3 => flipped(random, sound, 8),
        4 => contents_flipped(random, sound),
        5 => random_bytes(random),
        6 => plausible_bytes(random),
        _ => shifted(random, sound),
    }
}

fn case(image: Vec<u8>, expected: Option<Verdict>, note: &str) -> Case {
    let planted = expected.filter(|&v| v != (0, 0)).into_iter().collect();
    Case {
        image,
        expected,
        planted,
        scenario: None,
        note: note.to_string(),
    }
}

/// A sound image cut short: its header is whole from 12 bytes on, but its end is missing.
fn truncated(random: &mut Random, mut image: Vec<u8>) -> Case {
    let length = if random.chance(30) {
        random.below(12)
    } else {
        random.below(image.len())
    };
    image.truncate(length);
    let expected = if length < 12 { (1, 0) } else { (3, 0) };
    case(image, Some(expected), "cut short")
}

/// A sound image with something after its end.
fn continued(random: &mut Random, mut image: Vec<u8>) -> Case {
    for _ in 0..random.between(1, 20) {
        image.push(random.byte());
    }
    let expected = if image.len() > 1836 { (1, 0) } else { (3, 0) };
    case(image, Some(expected), "bytes after the end")
}

/// Some bits or bytes changed from some position on.
fn flipped(random: &mut Random, mut image: Vec<u8>, from: usize) -> Case {
    for _ in 0..random.between(1, 4) {
        let place = random.between(from, image.len() - 1);
        image[place] ^= if random.chance(50) {
            1 << random.below(8)
        } else {
            random.byte()
        };
    }
    case(image, None, "bytes changed")
}

/// Some bytes changed in the rules and pairs only, mostly to small numbers.
fn contents_flipped(random: &mut Random, mut image: Vec<u8>) -> Case {
    let start = usize::from(image[8]) + 256 * usize::from(image[9]);
    if start < image.len() {
        for _ in 0..random.between(1, 3) {
            let place = random.between(start, image.len() - 1);
            image[place] = if random.chance(80) {
                random.below(20) as u8
            } else {
                random.byte()
            };
        }
    }
    case(image, None, "rules or pairs changed")
}

fn random_bytes(random: &mut Random) -> Case {
    let length = match random.below(20) {
        0 => random.between(1800, 1900),
        1..=3 => random.between(12, 400),
        _ => random.below(40),
    };
    let small = random.chance(50);
    let image: Vec<u8> = (0..length)
        .map(|_| {
            if small && random.chance(80) {
                random.below(3) as u8
            } else {
                random.byte()
            }
        })
        .collect();
    let wrong_length = !(12..=1836).contains(&length);
    case(image, wrong_length.then_some((1, 0)), "random bytes")
}

/// A sound directory over parts filled at random with small numbers.
fn plausible_bytes(random: &mut Random) -> Case {
    let rules = random.below(6);
    let small = |random: &mut Random, length: usize| -> Vec<u8> {
        (0..length).map(|_| random.below(7) as u8).collect()
    };
    let rules = (0..rules)
        .map(|_| {
            let length = random.between(1, 5);
            let mut part = small(random, length);
            part[0] = random.pick(&[0, 0, 0, 1, 1, 1, 1, 2]);
            part
        })
        .collect();
    let pairs = random.below(3);
    let parts = super::Parts {
        atoms: random.between(2, 4) as u16,
        pair_count: pairs as u16,
        rules,
        last: small(random, 2 * pairs),
    };
    case(parts.image(), None, "random rules and pairs")
}

/// A byte taken out or put in.
fn shifted(random: &mut Random, mut image: Vec<u8>) -> Case {
    let place = random.below(image.len());
    if random.chance(50) {
        image.remove(place);
    } else {
        image.insert(place, random.byte());
    }
    case(image, None, "one byte out or in")
}
