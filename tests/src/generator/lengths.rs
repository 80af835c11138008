//! Images of every length: cut short, continued, with nothing but a header, and around the limits of length and offsets.

use super::description::{defeasible, strict, Description, Parts, RuleText};
use super::meetings::broken_directories;
use super::{Case, Verdict};
use crate::fittings::{EMPTY, F, G_WITH_PAIR, T};

/// Sound images from the least to the greatest.
pub fn sound_images() -> Vec<Vec<u8>> {
    let programs = [EMPTY, "0", F, G_WITH_PAIR, T];
    let mut images: Vec<Vec<u8>> = programs
        .iter()
        .map(|program| Description::parse(program).expect("a program").image())
        .collect();
    images.push(greatest().image());
    images
}

/// 96 rules with eight literals each, 16 of them defeasible, and all 240 pairs. No rule is a fact.
pub fn greatest() -> Description {
    let rule = |n: u8| {
        let body: Vec<u8> = (0..8).map(|k| 8 * k + n / 16 + k).collect();
        match n % 6 {
            0 => defeasible(n, &body),
            _ => strict(n, &body),
        }
    };
    let names: Vec<u8> = (0..96).filter(|n| n % 6 == 0).collect();
    let mut pairs = Vec::new();
    for &first in &names {
        let others = names.iter().filter(|&&second| second != first);
        pairs.extend(others.map(|&second| (first, second)));
    }
    Description {
        atoms: 64,
        rules: (0..96).map(rule).collect(),
        pairs,
    }
}

fn verdict_of_length(length: usize) -> Verdict {
    match length {
        12..=1836 => (3, 0),
        _ => (1, 0),
    }
}

/// Every sound image cut at every length, and with up to 40 bytes after its end.
pub fn cut_and_continued() -> Vec<Case> {
    let mut cases = Vec::new();
    for image in sound_images() {
        cases.push(Case::with_faults(image.clone(), Vec::new(), "whole"));
        for length in 0..image.len() {
            let fault = verdict_of_length(length);
            let cut = image[..length].to_vec();
            cases.push(Case::with_faults(cut, vec![fault], "cut short"));
        }
        for more in 1..=40 {
            for byte in [0, 1, 255] {
                let mut image = image.clone();
                image.resize(image.len() + more, byte);
                let fault = verdict_of_length(image.len());
                cases.push(Case::with_faults(image, vec![fault], "continued"));
            }
        }
    }
    cases
}

/// Up to 12 bytes that are all the same.
pub fn uniform() -> Vec<Case> {
    let mut cases = Vec::new();
    for length in 0..=12 {
        for byte in 0..=255 {
            let fault = match (length, byte) {
                (12, 0) => (3, 0),
                (12, _) => (2, 0),
                _ => (1, 0),
            };
            let image = vec![byte; length];
            cases.push(Case::with_faults(image, vec![fault], "all the same"));
        }
    }
    cases
}

/// No rules: with and without pairs, counted or there; the small ones with every broken directory, too.
pub fn without_rules() -> Vec<Case> {
    let mut cases = Vec::new();
    for atoms in [0, 1, 64] {
        for pair_count in [0, 1, 2, 239, 240] {
            for bytes in [0, 1, 2, 3, 4, 478, 479, 480, 481, 1824] {
                let parts = Parts {
                    atoms,
                    pair_count,
                    rules: Vec::new(),
                    last: (0..bytes).map(|n| n as u8).collect(),
                };
                let mut faults = Vec::new();
                if bytes != 2 * usize::from(pair_count) {
                    faults.push((11, 0));
                } else if pair_count > 0 {
                    faults.push((12, 0));
                }
                let image = parts.image();
                cases.push(Case::with_faults(image, faults.clone(), "without rules"));
                if bytes <= 4 {
                    faults.push((3, 0));
                    for image in broken_directories(&parts) {
                        cases.push(Case::with_faults(image, faults.clone(), "without rules"));
                    }
                }
            }
        }
    }
    cases
}

/// A directory that fills the image: every part is empty.
pub fn empty_parts() -> Vec<Case> {
    let mut cases = Vec::new();
    for rules in 0..=96 {
        let parts = Parts {
            atoms: 64,
            pair_count: 0,
            rules: vec![Vec::new(); rules],
            last: Vec::new(),
        };
        let faults = if rules > 0 { vec![(4, 0)] } else { Vec::new() };
        cases.push(Case::with_faults(parts.image(), faults, "empty parts"));
        // One part that is not empty, at the end or between the others.
        for filled in (0..rules).step_by(7) {
            let mut parts = parts.clone();
            parts.rules[filled] = vec![0, 0];
            let first = u32::from(filled == 0);
            let only = rules == 1;
            let faults = if only { Vec::new() } else { vec![(4, first)] };
            cases.push(Case::with_faults(parts.image(), faults, "empty parts"));
        }
    }
    cases
}

/// An image of 1,836 bytes that one part makes so long, and of one byte more.
pub fn one_long_part() -> Vec<Case> {
    let mut cases = Vec::new();
    let rules: Vec<RuleText> = (0..9).map(|n| strict(n, &[20])).collect();
    let description = Description {
        atoms: 64,
        rules,
        pairs: Vec::new(),
    };
    for part in 0..=9 {
        for length in [1835, 1836, 1837] {
            let mut parts = description.parts();
            let missing = length - parts.image().len();
            let (long, fault) = match part {
                9 => (&mut parts.last, (11, 0)),
                _ => (&mut parts.rules[part], (4, part as u32)),
            };
            long.extend((0..missing).map(|n| 30 + (n % 90) as u8));
            let mut faults = vec![fault];
            if length > 1836 {
                faults.push((1, 0));
            }
            cases.push(Case::with_faults(parts.image(), faults, "one long part"));
        }
    }
    cases
}
