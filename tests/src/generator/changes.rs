//! Small sound images with every change of one byte, many changes of two, and every division of their bytes into parts. What
//! they come to is for the reference to say.

use super::description::{Description, Parts};
use super::lengths::greatest;
use super::Case;
use crate::fittings::{EMPTY, F, G_WITH_PAIR, H, K, L, T};

/// Rules and pairs of every sort, in few bytes.
const MIXED: &str = "4; d 3<4; 3<4,5; d 2<0,1,3; d 2<0,1,4; (1,3); (1,4); (3,4)";
/// Literals up to the greatest.
const GREAT: &str = "atoms 64; 127; d 63<127; d 62<63,127; (1,2); (2,1)";

fn image(program: &str) -> Vec<u8> {
    Description::parse(program).expect("a program").image()
}

/// Every other value of every byte.
pub fn of_one_byte() -> impl Iterator<Item = Case> {
    let programs = [EMPTY, "0", F, G_WITH_PAIR, K, L, T, MIXED, GREAT];
    programs.into_iter().flat_map(|program| {
        let sound = image(program);
        (0..sound.len()).flat_map(move |place| {
            let sound = sound.clone();
            (1..=255).map(move |by| {
                let mut image = sound.clone();
                image[place] = image[place].wrapping_add(by);
                Case::unknown(image, "one byte changed")
            })
        })
    })
}

/// Some values of every byte of the greatest image.
pub fn of_the_greatest() -> impl Iterator<Item = Case> {
    let sound = greatest().image();
    (0..sound.len()).flat_map(move |place| {
        let sound = sound.clone();
        let others = values(sound[place]).into_iter();
        others.map(move |value| {
            let mut image = sound.clone();
            image[place] = value;
            Case::unknown(image, "one byte of many changed")
        })
    })
}

/// Least, greatest and neighbouring values of every two bytes.
pub fn of_two_bytes() -> impl Iterator<Item = Case> {
    [F, GREAT, "0"].into_iter().flat_map(|program| {
        let sound = image(program);
        in_two_places(&sound, 0..sound.len(), values)
    })
}

/// Every two bytes of a directory of eleven entries, 0 and 255.
pub fn of_the_directory() -> impl Iterator<Item = Case> {
    [T, MIXED].into_iter().flat_map(|program| {
        let sound = image(program);
        let end = 12 + 4 * usize::from(sound[2]);
        in_two_places(&sound, 8..end, |_| vec![0, 255])
    })
}

/// The bytes of the rules and pairs cut into as many parts in every way, under a sound directory.
pub fn of_the_parts() -> impl Iterator<Item = Case> {
    [F, K, H, G_WITH_PAIR].into_iter().flat_map(|program| {
        let sound = Description::parse(program).expect("a program").parts();
        let bytes = sound.contents();
        let mut cases = Vec::new();
        for mut rules in divisions(&bytes, sound.rules.len() + 1) {
            let last = rules.pop().expect("one part at least");
            let parts = Parts {
                rules,
                last,
                ..sound
            };
            cases.push(Case::unknown(parts.image(), "other parts"));
        }
        cases
    })
}

/// All ways to cut some bytes into so many parts, empty ones among them.
fn divisions(bytes: &[u8], parts: usize) -> Vec<Vec<Vec<u8>>> {
    if parts == 1 {
        return vec![vec![bytes.to_vec()]];
    }
    let mut found = Vec::new();
    for length in 0..=bytes.len() {
        for mut rest in divisions(&bytes[length..], parts - 1) {
            rest.insert(0, bytes[..length].to_vec());
            found.push(rest);
        }
    }
    found
}

fn values(byte: u8) -> Vec<u8> {
    let mut values = vec![0, 1, 2, 255, byte.wrapping_add(1), byte.wrapping_sub(1)];
    values.sort_unstable();
    values.dedup();
    values.retain(|&value| value != byte);
    values
}

fn in_two_places(
    sound: &[u8],
    places: std::ops::Range<usize>,
    values: fn(u8) -> Vec<u8>,
) -> Vec<Case> {
    let mut cases = Vec::new();
    for first in places.clone() {
        for second in first + 1..places.end {
            for one in values(sound[first]) {
                for two in values(sound[second]) {
                    let mut image = sound.to_vec();
                    image[first] = one;
                    image[second] = two;
                    cases.push(Case::unknown(image, "two bytes changed"));
                }
            }
        }
    }
    cases
}
