//! Images that are refused late, when nearly everything in them has been read: the greatest image with one fault, or with two
//! of which the later one is not reached.

use super::description::{strict, Description};
use super::lengths::greatest;
use super::{Case, Verdict};

const LAST_RULE: usize = 95;
const LAST_PAIR: usize = 239;

fn with_repeat(description: &mut Description) -> Vec<Verdict> {
    description.rules[LAST_RULE] = description.rules[1].clone();
    vec![(10, LAST_RULE as u32)]
}

fn with_bad_name(description: &mut Description) -> Vec<Verdict> {
    description.pairs[LAST_PAIR].1 = 95;
    vec![(12, LAST_PAIR as u32)]
}

fn with_absent_name(description: &mut Description) -> Vec<Verdict> {
    description.pairs[LAST_PAIR].1 = 96;
    vec![(12, LAST_PAIR as u32)]
}

fn with_pair_twice(description: &mut Description) -> Vec<Verdict> {
    description.pairs[LAST_PAIR] = description.pairs[LAST_PAIR - 1];
    vec![(13, LAST_PAIR as u32)]
}

fn with_lower_pair(description: &mut Description) -> Vec<Verdict> {
    description.pairs[LAST_PAIR] = description.pairs[0];
    vec![(13, LAST_PAIR as u32)]
}

/// Two facts among the last rules, so the image is shorter; no pair names them.
fn with_contradiction(description: &mut Description) -> Vec<Verdict> {
    description.rules[91] = strict(100, &[]);
    description.rules[94] = strict(101, &[]);
    vec![(14, 0)]
}

type Fault = fn(&mut Description) -> Vec<Verdict>;

const FAULTS: [Fault; 6] = [
    with_repeat,
    with_bad_name,
    with_absent_name,
    with_pair_twice,
    with_lower_pair,
    with_contradiction,
];

/// Each fault alone, and every two of them that can be in one image.
pub fn late() -> Vec<Case> {
    let mut cases = Vec::new();
    for (position, first) in FAULTS.iter().enumerate() {
        let mut one = greatest();
        let faults = first(&mut one);
        cases.push(Case::with_faults(one.image(), faults.clone(), "late"));
        for second in &FAULTS[position + 1..] {
            let mut both = one.clone();
            let mut faults = faults.clone();
            let its_faults = second(&mut both);
            // There is one last pair only, and the later of two faults takes the other's place.
            if its_faults[0].1 == LAST_PAIR as u32 {
                faults.retain(|fault| fault.1 != LAST_PAIR as u32);
            }
            faults.extend(its_faults);
            cases.push(Case::with_faults(both.image(), faults, "late"));
        }
    }
    cases
}
