//! Which causes are put into one image, and how they stand to each other.

/// How the two faults of a scenario stand to each other.
#[derive(Clone, Copy, Debug, PartialEq, Eq, PartialOrd, Ord)]
pub enum Arrangement {
    /// One fault only.
    Alone,
    /// Both in the same rule or the same pair.
    Together,
    /// Both in rules or both in pairs, the first fault in the earlier one.
    FirstEarlier,
    /// Both in rules or both in pairs, the second fault in the earlier one.
    SecondEarlier,
    /// The second fault is 10, and the earlier rule with the same bytes has the first fault.
    Twin,
    /// At most one of the two has a rule or pair of its own, or one is in a rule and the other
    /// in a pair.
    Apart,
}

/// One or two causes to put into an image.
#[derive(Clone, Copy, Debug, PartialEq, Eq, PartialOrd, Ord)]
pub struct Scenario {
    pub first: u32,
    pub second: Option<u32>,
    pub arrangement: Arrangement,
}

pub fn in_rule(cause: u32) -> bool {
    (4..=10).contains(&cause)
}

pub fn in_pair(cause: u32) -> bool {
    (12..=13).contains(&cause)
}

/// True if one rule or one pair can show both causes while everything before it is sound.
///
/// A bad kind is not defeasible, so 5 excludes 8 and 9; a body can't be both empty and out of
/// order, so 7 excludes 8; and a rule with the same bytes as a sound one is sound by itself, so
/// 10 goes with 9 only. 4 with 8 is the one-byte part that says defeasible and nothing more.
pub fn can_share_a_place(first: u32, second: u32) -> bool {
    matches!(
        (first, second),
        (4, 5..=9) | (5, 6..=7) | (6, 7..=9) | (7, 9) | (8, 9) | (9, 10) | (12, 13)
    )
}

/// Every cause alone, and every two causes that can stand together in every arrangement.
pub fn all_scenarios() -> Vec<Scenario> {
    let mut scenarios = Vec::new();
    for first in 1..=14 {
        scenarios.push(Scenario {
            first,
            second: None,
            arrangement: Arrangement::Alone,
        });
        for second in first..=14 {
            for arrangement in arrangements(first, second) {
                scenarios.push(Scenario {
                    first,
                    second: Some(second),
                    arrangement,
                });
            }
        }
    }
    scenarios
}

fn arrangements(first: u32, second: u32) -> Vec<Arrangement> {
    let same_sort = in_rule(first) && in_rule(second) || in_pair(first) && in_pair(second);
    if !same_sort {
        return if first == second {
            Vec::new()
        } else {
            vec![Arrangement::Apart]
        };
    }
    if first == second {
        // There is only one 17th defeasible rule.
        return if first == 9 {
            Vec::new()
        } else {
            vec![Arrangement::FirstEarlier]
        };
    }
    let mut found = vec![Arrangement::FirstEarlier, Arrangement::SecondEarlier];
    if can_share_a_place(first, second) {
        found.push(Arrangement::Together);
    }
    if second == 10 && first <= 8 {
        found.push(Arrangement::Twin);
    }
    found
}
