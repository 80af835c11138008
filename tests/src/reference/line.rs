//! Definitions 5 and 6: argumentation lines.

use std::collections::BTreeSet;

use super::argument::Argument;
use super::attack::Defeat;
use super::literal::LiteralSet;
use super::program::Mask;

/// One argument of a line and how it defeats the one before; the first defeats nothing.
#[derive(Clone, Copy, Debug, PartialEq, Eq)]
pub struct Step {
    pub argument: Argument,
    pub defeat: Option<Defeat>,
}

/// All conditions of an acceptable line, from the first position to the last. That each
/// argument defeats the one before is for the caller to know.
pub fn acceptable(line: &[Step], derived_by: &[LiteralSet]) -> bool {
    concordant(line, 0, derived_by)
        && concordant(line, 1, derived_by)
        && (0..line.len()).all(|last| no_sub_argument_of_earlier(&line[..last + 1]))
        && (0..line.len()).all(|last| blocking_answered_properly(&line[..last + 1]))
}

/// The same for a line that is acceptable without its last argument. Every condition on a line
/// holds of all its beginnings, so only what the last argument brings in is looked at.
pub fn still_acceptable(line: &[Step], derived_by: &[LiteralSet]) -> bool {
    concordant(line, 0, derived_by)
        && concordant(line, 1, derived_by)
        && no_sub_argument_of_earlier(line)
        && blocking_answered_properly(line)
}

/// The most nodes that a line of any tree can have: as many as there are different non-empty masks in the argument list, or
/// one where there are none.
pub fn line_limit(arguments: &[Argument]) -> usize {
    let masks: BTreeSet<Mask> = arguments.iter().map(|argument| argument.mask).collect();
    let non_empty = masks.into_iter().filter(|&mask| mask != 0);
    non_empty.count().max(1)
}

/// Π with all masks at positions of one parity isn't contradictory.
fn concordant(line: &[Step], parity: usize, derived_by: &[LiteralSet]) -> bool {
    let together: Mask = line
        .iter()
        .skip(parity)
        .step_by(2)
        .fold(0, |mask, step| mask | step.argument.mask);
    !derived_by[together as usize].has_complements()
}

/// The last argument is a sub-argument of none before it.
fn no_sub_argument_of_earlier(line: &[Step]) -> bool {
    match line.split_last() {
        None => true,
        Some((last, earlier)) => !earlier
            .iter()
            .any(|step| last.argument.is_sub_argument_of(step.argument)),
    }
}

/// If the last but one is a blocking defeater, the last is a proper one.
fn blocking_answered_properly(line: &[Step]) -> bool {
    match line {
        [.., previous, last] if previous.defeat == Some(Defeat::Blocking) => {
            last.defeat == Some(Defeat::Proper)
        }
        _ => true,
    }
}
