//! Definition 2: arguments, and the list of all of them.

use super::derivation::derived;
use super::literal::{Literal, LiteralSet};
use super::program::{Mask, Program};

/// An argument structure: a set of defeasible rules and the literal it supports.
#[derive(Clone, Copy, Debug, PartialEq, Eq, PartialOrd, Ord)]
pub struct Argument {
    pub mask: Mask,
    pub literal: Literal,
}

impl Argument {
    /// The entry of the argument list.
    pub fn entry(self) -> u32 {
        self.mask * 128 + u32::from(self.literal.number())
    }

    /// The argument of an entry.
    pub fn of_entry(entry: u32) -> Argument {
        Argument {
            mask: entry / 128,
            literal: Literal::new((entry % 128) as u8),
        }
    }

    pub fn is_sub_argument_of(self, other: Argument) -> bool {
        self.mask & !other.mask == 0
    }
}

/// For each mask, what Π with it derives. The position in the list is the mask.
pub fn derived_by_each_mask(program: &Program) -> Vec<LiteralSet> {
    let masks: Mask = 1 << program.defeasible_numbers().len();
    (0..masks)
        .map(|mask| derived(&program.rules_with(mask), &[]))
        .collect()
}

/// All arguments, ascending by mask and then by literal, which is ascending by entry.
pub fn all_arguments(derived_by: &[LiteralSet]) -> Vec<Argument> {
    let mut arguments = Vec::new();
    for (mask, &literals) in derived_by.iter().enumerate() {
        if literals.has_complements() {
            continue;
        }
        let reached_with_less = derived_by_proper_subsets(derived_by, mask as Mask);
        for literal in literals.iter() {
            if !reached_with_less.contains(literal) {
                arguments.push(Argument {
                    mask: mask as Mask,
                    literal,
                });
            }
        }
    }
    arguments
}

/// Every literal that some proper subset of the mask derives with Π.
///
/// All proper subsets are looked at; the walk ends early only when nothing of what the mask
/// itself derives is left to be found.
fn derived_by_proper_subsets(derived_by: &[LiteralSet], mask: Mask) -> LiteralSet {
    let mut found = LiteralSet::default();
    let mut subset = mask;
    while subset != 0 && !derived_by[mask as usize].is_subset_of(found) {
        // The next smaller number with no bit outside the mask.
        subset = (subset - 1) & mask;
        found.add_all(derived_by[subset as usize]);
    }
    found
}
