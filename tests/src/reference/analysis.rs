//! All that follows from a program before a literal is asked about.

use std::cell::RefCell;
use std::collections::BTreeMap;
use std::rc::Rc;

use super::argument::{all_arguments, derived_by_each_mask, Argument};
use super::attack::{defeaters_of, Defeat, Exclusion, Preference};
use super::calls::accepted;
use super::literal::{Literal, LiteralSet};
use super::program::Program;
use super::refusal::Refusal;

/// Defeaters kept for later use are dropped above this number, to bound the memory.
const MOST_KEPT_DEFEATERS: usize = 4_000_000;

pub type Defeaters = Rc<Vec<(usize, Defeat)>>;

pub struct Analysis {
    pub program: Program,
    /// What Π derives with each mask; the position is the mask.
    pub derived_by: Vec<LiteralSet>,
    /// The argument list.
    pub arguments: Vec<Argument>,
    pub exclusion: Exclusion,
    pub preference: Preference,
    kept: RefCell<KeptDefeaters>,
}

#[derive(Default)]
struct KeptDefeaters {
    of_argument: BTreeMap<usize, Defeaters>,
    number: usize,
}

impl Analysis {
    /// Reads an image with all causes 1 to 14 and works out its arguments.
    pub fn of_image(image: &[u8]) -> Result<Analysis, Refusal> {
        accepted(image).map(Analysis::of)
    }

    fn of(program: Program) -> Analysis {
        let derived_by = derived_by_each_mask(&program);
        let arguments = all_arguments(&derived_by);
        let exclusion = Exclusion::among(&program, &arguments);
        let preference = Preference::of(&program);
        Analysis {
            program,
            derived_by,
            arguments,
            exclusion,
            preference,
            kept: RefCell::default(),
        }
    }

    /// The same program with other rules beating each other.
    pub fn with(self, preference: Preference) -> Analysis {
        Analysis {
            preference,
            kept: RefCell::default(),
            ..self
        }
    }

    /// The argument list as written into the lent table.
    pub fn entries(&self) -> Vec<u32> {
        self.arguments.iter().map(|a| a.entry()).collect()
    }

    /// List positions of the arguments for a literal, then of those for its complement.
    pub fn roots_of_forest(&self, literal: Literal) -> Vec<usize> {
        let supporting = |wanted: Literal| {
            (0..self.arguments.len()).filter(move |&i| self.arguments[i].literal == wanted)
        };
        supporting(literal)
            .chain(supporting(literal.complement()))
            .collect()
    }

    /// The defeaters of the argument at a list position. They are the same in every line, so
    /// they are worked out once and kept.
    pub fn defeaters_of(&self, index: usize) -> Defeaters {
        if let Some(known) = self.kept.borrow().of_argument.get(&index) {
            return Rc::clone(known);
        }
        let defeaters = Rc::new(defeaters_of(
            self.arguments[index],
            &self.arguments,
            &self.exclusion,
            &self.preference,
        ));
        let mut kept = self.kept.borrow_mut();
        if kept.number > MOST_KEPT_DEFEATERS {
            *kept = KeptDefeaters::default();
        }
        kept.number += defeaters.len();
        kept.of_argument.insert(index, Rc::clone(&defeaters));
        defeaters
    }
}
