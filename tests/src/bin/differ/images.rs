//! Counting the images of a comparison, and leaving out those that take the reference long.

use foqtirel_tests::generator::{changed, Case, MADE_BY_RULE};
use foqtirel_tests::reference::check;
use foqtirel_tests::reference::image::defeasible_rules;

use crate::report::Faults;

/// The reference takes long for programs with more defeasible rules than this ...
const MOST_QUICK: usize = 12;
/// ... though it is worth it for programs with large trees ...
const MOST_CONTESTED: usize = 14;
/// ... so only so many of them are compared, of the programs and of the damaged images each.
const MOST_SLOW: usize = 40;

/// Of the images made by rule and the changed ones, those that are accepted and quick.
pub fn still_sound() -> impl Iterator<Item = Case> {
    let made = MADE_BY_RULE.iter().flat_map(|(_, make)| make());
    made.chain(changed()).filter(|case| {
        let quick = defeasible_rules(&case.image) <= MOST_QUICK;
        quick && check(&case.image).is_ok()
    })
}

/// Where an image comes from.
#[derive(Clone, Copy, PartialEq, Eq)]
pub enum Source {
    Program,
    Contested,
    Chained,
    Damaged,
    Vector,
}

#[derive(Default)]
pub struct Images {
    /// Random programs that are accepted, by their number of defeasible rules.
    programs: [usize; 17],
    /// Programs whose listed pairs form chains.
    chained: usize,
    damaged: usize,
    vectors: usize,
    slow_programs: usize,
    slow_damaged: usize,
    left_out: usize,
}

impl Images {
    /// False if the image is to be left out.
    pub fn admit(&mut self, source: Source, image: &[u8]) -> bool {
        let defeasible = defeasible_rules(image);
        let admitted = match source {
            Source::Program => few_of(&mut self.slow_programs, defeasible),
            Source::Damaged => few_of(&mut self.slow_damaged, defeasible),
            Source::Contested => defeasible <= MOST_CONTESTED,
            Source::Chained | Source::Vector => true,
        };
        self.left_out += usize::from(!admitted);
        admitted
    }

    pub fn count(&mut self, source: Source, accepted: bool, defeasible: usize) {
        match source {
            Source::Program | Source::Contested if accepted => self.programs[defeasible] += 1,
            Source::Program | Source::Contested => {}
            Source::Chained => self.chained += usize::from(accepted),
            Source::Damaged => self.damaged += 1,
            Source::Vector => self.vectors += 1,
        }
    }

    pub fn chained(&self) -> usize {
        self.chained
    }

    pub fn damaged(&self) -> usize {
        self.damaged
    }

    /// Prints the counts and demands enough of each sort.
    pub fn finish(&self, name: &str, least_programs: usize, faults: &mut Faults) {
        let programs: usize = self.programs.iter().sum();
        println!(
            "{name}: {programs} random programs, {} damaged images, {} vectors; {} slow images left out",
            self.damaged, self.vectors, self.left_out
        );
        println!(
            "{name}: programs with 0 to 16 defeasible rules: {:?}",
            self.programs
        );
        let every = self.programs.iter().all(|&count| count > 0);
        faults.demand("enough programs", programs >= least_programs);
        faults.demand("programs with 0 to 16 defeasible rules", every);
        faults.demand("some vectors", self.vectors > 0);
    }
}

/// True for a quick image, and for the first few slow ones.
fn few_of(slow: &mut usize, defeasible: usize) -> bool {
    *slow += usize::from(defeasible > MOST_QUICK);
    defeasible <= MOST_QUICK || *slow <= MOST_SLOW
}
