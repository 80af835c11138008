//! Demand 3: literals that exclude each other never both get YES, whichever calls give it.

use std::collections::BTreeSet;

use foqtirel_tests::reference::derivation::contradictory;
use foqtirel_tests::reference::{Analysis, Literal};

use crate::queryreport::QueryReport;

/// The literals of one image that some call said YES to.
#[derive(Default)]
pub struct Granted {
    literals: BTreeSet<u32>,
}

impl Granted {
    pub fn add(&mut self, literal: u32) {
        self.literals.insert(literal);
    }

    /// Looks at all pairs of these, a literal with itself included.
    pub fn compare(&self, image: &[u8], analysis: &Analysis, report: &mut QueryReport) {
        let strict = analysis.program.strict_rules();
        let literals: Vec<Literal> = self
            .literals
            .iter()
            .map(|&l| Literal::new(l as u8))
            .collect();
        for (position, &one) in literals.iter().enumerate() {
            for &other in &literals[position..] {
                if contradictory(&strict, &[one, other]) {
                    let two = format!("{} and {}", one.number(), other.number());
                    report.both_granted(image, two);
                }
            }
        }
        report.kept_apart(self.pairs_kept_apart(analysis));
    }

    /// How many pairs of supported literals exclude each other with one of them granted: those
    /// where a second YES would be wrong.
    fn pairs_kept_apart(&self, analysis: &Analysis) -> usize {
        let supported: BTreeSet<Literal> = analysis.arguments.iter().map(|a| a.literal).collect();
        self.literals
            .iter()
            .map(|&literal| Literal::new(literal as u8))
            .map(|one| {
                let excluded = |other: &&Literal| analysis.exclusion.excludes(one, **other);
                supported.iter().filter(excluded).count()
            })
            .sum()
    }
}
