//! The query and the C call: reference and library, each with its result, the query with both its
//! tables whole.
//!
//! The product of literals, budgets and lengths is too large, so a program with many defeasible
//! rules, which every call reads anew, is asked about fewer literals; each with all its budgets.

use foqtirel_binding as library;
use foqtirel_tests::generator::accepted::{contested_programs, small_programs};
use foqtirel_tests::generator::{accepted, chained, chained_sixteen, damaged, Case, Random};
use foqtirel_tests::lent;
use foqtirel_tests::reference::tree::{Forest, NodeEntry};
use foqtirel_tests::reference::{
    host_number, Analysis, Answer, Argument, Literal, Refusal, MOST_NODES,
};
use foqtirel_tests::vectors;

use crate::granted::Granted;
use crate::images::{still_sound, Source};
use crate::queryreport::{QueryReport, LITERALS};

const MIXED: usize = 8_500;
const SMALL: usize = 1_500;
/// Programs with large trees, by how many rules each side has at most.
const CONTESTED: [(usize, usize); 2] = [(6, 1_200), (7, 800)];
/// Programs whose listed pairs form chains, and those with sixteen rules in one.
const CHAINED: usize = 2_200;
const CHAINED_SIXTEEN: usize = 12;
/// Some of these are left out as slow.
const DAMAGED: usize = 20_200;
/// With at most so many defeasible rules a program is asked about all its literals; with each
/// more, about half as many.
const ASKED_WHOLLY: usize = 8;
/// Literals beyond a program's atoms that it is asked about, too.
const BEYOND: usize = 3;
/// Calls for each image with all numbers at random, so that several causes meet.
const AT_RANDOM: usize = 4;
/// One call in so many gets a table that is too short.
const SHORT_EVERY: usize = 7;
const MOST: u32 = MOST_NODES as u32;

pub fn compare(seed: u64, report: &mut QueryReport) {
    let mut random = Random::seeded(seed ^ 0x7175_6572);
    let programs = accepted(seed ^ 0x7072_6F67, MIXED).chain(small_programs(!seed, SMALL));
    compare_cases(Source::Program, programs, &mut random, report);
    for (most_per_side, count) in CONTESTED {
        let programs = contested_programs(seed ^ 0x636F_6E74, count, most_per_side);
        compare_cases(Source::Contested, programs, &mut random, report);
    }
    let chained = chained(seed ^ 0x6368_6169, CHAINED);
    let chained = chained.chain(chained_sixteen(!seed, CHAINED_SIXTEEN));
    compare_cases(Source::Chained, chained, &mut random, report);
    let damaged = damaged(seed ^ 0x6461_6D61, DAMAGED).chain(still_sound());
    compare_cases(Source::Damaged, damaged, &mut random, report);
    for image in vectors::images() {
        compare_image(Source::Vector, &image, &mut random, report);
    }
    for (name, literal) in vectors::EXTREMES {
        let image = vectors::image(name);
        let analysis = Analysis::of_image(&image);
        let asked = Asked::new(&image, &analysis, &mut random);
        asked.compare_literals(&[literal, literal ^ 1], &mut random, report);
    }
}

fn compare_cases(
    source: Source,
    cases: impl Iterator<Item = Case>,
    random: &mut Random,
    report: &mut QueryReport,
) {
    for case in cases {
        if report.images.admit(source, &case.image) {
            compare_image(source, &case.image, random, report);
        }
    }
}

/// An image with all that the reference knows of it.
struct Asked<'a> {
    image: &'a [u8],
    analysis: &'a Result<Analysis, Refusal>,
    /// The number of arguments; some number if the image is refused.
    count: usize,
}

/// A literal with its forest, None if there is none or it has more than 4,096 nodes.
struct Subject {
    literal: u32,
    forest: Option<Forest>,
}

/// The other numbers of a query: the budget and the lengths of the tables.
struct Room {
    budget: u32,
    arguments: usize,
    nodes: usize,
}

fn compare_image(source: Source, image: &[u8], random: &mut Random, report: &mut QueryReport) {
    let analysis = Analysis::of_image(image);
    let asked = Asked::new(image, &analysis, random);
    let mut defeasible = 0;
    if let Ok(analysis) = &analysis {
        defeasible = analysis.program.defeasible_numbers().len();
        let literals = literals(source, analysis, defeasible, random, report);
        asked.compare_literals(&literals, random, report);
    }
    for _ in 0..AT_RANDOM {
        asked.compare_at_random(random, report);
    }
    report.images.count(source, analysis.is_ok(), defeasible);
}

/// The literals to ask about: those of all atoms or of some, and a few beyond the atoms.
fn literals(
    source: Source,
    analysis: &Analysis,
    defeasible: usize,
    random: &mut Random,
    report: &mut QueryReport,
) -> Vec<u32> {
    let atoms: Vec<u32> = (0..analysis.program.atoms as u32).collect();
    let share = atoms.len() >> defeasible.saturating_sub(ASKED_WHOLLY);
    // A damaged image that is accepted after all is like any other: one atom of it will do.
    let damaged = source == Source::Damaged;
    let mut chosen = random.sample(&atoms, if damaged { 1 } else { share.max(1) });
    if !damaged && chosen.len() == atoms.len() {
        report.asked_wholly();
    }
    // The atom with the most arguments is the one that most is said about.
    let arguments_for = |atom: u32| {
        let about = |a: &&Argument| u32::from(a.literal.atom()) == atom;
        analysis.arguments.iter().filter(about).count()
    };
    let busiest = atoms.iter().copied().max_by_key(|&a| arguments_for(a));
    chosen.extend(busiest.filter(|atom| !chosen.contains(atom)));
    let mut literals: Vec<u32> = chosen.iter().flat_map(|&a| [2 * a, 2 * a + 1]).collect();
    for _ in 0..BEYOND {
        literals.push(random.between(2 * atoms.len(), LITERALS - 1) as u32);
    }
    literals
}

impl<'a> Asked<'a> {
    fn new(
        image: &'a [u8],
        analysis: &'a Result<Analysis, Refusal>,
        random: &mut Random,
    ) -> Asked<'a> {
        let count = match analysis {
            Ok(analysis) => analysis.arguments.len(),
            Err(_) => random.below(20),
        };
        Asked {
            image,
            analysis,
            count,
        }
    }

    /// Some literals of a program with all their budgets, and whether two YES exclude each other.
    fn compare_literals(&self, literals: &[u32], random: &mut Random, report: &mut QueryReport) {
        let mut granted = Granted::default();
        for &literal in literals {
            self.compare_literal(literal, random, &mut granted, report);
        }
        if let Ok(analysis) = self.analysis {
            granted.compare(self.image, analysis, report);
        }
    }

    /// One literal with all its budgets.
    fn compare_literal(
        &self,
        literal: u32,
        random: &mut Random,
        granted: &mut Granted,
        report: &mut QueryReport,
    ) {
        let subject = self.subject(literal);
        for budget in self.budgets(&subject, random) {
            let room = self.enough(budget, random);
            if self.compare_query(&subject, &room, random, report) >> 16 == 1 {
                granted.add(literal);
            }
            if self.compare_host(&subject, budget, report) >> 16 == 1 {
                granted.add(literal);
            }
            if random.below(SHORT_EVERY) == 0 {
                let room = self.too_little(budget, random);
                self.compare_query(&subject, &room, random, report);
            }
        }
    }

    fn subject(&self, literal: u32) -> Subject {
        let forest = match self.analysis {
            Ok(analysis) if literal < u32::from(Literal::END) => {
                Forest::of(Literal::new(literal as u8), analysis, MOST_NODES)
            }
            _ => None,
        };
        Subject { literal, forest }
    }

    /// The budgets around the number of nodes and around the limits; for a literal that no budget
    /// matters to, any one of them.
    fn budgets(&self, subject: &Subject, random: &mut Random) -> Vec<u32> {
        let literal = Literal::new((subject.literal % 128) as u8);
        let known = self.analysis.as_ref().is_ok_and(|analysis| {
            subject.literal < 128 && analysis.program.mentions_atom_of(literal)
        });
        if !known {
            return vec![random.pick(&[0, 1, MOST, MOST + 1])];
        }
        let nodes = subject
            .forest
            .as_ref()
            .map_or(MOST + 1, |forest| forest.nodes.len() as u32);
        let mut budgets = vec![0, 1, nodes, nodes + 1, MOST, MOST + 1];
        budgets.extend(nodes.checked_sub(1));
        budgets.retain(|&budget| budget <= MOST + 1);
        budgets.sort_unstable();
        budgets.dedup();
        budgets
    }

    /// Tables as long as they have to be, often to the entry.
    fn enough(&self, budget: u32, random: &mut Random) -> Room {
        Room {
            budget,
            arguments: self.count + random.pick(&[0, 0, 1, 7]),
            nodes: budget as usize + random.pick(&[0, 0, 1, 7]),
        }
    }

    /// At least one table with an entry less than it has to have, or none at all, if it can be.
    fn too_little(&self, budget: u32, random: &mut Random) -> Room {
        let mut room = self.enough(budget, random);
        let which = random.between(1, 3);
        if which & 1 == 1 {
            room.arguments = random.pick(&[0, self.count.saturating_sub(1)]);
        }
        if which & 2 == 2 {
            room.nodes = (budget as usize).saturating_sub(1);
        }
        room
    }

    fn compare_at_random(&self, random: &mut Random, report: &mut QueryReport) {
        let any = random.below(LITERALS) as u32;
        let literal = random.pick(&[any, any, any, 128, 255, 256, 1 << 31, u32::MAX]);
        let budgets = [0, 1, 2, MOST - 1, MOST, MOST + 1, 65_535, 65_536, u32::MAX];
        let room = Room {
            budget: random.pick(&budgets),
            arguments: random.pick(&[0, self.count.saturating_sub(1), self.count, self.count + 1]),
            nodes: random.pick(&[0, 1, MOST_NODES - 1, MOST_NODES, MOST_NODES + 1]),
        };
        let subject = self.subject(literal);
        self.compare_query(&subject, &room, random, report);
        self.compare_host(&subject, room.budget, report);
    }

    fn wanted(
        &self,
        subject: &Subject,
        budget: u32,
        arguments: &mut [u32],
        nodes: &mut [NodeEntry],
    ) -> Result<Answer, Refusal> {
        let analysis = self.analysis.as_ref().map_err(|refusal| *refusal)?;
        let forest = subject.forest.as_ref();
        analysis.query_in(forest, subject.literal, budget, arguments, nodes)
    }

    /// Calls both with equal tables; returns what the library returned.
    fn compare_query(
        &self,
        subject: &Subject,
        room: &Room,
        random: &mut Random,
        report: &mut QueryReport,
    ) -> u64 {
        let mut arguments = lent::arguments(room.arguments, random);
        let mut nodes = lent::nodes(room.nodes, random);
        let mut wanted_arguments = arguments.clone();
        let mut wanted_nodes = nodes.recast::<NodeEntry>();
        let wanted = self.wanted(
            subject,
            room.budget,
            wanted_arguments.table(),
            wanted_nodes.table(),
        );
        let given = library::trees(
            self.image,
            subject.literal,
            room.budget,
            arguments.table(),
            nodes.table(),
        );
        let argument = wanted_arguments.first_difference(&arguments);
        let node = wanted_nodes.first_difference(&nodes);
        if given == packed(wanted) && argument.is_none() && node.is_none() {
            let exact = room.arguments == self.count && room.nodes == room.budget as usize;
            report.query_agreed(subject.literal, exact, wanted);
            return given;
        }
        report.faults.differed(
            self.image,
            &[
                ("query of literal", subject.literal.to_string()),
                ("budget", room.budget.to_string()),
                (
                    "table lengths",
                    format!("{} {}", room.arguments, room.nodes),
                ),
                ("reference", format!("{wanted:?}")),
                ("library", told(given)),
                ("first differing argument", format!("{argument:?}")),
                ("first differing node", format!("{node:?}")),
            ],
        );
        given
    }

    /// The same for the C call, which brings its own tables.
    fn compare_host(&self, subject: &Subject, budget: u32, report: &mut QueryReport) -> u32 {
        let mut arguments = vec![0; MOST_NODES];
        let mut nodes = vec![NodeEntry::default(); MOST_NODES];
        let wanted = self.wanted(subject, budget, &mut arguments, &mut nodes);
        let given = library::query(self.image, subject.literal, budget);
        if given == host_number(wanted) {
            report.host_agreed(wanted);
            return given;
        }
        report.faults.differed(
            self.image,
            &[
                ("C call with literal", subject.literal.to_string()),
                ("budget", budget.to_string()),
                ("reference", format!("{wanted:?}")),
                (
                    "library",
                    format!("{} * 65,536 + {}", given >> 16, given & 65_535),
                ),
            ],
        );
        given
    }
}

/// Code * 2^16 + nodes, or number * 2^32 + place.
fn packed(result: Result<Answer, Refusal>) -> u64 {
    match result {
        Ok(_) => u64::from(host_number(result)),
        Err(refusal) => refusal.packed(),
    }
}

fn told(given: u64) -> String {
    match given >> 32 {
        0 => format!("code {}, {} nodes", given >> 16, given & 65_535),
        number => format!("refusal {number} at {}", given as u32),
    }
}
