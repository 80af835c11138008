//! More budget, and how long a line can get, as request C-18 has them: the proved calls with one budget after another, and
//! the lines of the trees that they hand back.

use std::collections::{BTreeMap, BTreeSet};
use std::ptr;

use foqtirel_binding::{answered, answered_with_trees, granted, list, query, trees, Answer, Node};
use foqtirel_tests::generator::accepted::{contested_programs, small_programs};
use foqtirel_tests::generator::{chained, damaged, taking_turns, Random};
use foqtirel_tests::lent;
use foqtirel_tests::reference::image::defeasible_rules;
use foqtirel_tests::reference::line::line_limit;
use foqtirel_tests::reference::program::Mask;
use foqtirel_tests::reference::tree::Forest;
use foqtirel_tests::reference::{check, Analysis, Argument, Cause, Code, Literal, MOST_NODES};
use foqtirel_tests::sides::{sound, Lengths};
use foqtirel_tests::vectors;

const SEED: u64 = 18;
const MOST: u32 = MOST_NODES as u32;
const UNFINISHED: u32 = Code::Unfinished as u32;
/// The reference takes long to read a program with more defeasible rules.
const MOST_RULES: usize = 10;
/// A forest with more nodes is asked with some of its budgets only.
const EVERY_BUDGET: u32 = 300;
/// More than any program here has arguments.
const AMPLE: usize = 5000;

/// Accepted programs: stored ones, random ones of every shape, and damaged ones that are sound after all.
fn programs(count: usize) -> Vec<Vec<u8>> {
    let random = small_programs(!SEED, 2 * count)
        .chain(chained(!SEED, 2 * count))
        .chain(contested_programs(!SEED, count, 5))
        .chain(damaged(SEED, 3 * count));
    let mut images = sound(SEED, count);
    images.extend(random.map(|case| case.image));
    images.retain(|image| check(image).is_ok());
    images
}

/// A call about a literal, and what came back.
#[derive(Debug)]
struct Call {
    name: &'static str,
    budget: u32,
    /// The answer, or the number of the refusal.
    answer: Result<Answer, u32>,
    /// As many first entries of the node table as the answer has nodes. None where no table is lent.
    entries: Option<Vec<Node>>,
}

impl Call {
    fn code(&self) -> Option<u32> {
        self.answer.ok().map(|answer| answer.code)
    }
}

/// A literal of an accepted program.
struct Subject<'a> {
    image: &'a [u8],
    /// The number of arguments.
    arguments: usize,
    literal: u32,
    /// N; where it is over the greatest budget, any number that is.
    nodes: u32,
}

impl<'a> Subject<'a> {
    /// N as the reference has it.
    fn new(image: &'a [u8], analysis: &Analysis, literal: u32) -> Subject<'a> {
        let forest = Forest::of(Literal::new(literal as u8), analysis, MOST_NODES);
        Subject {
            image,
            arguments: analysis.arguments.len(),
            literal,
            nodes: forest.map_or(MOST + 1, |forest| forest.nodes.len() as u32),
        }
    }

    fn query(&self, budget: u32) -> Call {
        Call {
            name: "query",
            budget,
            answer: answered(query(self.image, self.literal, budget)),
            entries: None,
        }
    }

    /// In tables of these lengths, with other junk in them each time.
    fn trees(&self, budget: u32, (room, node_room): Lengths, random: &mut Random) -> Call {
        let mut arguments = lent::arguments(room, random);
        let mut nodes = lent::nodes(node_room, random);
        let (list, nodes) = (arguments.table(), nodes.table());
        let given = answered_with_trees(trees(self.image, self.literal, budget, list, nodes));
        let written = given.map_or(0, |answer| node_room.min(answer.nodes as usize));
        Call {
            name: "trees",
            budget,
            answer: given.map_err(|refusal| refusal.number),
            entries: Some(nodes[..written].to_vec()),
        }
    }

    /// Every budget from 0 to N + 2, or of a large forest the ends of these and some between; the greatest, and one
    /// at random up to it.
    fn budgets(&self, random: &mut Random) -> BTreeSet<u32> {
        let last = (self.nodes + 2).min(MOST);
        let mut budgets: BTreeSet<u32> = if self.nodes <= EVERY_BUDGET {
            (0..=last).collect()
        } else {
            let ends = (0..3).chain(self.nodes - 3..=last);
            let between = (0..12).map(|_| random.below(last as usize) as u32);
            ends.chain(between).collect()
        };
        budgets.extend([random.between(last as usize, MOST_NODES) as u32, MOST]);
        budgets
    }

    /// Both calls with one budget, in tables of the exact lengths, with an entry more and with many. They are unfinished
    /// exactly below N.
    fn answered(&self, budget: u32, random: &mut Random) -> Vec<Call> {
        let mut calls = Vec::new();
        if self.arguments <= MOST_NODES {
            calls.push(self.query(budget));
        }
        for more in [0, 1, 300] {
            let rooms = (self.arguments + more, budget as usize + more);
            calls.push(self.trees(budget, rooms, random));
        }
        for call in &calls {
            let about = || format!("{call:?}: {}", self.about());
            let unfinished = call.code() == Some(UNFINISHED);
            assert_eq!(unfinished, budget < self.nodes, "{}", about());
            let nodes = call.answer.map(|answer| answer.nodes);
            assert_eq!(nodes, Ok(budget.min(self.nodes)), "{}", about());
        }
        calls
    }

    /// Calls that are turned away: the budget is too great, or a table too short.
    fn refused(&self, budget: u32, random: &mut Random) -> Vec<Call> {
        let (room, node_room) = (self.arguments, budget as usize);
        let over = MOST + 1 + budget;
        let mut refused = vec![
            (Cause::Budget, self.query(over)),
            (Cause::Budget, self.trees(over, (room, 2 * AMPLE), random)),
        ];
        if let Some(short) = node_room.checked_sub(1) {
            let call = self.trees(budget, (room, short), random);
            refused.push((Cause::NodeTable, call));
        }
        if let Some(short) = room.checked_sub(1) {
            let call = self.trees(budget, (short, node_room), random);
            refused.push((Cause::ArgumentTable, call));
        }
        if self.arguments > MOST_NODES {
            refused.push((Cause::ArgumentTable, self.query(budget)));
        }
        for (cause, call) in &refused {
            let wanted = Err(cause.number());
            assert_eq!(call.answer, wanted, "{call:?}: {}", self.about());
        }
        refused.into_iter().map(|(_, call)| call).collect()
    }

    /// With all budgets, and refused calls where the answers begin.
    fn ask(&self, random: &mut Random, seen: &mut Seen) {
        let mut calls = Vec::new();
        for budget in self.budgets(random) {
            calls.extend(self.answered(budget, random));
            if budget == self.nodes.min(MOST) {
                calls.extend(self.refused(budget, random));
            }
        }
        seen.compare(self, &calls);
    }

    fn about(&self) -> String {
        format!("literal {} of {:02X?}", self.literal, self.image)
    }
}

/// What was called and compared.
#[derive(Debug, Default)]
struct Seen {
    literals: usize,
    /// Answers by their codes.
    answers: BTreeMap<u32, usize>,
    /// Refusals by their numbers.
    refusals: BTreeMap<u32, usize>,
    /// A finished call and another with as much budget or more, by the names of the two.
    pairs: BTreeMap<(&'static str, &'static str), usize>,
    /// Node entries of such pairs.
    entries: usize,
}

impl Seen {
    /// All calls about one literal. A refusal is no answer, so it is compared with none.
    fn compare(&mut self, subject: &Subject, calls: &[Call]) {
        self.literals += 1;
        for smaller in calls {
            self.count(smaller.answer);
            if matches!(smaller.code(), None | Some(UNFINISHED)) {
                continue;
            }
            let others = calls.iter().filter(|other| !ptr::eq(*other, smaller));
            for larger in others.filter(|other| other.answer.is_ok()) {
                if larger.budget >= smaller.budget {
                    self.compare_two(subject, smaller, larger);
                }
            }
        }
    }

    /// What is answered with the smaller budget is answered with the larger, with the same nodes and the same entries.
    fn compare_two(&mut self, subject: &Subject, smaller: &Call, larger: &Call) {
        let about = || format!("{smaller:?}, {larger:?}: {}", subject.about());
        assert_eq!(smaller.answer, larger.answer, "{}", about());
        if let (Some(one), Some(other)) = (&smaller.entries, &larger.entries) {
            assert!(one == other, "other entries: {}", about());
            self.entries += one.len();
        }
        let names = (smaller.name, larger.name);
        *self.pairs.entry(names).or_default() += 1;
    }

    fn count(&mut self, answer: Result<Answer, u32>) {
        let (counts, number) = match answer {
            Ok(answer) => (&mut self.answers, answer.code),
            Err(refusal) => (&mut self.refusals, refusal),
        };
        *counts.entry(number).or_default() += 1;
    }
}

/// Every literal whose atom some rule has, and one that is UNKNOWN.
fn literals(analysis: &Analysis) -> Vec<u32> {
    let mentioned = |literal: &Literal| analysis.program.mentions_atom_of(*literal);
    let known = Literal::all().filter(mentioned);
    let unknown = Literal::all().find(|literal| !mentioned(literal));
    let literals = known.chain(unknown);
    literals.map(|literal| literal.number().into()).collect()
}

#[test]
fn answers_stay_with_more_budget() {
    let (mut seen, mut random) = (Seen::default(), Random::seeded(SEED));
    for image in programs(60) {
        if defeasible_rules(&image) > MOST_RULES {
            continue;
        }
        let analysis = Analysis::of_image(&image).expect("an accepted program");
        for literal in literals(&analysis) {
            Subject::new(&image, &analysis, literal).ask(&mut random, &mut seen);
        }
    }
    println!("{seen:?}");
    for code in 1..=5 {
        let answers = seen.answers.get(&code).copied().unwrap_or(0);
        assert!(answers > 10_000, "code {code}: {answers}");
    }
    for number in 21..=23 {
        let refusals = seen.refusals.get(&number).copied().unwrap_or(0);
        assert!(refusals > 3_000, "refusal {number}: {refusals}");
    }
    assert_eq!(seen.pairs.len(), 4, "both calls, crosswise too");
    assert!(seen.pairs.values().all(|&pairs| pairs > 50_000), "{seen:?}");
    assert!(seen.entries > 2_000_000, "{} entries", seen.entries);
}

/// Stored programs and literals with large forests, beside the extremes: over 4,096 nodes, and over 4,096 arguments, too.
const LARGE: [(&str, u32); 6] = [
    ("closed", 20),
    ("replaced", 28),
    ("n4097", 20),
    ("deep180", 80),
    ("args4096", 98),
    ("args4097", 98),
];

/// Those with over 300 nodes are asked with some of their budgets, not with all.
#[test]
fn answers_of_large_forests_stay_with_more_budget() {
    let mut large: Vec<(Vec<u8>, u32)> = Vec::new();
    for (name, literal) in vectors::EXTREMES.into_iter().chain(LARGE) {
        large.push((vectors::image(name), literal));
    }
    for rules in [9, 12, 14, 16] {
        let image = taking_turns(rules).image();
        large.extend([(image.clone(), 0), (image, 2)]);
    }
    let (mut seen, mut random) = (Seen::default(), Random::seeded(SEED));
    for (image, literal) in large {
        let analysis = Analysis::of_image(&image).expect("an accepted program");
        for literal in [literal, literal ^ 1] {
            Subject::new(&image, &analysis, literal).ask(&mut random, &mut seen);
        }
    }
    println!("{seen:?}");
    assert!(seen.answers[&UNFINISHED] > 5_000, "{seen:?}");
    assert!(seen.pairs.values().all(|&pairs| pairs > 200), "{seen:?}");
    assert!(seen.entries > 2_000_000, "{} entries", seen.entries);
}

/// The arguments that the list call hands back.
fn listed(image: &[u8]) -> Vec<Argument> {
    let mut table = vec![0; AMPLE];
    let count = granted(list(image, &mut table)).expect("a list");
    let entries = table[..count as usize].iter();
    entries.map(|&entry| Argument::of_entry(entry)).collect()
}

/// The masks from a node up to its root. A parent stands before its child, so there is an end.
fn masks_of_line(number: usize, nodes: &[Node], arguments: &[Argument]) -> Vec<Mask> {
    let mut masks = Vec::new();
    let mut here = number;
    loop {
        let node = nodes[here];
        masks.push(arguments[node.argument as usize].mask);
        let parent = node.parent as usize;
        if node.kind == 0 {
            assert_eq!(parent, here, "a root names itself");
            return masks;
        }
        assert!(parent < here, "{here} stands before its parent {parent}");
        here = parent;
    }
}

/// The lines of a program's finished forests.
#[derive(Debug, Default)]
struct Lines {
    /// The most nodes that a line can have.
    most: usize,
    longest: usize,
    followed: usize,
    /// Literals whose forest has too many nodes for every budget.
    unfinished: usize,
}

impl Lines {
    /// From every node of every forest to its root. The trees of a literal's complement are in its forest, too.
    fn of(image: &[u8]) -> Lines {
        let arguments = listed(image);
        let mut lines = Lines {
            most: line_limit(&arguments),
            ..Lines::default()
        };
        let (mut table, mut nodes) = (vec![0; AMPLE], vec![Node::default(); MOST_NODES]);
        for literal in (0..2 * u32::from(image[0])).step_by(2) {
            let given = trees(image, literal, MOST, &mut table, &mut nodes);
            let answer = answered_with_trees(given).expect("an answer");
            if answer.code == UNFINISHED {
                lines.unfinished += 1;
                continue;
            }
            for number in 0..answer.nodes as usize {
                let masks = masks_of_line(number, &nodes, &arguments);
                let about = || format!("node {number} of {literal}: {masks:?}: {image:02X?}");
                lines.add(&masks, about);
            }
        }
        lines
    }

    /// No mask comes twice, and an empty one stands alone: so there are no more nodes than different masks that are not
    /// empty, or than one.
    fn add(&mut self, masks: &[Mask], about: impl Fn() -> String) {
        let length = masks.len();
        let different: BTreeSet<&Mask> = masks.iter().collect();
        assert_eq!(different.len(), length, "{}", about());
        assert!(length == 1 || !different.contains(&0), "{}", about());
        assert!(length <= self.most, "over {}: {}", self.most, about());
        self.longest = self.longest.max(length);
        self.followed += 1;
    }
}

/// Stored programs, the longest line of their finished forests, and the most nodes that a line can have.
const DEEP: [(&str, usize, usize); 9] = [
    ("deep180", 180, 196),
    ("n4096", 18, 32),
    ("n4097", 15, 34),
    ("replaced", 13, 34),
    ("closed", 6, 32),
    ("Gpair", 3, 4),
    ("rules96pairs120", 3, 16),
    ("bodies8", 2, 95),
    ("args4096", 1, 717),
];

#[test]
fn lines_of_deep_programs() {
    for (name, longest, most) in DEEP {
        let image = vectors::image(name);
        let lines = Lines::of(&image);
        println!("{name}: {lines:?}");
        assert_eq!((lines.longest, lines.most), (longest, most), "{name}");
        let analysis = Analysis::of_image(&image).expect("an accepted program");
        assert_eq!(line_limit(&analysis.arguments), most, "{name}");
    }
}

#[test]
fn no_line_has_more_nodes_than_there_are_masks() {
    let (mut followed, mut unfinished) = (0, 0);
    // Programs with a line that is as long as can be, by how long that is.
    let mut as_long: BTreeMap<usize, usize> = BTreeMap::new();
    for image in programs(150) {
        let lines = Lines::of(&image);
        if defeasible_rules(&image) <= MOST_RULES {
            let analysis = Analysis::of_image(&image).expect("an accepted program");
            assert_eq!(lines.most, line_limit(&analysis.arguments));
        }
        if lines.longest == lines.most {
            *as_long.entry(lines.most).or_default() += 1;
        }
        followed += lines.followed;
        unfinished += lines.unfinished;
    }
    println!("{followed} lines; {unfinished} forests unfinished; as long as can be: {as_long:?}");
    assert!(followed > 40_000, "only {followed}");
    let programs = |length: usize| as_long.get(&length).copied().unwrap_or(0);
    assert!(programs(1) > 150 && programs(2) > 10, "{as_long:?}");
}

/// Two sides that take turns until every rule is used up, and facts alone: with a node less, the bound would not hold.
#[test]
fn some_lines_have_as_many_nodes_as_there_are_masks() {
    for rules in 0..=16 {
        let lines = Lines::of(&taking_turns(rules).image());
        let longest = rules.max(1);
        assert_eq!((lines.longest, lines.most), (longest, longest), "{rules}");
    }
}
