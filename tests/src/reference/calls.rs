//! The public calls with their results and their effect on the lent tables.

use super::analysis::Analysis;
use super::bill::{shares, Line, BRANCHES};
use super::clash::small_clash;
use super::derivation::contradictory;
use super::filing::{filed, old_numbers, unfiled, write_image};
use super::image::read_image;
use super::literal::Literal;
use super::program::Program;
use super::refusal::{Cause, Refusal};
use super::tree::{Forest, Mark, NodeEntry};

/// The greatest budget, and the length of the tables the host program's call brings.
pub const MOST_NODES: usize = 4096;

/// The answers with their numbers.
#[derive(Clone, Copy, Debug, PartialEq, Eq, PartialOrd, Ord)]
pub enum Code {
    Yes = 1,
    No = 2,
    Undecided = 3,
    Unknown = 4,
    Unfinished = 5,
}

impl Code {
    pub fn number(self) -> u32 {
        self as u32
    }

    pub fn word(self) -> &'static str {
        match self {
            Code::Yes => "YES",
            Code::No => "NO",
            Code::Undecided => "UNDECIDED",
            Code::Unknown => "UNKNOWN",
            Code::Unfinished => "UNFINISHED",
        }
    }
}

#[derive(Clone, Copy, Debug, PartialEq, Eq)]
pub struct Answer {
    pub code: Code,
    pub nodes: usize,
}

/// The one number of the host program's call: code × 65,536 + nodes, or a bare refusal number.
pub fn host_number(result: Result<Answer, Refusal>) -> u32 {
    match result {
        Ok(answer) => answer.code.number() * 65_536 + answer.nodes as u32,
        Err(refusal) => refusal.cause.number(),
    }
}

/// Checks an image, causes 1 to 14.
pub fn check(image: &[u8]) -> Result<(), Refusal> {
    accepted(image).map(|_| ())
}

/// The program of an image that has none of the causes 1 to 14.
pub fn accepted(image: &[u8]) -> Result<Program, Refusal> {
    let program = read_image(image)?;
    if contradictory(&program.strict_rules(), &[]) {
        return Err(Refusal::whole(Cause::StrictContradiction));
    }
    Ok(program)
}

/// Marks one small clash of an image with cause 14 at the front of a lent byte table, 1 for each rule of it and 0 for each
/// other; returns the number of rules.
pub fn clash(image: &[u8], marks: &mut [u8]) -> Result<usize, Refusal> {
    let program = read_image(image)?;
    if !contradictory(&program.strict_rules(), &[]) {
        return Err(Refusal::whole(Cause::ImageAccepted));
    }
    let rules = program.rules.len();
    if marks.len() < rules {
        return Err(Refusal::whole(Cause::MarkTable));
    }
    let clash = small_clash(&program);
    let marked: Vec<u8> = (0..rules).map(|n| clash.contains(&n).into()).collect();
    Ok(write_front(marks, &marked))
}

/// Writes the filed form of an image to the front of a lent byte table, and the old number of each filed rule to the front
/// of another; returns the length of the form.
pub fn file(image: &[u8], out: &mut [u8], numbers: &mut [u8]) -> Result<usize, Refusal> {
    let program = with_room(image, out, numbers)?;
    let old = old_numbers(&program);
    let old: Vec<u8> = old.into_iter().map(|number| number as u8).collect();
    write_front(numbers, &old);
    Ok(write_front(out, &write_image(&filed(&program))))
}

/// Writes a filed image with its rules in old order, and its pairs sorted for it, to the front of a lent byte table; returns
/// its length.
pub fn unfile(image: &[u8], numbers: &[u8], out: &mut [u8]) -> Result<usize, Refusal> {
    let program = with_room(image, out, numbers)?;
    let rules = program.rules.len();
    let numbers: Vec<usize> = numbers[..rules].iter().map(|&n| usize::from(n)).collect();
    let out_of_range = numbers.iter().any(|&number| number >= rules);
    let used_twice = (0..rules).any(|place| numbers[..place].contains(&numbers[place]));
    if out_of_range || used_twice || filed(&program) != program {
        return Err(Refusal::whole(Cause::Misfiled));
    }
    Ok(write_front(out, &write_image(&unfiled(&program, &numbers))))
}

/// The program of an image that is accepted, with a byte table for it and a table of numbers that are long enough.
fn with_room(image: &[u8], out: &[u8], numbers: &[u8]) -> Result<Program, Refusal> {
    let program = accepted(image)?;
    if out.len() < image.len() {
        return Err(Refusal::whole(Cause::OutputTable));
    }
    if numbers.len() < program.rules.len() {
        return Err(Refusal::whole(Cause::NumberTable));
    }
    Ok(program)
}

fn write_front(table: &mut [u8], bytes: &[u8]) -> usize {
    table[..bytes.len()].copy_from_slice(bytes);
    bytes.len()
}

/// The shares of a bill, each line of it branch × 2^32 + code × 65,536 + nodes.
pub fn bill(lines: &[u64]) -> Result<[u32; BRANCHES], Refusal> {
    let lines: Vec<Line> = lines.iter().copied().map(Line::of_number).collect();
    shares(&lines)
}

/// Lists the arguments of an image; returns how many there are.
pub fn list(image: &[u8], arguments: &mut [u32]) -> Result<usize, Refusal> {
    Analysis::of_image(image)?.list(arguments)
}

/// Answers a literal of an image.
pub fn query(
    image: &[u8],
    literal: u32,
    budget: u32,
    arguments: &mut [u32],
    nodes: &mut [NodeEntry],
) -> Result<Answer, Refusal> {
    Analysis::of_image(image)?.query(literal, budget, arguments, nodes)
}

/// The call from the host program: code × 65,536 + nodes, or a bare refusal number.
pub fn host_call(image: &[u8], literal: u32, budget: u32) -> u32 {
    match Analysis::of_image(image) {
        Ok(analysis) => analysis.host_call(literal, budget),
        Err(refusal) => refusal.cause.number(),
    }
}

/// The same calls on an image that was read before, for asking about many literals.
impl Analysis {
    pub fn list(&self, arguments: &mut [u32]) -> Result<usize, Refusal> {
        let entries = self.entries();
        if entries.len() > arguments.len() {
            return Err(Refusal::whole(Cause::ArgumentTable));
        }
        arguments[..entries.len()].copy_from_slice(&entries);
        Ok(entries.len())
    }

    pub fn query(
        &self,
        literal: u32,
        budget: u32,
        arguments: &mut [u32],
        nodes: &mut [NodeEntry],
    ) -> Result<Answer, Refusal> {
        let (literal, budget) = self.admit(literal, budget, arguments, nodes)?;
        let forest = Forest::of(literal, self, budget);
        Ok(self.answer(literal, budget, forest.as_ref(), nodes))
    }

    /// The same with the literal's forest known from before, None if it has more than 4,096
    /// nodes: for asking about one literal with many budgets.
    pub fn query_in(
        &self,
        forest: Option<&Forest>,
        literal: u32,
        budget: u32,
        arguments: &mut [u32],
        nodes: &mut [NodeEntry],
    ) -> Result<Answer, Refusal> {
        let (literal, budget) = self.admit(literal, budget, arguments, nodes)?;
        let within = forest.filter(|forest| forest.nodes.len() <= budget);
        Ok(self.answer(literal, budget, within, nodes))
    }

    /// Causes 20 to 23; writes the list if there is none of them.
    fn admit(
        &self,
        literal: u32,
        budget: u32,
        arguments: &mut [u32],
        nodes: &[NodeEntry],
    ) -> Result<(Literal, usize), Refusal> {
        if literal >= u32::from(Literal::END) {
            return Err(Refusal::whole(Cause::QueryLiteral));
        }
        let budget = budget as usize;
        if budget > MOST_NODES {
            return Err(Refusal::whole(Cause::Budget));
        }
        if nodes.len() < budget {
            return Err(Refusal::whole(Cause::NodeTable));
        }
        self.list(arguments)?;
        Ok((Literal::new(literal as u8), budget))
    }

    /// The answer, given the forest or None if it has more nodes than the budget.
    fn answer(
        &self,
        literal: Literal,
        budget: usize,
        forest: Option<&Forest>,
        nodes: &mut [NodeEntry],
    ) -> Answer {
        if !self.program.mentions_atom_of(literal) {
            return Answer {
                code: Code::Unknown,
                nodes: 0,
            };
        }
        let Some(forest) = forest else {
            nodes[..budget].fill(NodeEntry::default());
            return Answer {
                code: Code::Unfinished,
                nodes: budget,
            };
        };
        let entries = forest.entries();
        nodes[..entries.len()].copy_from_slice(&entries);
        let some_root_undefeated = |wanted: Literal| {
            forest
                .roots_for(wanted, self)
                .any(|root| forest.marks[root] == Mark::Undefeated)
        };
        let code = if some_root_undefeated(literal) {
            Code::Yes
        } else if some_root_undefeated(literal.complement()) {
            Code::No
        } else {
            Code::Undecided
        };
        Answer {
            code,
            nodes: entries.len(),
        }
    }

    pub fn host_call(&self, literal: u32, budget: u32) -> u32 {
        let mut arguments = vec![0; MOST_NODES];
        let mut nodes = vec![NodeEntry::default(); MOST_NODES];
        host_number(self.query(literal, budget, &mut arguments, &mut nodes))
    }
}
