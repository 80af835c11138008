//! The proved calls of `libfoqtirel.a` in the tool's own words.

use foqtirel_binding::{answered_with_trees, granted};
pub use foqtirel_binding::{Node, Refusal, BRANCHES};

/// The tables that are lent to the engine have so many entries, as the program `advise` and the C call have.
pub const TABLE: usize = 4096;
/// The greatest budget, in nodes.
pub const MOST_NODES: u32 = 4096;

/// The most rules of a program.
pub const MOST_RULES: usize = 96;

/// The refusal of a program whose facts and strict rules contradict each other.
pub const CONTRADICTION: u32 = 14;
/// What it means.
pub const CONTRADICTORY: &str = "the facts and strict rules contradict each other";
/// The refusals of the way back from filed form: too few numbers, and numbers or an image that are not right.
pub const NUMBER_TABLE: u32 = 25;
pub const MISFILED: u32 = 26;

/// The most lines of a bill.
pub const MOST_LINES: usize = 512;
/// The refusals of a bill: too many lines, and a line outside the limits.
pub const TOO_MANY_LINES: u32 = 34;
pub const BAD_LINE: u32 = 35;

/// An argument of the list: a set of defeasible rules, and what it concludes.
#[derive(Clone, Copy, Debug, PartialEq, Eq)]
pub struct Argument {
    pub mask: u16,
    pub literal: u8,
}

impl Argument {
    fn from_entry(entry: u32) -> Argument {
        Argument {
            mask: (entry / 128) as u16,
            literal: (entry % 128) as u8,
        }
    }
}

/// What a refusal is about: the file, and the rule or pair in it that its place is. The causes 20 to 22 are about
/// the question.
pub fn subject(refusal: &Refusal, file: &str) -> String {
    match refusal.number {
        4..=10 => format!("{file}, rule {} counted from 0: ", refusal.place),
        12 | 13 => format!("{file}, pair {} counted from 0: ", refusal.place),
        20..=22 => String::new(),
        _ => format!("{file}: "),
    }
}

/// What a refusal means.
pub fn meaning(refusal: &Refusal) -> &'static str {
    match refusal.number {
        1 => "an image has 12 to 1,836 bytes",
        2 => "a count is over its limit, or bytes 6 and 7 are not zero",
        3 => "the directory does not fit the image",
        4 => "a rule has 2 to 10 bytes",
        5 => "a rule is strict (0) or defeasible (1)",
        6 => "a rule has a literal of an atom that is not there",
        7 => "a body does not ascend",
        8 => "a defeasible rule has no body",
        9 => "more than 16 rules are defeasible",
        10 => "a rule stands there twice",
        11 => "the last part does not hold the pairs",
        12 => "a pair is not of two defeasible rules",
        13 => "the pairs do not ascend",
        CONTRADICTION => CONTRADICTORY,
        20 => "a literal is below 128",
        21 => "a budget is at most 4,096",
        22 => "the node table is shorter than the budget",
        23 => "the program has more than 4,096 arguments",
        24 => "the byte table is shorter than the image",
        NUMBER_TABLE => "there are fewer numbers than rules",
        MISFILED => "this is not what `file` writes",
        28 => "the image is accepted, so nothing clashes in it",
        29 => "the byte table is shorter than the rule count",
        TOO_MANY_LINES => "a bill has at most 512 lines",
        BAD_LINE => "a line breaks a limit",
        _ => "a cause that this tool does not know",
    }
}

#[derive(Clone, Copy, Debug, PartialEq, Eq)]
pub enum Answer {
    Yes,
    No,
    Undecided,
    Unknown,
    Unfinished,
}

impl Answer {
    pub fn from_code(code: u32) -> Answer {
        match code {
            1 => Answer::Yes,
            2 => Answer::No,
            3 => Answer::Undecided,
            4 => Answer::Unknown,
            _ => Answer::Unfinished,
        }
    }

    pub fn name(self) -> &'static str {
        match self {
            Answer::Yes => "YES",
            Answer::No => "NO",
            Answer::Undecided => "UNDECIDED",
            Answer::Unknown => "UNKNOWN",
            Answer::Unfinished => "UNFINISHED",
        }
    }
}

/// The code of the answer that a word names, in capitals or not.
pub fn code_of(word: &str) -> Option<u32> {
    let names = |code: &u32| Answer::from_code(*code).name().eq_ignore_ascii_case(word);
    (1..=5).find(names)
}

/// An answer with the forest that it rests on. UNKNOWN and UNFINISHED leave no entries.
#[derive(Clone, Debug, PartialEq, Eq)]
pub struct Verdict {
    pub answer: Answer,
    pub nodes: u32,
    pub forest: Vec<Node>,
}

pub fn check(image: &[u8]) -> Result<(), Refusal> {
    granted(foqtirel_binding::check(image)).map(|_| ())
}

/// The numbers of a few rules that contradict each other, in an image that is refused for a contradiction.
pub fn clash(image: &[u8]) -> Result<Vec<usize>, Refusal> {
    let mut marks = [0; MOST_RULES];
    let rules = granted(foqtirel_binding::clash(image, &mut marks))?;
    let marked = (0..rules as usize).filter(|&rule| marks[rule] == 1);
    Ok(marked.collect())
}

/// An image in filed form, with the number that each of its rules had before.
#[derive(Clone, Debug, PartialEq, Eq)]
pub struct Filed {
    pub image: Vec<u8>,
    pub numbers: Vec<u8>,
}

pub fn file(image: &[u8]) -> Result<Filed, Refusal> {
    let (mut form, mut numbers) = (vec![0; image.len()], vec![0; MOST_RULES]);
    let length = granted(foqtirel_binding::file(image, &mut form, &mut numbers))?;
    form.truncate(length as usize);
    // An accepted image has so few rules that their count is one byte.
    numbers.truncate(form[2].into());
    Ok(Filed {
        image: form,
        numbers,
    })
}

/// A filed image with its rules at their old numbers.
pub fn unfile(image: &[u8], numbers: &[u8]) -> Result<Vec<u8>, Refusal> {
    let mut typed = vec![0; image.len()];
    let length = granted(foqtirel_binding::unfile(image, numbers, &mut typed))?;
    typed.truncate(length as usize);
    Ok(typed)
}

pub fn list(image: &[u8]) -> Result<Vec<Argument>, Refusal> {
    let mut table = vec![0; TABLE];
    let count = granted(foqtirel_binding::list(image, &mut table))?;
    table.truncate(count as usize);
    Ok(table.into_iter().map(Argument::from_entry).collect())
}

pub fn query(image: &[u8], literal: u32, budget: u32) -> Result<Verdict, Refusal> {
    let mut arguments = vec![0; TABLE];
    let mut forest = vec![Node::default(); TABLE];
    let result = foqtirel_binding::trees(image, literal, budget, &mut arguments, &mut forest);
    let foqtirel_binding::Answer { code, nodes } = answered_with_trees(result)?;
    let answer = Answer::from_code(code);
    let written = match answer {
        Answer::Unknown | Answer::Unfinished => 0,
        _ => nodes as usize,
    };
    forest.truncate(written);
    Ok(Verdict {
        answer,
        nodes,
        forest,
    })
}

/// A line of a bill as the call takes it. A number that its field has no room for becomes the greatest that it has room for,
/// which the call refuses as well.
pub fn line(branch: u64, code: u64, nodes: u64) -> u64 {
    let half = u64::from(u16::MAX);
    let result = code.min(half) << 16 | nodes.min(half);
    let branch = branch.min(u32::MAX.into());
    foqtirel_binding::line(branch as u32, result as u32)
}

/// What each branch pays, in cents.
pub fn bill(lines: &[u64]) -> Result<[u32; BRANCHES], Refusal> {
    foqtirel_binding::bill(lines).shares()
}
