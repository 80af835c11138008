//! Causes for turning an image or a call away.

/// The causes of document 01 with its numbers, and of the requests that add some.
#[derive(Clone, Copy, Debug, PartialEq, Eq, PartialOrd, Ord)]
pub enum Cause {
    ImageLength = 1,
    Header = 2,
    Directory = 3,
    RuleLength = 4,
    RuleKind = 5,
    LiteralRange = 6,
    BodyOrder = 7,
    DefeasibleWithoutBody = 8,
    TooManyDefeasible = 9,
    RepeatedRule = 10,
    LastPartLength = 11,
    PairNames = 12,
    PairOrder = 13,
    StrictContradiction = 14,
    QueryLiteral = 20,
    Budget = 21,
    NodeTable = 22,
    ArgumentTable = 23,
    OutputTable = 24,
    NumberTable = 25,
    Misfiled = 26,
    ImageAccepted = 28,
    MarkTable = 29,
    TooManyLines = 34,
    BadLine = 35,
}

impl Cause {
    /// All causes in the order of their numbers.
    pub const ALL: [Cause; 25] = [
        Cause::ImageLength,
        Cause::Header,
        Cause::Directory,
        Cause::RuleLength,
        Cause::RuleKind,
        Cause::LiteralRange,
        Cause::BodyOrder,
        Cause::DefeasibleWithoutBody,
        Cause::TooManyDefeasible,
        Cause::RepeatedRule,
        Cause::LastPartLength,
        Cause::PairNames,
        Cause::PairOrder,
        Cause::StrictContradiction,
        Cause::QueryLiteral,
        Cause::Budget,
        Cause::NodeTable,
        Cause::ArgumentTable,
        Cause::OutputTable,
        Cause::NumberTable,
        Cause::Misfiled,
        Cause::ImageAccepted,
        Cause::MarkTable,
        Cause::TooManyLines,
        Cause::BadLine,
    ];

    pub fn number(self) -> u32 {
        self as u32
    }
}

/// What a refusing call returns.
#[derive(Clone, Copy, Debug, PartialEq, Eq)]
pub struct Refusal {
    pub cause: Cause,
    /// The rule or pair number for causes 4 to 10, 12 and 13, the line's for 35, otherwise 0.
    pub place: usize,
}

impl Refusal {
    /// A refusal with a place of its own.
    pub fn at(cause: Cause, place: usize) -> Refusal {
        Refusal { cause, place }
    }

    /// Number × 2^32 + place, as the 64-bit calls for C hand it back.
    pub fn packed(self) -> u64 {
        (u64::from(self.cause.number()) << 32) + self.place as u64
    }

    /// A refusal of the whole image or call.
    pub fn whole(cause: Cause) -> Refusal {
        Refusal { cause, place: 0 }
    }
}
