//! Document 01 in the words of its definitions, with the requests of document 02 that are met. Nothing here is meant to be
//! fast.

pub mod advise;
pub mod analysis;
pub mod argument;
pub mod attack;
pub mod bill;
pub mod calls;
pub mod clash;
pub mod derivation;
pub mod filing;
pub mod image;
pub mod line;
pub mod literal;
pub mod program;
pub mod refusal;
pub mod tree;

pub use advise::advise;
pub use analysis::Analysis;
pub use argument::Argument;
pub use calls::{
    bill, check, clash, file, host_call, host_number, list, query, unfile, Answer, Code, MOST_NODES,
};
pub use image::read_image;
pub use literal::Literal;
pub use program::{Kind, Program, Rule};
pub use refusal::{Cause, Refusal};
pub use tree::NodeEntry;
