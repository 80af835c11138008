//! The command-line tool over the proved engine: programs as text, answers with their trees.
//!
//! The answers, arguments, trees and marks, the rules that clash, the images that are filed or put back in order, and what each
//! branch pays of a bill, are the engine's. What this crate adds is the way in (text to image, or to the lines of a bill) and the
//! way out (names, words, tables and pictures), which is tested, not proved.

pub mod asked;
pub mod bill;
pub mod clash;
pub mod command;
pub mod compile;
pub mod engine;
pub mod explain;
pub mod fault;
pub mod filing;
pub mod help;
pub mod image;
pub mod lexer;
pub mod load;
pub mod notes;
pub mod numbers;
pub mod preference;
pub mod program;
pub mod reason;
pub mod same;
pub mod shares;
pub mod source;
pub mod svg;
pub mod text;
pub mod words;
