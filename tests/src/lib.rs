//! The warrant engine once more, written slowly and literally from document 01 and from
//! Definitions 1 to 9, with generators of images to run another implementation against.

#[cfg(feature = "library")]
pub mod compiler;
pub mod documents;
pub mod fittings;
pub mod generator;
pub mod header;
#[cfg(feature = "library")]
pub mod lent;
#[cfg(feature = "library")]
mod nodes;
pub mod programs;
pub mod reference;
pub mod sides;
pub mod vectors;
