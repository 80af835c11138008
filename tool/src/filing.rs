//! A program's filed image, which is the same whatever order the program was typed in; and the way back to that order.

use crate::engine::{self, Refusal, MISFILED, NUMBER_TABLE};
use crate::fault::{plain, Fault};
use crate::image;
use crate::load::Loaded;
use crate::numbers::Numbers;
use crate::program::Program;

/// A program with its filed image, and the number that each rule of the image has in the program.
pub struct Filed {
    /// Its rules stay as they were typed.
    pub loaded: Loaded,
    pub numbers: Vec<u8>,
}

pub fn filed(loaded: &Loaded) -> Result<Filed, Fault> {
    let program = by_name(loaded);
    let filed = engine::file(&image::encode(&program));
    let engine::Filed { image, numbers } = filed.map_err(|refusal| loaded.refused(refusal))?;
    Ok(Filed {
        loaded: Loaded {
            image,
            program,
            source: loaded.source.clone(),
            name: loaded.name.clone(),
            notes: loaded.notes.clone(),
        },
        numbers,
    })
}

/// The program of a text with its atoms numbered as it declares them, then by their names: numbers by first occurrence
/// would tell how the text was typed. Atoms of an image have their numbers.
pub fn by_name(loaded: &Loaded) -> Program {
    match &loaded.source {
        Some(source) => loaded.program.numbered_by_name(source.declared.len()),
        None => loaded.program.clone(),
    }
}

/// The image of a filed program with its rules in old order.
pub fn unfiled(filed: &Loaded, numbers: &Numbers) -> Result<Vec<u8>, Fault> {
    let rules = filed.program.rules.len();
    let typed = engine::unfile(&filed.image, &numbers.entries());
    typed.map_err(|refusal| match refusal.number {
        NUMBER_TABLE => numbers.too_few(refusal, rules),
        MISFILED => match numbers.misfit(refusal, rules) {
            Some(fault) => fault,
            None => not_filed(refusal, filed),
        },
        _ => filed.refused(refusal),
    })
}

/// Names the first rule that stands elsewhere in the filed form.
fn not_filed(refusal: Refusal, loaded: &Loaded) -> Fault {
    let numbers = engine::file(&loaded.image).map_or_else(|_| Vec::new(), |filed| filed.numbers);
    let mut moved = (0..).zip(numbers).filter(|(place, old)| place != old);
    let which = moved.next().map(|(place, old)| {
        format!(": it is not in filed form, where rule {old} comes before rule {place}")
    });
    let help = "\n help: `file` writes the filed form of an image, and its numbers with --numbers";
    let more = which.unwrap_or_default() + help;
    Fault::Refused(refusal, plain(&loaded.name), more)
}
