//! The text that `advise` prints for an image.

use super::analysis::Analysis;
use super::calls::MOST_NODES;
use super::refusal::Refusal;
use super::tree::NodeEntry;

pub fn advise(image: &[u8]) -> String {
    match advice(image) {
        Ok(text) => text,
        Err(refusal) => format!("refused {} {}\n", refusal.cause.number(), refusal.place),
    }
}

fn advice(image: &[u8]) -> Result<String, Refusal> {
    let analysis = Analysis::of_image(image)?;
    let mut arguments = vec![0; MOST_NODES];
    let mut nodes = vec![NodeEntry::default(); MOST_NODES];
    let count = analysis.list(&mut arguments)?;
    let mut text = format!("arguments {count}\n");
    for literal in 0..2 * analysis.program.atoms as u32 {
        let answer = analysis.query(literal, MOST_NODES as u32, &mut arguments, &mut nodes)?;
        let line = format!("{literal} {} {}\n", answer.code.word(), answer.nodes);
        text.push_str(&line);
    }
    Ok(text)
}
