//! Programs to image bytes and back.

use crate::program::{Program, Rule};

fn push(image: &mut Vec<u8>, number: usize) {
    image.extend_from_slice(&(number as u16).to_le_bytes());
}

/// The image of a program that keeps the limits.
pub fn encode(program: &Program) -> Vec<u8> {
    let mut image = Vec::new();
    for count in [
        program.atoms.len(),
        program.rules.len(),
        program.pairs.len(),
        0,
    ] {
        push(&mut image, count);
    }
    let mut parts: Vec<Vec<u8>> = program.rules.iter().map(part).collect();
    parts.push(
        program
            .pairs
            .iter()
            .flat_map(|&(first, second)| [first, second])
            .collect(),
    );
    let mut offset = 12 + 4 * program.rules.len();
    for part in &parts {
        push(&mut image, offset);
        push(&mut image, part.len());
        offset += part.len();
    }
    image.extend(parts.concat());
    image
}

fn part(rule: &Rule) -> Vec<u8> {
    let mut bytes = vec![u8::from(rule.defeasible), rule.head];
    bytes.extend(&rule.body);
    bytes
}

/// The program of an image that the engine has accepted, with atoms a0, a1, .. and rules labelled r0, r1, ..
/// where pairs name them. None where the bytes don't fit, which no accepted image gives.
pub fn decode(image: &[u8]) -> Option<Program> {
    let number = |at: usize| {
        Some(usize::from(u16::from_le_bytes([
            *image.get(at)?,
            *image.get(at + 1)?,
        ])))
    };
    let (atoms, rules) = (number(0)?, number(2)?);
    let part = |index: usize| {
        let (offset, length) = (number(8 + 4 * index)?, number(10 + 4 * index)?);
        image.get(offset..offset + length)
    };
    let pairs: Vec<(u8, u8)> = part(rules)?
        .chunks_exact(2)
        .map(|pair| (pair[0], pair[1]))
        .collect();
    let mut program = Program {
        atoms: (0..atoms).map(|atom| format!("a{atom}")).collect(),
        ..Program::default()
    };
    for index in 0..rules {
        let [kind, head, body @ ..] = part(index)? else {
            return None;
        };
        let named = pairs
            .iter()
            .any(|&(first, second)| [first, second].map(usize::from).contains(&index));
        let label = named.then(|| format!("r{index}"));
        program.rules.push(Rule {
            label,
            defeasible: *kind == 1,
            head: *head,
            body: body.to_vec(),
        });
    }
    program.pairs = pairs;
    Some(program)
}
