//! Reading a program image, causes 1 to 13.

use super::literal::Literal;
use super::program::{Kind, Program, Rule};
use super::refusal::{Cause, Refusal};

const MOST_ATOMS: usize = 64;
const MOST_RULES: usize = 96;
const MOST_PAIRS: usize = 240;
const MOST_DEFEASIBLE: usize = 16;

/// The number of defeasible rules of an image, none if it is refused.
pub fn defeasible_rules(image: &[u8]) -> usize {
    read_image(image).map_or(0, |program| program.defeasible_numbers().len())
}

/// Reads an image whole. Cause 14 is left to the check, as it needs derivation.
pub fn read_image(image: &[u8]) -> Result<Program, Refusal> {
    if image.len() < 12 || image.len() > 1836 {
        return Err(Refusal::whole(Cause::ImageLength));
    }
    let header = read_header(image)?;
    let parts = read_directory(image, header.rules)?;
    let (last_part, rule_parts) = parts
        .split_last()
        .expect("the directory has one part more than there are rules");

    let mut rules: Vec<Rule> = Vec::new();
    for (number, part) in rule_parts.iter().enumerate() {
        let rule = read_rule(part, header.atoms).map_err(|cause| Refusal::at(cause, number))?;
        let defeasible_before = count_defeasible(&rules);
        if rule.kind == Kind::Defeasible && defeasible_before == MOST_DEFEASIBLE {
            return Err(Refusal::at(Cause::TooManyDefeasible, number));
        }
        if rule_parts[..number].contains(part) {
            return Err(Refusal::at(Cause::RepeatedRule, number));
        }
        rules.push(rule);
    }

    if last_part.len() != 2 * header.pairs {
        return Err(Refusal::whole(Cause::LastPartLength));
    }
    let mut pairs: Vec<(usize, usize)> = Vec::new();
    for (number, bytes) in last_part.chunks(2).enumerate() {
        let pair = (usize::from(bytes[0]), usize::from(bytes[1]));
        if !names_two_defeasible_rules(pair, &rules) {
            return Err(Refusal::at(Cause::PairNames, number));
        }
        if let Some(&previous) = pairs.last() {
            if previous >= pair {
                return Err(Refusal::at(Cause::PairOrder, number));
            }
        }
        pairs.push(pair);
    }
    Ok(Program {
        atoms: header.atoms,
        rules,
        pairs,
    })
}

struct Header {
    atoms: usize,
    rules: usize,
    pairs: usize,
}

fn two_bytes(image: &[u8], position: usize) -> usize {
    usize::from(image[position]) + 256 * usize::from(image[position + 1])
}

fn read_header(image: &[u8]) -> Result<Header, Refusal> {
    let header = Header {
        atoms: two_bytes(image, 0),
        rules: two_bytes(image, 2),
        pairs: two_bytes(image, 4),
    };
    if header.atoms > MOST_ATOMS
        || header.rules > MOST_RULES
        || header.pairs > MOST_PAIRS
        || two_bytes(image, 6) != 0
    {
        return Err(Refusal::whole(Cause::Header));
    }
    Ok(header)
}

/// The R + 1 parts, each cut out of the image. The sums are of wide numbers, so none wraps.
fn read_directory(image: &[u8], rules: usize) -> Result<Vec<&[u8]>, Refusal> {
    let refusal = Refusal::whole(Cause::Directory);
    let end_of_directory = 12 + 4 * rules;
    if end_of_directory > image.len() {
        return Err(refusal);
    }
    let entries: Vec<(usize, usize)> = (0..rules + 1)
        .map(|entry| {
            (
                two_bytes(image, 8 + 4 * entry),
                two_bytes(image, 10 + 4 * entry),
            )
        })
        .collect();
    let mut expected_offset = end_of_directory;
    for &(offset, length) in &entries {
        if offset != expected_offset {
            return Err(refusal);
        }
        expected_offset = offset + length;
    }
    if expected_offset != image.len() {
        return Err(refusal);
    }
    Ok(entries
        .iter()
        .map(|&(offset, length)| &image[offset..offset + length])
        .collect())
}

/// Causes 4 to 8, which concern one rule by itself.
fn read_rule(part: &[u8], atoms: usize) -> Result<Rule, Cause> {
    if part.len() < 2 || part.len() > 10 {
        return Err(Cause::RuleLength);
    }
    let kind = match part[0] {
        0 => Kind::Strict,
        1 => Kind::Defeasible,
        _ => return Err(Cause::RuleKind),
    };
    if part[1..].iter().any(|&byte| usize::from(byte) >= 2 * atoms) {
        return Err(Cause::LiteralRange);
    }
    let head = Literal::new(part[1]);
    let body: Vec<Literal> = part[2..].iter().map(|&byte| Literal::new(byte)).collect();
    if body.windows(2).any(|two| two[0] >= two[1]) {
        return Err(Cause::BodyOrder);
    }
    if kind == Kind::Defeasible && body.is_empty() {
        return Err(Cause::DefeasibleWithoutBody);
    }
    Ok(Rule { kind, head, body })
}

fn count_defeasible(rules: &[Rule]) -> usize {
    rules
        .iter()
        .filter(|rule| rule.kind == Kind::Defeasible)
        .count()
}

fn names_two_defeasible_rules(pair: (usize, usize), rules: &[Rule]) -> bool {
    let defeasible = |number: usize| {
        rules
            .get(number)
            .is_some_and(|rule| rule.kind == Kind::Defeasible)
    };
    defeasible(pair.0) && defeasible(pair.1) && pair.0 != pair.1
}
