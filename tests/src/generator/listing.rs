//! Programs whose argument lists are known from how they are made.

use super::description::{Description, RuleText};

/// One fact and so many defeasible rules that all need it alone, each with a head of its own.
/// Every mask derives a set of its own, and each rule by itself is an argument.
pub fn all_applicable(defeasible: usize) -> Description {
    let rule = |number: usize| RuleText {
        defeasible: number > 0,
        head: 2 * number as u8,
        body: if number > 0 { vec![0] } else { Vec::new() },
    };
    Description {
        atoms: defeasible as u16 + 1,
        rules: (0..=defeasible).map(rule).collect(),
        pairs: Vec::new(),
    }
}

/// So many defeasible rules, at most 16, that speak for literal 2 and against it in turn, each beating the one before it.
///
/// Each rule by itself is an argument and no other non-empty mask is one, so the line of all the rules has as many nodes as a
/// line can have. The first of them is the only argument for literal 0, which has no other root.
pub fn taking_turns(defeasible: usize) -> Description {
    let mut text = "4; 6; 8; 10; 12; 14; 16; 18; 2<0".to_string();
    for turn in 0..defeasible {
        let head = if turn == 0 { 0 } else { 2 + turn % 2 };
        text += &format!("; d {head}<{}", 4 + turn / 2 * 2);
    }
    for turn in 1..defeasible {
        text += &format!("; ({},{})", 9 + turn, 8 + turn);
    }
    Description::parse(&text).expect("a program")
}

/// How many arguments `many_arguments` has.
pub const MANY_ARGUMENTS: usize = 1 + 16 + (10 + 10 + 20) + 39 * 2000;

/// A literal with 2,000 arguments and 38 more that follow from it.
///
/// Sixteen defeasible rules fall into groups of five, five and six; a group counts when two,
/// two and three of its rules are used, and all three groups together give the literal.
pub fn many_arguments() -> Description {
    let mut text = "0".to_string();
    let heads: Vec<usize> = (1..=16).map(|atom| 2 * atom).collect();
    for head in &heads {
        text += &format!("; d {head}<0");
    }
    for (group, members) in [(34, &heads[0..5]), (36, &heads[5..10])] {
        for (i, one) in members.iter().enumerate() {
            for two in &members[i + 1..] {
                text += &format!("; {group}<{one},{two}");
            }
        }
    }
    let members = &heads[10..16];
    for (i, one) in members.iter().enumerate() {
        for (j, two) in members.iter().enumerate().skip(i + 1) {
            for three in &members[j + 1..] {
                text += &format!("; 38<{one},{two},{three}");
            }
        }
    }
    text += "; 40<34,36,38";
    for atom in 21..=58 {
        text += &format!("; {}<40", 2 * atom);
    }
    Description::parse(&text).expect("a program")
}
