//! From a text that was read to a program: numbers the atoms, finds the labels, and tells what no image can hold.

use std::collections::HashMap;

use crate::fault::{Flaw, Span};
use crate::program::{Program, Rule};
use crate::source::{self, Literal, Named, Source};

pub const MOST_ATOMS: usize = 64;
pub const MOST_RULES: usize = 96;
pub const MOST_DEFEASIBLE: usize = 16;
pub const MOST_BODY: usize = 8;
// 240 pairs are all there are of 16 defeasible rules, so no text without a repeated pair passes that limit.

pub fn compile(source: &Source) -> Result<Program, Flaw> {
    let atoms = number_atoms(source)?;
    let mut program = Program {
        atoms: vec![String::new(); atoms.len()],
        ..Program::default()
    };
    for (name, &atom) in &atoms {
        program.atoms[usize::from(atom)] = name.to_string();
    }
    add_rules(source, &atoms, &mut program)?;
    add_pairs(source, &mut program)?;
    Ok(program)
}

/// Declared atoms come first, in their order; the others follow by first occurrence.
fn number_atoms(source: &Source) -> Result<HashMap<&str, u8>, Flaw> {
    let mut atoms = HashMap::new();
    for named in &source.declared {
        if atoms.contains_key(named.name.as_str()) {
            let what = format!("`{}` is declared twice", named.name);
            return Err(Flaw::new(named.at, what, "take this one out"));
        }
        add_atom(&mut atoms, named)?;
    }
    for rule in &source.rules {
        for literal in std::iter::once(&rule.head).chain(&rule.body) {
            add_atom(&mut atoms, &literal.atom)?;
        }
    }
    Ok(atoms)
}

fn add_atom<'a>(atoms: &mut HashMap<&'a str, u8>, named: &'a Named) -> Result<(), Flaw> {
    let count = atoms.len();
    if !atoms.contains_key(named.name.as_str()) {
        if count == MOST_ATOMS {
            let what = format!("`{}` is the 65th atom", named.name);
            return Err(Flaw::new(
                named.at,
                what,
                "a program has at most 64 atoms: split it, or drop atoms that decide nothing",
            ));
        }
        atoms.insert(&named.name, count as u8);
    }
    Ok(())
}

fn add_rules(
    source: &Source,
    atoms: &HashMap<&str, u8>,
    program: &mut Program,
) -> Result<(), Flaw> {
    let mut labels: HashMap<&str, Span> = HashMap::new();
    let mut defeasible = 0;
    for (index, rule) in source.rules.iter().enumerate() {
        if let Some(label) = &rule.label {
            if let Some(earlier) = labels.insert(&label.name, label.at) {
                let what = format!(
                    "the label `{}` stands on line {} already",
                    label.name, earlier.line
                );
                return Err(Flaw::new(
                    label.at,
                    what,
                    "give each rule a label of its own",
                ));
            }
        }
        defeasible += usize::from(rule.defeasible);
        limits(index, defeasible, rule)?;
        let added = Rule {
            label: rule.label.as_ref().map(|label| label.name.clone()),
            defeasible: rule.defeasible,
            head: number(atoms, &rule.head),
            body: body(atoms, rule)?,
        };
        if let Some(earlier) = program
            .rules
            .iter()
            .position(|other| other.same_bytes(&added))
        {
            let line = source.rules[earlier].head.at.line;
            let help = "take one of the two out; the order of a body makes no difference";
            return Err(Flaw::new(
                rule.head.at,
                format!("this rule stands on line {line} already"),
                help,
            ));
        }
        program.rules.push(added);
    }
    Ok(())
}

fn number(atoms: &HashMap<&str, u8>, literal: &Literal) -> u8 {
    2 * atoms[literal.atom.name.as_str()] + u8::from(literal.negated)
}

fn body(atoms: &HashMap<&str, u8>, rule: &source::Rule) -> Result<Vec<u8>, Flaw> {
    let mut body = Vec::new();
    for literal in &rule.body {
        let number = number(atoms, literal);
        if body.contains(&number) {
            let what = format!("`{}` stands twice in this body", literal.text());
            return Err(Flaw::new(
                literal.at,
                what,
                "a body is a set: write it once",
            ));
        }
        body.push(number);
    }
    body.sort_unstable();
    Ok(body)
}

fn limits(index: usize, defeasible: usize, rule: &source::Rule) -> Result<(), Flaw> {
    if index == MOST_RULES {
        return Err(Flaw::new(
            rule.head.at,
            "the 97th rule",
            "a program has at most 96 rules, facts counted: split it",
        ));
    }
    if rule.defeasible && defeasible > MOST_DEFEASIBLE {
        let help = "a program has at most 16 defeasible rules: split it, or write `<-` where a rule always holds";
        return Err(Flaw::new(rule.head.at, "the 17th defeasible rule", help));
    }
    if let Some(literal) = rule.body.get(MOST_BODY) {
        let what = format!("`{}` is the 9th literal of this body", literal.text());
        let help = "a body has at most 8 literals: put some into a strict rule, `both <- a, b.`, and name `both` here";
        return Err(Flaw::new(literal.at, what, help));
    }
    Ok(())
}

fn add_pairs(source: &Source, program: &mut Program) -> Result<(), Flaw> {
    let mut lines: HashMap<(u8, u8), usize> = HashMap::new();
    for preference in &source.preferences {
        let (first, second) = (
            find(program, &preference.first)?,
            find(program, &preference.second)?,
        );
        let at = preference.second.at;
        if first == second {
            let what = format!("`{}` is preferred over itself", preference.first.name);
            return Err(Flaw::new(
                at,
                what,
                "name two different rules, or take the line out",
            ));
        }
        if let Some(line) = lines.insert((first, second), preference.first.at.line) {
            let what = format!("this preference stands on line {line} already");
            return Err(Flaw::new(
                preference.first.at,
                what,
                "take one of the two out",
            ));
        }
    }
    program.pairs = lines.into_keys().collect();
    program.pairs.sort_unstable();
    Ok(())
}

fn find(program: &Program, label: &Named) -> Result<u8, Flaw> {
    let name = &label.name;
    let Some(number) = program
        .rules
        .iter()
        .position(|rule| rule.label.as_ref() == Some(name))
    else {
        let help = format!("write `{name}: ` before the rule that it names");
        return Err(Flaw::new(
            label.at,
            format!("no rule is labelled `{name}`"),
            help,
        ));
    };
    if !program.rules[number].defeasible {
        let help =
            "only defeasible rules are preferred: write the rule with `-<`, or take this line out";
        return Err(Flaw::new(
            label.at,
            format!("`{name}` is a strict rule"),
            help,
        ));
    }
    Ok(number as u8)
}
