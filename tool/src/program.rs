//! A program with names: what a text compiles to, and what an image is read back as.

use crate::explain::count;

#[derive(Clone, Debug, PartialEq, Eq)]
pub struct Rule {
    pub label: Option<String>,
    pub defeasible: bool,
    pub head: u8,
    /// Strictly ascending.
    pub body: Vec<u8>,
}

impl Rule {
    /// Whether two rules are the same in an image, which holds no labels.
    pub fn same_bytes(&self, other: &Rule) -> bool {
        (self.defeasible, self.head, &self.body) == (other.defeasible, other.head, &other.body)
    }
}

/// Literals are 2 × atom + sign, sign 1 for the strongly negated one.
#[derive(Clone, Debug, Default, PartialEq, Eq)]
pub struct Program {
    pub atoms: Vec<String>,
    pub rules: Vec<Rule>,
    /// Rule numbers, strictly ascending: the first beats the second.
    pub pairs: Vec<(u8, u8)>,
}

impl Program {
    pub fn literal(&self, literal: u8) -> String {
        let sign = if literal % 2 == 1 { "~" } else { "" };
        match self.atoms.get(usize::from(literal / 2)) {
            Some(atom) => format!("{sign}{atom}"),
            None => format!("{sign}a{}", literal / 2),
        }
    }

    /// A rule as it is written, without its label and its stop.
    pub fn rule_text(&self, number: usize) -> String {
        let Some(rule) = self.rules.get(number) else {
            return format!("rule {number}");
        };
        let head = self.literal(rule.head);
        let body: Vec<String> = rule
            .body
            .iter()
            .map(|&literal| self.literal(literal))
            .collect();
        let body = body.join(", ");
        match (rule.defeasible, body.is_empty()) {
            (true, _) => format!("{head} -< {body}"),
            (false, true) => head,
            (false, false) => format!("{head} <- {body}"),
        }
    }

    /// The label where there is one, else the text.
    pub fn rule_name(&self, number: usize) -> String {
        match self.rules.get(number).and_then(|rule| rule.label.clone()) {
            Some(label) => label,
            None => self.rule_text(number),
        }
    }

    pub fn rule_names(&self, numbers: &[usize]) -> Vec<String> {
        numbers
            .iter()
            .map(|&number| self.rule_name(number))
            .collect()
    }

    /// How many atoms, rules and pairs there are.
    pub fn size(&self) -> String {
        let defeasible = self.rules.iter().filter(|rule| rule.defeasible).count();
        format!(
            "{}, {} ({defeasible} defeasible), {}",
            count(self.atoms.len(), "atom"),
            count(self.rules.len(), "rule"),
            count(self.pairs.len(), "pair")
        )
    }

    /// The same program where each atom has another number, the one at its place. Numbers between them have no name.
    pub fn renumbered(&self, numbers: &[u8]) -> Program {
        let literal = |literal: u8| 2 * numbers[usize::from(literal / 2)] + literal % 2;
        let end = numbers
            .iter()
            .max()
            .map_or(0, |&last| usize::from(last) + 1);
        let mut program = Program {
            atoms: vec![String::new(); end],
            ..self.clone()
        };
        for (name, &number) in self.atoms.iter().zip(numbers) {
            program.atoms[usize::from(number)].clone_from(name);
        }
        for rule in &mut program.rules {
            rule.head = literal(rule.head);
            rule.body = rule.body.iter().copied().map(literal).collect();
            rule.body.sort_unstable();
        }
        program
    }

    /// The same program with the first atoms as they are and all others in the order of their names.
    pub fn numbered_by_name(&self, first: usize) -> Program {
        let mut order: Vec<usize> = (0..self.atoms.len()).collect();
        order[first..].sort_by_key(|&atom| &self.atoms[atom]);
        let mut numbers = vec![0; order.len()];
        for (number, &atom) in order.iter().enumerate() {
            numbers[atom] = number as u8;
        }
        self.renumbered(&numbers)
    }

    /// The numbers of the defeasible rules in a mask: bit b is the b-th defeasible rule of the table.
    pub fn rules_of(&self, mask: u16) -> Vec<usize> {
        let defeasible = (0..self.rules.len()).filter(|&number| self.rules[number].defeasible);
        defeasible
            .take(16)
            .enumerate()
            .filter(|(bit, _)| mask >> bit & 1 == 1)
            .map(|(_, number)| number)
            .collect()
    }

    /// The program as text that compiles to the same image.
    pub fn text(&self) -> String {
        let mut text = String::new();
        for (index, atoms) in self.atoms.chunks(16).enumerate() {
            let lead = if index == 0 { ":- atoms " } else { ",\n    " };
            text += &format!("{lead}{}", atoms.join(", "));
        }
        if !self.atoms.is_empty() {
            text += ".\n";
        }
        for (number, rule) in self.rules.iter().enumerate() {
            let label = rule
                .label
                .as_ref()
                .map(|label| format!("{label}: "))
                .unwrap_or_default();
            text += &format!("{label}{}.\n", self.rule_text(number));
        }
        for &(first, second) in &self.pairs {
            text += &format!(
                "{} > {}.\n",
                self.rule_name(first.into()),
                self.rule_name(second.into())
            );
        }
        text
    }
}
