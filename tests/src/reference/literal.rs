//! Literals and sets of literals.

/// 2 × atom + sign, always below 128. Sign 1 means strongly negated.
#[derive(Clone, Copy, Debug, PartialEq, Eq, PartialOrd, Ord)]
pub struct Literal(u8);

impl Literal {
    /// One more than the greatest literal.
    pub const END: u8 = 128;

    pub fn new(number: u8) -> Literal {
        assert!(number < Literal::END, "no literal has the number {number}");
        Literal(number)
    }

    pub fn number(self) -> u8 {
        self.0
    }

    pub fn atom(self) -> u8 {
        self.0 / 2
    }

    /// The same atom with the other sign.
    pub fn complement(self) -> Literal {
        if self.0.is_multiple_of(2) {
            Literal(self.0 + 1)
        } else {
            Literal(self.0 - 1)
        }
    }

    pub fn all() -> impl Iterator<Item = Literal> {
        (0..Literal::END).map(Literal)
    }
}

/// A set of literals; bit n stands for literal n.
#[derive(Clone, Copy, Debug, Default, PartialEq, Eq)]
pub struct LiteralSet(u128);

impl LiteralSet {
    pub fn contains(self, literal: Literal) -> bool {
        self.0 >> literal.0 & 1 == 1
    }

    pub fn insert(&mut self, literal: Literal) {
        self.0 |= 1 << literal.0;
    }

    pub fn add_all(&mut self, others: LiteralSet) {
        self.0 |= others.0;
    }

    pub fn is_subset_of(self, other: LiteralSet) -> bool {
        self.0 & !other.0 == 0
    }

    pub fn iter(self) -> impl Iterator<Item = Literal> {
        Literal::all().filter(move |&literal| self.contains(literal))
    }

    /// True if some literal and its complement are both in the set.
    pub fn has_complements(self) -> bool {
        // Complements are neighbours: bits 0 and 1, 2 and 3, and so on.
        const POSITIVE: u128 = u128::MAX / 3;
        self.0 & (self.0 >> 1) & POSITIVE != 0
    }
}

impl FromIterator<Literal> for LiteralSet {
    fn from_iter<I: IntoIterator<Item = Literal>>(literals: I) -> LiteralSet {
        let mut set = LiteralSet::default();
        for literal in literals {
            set.insert(literal);
        }
        set
    }
}

#[cfg(test)]
mod tests {
    use super::*;

    #[test]
    fn complements_are_found_wherever_they_are() {
        for one in Literal::all() {
            for other in Literal::all() {
                let set: LiteralSet = [one, other].into_iter().collect();
                assert_eq!(set.has_complements(), one.complement() == other);
            }
        }
    }
}
