//! Tables to lend to a call.

use foqtirel_binding::Node;

use crate::generator::Random;

/// Entries on each side of the table that no call may touch either.
const MARGIN: usize = 16;

/// A table with junk in it and around it.
#[derive(Clone)]
pub struct Lent<Entry> {
    memory: Vec<Entry>,
    length: usize,
}

impl<Entry: Clone> Lent<Entry> {
    fn filled(length: usize, junk: impl FnMut() -> Entry) -> Lent<Entry> {
        Lent {
            memory: std::iter::repeat_with(junk)
                .take(length + 2 * MARGIN)
                .collect(),
            length,
        }
    }

    /// The table itself, without what is around it.
    pub fn table(&mut self) -> &mut [Entry] {
        &mut self.memory[MARGIN..MARGIN + self.length]
    }

    /// The same table with entries of another form.
    pub fn recast<Other: From<Entry>>(&self) -> Lent<Other> {
        Lent {
            memory: self.memory.iter().cloned().map(Other::from).collect(),
            length: self.length,
        }
    }

    /// The first place where two tables differ; places in front of the table are negative.
    pub fn first_difference<Other>(&self, other: &Lent<Other>) -> Option<isize>
    where
        Entry: PartialEq,
        Other: Clone + Into<Entry>,
    {
        let mut both = self.memory.iter().zip(&other.memory);
        let place = both.position(|(one, two)| *one != two.clone().into())?;
        Some(place as isize - MARGIN as isize)
    }
}

/// A table of bytes.
pub fn bytes(length: usize, random: &mut Random) -> Lent<u8> {
    // With most bits gone, junk looks like numbers of an image.
    let fewer_bits = random.pick(&[0, 6]);
    Lent::filled(length, || random.byte() >> fewer_bits)
}

/// A table of arguments.
pub fn arguments(length: usize, random: &mut Random) -> Lent<u32> {
    // With nine bits less, junk looks like entries of a list.
    let fewer_bits = random.pick(&[0, 9]);
    Lent::filled(length, || random.number() as u32 >> fewer_bits)
}

/// A table of nodes.
pub fn nodes(length: usize, random: &mut Random) -> Lent<Node> {
    // With most bits gone, junk looks like nodes of a forest.
    let like_nodes = random.chance(50);
    Lent::filled(length, || {
        let number = random.number();
        let few = |value: u64, end: u64| if like_nodes { value % end } else { value };
        Node {
            argument: few(number, 16) as u32,
            parent: few(number >> 20, 16) as u32,
            kind: few(number >> 40, 3) as u8,
            mark: few(number >> 50, 3) as u8,
        }
    })
}
