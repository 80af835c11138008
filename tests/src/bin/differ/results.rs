//! Counting the results of a call that fills byte tables, and telling where they differ.

use std::collections::BTreeMap;
use std::fmt::Display;

use foqtirel_tests::generator::Random;
use foqtirel_tests::lent;
use foqtirel_tests::reference::Refusal;

use crate::report::Faults;

const LEAST_PER_CAUSE: usize = 100;

/// The results of one call on which both sides agreed.
#[derive(Default)]
pub struct Results {
    written: usize,
    longest: usize,
    by_cause: BTreeMap<u32, usize>,
}

/// What must have been seen of a call.
pub struct Wanted<'a> {
    pub causes: &'a [u32],
    /// So many tables written at least, and the longest with so many bytes.
    pub written: usize,
    pub longest: usize,
}

impl Results {
    pub fn agreed(&mut self, result: Result<usize, Refusal>) {
        match result {
            Ok(length) => {
                self.written += 1;
                self.longest = self.longest.max(length);
            }
            Err(refusal) => *self.by_cause.entry(refusal.cause.number()).or_default() += 1,
        }
    }

    /// Prints the counts and demands what is wanted, and no cause but those.
    pub fn finish(&self, call: &str, wanted: Wanted, faults: &mut Faults) {
        let (written, longest) = (self.written, self.longest);
        println!("{call}: {written} tables written, the longest with {longest} bytes");
        println!("{call}: refusals: {:?}", self.by_cause);
        faults.demand(&format!("{call}: enough"), written >= wanted.written);
        faults.demand(&format!("{call}: the longest"), longest == wanted.longest);
        let what = format!("{call}: cause");
        let causes = wanted.causes.iter().copied();
        demand_each(faults, &what, causes, &self.by_cause, LEAST_PER_CAUSE);
        let mut seen = self.by_cause.keys();
        let others = seen.find(|cause| !wanted.causes.contains(cause));
        faults.demand(&format!("{call}: no cause {others:?}"), others.is_none());
    }
}

/// What the call for C returns for a result of the reference.
pub fn result_of(result: Result<usize, Refusal>) -> u64 {
    result.map_or_else(Refusal::packed, |length| length as u64)
}

/// Tells both sides' results, the tables they were lent, and where these differ.
pub fn differed(
    faults: &mut Faults,
    call: &str,
    image: &[u8],
    (wanted, given): (Result<usize, Refusal>, u64),
    (about, places): (String, &[Option<isize>]),
) {
    let library = format!("{} * 2^32 + {}", given >> 32, given as u32);
    faults.differed(
        image,
        &[
            (call, about),
            ("reference", format!("{wanted:?}")),
            ("library", library),
            ("first differing byte of each table", format!("{places:?}")),
        ],
    );
}

/// One call on an image that fills one byte table, by both sides.
pub struct Call<'a> {
    pub name: &'a str,
    pub image: &'a [u8],
    /// The old numbers that it reads, where it reads any.
    pub numbers: &'a [u8],
    pub reference: &'a dyn Fn(&mut [u8]) -> Result<usize, Refusal>,
    pub library: &'a dyn Fn(&mut [u8]) -> u64,
}

impl Call<'_> {
    /// Lends both equal tables of so many bytes; returns the front of the library's, if both agree in all and wrote.
    pub fn compare(
        &self,
        room: usize,
        random: &mut Random,
        results: &mut Results,
        faults: &mut Faults,
    ) -> Option<Vec<u8>> {
        let mut by_library = lent::bytes(room, random);
        let mut by_reference = by_library.clone();
        let wanted = (self.reference)(by_reference.table());
        let given = (self.library)(by_library.table());
        let place = by_library.first_difference(&by_reference);
        if given == result_of(wanted) && place.is_none() {
            results.agreed(wanted);
            let length = wanted.ok()?;
            return Some(by_library.table()[..length].to_vec());
        }
        let about = match self.numbers {
            [] => format!("a table of {room} bytes"),
            numbers => format!("numbers {numbers:?}, a table of {room} bytes"),
        };
        let told = (wanted, given);
        differed(faults, self.name, self.image, told, (about, &[place]));
        None
    }
}

/// Demands that each of some keys was seen so often.
pub fn demand_each<Key: Ord + Display>(
    faults: &mut Faults,
    what: &str,
    keys: impl Iterator<Item = Key>,
    counts: &BTreeMap<Key, usize>,
    least: usize,
) {
    for key in keys {
        let seen = counts.get(&key).copied().unwrap_or(0);
        faults.demand(&format!("{what} {key} seen {seen} times"), seen >= least);
    }
}
