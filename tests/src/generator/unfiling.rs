//! Tables of old numbers for the way back from filed form, sound and faulty, and programs that are not in filed form.

use super::description::Description;
use super::filing::in_order;
use super::random::Random;

/// The old numbers of so many rules, of some order.
pub fn numbers(random: &mut Random, rules: usize) -> Vec<u8> {
    let mut numbers: Vec<u8> = (0..rules as u8).collect();
    random.shuffle(&mut numbers);
    numbers
}

/// Sound numbers with one of them replaced, at the first, a middle or the last place: by one that is out of range, or by one
/// from another place.
pub fn faulty(numbers: &[u8]) -> Vec<Vec<u8>> {
    let rules = numbers.len();
    let mut tables = Vec::new();
    for place in [0, rules / 2, rules.saturating_sub(1)] {
        for wrong in wrong_at(numbers, place) {
            let mut table = numbers.to_vec();
            table[place] = wrong;
            tables.push(table);
        }
    }
    tables
}

/// What may not stand at a place. There is nothing where there is no rule.
fn wrong_at(numbers: &[u8], place: usize) -> Vec<u8> {
    let rules = numbers.len();
    if rules == 0 {
        return Vec::new();
    }
    let out_of_range = [rules, rules + 1, 128, 254, 255].map(|number| number as u8);
    let others = [0, place.saturating_sub(1), place + 1, rules - 1];
    let others = others.into_iter().filter(|&other| other != place);
    let used = others.filter_map(|other| numbers.get(other).copied());
    out_of_range.into_iter().chain(used).collect()
}

/// The program with two of its rules in each other's places, and its pairs renumbered and sorted.
pub fn exchanged(program: &Description, one: usize, other: usize) -> Description {
    let mut order: Vec<u8> = (0..program.rules.len() as u8).collect();
    order.swap(one, other);
    in_order(program, &order)
}
