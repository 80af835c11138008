//! What each branch of a group pays for its answers, as request C-24 shares it out: by the reference, and with the feature
//! `library` by the proved call.

use std::collections::BTreeMap;

use foqtirel_tests::fittings::F;
use foqtirel_tests::generator::bill::{bad_lines, bills, line, longest, BAD_BRANCHES, SHAPES};
use foqtirel_tests::generator::{Description, Random, Verdict};
use foqtirel_tests::sides::{sides, Side};
use foqtirel_tests::vectors::{self, bill_lines};

const SEED: u64 = 24;
const BRANCHES: usize = 12;
const MOST_LINES: usize = 512;
const TOO_MANY_LINES: Verdict = (34, 0);
const BAD_LINE: u32 = 35;
/// 88 hundredths of what as many lines as there may be cost at most, to the nearest cent.
const MOST_SHARE: u32 = 773_161;

/// Branch, code and nodes.
fn fields(line: u64) -> [u64; 3] {
    [line >> 32, line >> 16 & 0xFFFF, line & 0xFFFF]
}

/// In cents.
fn cost(line: u64) -> u64 {
    let [_, code, nodes] = fields(line);
    let eights = (nodes + 7) >> 3;
    match code {
        1 | 2 => 180 + 3 * eights,
        3 => 90 + 3 * eights,
        _ => 0,
    }
}

fn is_bad(line: u64) -> bool {
    let [branch, code, nodes] = fields(line);
    branch > 11 || !(1..=5).contains(&code) || nodes > 4096
}

fn refusal(lines: &[u64]) -> Option<Verdict> {
    if lines.len() > MOST_LINES {
        return Some(TOO_MANY_LINES);
    }
    let place = lines.iter().position(|&line| is_bad(line))?;
    Some((BAD_LINE, place as u32))
}

/// 88 hundredths of what the lines of each branch cost, in hundredths of a cent.
fn parts(lines: &[u64]) -> [u64; BRANCHES] {
    let mut parts = [0; BRANCHES];
    for &line in lines {
        parts[(line >> 32) as usize] += 88 * cost(line);
    }
    parts
}

/// What was seen of the cents that went to branches beyond their own parts.
#[derive(Default)]
struct Cents {
    /// How often so many were missing.
    missing: [usize; BRANCHES + 1],
    /// Bills where of two branches with equal fractions one got a cent and the other did not.
    parted_equals: usize,
}

impl Cents {
    /// Holds shares to each sentence of the request. Together they leave no choice.
    #[track_caller]
    fn assert_shared_out(&mut self, lines: &[u64], shares: &[u32; BRANCHES], about: &str) {
        let parts = parts(lines);
        let paid = shares.map(|share| 100 * u64::from(share));
        let all: u64 = parts.iter().sum();
        let off = paid.iter().sum::<u64>().abs_diff(all);
        assert!(off < 50, "{about}: not the nearest cent: {shares:?}");
        let mut got = [false; BRANCHES];
        for branch in 0..BRANCHES {
            let own = parts[branch] / 100 * 100;
            got[branch] = paid[branch] == own + 100;
            let either = got[branch] || paid[branch] == own;
            assert!(either, "{about}: branch {branch}: {shares:?}");
            let cut_off = parts[branch] > own;
            assert!(cut_off || !got[branch], "{about}: {branch}: {shares:?}");
        }
        self.missing[got.iter().filter(|&&cent| cent).count()] += 1;
        let mut parted = false;
        for one in (0..BRANCHES).filter(|&one| got[one]) {
            for other in (0..BRANCHES).filter(|&other| !got[other]) {
                let (its, others) = (parts[one] % 100, parts[other] % 100);
                let before = its > others || its == others && one < other;
                assert!(before, "{about}: {one} before {other}: {shares:?}");
                parted |= its == others;
            }
        }
        self.parted_equals += usize::from(parted);
    }
}

/// Lines that may stand on a bill, of all branches and answers.
fn sound_lines(count: usize) -> Vec<u64> {
    let lines: Vec<u64> = longest().into_iter().cycle().take(count).collect();
    assert!(!lines.iter().any(|&line| is_bad(line)));
    lines
}

#[track_caller]
fn assert_refused(lines: &[u64], refusal: Verdict) {
    for side in sides() {
        side.assert_bills(lines, Err(refusal));
    }
}

/// The shares of a bill that is to be accepted.
#[track_caller]
fn shares(side: &Side, lines: &[u64]) -> [u32; BRANCHES] {
    let (refusal, shares) = (side.bill)(lines);
    assert_eq!(refusal, (0, 0), "{}: {lines:#X?}", side.name);
    Cents::default().assert_shared_out(lines, &shares, side.name);
    shares
}

#[test]
fn vectors_are_billed_as_written() {
    let mut outcomes: BTreeMap<u32, usize> = BTreeMap::new();
    for vector in vectors::bills() {
        for side in sides() {
            side.assert_bills(&vector.lines, vector.outcome);
        }
        let number = vector.outcome.err().map_or(0, |(number, _)| number);
        *outcomes.entry(number).or_default() += 1;
    }
    assert_eq!(outcomes, BTreeMap::from([(0, 31), (34, 2), (35, 7)]));
}

/// Bills, with what the branches pay that pay anything.
const BY_HAND: [(&str, &[(usize, u32)]); 17] = [
    ("-", &[]),
    // 158.4, 79.2 and 163.68
    ("0:1:0", &[(0, 158)]),
    ("11:3:0", &[(11, 79)]),
    ("7:2:9", &[(7, 164)]),
    // A branch pays for the sum of its lines: 475.2, and not three times 158.
    ("6:1:0 6:2:0 6:1:0", &[(6, 475)]),
    // Free lines, alone and beside others.
    ("1:4:0 2:5:4096 3:4:4096 4:5:0", &[]),
    ("1:5:4096 1:2:1 1:4:9", &[(1, 161)]),
    // Of equal fractions the lower branch's comes first: 316.8, 327.36 and 491.04 in all.
    ("9:1:0 2:1:0", &[(2, 159), (9, 158)]),
    ("4:1:16 7:2:9", &[(4, 164), (7, 163)]),
    ("10:2:9 1:1:9 5:2:16", &[(1, 164), (5, 164), (10, 163)]),
    // The larger fraction comes before the lower branch: 0.4 and 0.96.
    ("0:1:0 11:1:32", &[(0, 158), (11, 169)]),
    // One branch with the larger fraction, then the lower one of two: 485.76 in all.
    ("3:1:0 5:2:0 9:1:32", &[(3, 159), (5, 158), (9, 169)]),
    // 0.24 each: 348.48 in all, and no cent is missing.
    ("3:1:48 8:2:41", &[(3, 174), (8, 174)]),
    // 198 and 163.68: nothing is cut off from the lower branch.
    ("0:1:120 5:1:9", &[(0, 198), (5, 164)]),
    // 179.52 and 216.48: just above the middle of two cents, and just below it.
    ("2:1:64", &[(2, 180)]),
    ("2:1:176", &[(2, 216)]),
    // 0.04, 0.96 and 0.52: two cents, and none for the lowest branch.
    ("2:1:1 3:2:32 4:2:64", &[(2, 161), (3, 169), (4, 180)]),
];

#[test]
fn examples_by_hand() {
    for (text, paid) in BY_HAND {
        let lines = bill_lines(text);
        let mut wanted = [0; BRANCHES];
        for &(branch, cents) in paid {
            wanted[branch] = cents;
        }
        for side in sides() {
            side.assert_bills(&lines, Ok(wanted));
            assert_eq!(shares(&side, &lines), wanted, "{text}");
        }
    }
}

/// 192, 183, 225 and 204 cents have a part with 0.96, 0.04, nothing and 0.52 cut off. The first so many branches, and then the
/// last, with one line each.
#[test]
fn from_no_cent_to_twelve() {
    for count in 0..=BRANCHES {
        for branches in [0..count, BRANCHES - count..BRANCHES] {
            let bill = |nodes: u32| -> Vec<u64> {
                let line = |branch: usize| line(branch as u32, 1, nodes);
                branches.clone().map(line).collect()
            };
            let paid = |lower: u32, missing: usize| {
                let mut shares = [0; BRANCHES];
                shares[branches.clone()].fill(lower);
                let first = branches.start..branches.start + missing;
                shares[first].fill(lower + 1);
                Ok(shares)
            };
            // 0.52 for each: the nearest to so many times 13 25ths.
            let half = (13 * count + 12) / 25;
            for side in sides() {
                side.assert_bills(&bill(32), paid(168, count));
                side.assert_bills(&bill(8), paid(161, 0));
                side.assert_bills(&bill(120), paid(198, 0));
                side.assert_bills(&bill(64), paid(179, half));
            }
        }
    }
}

/// For a hundred lines alike a branch pays 88 times what one costs, with nothing to round.
#[test]
fn every_code_with_every_number_of_nodes() {
    for nodes in 0..=4096 {
        let branch = nodes % 12;
        let eights = (0..nodes).step_by(8).count() as u32;
        for (code, answer) in [
            (1, Some(180)),
            (2, Some(180)),
            (3, Some(90)),
            (4, None),
            (5, None),
        ] {
            let mut wanted = [0; BRANCHES];
            wanted[branch as usize] = answer.map_or(0, |cents| 88 * (cents + 3 * eights));
            for side in sides() {
                side.assert_bills(&[line(branch, code, nodes); 100], Ok(wanted));
            }
        }
    }
}

/// Each side's shares meet every sentence of the request, and its refusals are those that the words give.
#[test]
fn bills_of_every_shape_are_shared_out() {
    let mut accepted: BTreeMap<&str, usize> = BTreeMap::new();
    let mut refused: BTreeMap<u32, usize> = BTreeMap::new();
    let mut cents = Cents::default();
    for (shape, lines) in bills(SEED, 1_000 * SHAPES.len()) {
        if let Some(refusal) = refusal(&lines) {
            assert_refused(&lines, refusal);
            *refused.entry(refusal.0).or_default() += 1;
            continue;
        }
        let all: Vec<_> = sides()
            .iter()
            .map(|side| (side.name, (side.bill)(&lines)))
            .collect();
        for (name, (refusal, shares)) in &all {
            assert_eq!(*refusal, (0, 0), "{name}: {lines:#X?}");
            cents.assert_shared_out(&lines, shares, &format!("{name}: {lines:#X?}"));
        }
        assert!(all.iter().all(|(_, billed)| *billed == all[0].1));
        *accepted.entry(shape).or_default() += 1;
    }
    assert!(accepted.len() >= SHAPES.len() - 4, "{accepted:?}");
    assert!(
        refused[&34] >= 1_000 && refused[&35] >= 3_000,
        "{refused:?}"
    );
    assert!(
        cents.missing.iter().all(|&seen| seen >= 50),
        "{:?}",
        cents.missing
    );
    assert!(cents.parted_equals >= 1_000, "{}", cents.parted_equals);
}

/// The lines in any other order make the same bill.
#[test]
fn the_order_of_the_lines_does_not_matter() {
    let mut random = Random::seeded(SEED);
    let mut turned = 0;
    for (_, lines) in bills(!SEED, 200 * SHAPES.len()) {
        if refusal(&lines).is_some() {
            continue;
        }
        let mut others = lines.clone();
        others.reverse();
        for _ in 0..3 {
            for side in sides() {
                side.assert_bills(&others, Ok(shares(&side, &lines)));
            }
            turned += usize::from(others != lines);
            random.shuffle(&mut others);
        }
    }
    assert!(turned > 5_000, "{turned}");
}

#[test]
fn as_many_lines_as_there_may_be() {
    for count in [0, 1, 2, 511, 512] {
        for side in sides() {
            shares(&side, &sound_lines(count));
        }
    }
    for count in [513, 514, 1_000, 65_536, 65_537] {
        assert_refused(&sound_lines(count), TOO_MANY_LINES);
        // So are free lines.
        assert_refused(&vec![line(3, 4, 0); count], TOO_MANY_LINES);
    }
}

#[test]
fn no_share_is_above_what_the_header_says() {
    let dearest = |branch: usize| vec![line(branch as u32, 1, 4096); MOST_LINES];
    for branch in 0..BRANCHES {
        let mut wanted = [0; BRANCHES];
        wanted[branch] = MOST_SHARE;
        for side in sides() {
            side.assert_bills(&dearest(branch), Ok(wanted));
        }
    }
}

/// Each field around its limits, on a bill of one line.
#[test]
fn each_field_at_its_limits() {
    let (mut accepted, mut refused) = (0, 0);
    for branch in 0..=13 {
        for code in 0..=7 {
            for nodes in [0, 1, 4095, 4096, 4097, 4098] {
                let lines = [line(branch, code, nodes)];
                let within = branch <= 11 && (1..=5).contains(&code) && nodes <= 4096;
                if within {
                    for side in sides() {
                        shares(&side, &lines);
                    }
                    accepted += 1;
                } else {
                    assert_refused(&lines, (BAD_LINE, 0));
                    refused += 1;
                }
            }
        }
    }
    assert_eq!((accepted, refused), (12 * 5 * 4, 14 * 8 * 6 - 12 * 5 * 4));
}

/// Each bit of a line with branch 0, code 1 and 0 nodes: twelve of the nodes and the one that makes 4,096, two of the code
/// besides the one that is set, and four of the branch.
#[test]
fn every_bit_of_a_line_is_read() {
    let sound = (0..=12).chain(16..=18).chain(32..=35);
    let sound: Vec<u32> = sound.collect();
    for bit in 0..64 {
        let lines = [line(0, 1, 0) | 1 << bit];
        if sound.contains(&bit) {
            for side in sides() {
                shares(&side, &lines);
            }
        } else {
            assert_refused(&lines, (BAD_LINE, 0));
        }
    }
}

/// Each kind of bad line: alone, first, in the middle and last.
#[test]
fn a_bad_line_is_refused_wherever_it_stands() {
    let bad = bad_lines();
    assert!(bad.len() > 100 && bad.iter().all(|&line| is_bad(line)));
    for &bad in &bad {
        for count in [1, 2, 3, 9, 512] {
            for place in [0, count / 2, count - 1] {
                let mut lines = sound_lines(count);
                lines[place] = bad;
                assert_refused(&lines, (BAD_LINE, place as u32));
            }
        }
    }
}

#[test]
fn the_place_is_that_of_the_line() {
    for place in 0..MOST_LINES {
        let mut lines = sound_lines(MOST_LINES);
        lines[place] = line(12, 4, 0);
        assert_refused(&lines, (BAD_LINE, place as u32));
    }
}

/// Of two bad lines of any kinds the first is named.
#[test]
fn the_first_bad_line_is_named() {
    let kinds = [
        line(12, 1, 0),
        line(0, 0, 0),
        line(0, 6, 0),
        line(0, 1, 4097),
    ];
    for one in kinds {
        for other in kinds {
            for (first, second) in [(0, 1), (0, 511), (4, 5), (4, 300), (510, 511)] {
                let mut lines = sound_lines(MOST_LINES);
                (lines[first], lines[second]) = (one, other);
                assert_refused(&lines, (BAD_LINE, first as u32));
            }
        }
    }
}

/// With a line too many, whatever stands on the bill.
#[test]
fn too_many_lines_come_first() {
    for bad in bad_lines() {
        for place in [0, 256, 511, 512] {
            let mut lines = sound_lines(513);
            lines[place] = bad;
            assert_refused(&lines, TOO_MANY_LINES);
        }
        assert_refused(&[bad; 513], TOO_MANY_LINES);
        assert_refused(&[bad; 512], (BAD_LINE, 0));
    }
}

/// A line that would cost nothing is held to the same limits.
#[test]
fn a_free_line_may_be_bad() {
    for code in [4, 5] {
        let of_branches = BAD_BRANCHES.map(|branch| line(branch, code, 0));
        let of_nodes = [4097, 65_535].map(|nodes| line(0, code, nodes));
        for bad in of_branches.into_iter().chain(of_nodes) {
            assert_refused(&[bad], (BAD_LINE, 0));
            assert_refused(&[line(2, 1, 3), bad, line(2, 4, 0)], (BAD_LINE, 1));
        }
    }
}

fn image(program: &str) -> Vec<u8> {
    Description::parse(program).expect("a program").image()
}

/// A result put on a bill as the header's macro does it.
fn line_of(branch: u32, result: u64) -> u64 {
    (u64::from(branch) << 32) + result
}

/// A refusal of another call has code 0 on a bill, whatever its number and place.
#[test]
fn refusals_of_other_calls_are_bad_lines() {
    let (f, contradictory) = (image(F), image("0; 1"));
    let repeated = image("0; d 2<0; 4<0; d 2<0");
    for side in sides() {
        let query = |image: &[u8], literal, budget| u64::from((side.query)(image, literal, budget));
        let queries = [
            (query(&f[..11], 2, 3), 1),
            (query(&repeated, 2, 3), 10),
            (query(&contradictory, 2, 3), 14),
            (query(&f, 128, 3), 20),
            (query(&f, 2, 4097), 21),
        ];
        let trees =
            |image: &[u8], literal, budget, rooms| (side.trees)(image, literal, budget, rooms);
        let trees = [
            (trees(&repeated, 2, 3, (3, 3)), 10 << 32 | 3),
            (trees(&contradictory, 2, 3, (3, 3)), 14 << 32),
            (trees(&f, 128, 3, (3, 3)), 20 << 32),
            (trees(&f, 2, 3, (3, 2)), 22 << 32),
            (trees(&f, 2, 3, (2, 3)), 23 << 32),
        ];
        for (result, refusal) in queries.into_iter().chain(trees) {
            assert_eq!(result, refusal, "{}", side.name);
            for branch in [0, 5, 11, 12] {
                let lines = [line(0, 1, 9), line_of(branch, result), line(11, 2, 9)];
                side.assert_bills(&lines, Err((BAD_LINE, 1)));
                side.assert_bills(&lines[1..], Err((BAD_LINE, 0)));
            }
        }
    }
}

/// Vectors, one for each branch.
const ASKED: [&str; BRANCHES] = [
    "F", "Fnopair", "G", "Gpair", "H", "K", "L", "T", "whole", "concord", "subarg", "back",
];

/// Every literal of these, as answered by the calls.
#[test]
fn answers_are_billed() {
    let wanted = [644, 486, 650, 966, 650, 644, 966, 829, 650, 649, 808, 649];
    for side in sides() {
        let mut lines = Vec::new();
        for (branch, name) in (0..).zip(ASKED) {
            let image = vectors::image(name);
            let literals = 2 * u32::from(image[0]);
            for literal in 0..literals {
                let result = (side.query)(&image, literal, 4096);
                assert_eq!(
                    (side.trees)(&image, literal, 4096, (64, 4096)),
                    u64::from(result)
                );
                lines.push(line_of(branch, result.into()));
            }
            // UNFINISHED or UNKNOWN, so free.
            let unfinished = (side.query)(&image, 2, 0);
            assert!([4, 5].contains(&(unfinished >> 16)), "{name}");
            lines.push(line_of(branch, unfinished.into()));
        }
        assert_eq!(lines.len(), 74 + BRANCHES);
        side.assert_bills(&lines, Ok(wanted));
        assert_eq!(shares(&side, &lines), wanted);
    }
}

#[cfg(feature = "library")]
mod library {
    use std::hint::black_box;
    use std::ptr::{null, NonNull};

    use super::*;
    use foqtirel_binding::raw::foqtirel_bill;
    use foqtirel_binding::{line as line_of_result, query, Billed};

    fn told(billed: Billed) -> (Verdict, [u32; BRANCHES]) {
        ((billed.number, billed.place), billed.shares)
    }

    /// Null with no lines is a bill without lines, and so is any other place.
    #[test]
    fn null_is_no_line() {
        let nobody = ((0, 0), [0; BRANCHES]);
        let dangling = NonNull::<u64>::dangling().as_ptr().cast_const();
        for lines in [null(), dangling, [u64::MAX].as_ptr()] {
            // SAFETY: nothing is read of no lines.
            assert_eq!(told(unsafe { foqtirel_bill(lines, 0) }), nobody);
        }
    }

    /// The lines stay as they were, and those past the count make no difference.
    #[test]
    fn lines_are_only_read() {
        let mut random = Random::seeded(SEED);
        for (_, lines) in bills(SEED ^ 5, 100 * SHAPES.len()) {
            let (wanted, count) = (foqtirel_binding::bill(&lines), lines.len());
            let more = random.pick(&[u64::MAX, 0, line(0, 1, 4096)]);
            let mut table = lines.clone();
            table.extend([more; 8]);
            let before = table.clone();
            // SAFETY: there are more lines than the call is told.
            let given = unsafe { foqtirel_bill(black_box(table.as_mut_ptr()), count) };
            assert_eq!(given, wanted);
            assert_eq!(black_box(&table), &before);
        }
    }

    /// A line as the binding makes it is the line as it is written out.
    #[test]
    fn the_binding_makes_lines() {
        let f = image(F);
        assert_eq!(line_of_result(7, query(&f, 2, 4096)), line(7, 1, 3));
        assert_eq!(line_of_result(11, query(&f, 3, 4096)), line(11, 2, 3));
        assert_eq!(line_of_result(0, query(&f, 2, 2)), line(0, 5, 2));
        assert_eq!(line_of_result(12, query(&f, 100, 0)), line(12, 4, 0));
        assert_eq!(
            line_of_result(u32::MAX, query(&f, 128, 0)),
            line(u32::MAX, 0, 20)
        );
    }
}
