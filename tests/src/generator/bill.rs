//! Bills of many shapes, with lines as the C call takes them.

use super::random::Random;

const BRANCHES: u32 = 12;
const MOST_LINES: usize = 512;
const MOST_NODES: u32 = 4096;

const YES: u32 = 1;
const UNDECIDED: u32 = 3;
/// The answers that cost something, and those that are free.
const PAID: [u32; 3] = [YES, 2, UNDECIDED];
const FREE: [u32; 2] = [4, 5];
/// Numbers of nodes on both sides of where the cost changes.
const NODES: [u32; 10] = [0, 1, 7, 8, 9, 15, 16, 17, 4095, MOST_NODES];

/// What no line may have: next to the limit, as much as there is room for, and what would do with its upper bits gone.
pub const BAD_BRANCHES: [u32; 5] = [12, 13, 256, 1 << 31, u32::MAX];
pub const BAD_CODES: [u32; 5] = [0, 6, 7, 257, 65_535];
pub const BAD_NODES: [u32; 4] = [4097, 4098, 32_768, 65_535];

type Make = fn(&mut Random) -> Vec<u64>;

/// Every shape, by its name.
pub const SHAPES: [(&str, Make); 18] = [
    ("few lines", few_lines),
    ("many lines", many_lines),
    ("one branch", one_branch),
    ("some branches", some_branches),
    ("equal sums", equal_sums),
    ("equal fractions", equal_fractions),
    ("fractions next to each other", next_fractions),
    ("any fractions", any_fractions),
    ("near the middle of two cents", near_the_middle),
    ("the largest fractions", largest_fractions),
    ("nothing cut off", nothing_cut_off),
    ("free lines", free_lines),
    ("the dearest lines", dearest_lines),
    ("a bad line", a_bad_line),
    ("several bad lines", several_bad_lines),
    ("too many lines", too_many_lines),
    ("numbers near the limits", near_the_limits),
    ("any numbers", any_numbers),
];

/// `count` bills of all shapes in turn, each with the shape's name.
pub fn bills(seed: u64, count: usize) -> impl Iterator<Item = (&'static str, Vec<u64>)> {
    let mut random = Random::seeded(seed);
    (0..count).map(move |index| {
        let (name, make) = SHAPES[index % SHAPES.len()];
        (name, make(&mut random))
    })
}

/// Branch × 2^32 + code × 65,536 + nodes.
pub fn line(branch: u32, code: u32, nodes: u32) -> u64 {
    assert!(code < 65_536 && nodes < 65_536, "no room in a line");
    (u64::from(branch) << 32) + u64::from(code * 65_536 + nodes)
}

/// Each kind of bad line: one field out of its range, with the others at each end of theirs.
pub fn bad_lines() -> Vec<u64> {
    let mut bad = Vec::new();
    for code in 1..=5 {
        for nodes in [0, MOST_NODES] {
            bad.extend(BAD_BRANCHES.map(|branch| line(branch, code, nodes)));
        }
        for branch in [0, BRANCHES - 1] {
            bad.extend(BAD_NODES.map(|nodes| line(branch, code, nodes)));
        }
    }
    for branch in [0, BRANCHES - 1] {
        for nodes in [0, MOST_NODES] {
            bad.extend(BAD_CODES.map(|code| line(branch, code, nodes)));
        }
    }
    bad
}

/// As many lines as there may be, of all branches in turn: some of each answer, with more and more nodes.
pub fn longest() -> Vec<u64> {
    let line = |number: u32| line(number % BRANCHES, 1 + number % 5, 8 * number);
    (0..MOST_LINES as u32).map(line).collect()
}

/// One line for each branch, each with so much cut off that all get a cent more.
pub fn all_get_a_cent() -> Vec<u64> {
    (0..BRANCHES).map(|branch| line(branch, YES, 32)).collect()
}

fn any_branch(random: &mut Random) -> u32 {
    random.below(BRANCHES as usize) as u32
}

fn any_nodes(random: &mut Random) -> u32 {
    if random.chance(60) {
        random.pick(&NODES)
    } else {
        random.between(0, MOST_NODES as usize) as u32
    }
}

fn any_line(random: &mut Random, branch: u32) -> u64 {
    let code = random.between(1, 5) as u32;
    line(branch, code, any_nodes(random))
}

/// So many lines, each of any of these branches.
fn lines_of(random: &mut Random, branches: &[u32], count: usize) -> Vec<u64> {
    let mut line = || {
        let branch = random.pick(branches);
        any_line(random, branch)
    };
    (0..count).map(|_| line()).collect()
}

fn all_branches() -> Vec<u32> {
    (0..BRANCHES).collect()
}

/// One branch or more.
fn chosen_branches(random: &mut Random) -> Vec<u32> {
    let count = random.between(1, BRANCHES as usize);
    random.sample(&all_branches(), count)
}

fn any_count(random: &mut Random) -> usize {
    let any = random.between(0, MOST_LINES);
    random.pick(&[0, 1, 2, 25, MOST_LINES - 1, MOST_LINES, any, any])
}

fn few_lines(random: &mut Random) -> Vec<u64> {
    let count = random.between(0, 14);
    lines_of(random, &all_branches(), count)
}

fn many_lines(random: &mut Random) -> Vec<u64> {
    let any = random.between(15, MOST_LINES);
    let count = random.pick(&[any, any, MOST_LINES - 1, MOST_LINES]);
    lines_of(random, &all_branches(), count)
}

fn one_branch(random: &mut Random) -> Vec<u64> {
    let (branch, count) = (any_branch(random), any_count(random));
    lines_of(random, &[branch], count)
}

fn some_branches(random: &mut Random) -> Vec<u64> {
    let (branches, count) = (chosen_branches(random), any_count(random));
    lines_of(random, &branches, count)
}

/// The same answers for each of some branches.
fn equal_sums(random: &mut Random) -> Vec<u64> {
    let branches = chosen_branches(random);
    let count = random.between(1, MOST_LINES / branches.len());
    let count = random.pick(&[1, 2, count]);
    let answers = lines_of(random, &[0], count);
    let of_branch = |&branch: &u32| {
        let first = line(branch, 0, 0);
        answers.iter().map(move |answer| first + answer)
    };
    let mut lines: Vec<u64> = branches.iter().flat_map(of_branch).collect();
    random.shuffle(&mut lines);
    lines
}

/// A line that leaves its branch so many 25ths of a cent cut off, if the branch has no other. The part of 3 cents is 66 25ths;
/// that of 11 times as much is 29 cents and one 25th.
fn with_fraction(random: &mut Random, branch: u32, fraction: usize) -> u64 {
    let code = random.pick(&PAID);
    // What the answer costs without nodes is so many times 3 cents.
    let answer = if code == UNDECIDED { 30 } else { 60 };
    let started = (11 * fraction + 100 - answer) % 25 + 25 * random.below(20);
    let nodes = match started {
        0 => 0,
        _ => 8 * started - random.below(8),
    };
    line(branch, code, nodes as u32)
}

/// These branches, each with so many 25ths of a cent cut off. 25 lines alike more change no fraction, nor do free ones.
fn with_fractions(random: &mut Random, fractions: &[(u32, usize)]) -> Vec<u64> {
    let mut lines = Vec::new();
    for &(branch, fraction) in fractions {
        lines.push(with_fraction(random, branch, fraction));
        if random.chance(30) {
            lines.extend([any_line(random, branch); 25]);
        }
        if random.chance(30) {
            lines.push(free_line(random, branch));
        }
    }
    random.shuffle(&mut lines);
    lines
}

/// The same fraction for each of some branches, though not the same sum.
fn equal_fractions(random: &mut Random) -> Vec<u64> {
    let (branches, fraction) = (chosen_branches(random), random.below(25));
    let fractions: Vec<_> = branches.into_iter().map(|b| (b, fraction)).collect();
    with_fractions(random, &fractions)
}

/// One of two fractions for each of some branches, so that there are equals on both sides of where the cents end.
fn next_fractions(random: &mut Random) -> Vec<u64> {
    let (branches, fraction) = (chosen_branches(random), random.below(24));
    let mut either = |branch| (branch, fraction + random.below(2));
    let fractions: Vec<_> = branches.into_iter().map(&mut either).collect();
    with_fractions(random, &fractions)
}

fn any_fractions(random: &mut Random) -> Vec<u64> {
    let branches = chosen_branches(random);
    let mut any = |branch| (branch, random.below(25));
    let fractions: Vec<_> = branches.into_iter().map(&mut any).collect();
    with_fractions(random, &fractions)
}

/// The fractions come to some cents and 12 or 13 25ths: the last below the middle and the first above it.
fn near_the_middle(random: &mut Random) -> Vec<u64> {
    let branches = chosen_branches(random);
    let end = random.pick(&[12, 13]);
    let mut fractions: Vec<_> = branches.iter().map(|&b| (b, random.below(25))).collect();
    let others: usize = fractions[1..].iter().map(|&(_, fraction)| fraction).sum();
    fractions[0].1 = (end + 25 * BRANCHES as usize - others) % 25;
    with_fractions(random, &fractions)
}

/// 24 25ths for each of many branches, all of which get a cent.
fn largest_fractions(random: &mut Random) -> Vec<u64> {
    let fractions: Vec<_> = all_branches().into_iter().map(|b| (b, 24)).collect();
    let count = random.pick(&[8, 9, 10, 11, 12, 12]);
    let fractions = random.sample(&fractions, count);
    with_fractions(random, &fractions)
}

/// Nothing for some branches, and for at most one of the others something.
fn nothing_cut_off(random: &mut Random) -> Vec<u64> {
    let branches = chosen_branches(random);
    let mut fractions: Vec<_> = branches.into_iter().map(|b| (b, 0)).collect();
    if random.chance(40) {
        let place = random.below(fractions.len());
        fractions[place].1 = random.pick(&[1, 12, 13, 24]);
    }
    with_fractions(random, &fractions)
}

fn free_line(random: &mut Random, branch: u32) -> u64 {
    line(branch, random.pick(&FREE), any_nodes(random))
}

fn free_lines(random: &mut Random) -> Vec<u64> {
    let count = any_count(random);
    let mut free = || {
        let branch = any_branch(random);
        free_line(random, branch)
    };
    (0..count).map(|_| free()).collect()
}

/// The most nodes with the dearest answer, for one branch or for two.
fn dearest_lines(random: &mut Random) -> Vec<u64> {
    let branches = [any_branch(random), any_branch(random)];
    let branches = random.pick(&[[branches[0]; 2], branches]);
    let count = random.pick(&[MOST_LINES, MOST_LINES, MOST_LINES - 1, 25, 1]);
    let mut dearest = || line(random.pick(&branches), YES, MOST_NODES);
    (0..count).map(|_| dearest()).collect()
}

/// One field out of its range, and at times others too.
fn bad_line(random: &mut Random) -> u64 {
    let mut fields = (any_branch(random), random.pick(&PAID), any_nodes(random));
    let spoiled = random.pick(&[1, 2, 4, 1, 2, 4, 3, 5, 6, 7]);
    if spoiled & 1 != 0 {
        fields.0 = random.pick(&BAD_BRANCHES);
    }
    if spoiled & 2 != 0 {
        fields.1 = random.pick(&BAD_CODES);
    }
    if spoiled & 4 != 0 {
        fields.2 = random.pick(&BAD_NODES);
    }
    line(fields.0, fields.1, fields.2)
}

fn spoiled(random: &mut Random, mut lines: Vec<u64>, bad: usize) -> Vec<u64> {
    for _ in 0..bad {
        let any = random.below(lines.len());
        let place = random.pick(&[any, any, 0, lines.len() - 1]);
        lines[place] = bad_line(random);
    }
    lines
}

fn a_bad_line(random: &mut Random) -> Vec<u64> {
    let count = any_count(random).max(1);
    let lines = lines_of(random, &all_branches(), count);
    spoiled(random, lines, 1)
}

fn several_bad_lines(random: &mut Random) -> Vec<u64> {
    let (count, bad) = (any_count(random).max(2), random.between(2, 9));
    let lines = lines_of(random, &all_branches(), count);
    spoiled(random, lines, bad)
}

/// Bad lines among them, where there are any, do not matter.
fn too_many_lines(random: &mut Random) -> Vec<u64> {
    let count = random.pick(&[MOST_LINES + 1, MOST_LINES + 2, 1000]);
    let lines = lines_of(random, &all_branches(), count);
    let bad = random.pick(&[0, 1, 5]);
    spoiled(random, lines, bad)
}

/// Branches to 15, codes to 7 and nodes to 8,191: a quarter of such lines are not bad.
fn near_the_limits(random: &mut Random) -> Vec<u64> {
    let count = random.pick(&[1, 2, 3, 8, 40]);
    let mut number = || random.number() & line(15, 7, 8191);
    (0..count).map(|_| number()).collect()
}

fn any_numbers(random: &mut Random) -> Vec<u64> {
    let count = random.pick(&[1, 2, 3, MOST_LINES]);
    let fewer_bits = random.pick(&[0, 16, 28, 32, 48, 63]);
    (0..count).map(|_| random.number() >> fewer_bits).collect()
}
