//! Chains of listed pairs: which one is found, how it is told, and what is noted where pairs run in a circle.

mod common;

use std::collections::BTreeSet;
use std::path::PathBuf;

use common::{run, Random};
use foqtirel::image;
use foqtirel::preference::{beats, chain, circles, Chain, Circle};
use foqtirel::program::{Program, Rule};

type Pairs<'a> = &'a [(u8, u8)];
type Rules<'a> = &'a [usize];

/// So many defeasible rules with these pairs.
fn program(rules: usize, pairs: Pairs) -> Program {
    let rule = |number: usize| Rule {
        label: Some(format!("r{number}")),
        defeasible: true,
        head: 2 * number as u8,
        body: vec![2 * rules as u8],
    };
    let mut pairs = pairs.to_vec();
    pairs.sort_unstable();
    Program {
        atoms: (0..=rules).map(|atom| format!("a{atom}")).collect(),
        rules: (0..rules).map(rule).collect(),
        pairs,
    }
}

#[test]
fn the_chain_that_is_found() {
    #[rustfmt::skip]
    let cases: &[(Pairs, Rules, Rules, Option<Rules>)] = &[
        (&[], &[0], &[1], None),
        (&[(1, 0)], &[0], &[1], None),
        (&[(0, 1)], &[0], &[1], Some(&[0, 1])),
        (&[(0, 2), (2, 1)], &[0], &[1], Some(&[0, 2, 1])),
        // A listed pair goes before a chain, a shorter chain before a longer one.
        (&[(0, 1), (1, 2), (0, 2)], &[0], &[2], Some(&[0, 2])),
        (&[(0, 1), (1, 2), (2, 5), (0, 4), (4, 5)], &[0], &[5], Some(&[0, 4, 5])),
        (&[(0, 2), (2, 5), (1, 5)], &[0, 1], &[5], Some(&[1, 5])),
        (&[(0, 2), (2, 4), (0, 5)], &[0], &[4, 5], Some(&[0, 5])),
        // Of chains of one length, the one with the lowest rules in order.
        (&[(0, 2), (2, 5), (0, 3), (3, 5)], &[0], &[5], Some(&[0, 2, 5])),
        (&[(0, 5), (1, 4)], &[0, 1], &[4, 5], Some(&[0, 5])),
        (&[(0, 2), (0, 3), (2, 5), (3, 4)], &[0], &[4, 5], Some(&[0, 2, 5])),
        // A rule of both sets beats itself by a closed chain only.
        (&[(0, 1)], &[0], &[0], None),
        (&[(0, 1), (1, 0)], &[0], &[0], Some(&[0, 1, 0])),
        (&[(0, 1), (1, 2), (2, 0)], &[0, 4], &[0, 5], Some(&[0, 1, 2, 0])),
        (&[(0, 1), (1, 0), (4, 5)], &[0, 4], &[0, 5], Some(&[4, 5])),
        // A circle on the way is no hindrance.
        (&[(0, 1), (1, 0), (1, 2)], &[0], &[2], Some(&[0, 1, 2])),
    ];
    for (pairs, from, to, found) in cases {
        let found = found.map(<[usize]>::to_vec);
        assert_eq!(
            chain(&program(6, pairs), from, to),
            found,
            "{pairs:?} {from:?} {to:?}"
        );
    }
}

/// All chains of the fewest pairs, found by adding any listed pair to any chain. They have no more pairs than there are
/// rules.
fn every_shortest(program: &Program, from: Rules, to: Rules) -> BTreeSet<Chain> {
    let mut chains: BTreeSet<Chain> = from.iter().map(|&rule| vec![rule]).collect();
    for _ in &program.rules {
        let longer = |chain: &Chain| {
            let pairs = program.pairs.iter().map(|&(a, b)| [a, b].map(usize::from));
            let next = pairs.filter(|pair| chain.last() == Some(&pair[0]));
            next.map(|pair| [&chain[..], &pair[1..]].concat())
                .collect::<Vec<_>>()
        };
        chains = chains.iter().flat_map(longer).collect();
        let arrived = |chain: &&Chain| chain.last().is_some_and(|last| to.contains(last));
        let arrived: BTreeSet<Chain> = chains.iter().filter(arrived).cloned().collect();
        if !arrived.is_empty() {
            return arrived;
        }
    }
    BTreeSet::new()
}

/// Each pair with so many chances in a hundred.
fn some_pairs(random: &mut Random, rules: usize, chances: usize) -> Vec<(u8, u8)> {
    let numbers = || 0..rules as u8;
    let every = numbers().flat_map(|first| numbers().map(move |second| (first, second)));
    every
        .filter(|(first, second)| first != second && random.below(100) < chances)
        .collect()
}

#[test]
fn of_all_chains_the_first_of_the_shortest_is_found() {
    let mut random = Random(11);
    let mut lengths = [0; 6];
    for _ in 0..2000 {
        let chances = 10 + random.below(60);
        let program = program(5, &some_pairs(&mut random, 5, chances));
        let mut set = || {
            (0..5)
                .filter(|_| random.below(3) == 0)
                .collect::<Vec<usize>>()
        };
        let (from, to) = (set(), set());
        let found = chain(&program, &from, &to);
        lengths[found.as_ref().map_or(0, |chain| chain.len() - 1)] += 1;
        let first = every_shortest(&program, &from, &to).into_iter().next();
        assert_eq!(found, first, "{:?} {from:?} {to:?}", program.pairs);
    }
    assert!(lengths[..4].iter().all(|&count| count > 10), "{lengths:?}");
}

#[test]
fn a_chain_in_words() {
    for (names, told) in [
        ("a b", "a beats b"),
        ("a c b", "a beats b through c"),
        ("a c d b", "a beats b through c and d"),
        ("a c d e b", "a beats b through c, d and e"),
        ("a b a", "a beats a through b"),
        ("a b c a", "a beats a through b and c"),
    ] {
        let names: Vec<String> = names.split(' ').map(str::to_string).collect();
        assert_eq!(beats(&names), told);
    }
}

#[test]
fn the_circles_that_are_found() {
    let circle = |closed: Rules, further: Rules| Circle {
        closed: closed.to_vec(),
        further: further.to_vec(),
    };
    #[rustfmt::skip]
    let cases: &[(Pairs, &[Circle])] = &[
        (&[], &[]),
        (&[(0, 1), (1, 2), (0, 2), (3, 2)], &[]),
        (&[(0, 1), (1, 0)], &[circle(&[0, 1, 0], &[])]),
        (&[(3, 1), (1, 4), (4, 3), (0, 1), (4, 5)], &[circle(&[1, 4, 3, 1], &[])]),
        (&[(4, 5), (5, 4), (0, 2), (2, 0), (2, 4)], &[circle(&[0, 2, 0], &[]), circle(&[4, 5, 4], &[])]),
        (&[(0, 1), (1, 0), (1, 2), (2, 0)], &[circle(&[0, 1, 0], &[2])]),
        (&[(0, 3), (3, 0), (0, 2), (2, 0), (3, 5), (5, 3)], &[circle(&[0, 2, 0], &[3, 5])]),
    ];
    for (pairs, found) in cases {
        assert_eq!(circles(&program(6, pairs)), *found, "{pairs:?}");
    }
}

/// Two rules are on one circle exactly when each beats the other, and one rule when it beats itself.
#[test]
fn circles_are_rules_that_beat_each_other() {
    let mut random = Random(12);
    let mut most = 0;
    for _ in 0..500 {
        let chances = 10 + random.below(60);
        let program = program(6, &some_pairs(&mut random, 6, chances));
        let found = circles(&program);
        most = most.max(found.len());
        let beats = |one: usize, other: usize| chain(&program, &[one], &[other]).is_some();
        for (one, other) in (0..6).flat_map(|one| (0..6).map(move |other| (one, other))) {
            let has = |circle: &Circle, rule| {
                circle.closed.contains(&rule) || circle.further.contains(&rule)
            };
            let together = found
                .iter()
                .filter(|circle| has(circle, one) && has(circle, other))
                .count();
            let expected = usize::from(beats(one, other) && beats(other, one));
            assert_eq!(together, expected, "{:?} {one} {other}", program.pairs);
        }
        for Circle { closed, further } in &found {
            let lowest = closed.iter().chain(further).min();
            assert_eq!((closed.first(), closed.last()), (lowest, lowest));
            let pairs = closed.windows(2).map(|pair| (pair[0] as u8, pair[1] as u8));
            assert!(pairs.into_iter().all(|pair| program.pairs.contains(&pair)));
        }
    }
    assert!(most >= 2, "{most}");
}

fn write(name: &str, text: &str) -> PathBuf {
    let path = common::scratch("preferences").join(name);
    std::fs::write(&path, text).unwrap();
    path
}

/// Two that clash, and three about something else.
const RULES: &str = "f.\na: x -< f.\nb: ~x -< f.\nc: c -< f.\nd: d -< f.\ne: e -< f.\n";

/// The trees of x, without the lines above them.
fn trees(name: &str, text: &str) -> String {
    let path = write(name, text);
    let ran = run(&["explain", path.to_str().unwrap(), "x", "--ascii"]);
    assert_eq!(ran.status, 0, "{}", ran.err);
    let (_, trees) = ran.out.split_once("1 argument for x:\n\n").unwrap();
    trees.to_string()
}

/// `a` is preferred over `b`: x is warranted, and this is why.
#[test]
fn a_chain_decides_and_is_told() {
    #[rustfmt::skip]
    let cases = [
        ("a > b.", "a beats b"),
        ("a > c. c > b.", "a beats b through c"),
        ("d > b. c > d. a > c.", "a beats b through c and d"),
        ("a > c. c > d. d > e. e > b.", "a beats b through c, d and e"),
        ("a > c. c > b. a > b.", "a beats b"),
        ("a > c. c > d. d > b. c > b.", "a beats b through c"),
        ("a > d. d > b. a > c. c > b.", "a beats b through c"),
        ("a > c. c > d. d > c. d > b.", "a beats b through c and d"),
    ];
    for (pairs, told) in cases {
        let trees = trees("chain.delp", &format!("{RULES}{pairs}\n"));
        let expected = format!(
            "U  x  (by a)\n\n1 argument for ~x:\n\n\
             D  ~x  (by b)\n`- U  x  (by a)\n      proper defeater: attacks ~x; {told}\n\nYES (3 nodes)"
        );
        assert!(trees.starts_with(&expected), "{pairs}: {trees}");
    }
}

/// The trees of x where each of two arguments blocks the other, the one against it first.
fn stalemate([pro, con]: [&str; 2], [first, second]: [&str; 2]) -> String {
    format!(
        "D  x  (by {pro})\n`- U  ~x  (by {con})\n      blocking defeater: attacks x; neither is preferred{first}\n\n\
         1 argument for ~x:\n\n\
         D  ~x  (by {con})\n`- U  x  (by {pro})\n      blocking defeater: attacks ~x; neither is preferred{second}\n\n\
         UNDECIDED (4 nodes)"
    )
}

#[test]
fn chains_both_ways_are_told() {
    #[rustfmt::skip]
    let cases = [
        ("", ["", ""]),
        ("c > a. c > b.", ["", ""]),
        ("a > b. b > a.", [": b beats a and a beats b", ": a beats b and b beats a"]),
        ("a > b. b > c. c > a.", [": b beats a through c, and a beats b", ": a beats b and b beats a through c"]),
        ("a > c. c > d. d > b. b > e. e > a.", [
            ": b beats a through e, and a beats b through c and d",
            ": a beats b through c and d, and b beats a through e",
        ]),
    ];
    for (pairs, told) in cases {
        let trees = trees("mutual.delp", &format!("{RULES}{pairs}\n"));
        assert!(
            trees.starts_with(&stalemate(["a", "b"], told)),
            "{pairs}: {trees}"
        );
    }
}

/// A chain between rules that both arguments use leads both ways, and is said once.
#[test]
fn rules_that_both_arguments_use() {
    let rules = "f.\ns: g -< f.\nt: h -< g.\na: x -< h.\nb: ~x -< h.\nc: c -< f.\n";
    #[rustfmt::skip]
    let cases = [
        ("s > t.", [": both use s and t, and s beats t"; 2]),
        ("s > c. c > t.", [": both use s and t, and s beats t through c"; 2]),
        ("s > c. c > s.", [": both use s, and s beats s through c"; 2]),
        ("s > c. c > s. b > a.", [
            ": b beats a and s beats s through c",
            ": s beats s through c, and b beats a",
        ]),
    ];
    for (pairs, told) in cases {
        let trees = trees("shared.delp", &format!("{rules}{pairs}\n"));
        let expected = stalemate(["s; t; a", "s; t; b"], told);
        assert!(trees.starts_with(&expected), "{pairs}: {trees}");
    }
}

/// A small program whose rules often clash. Many rest on the first one, which pairs name as well.
fn quarrel(random: &mut Random) -> Program {
    let rules = 4 + random.below(5);
    let chances = 4 + random.below(20);
    let mut program = program(rules, &some_pairs(random, rules, chances));
    let (fact, shared) = (2 * rules as u8, 6);
    program.rules[0].head = shared;
    for rule in &mut program.rules[1..] {
        rule.head = random.below(6) as u8;
        rule.body[0] = [fact, shared, shared, random.below(6) as u8][random.below(4)];
    }
    program.rules.push(Rule {
        label: None,
        defeasible: false,
        head: fact,
        body: Vec::new(),
    });
    program
}

fn beats_itself(because: &str) -> bool {
    let words: Vec<&str> = because.split([' ', ',']).collect();
    let said = words.windows(3);
    said.into_iter()
        .any(|three| three[1] == "beats" && three[0] == three[2])
}

/// The engine says that it is one, and of which kind; the words are found by this tool's reading of the same pairs.
#[test]
fn every_defeater_of_quarrels_has_its_reason() {
    common::with_stack(|| {
        let mut random = Random(13);
        let [mut direct, mut chained, mut blocked, mut itself] = [0; 4];
        for _ in 0..3000 {
            let image = image::encode(&quarrel(&mut random));
            for node in common::defeaters(&image, "a quarrel") {
                let through = node.because.contains(" through ");
                direct += usize::from(node.proper && !through);
                chained += usize::from(node.proper && through);
                blocked += usize::from(!node.proper && through);
                itself += usize::from(beats_itself(&node.because));
            }
        }
        let counts = [direct, chained, blocked, itself];
        assert!(counts.iter().all(|&count| count > 100), "{counts:?}");
    });
}

/// No line is longer than a node is wide, and no word is lost.
#[test]
fn long_words_are_broken_in_a_picture() {
    let labels: Vec<String> = (1..=9).map(|number| format!("bulletin_{number}")).collect();
    let mut text = "f.\nbulletin_1: x -< f.\nbulletin_9: ~x -< f.\n".to_string();
    for label in &labels[1..8] {
        text += &format!("{label}: on_{label} -< f.\n");
    }
    for pair in labels.windows(2) {
        text += &format!("{} > {}.\n", pair[0], pair[1]);
    }
    let path = write("long.delp", &text);
    let out = path.with_extension("svg");
    let ran = run(&[
        "tree",
        path.to_str().unwrap(),
        "x",
        "--svg",
        out.to_str().unwrap(),
    ]);
    assert_eq!((ran.status, ran.err.as_str()), (0, ""));
    let svg = std::fs::read_to_string(out).unwrap();
    let words = svg
        .lines()
        .filter(|line| line.starts_with("<text class=\"w\""));
    let lines: Vec<&str> = words
        .map(|line| line.split(['<', '>']).nth(2).unwrap())
        .collect();
    assert!(lines.iter().all(|line| line.len() <= 34), "{lines:?}");
    assert_eq!(
        lines.join(" "),
        "attacks ~x bulletin_1 beats bulletin_9 through bulletin_2, bulletin_3, bulletin_4, bulletin_5, bulletin_6, \
         bulletin_7 and bulletin_8"
    );
}

const NEITHER: &str = "of two arguments that each use one of these rules, neither is preferred";

/// A line for each circle, at the pair that closes it in the text.
#[test]
fn circles_are_noted() {
    #[rustfmt::skip]
    let cases: &[(&str, &[&str])] = &[
        ("", &[]),
        ("a > b.\nb > c.\na > c.\n", &[]),
        ("a > b.\n  b > a.\n", &["8:3: a > b > a"]),
        ("c > a.\na > b.\nd > a.\nb > c.\nc > e.\n", &["10:1: a > b > c > a"]),
        ("b > c. c > b.\ne > d. d > e.\nb > e.\n", &["7:8: b > c > b", "8:8: d > e > d"]),
        ("a > b.\nb > a.\nb > d.\nd > a.\n", &["8:1: a > b > a, also through d"]),
        ("e > a. a > c. c > a.\nc > d. d > e.\n", &["7:15: a > c > a, also through d and e"]),
        ("a > b. b > a. a > c. c > a.\na > d. d > a. a > e. e > a.\n", &["7:8: a > b > a, also through c, d and e"]),
    ];
    for (pairs, circles) in cases {
        let path = write("noted.delp", &format!("{RULES}{pairs}"));
        let file = path.to_str().unwrap();
        let line = |circle: &&str| {
            let (place, words) = circle.split_once(": ").unwrap();
            format!("{file}:{place}: note: preferences run in a circle: {words}; {NEITHER}\n")
        };
        let ran = run(&["ask", file, "x"]);
        let told: String = circles.iter().map(line).collect();
        assert_eq!((ran.status, ran.err), (0, told), "{pairs}");
    }
}

/// On standard error, so that standard output is the same with and without them.
#[test]
fn every_command_notes_circles() {
    let path = write("circle.delp", &format!("{RULES}d > c.\nc > e.\ne > d.\n"));
    let file = path.to_str().unwrap();
    let [image, picture] = ["img", "svg"].map(|end| path.with_extension(end));
    let (image, picture) = (image.to_str().unwrap(), picture.to_str().unwrap());
    let in_text =
        format!("{file}:9:1: note: preferences run in a circle: c > e > d > c; {NEITHER}\n");
    let in_image =
        format!("{image}: note: preferences run in a circle: r3 > r5 > r4 > r3; {NEITHER}\n");
    for (words, note) in [
        (&["compile", file, "-o", image, "--names"][..], &in_text),
        (&["file", file, "--names"], &in_text),
        (&["same", file, "shop.delp"], &in_text),
        (&["ask", file, "x"], &in_text),
        (&["explain", file, "x"], &in_text),
        (&["tree", file, "x", "--svg", picture], &in_text),
        (&["advise", file], &in_text),
        (&["ask", file, "unheard_of"], &in_text),
        (&["show", image], &in_image),
        (&["ask", image, "a1"], &in_image),
        (&["advise", image], &in_image),
    ] {
        let ran = run(words);
        let differ = i32::from(words[0] == "same");
        assert_eq!((ran.status, &ran.err), (differ, note), "{words:?}");
        assert!(
            !ran.out.is_empty() && !ran.out.contains("run in a circle"),
            "{words:?}: {}",
            ran.out
        );
    }
    let ran = common::run_with_input(&["ask", "-", "x"], &path);
    assert_eq!(ran.err, in_text.replace(file, "standard input"));
    // Where there is an error, that alone is told.
    let ran = run(&["ask", image, "200"]);
    assert_eq!(
        (ran.status, ran.err.as_str()),
        (1, "refused 20 0: a literal is below 128\n")
    );
}
