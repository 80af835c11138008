//! Document 02, C-14, on the reference: what a gathering derives, the bodies that its rounds read, and how many rounds there are.

use std::fs;

use foqtirel_tests::generator::accepted::small_programs;
use foqtirel_tests::header::root;
use foqtirel_tests::reference::derivation::{derived, gathering};
use foqtirel_tests::reference::literal::{Literal, LiteralSet};
use foqtirel_tests::reference::{read_image, Kind, Rule};
use foqtirel_tests::vectors::image;

const SEED: u64 = 1414;

/// Each round told by one that looks at every rule: how many heads were not derived when their turn came, and what was.
fn told(rules: &[&Rule], given: &[Literal]) -> (LiteralSet, Vec<usize>) {
    let mut known: LiteralSet = given.iter().copied().collect();
    let mut open = Vec::new();
    loop {
        let before = known;
        let mut heads = 0;
        for rule in rules {
            heads += usize::from(!known.contains(rule.head));
            let body: LiteralSet = rule.body.iter().copied().collect();
            if body.is_subset_of(known) {
                known.insert(rule.head);
            }
        }
        open.push(heads);
        if known == before {
            return (known, open);
        }
    }
}

/// Whether the gathering took as many rounds as it may.
fn check(rules: &[&Rule], given: &[Literal]) -> bool {
    let gathered = gathering(rules, given);
    assert_eq!(gathered.derived, derived(rules, given));
    let (known, open) = told(rules, given);
    assert_eq!((gathered.derived, &gathered.bodies), (known, &open));
    let given: LiteralSet = given.iter().copied().collect();
    let added = gathered
        .derived
        .iter()
        .filter(|&l| !given.contains(l))
        .count();
    let rounds = gathered.bodies.len();
    assert!(
        (1..=added + 1).contains(&rounds),
        "{rounds} rounds for {added} literals: {rules:?}"
    );
    rounds == added + 1
}

#[test]
fn gatherings_read_a_body_for_each_open_head() {
    let (mut gatherings, mut longest) = (0, 0);
    for case in small_programs(SEED, 400) {
        let program = read_image(&case.image).expect("a sound image");
        let literals: Vec<Literal> = (0..2 * program.atoms as u8).map(Literal::new).collect();
        let masks = 1u32 << program.defeasible_numbers().len();
        for rules in (0..masks.min(64)).map(|mask| program.rules_with(mask)) {
            for given in [
                &literals[..0],
                &literals[..1],
                &literals[literals.len() / 2..],
                &literals,
            ] {
                longest += usize::from(check(&rules, given));
                gatherings += 1;
            }
        }
    }
    println!(
        "{gatherings} gatherings, {longest} of them with a round for each literal and one more"
    );
    assert!(gatherings > 10_000 && longest > 1_000 && longest < gatherings);
}

#[test]
fn chains_in_the_worst_order_take_many_rounds() {
    let program = read_image(&image("slowchain")).expect("a sound image");
    let rules = program.rules_with(u32::MAX >> (32 - program.defeasible_numbers().len()));
    check(&rules, &[]);
    let gathered = gathering(&rules, &[]);
    let (rounds, literals) = (gathered.bodies.len(), gathered.derived.iter().count());
    let read: usize = gathered.bodies.iter().sum();
    println!("{rounds} rounds for {literals} literals, {read} bodies read");
    assert!(rounds > literals / 2 && read < rounds * rules.len());
}

fn rule(head: u8, body: &[u8]) -> Rule {
    Rule {
        kind: Kind::Strict,
        head: Literal::new(head),
        body: body.iter().copied().map(Literal::new).collect(),
    }
}

/// The gatherings that crates/derivation/proofs/Evaluated.antt has by evaluation.
#[test]
fn evaluated_gatherings_are_the_references() {
    let (fact, second, third) = (rule(0, &[]), rule(2, &[0]), rule(4, &[2]));
    let again = rule(0, &[0]);
    let worst = [&third, &second, &fact];
    let best = [&fact, &second, &third];
    let twice = [&fact, &again];
    assert_eq!(gathering(&worst, &[]).bodies, [3, 2, 1, 0]);
    assert_eq!(gathering(&best, &[]).bodies, [3, 0]);
    assert_eq!(gathering(&twice, &[]).bodies, [1, 0]);
    assert_eq!(gathering(&twice, &[Literal::new(0)]).bodies, [0]);
}

/// The functions of the derivation part, in which some text stands, once for each time.
fn functions_with(source: &str, text: &str) -> Vec<String> {
    let mut function = String::new();
    let mut found = Vec::new();
    for line in source.lines() {
        let declared = line.strip_prefix("pub ").unwrap_or(line);
        if let Some(rest) = declared.strip_prefix("fn ") {
            function = rest.split('(').next().unwrap_or(rest).into();
        } else if !line.trim_start().starts_with("//") {
            found.extend(line.matches(text).map(|_| function.clone()));
        }
    }
    found
}

/// What the contracts, which have numbers, cannot say: where bodies are read, and that each round and each gathering is made
/// where it is counted.
#[test]
fn bodies_are_read_and_rounds_made_where_they_are_counted() {
    let path = root().join("crates/derivation/src/lib.rt");
    let source = fs::read_to_string(path).expect("the derivation part");
    for (text, functions) in [
        ("program::body(", &["fire"][..]),
        (" fire(", &["round"]),
        (" round(", &["gather"]),
        (" gather(", &["close"]),
    ] {
        assert_eq!(functions_with(&source, text), functions, "{text}");
    }
    let fire = &source[source.find("\nfn fire(").expect("a turn")..];
    let place = |text: &str| fire.find(text).expect(text);
    let steps = ["is_on(", "s.has(head)", "let counted", "program::body("].map(place);
    assert!(steps.is_sorted(), "{steps:?}");
}
