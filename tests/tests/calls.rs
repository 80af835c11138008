//! Refusals 20 to 23 in their order, and what every call does to the lent tables.

use foqtirel_tests::fittings::F;
use foqtirel_tests::generator::accepted::small_programs;
use foqtirel_tests::generator::{all_applicable, many_arguments, Description, MANY_ARGUMENTS};
use foqtirel_tests::reference::tree::Forest;
use foqtirel_tests::reference::{
    check, host_call, list, query, Analysis, Answer, Cause, Code, Literal, NodeEntry, Refusal,
    MOST_NODES,
};

const F_LIST: [u32; 3] = [0, 130, 259];

fn image(program: &str) -> Vec<u8> {
    Description::parse(program).expect("a program").image()
}

/// Tables with contents that no call writes by chance.
fn tables(arguments: usize, nodes: usize) -> (Vec<u32>, Vec<NodeEntry>) {
    let old_arguments = (0..arguments).map(|n| 0x5000_0000 + n as u32).collect();
    let old_nodes = (0..nodes as u32)
        .map(|n| NodeEntry {
            argument: 0x6000_0000 + n,
            parent: 0x6100_0000 + n,
            kind: 0x6200_0000 + n,
            mark: 0x6300_0000 + n,
        })
        .collect();
    (old_arguments, old_nodes)
}

struct Outcome {
    result: Result<Answer, Refusal>,
    arguments: Vec<u32>,
    nodes: Vec<NodeEntry>,
}

fn ask(image: &[u8], literal: u32, budget: u32, arguments: usize, nodes: usize) -> Outcome {
    let (mut arguments, mut nodes) = tables(arguments, nodes);
    let result = query(image, literal, budget, &mut arguments, &mut nodes);
    Outcome {
        result,
        arguments,
        nodes,
    }
}

#[track_caller]
fn assert_refused(image: &[u8], literal: u32, budget: u32, lengths: (usize, usize), cause: Cause) {
    let outcome = ask(image, literal, budget, lengths.0, lengths.1);
    assert_eq!(outcome.result, Err(Refusal { cause, place: 0 }));
    let before = tables(lengths.0, lengths.1);
    assert_eq!(
        outcome.arguments, before.0,
        "the argument table was touched"
    );
    assert_eq!(outcome.nodes, before.1, "the node table was touched");
}

#[test]
fn refusals_of_a_query_in_their_order() {
    let f = image(F);
    let contradictory = image("0; 1");
    assert_refused(
        &contradictory,
        128,
        4097,
        (0, 0),
        Cause::StrictContradiction,
    );
    assert_refused(&f[..11], 128, 4097, (0, 0), Cause::ImageLength);
    assert_refused(&f, 128, 4097, (0, 0), Cause::QueryLiteral);
    assert_refused(&f, 255, 0, (3, 0), Cause::QueryLiteral);
    assert_refused(&f, 127, 4097, (0, 0), Cause::Budget);
    assert_refused(&f, 127, u32::MAX, (3, 5000), Cause::Budget);
    assert_refused(&f, 127, 4096, (0, 4095), Cause::NodeTable);
    assert_refused(&f, 2, 3, (3, 2), Cause::NodeTable);
    assert_refused(&f, 2, 3, (2, 3), Cause::ArgumentTable);
    assert_refused(&f, 127, 0, (2, 0), Cause::ArgumentTable);
    let unknown = ask(&f, 127, 0, 3, 0);
    let expected = Answer {
        code: Code::Unknown,
        nodes: 0,
    };
    assert_eq!(unknown.result, Ok(expected));
}

#[test]
fn a_place_is_handed_back_by_every_call() {
    let image = image("0; d 2<0; 4<0; d 2<0");
    let refusal = Refusal {
        cause: Cause::RepeatedRule,
        place: 3,
    };
    assert_eq!(check(&image), Err(refusal));
    assert_eq!(list(&image, &mut []), Err(refusal));
    assert_eq!(ask(&image, 200, 9999, 0, 0).result, Err(refusal));
    assert_eq!(host_call(&image, 2, 4096), 10);
}

#[test]
fn a_list_writes_its_entries_only() {
    let f = image(F);
    for length in [3, 4, 9] {
        let (mut table, _) = tables(length, 0);
        assert_eq!(list(&f, &mut table), Ok(3));
        assert_eq!(table[..3], F_LIST);
        assert_eq!(table[3..], tables(length, 0).0[3..]);
    }
    for length in [0, 1, 2] {
        let (mut table, _) = tables(length, 0);
        let refusal = Refusal {
            cause: Cause::ArgumentTable,
            place: 0,
        };
        assert_eq!(list(&f, &mut table), Err(refusal));
        assert_eq!(table, tables(length, 0).0);
    }
}

#[test]
fn an_answer_writes_the_forest_and_the_list() {
    let outcome = ask(&image(F), 2, 5, 6, 8);
    let answer = outcome.result.expect("an answer");
    assert_eq!((answer.code, answer.nodes), (Code::Yes, 3));
    assert_eq!(outcome.arguments[..3], F_LIST);
    assert_eq!(outcome.arguments[3..], tables(6, 8).0[3..]);
    let written: Vec<[u32; 4]> = outcome.nodes[..3]
        .iter()
        .map(|n| [n.argument, n.parent, n.kind, n.mark])
        .collect();
    assert_eq!(written, [[1, 0, 0, 1], [2, 1, 0, 2], [1, 1, 1, 1]]);
    assert_eq!(outcome.nodes[3..], tables(6, 8).1[3..]);
}

#[test]
fn unfinished_zeroes_the_budget() {
    for budget in 0..3 {
        let outcome = ask(&image(F), 2, budget, 4, 5);
        let answer = outcome.result.expect("an answer");
        let budget = budget as usize;
        assert_eq!((answer.code, answer.nodes), (Code::Unfinished, budget));
        assert_eq!(outcome.arguments[..3], F_LIST);
        assert_eq!(outcome.arguments[3..], tables(4, 5).0[3..]);
        let zero = NodeEntry::default();
        assert!(outcome.nodes[..budget].iter().all(|&node| node == zero));
        assert_eq!(outcome.nodes[budget..], tables(4, 5).1[budget..]);
    }
}

#[test]
fn unknown_leaves_the_nodes() {
    // Atom 2 is counted but stands in no rule; atom 50 is not even counted.
    for literal in [4, 5, 100, 101] {
        let program = format!("atoms 3; {F}");
        let outcome = ask(&image(&program), literal, 4, 4, 4);
        let answer = outcome.result.expect("an answer");
        assert_eq!((answer.code, answer.nodes), (Code::Unknown, 0));
        assert_eq!(outcome.arguments[..3], F_LIST);
        assert_eq!(outcome.arguments[3..], tables(4, 4).0[3..]);
        assert_eq!(outcome.nodes, tables(4, 4).1);
    }
}

#[test]
fn an_atom_in_a_body_is_known() {
    let outcome = ask(&image("d 2<5"), 4, 0, 0, 0);
    let answer = outcome.result.expect("an answer");
    assert_eq!((answer.code, answer.nodes), (Code::Undecided, 0));
}

#[test]
fn the_host_call_packs_its_answer() {
    let f = image(F);
    assert_eq!(host_call(&f, 2, 4096), 65_536 + 3);
    assert_eq!(host_call(&f, 3, 4096), 2 * 65_536 + 3);
    assert_eq!(host_call(&f, 2, 2), 5 * 65_536 + 2);
    assert_eq!(host_call(&f, 99, 0), 4 * 65_536);
    assert_eq!(host_call(&f, 128, 4097), 20);
    assert_eq!(host_call(&f, 127, 4097), 21);
    assert_eq!(host_call(&[], 127, 4097), 1);
    // The table for arguments has 4,096 entries.
    assert_eq!(host_call(&many_arguments().image(), 2, 10), 23);
}

/// A forest known from before gives the same as one that stops at the budget.
#[test]
fn a_known_forest_answers_every_budget() {
    let mut unfinished = 0;
    for case in small_programs(99, 60) {
        let Ok(analysis) = Analysis::of_image(&case.image) else {
            continue;
        };
        for literal in 0..2 * analysis.program.atoms as u32 {
            let forest = Forest::of(Literal::new(literal as u8), &analysis, MOST_NODES);
            let forest = forest.as_ref();
            for budget in [0, 1, 2, 3, 5, 9, 40, 4096, 4097] {
                let count = analysis.arguments.len();
                let (mut list, mut nodes) = tables(count, 4096);
                let (mut same_list, mut same_nodes) = tables(count, 4096);
                let answer = analysis.query(literal, budget, &mut list, &mut nodes);
                let same =
                    analysis.query_in(forest, literal, budget, &mut same_list, &mut same_nodes);
                assert_eq!(answer, same);
                assert_eq!((list, nodes), (same_list, same_nodes));
                unfinished += usize::from(answer.is_ok_and(|a| a.code == Code::Unfinished));
            }
        }
    }
    assert!(unfinished > 100, "only {unfinished} were unfinished");
}

#[test]
fn each_rule_that_applies_is_an_argument() {
    for rules in [0, 1, 8, 16] {
        let image = all_applicable(rules).image();
        let mut table = vec![0; rules + 1];
        assert_eq!(list(&image, &mut table), Ok(rules + 1));
        let argument = |rule: usize| {
            if rule == 0 {
                0
            } else {
                (128 << (rule - 1)) + 2 * rule
            }
        };
        let expected: Vec<u32> = (0..=rules).map(|rule| argument(rule) as u32).collect();
        assert_eq!(table, expected);
    }
}

#[test]
fn a_list_can_be_longer_than_all_masks() {
    let image = many_arguments().image();
    let supporting_each = 10 * 10 * 20;
    let count = MANY_ARGUMENTS;
    assert!(count > 65_536);
    let analysis = Analysis::of_image(&image).expect("a sound image");
    assert_eq!(analysis.arguments.len(), count);

    let (mut short, mut nodes) = tables(count - 1, 4096);
    let refusal = Refusal {
        cause: Cause::ArgumentTable,
        place: 0,
    };
    assert_eq!(analysis.list(&mut short), Err(refusal));
    assert_eq!(short, tables(count - 1, 0).0);

    let (mut enough, _) = tables(count, 0);
    let answer = analysis.query(40, 2000, &mut enough, &mut nodes);
    let expected = Answer {
        code: Code::Yes,
        nodes: supporting_each,
    };
    assert_eq!(answer, Ok(expected));
    assert!(enough.windows(2).all(|two| two[0] < two[1]), "ascending");
    let unfinished = analysis.query(41, 1999, &mut enough, &mut nodes);
    let expected = Answer {
        code: Code::Unfinished,
        nodes: 1999,
    };
    assert_eq!(unfinished, Ok(expected));
}
