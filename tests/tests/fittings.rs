//! The twelve fittings of document 01, and its image and printed text of F.

use foqtirel_tests::fittings::{F, FITTINGS, L, T};
use foqtirel_tests::generator::Description;
use foqtirel_tests::reference::{advise, host_call, list, query, Code, NodeEntry};

fn image(program: &str) -> Vec<u8> {
    Description::parse(program).expect("a program").image()
}

fn ask(program: &str, literal: u32, budget: u32) -> (Code, usize) {
    let mut arguments = vec![0; 4096];
    let mut nodes = vec![NodeEntry::default(); 4096];
    let answer =
        query(&image(program), literal, budget, &mut arguments, &mut nodes).expect("an answer");
    (answer.code, answer.nodes)
}

#[test]
fn the_twelve_by_the_query_call() {
    for (name, program, literal, budget, code, nodes) in FITTINGS {
        assert_eq!(ask(program, literal, budget), (code, nodes), "{name}");
    }
}

#[test]
fn the_twelve_by_the_host_call() {
    for (name, program, literal, budget, code, nodes) in FITTINGS {
        let packed = host_call(&image(program), literal, budget);
        let expected = code.number() * 65_536 + nodes as u32;
        assert_eq!(packed, expected, "{name}");
    }
}

#[test]
fn f_builds_to_the_printed_image() {
    let printed = "02 00 03 00 01 00 00 00 18 00 02 00 1A 00 03 00 1D 00 03 00 20 00 02 00 \
                   00 00 01 02 00 01 03 00 01 02";
    let built: Vec<String> = image(F).iter().map(|byte| format!("{byte:02X}")).collect();
    assert_eq!(built.join(" "), printed);
}

#[test]
fn f_is_advised_as_printed() {
    let printed = "arguments 3\n0 YES 1\n1 NO 1\n2 YES 3\n3 NO 3\n";
    assert_eq!(advise(&image(F)), printed);
}

#[test]
fn a_refusal_is_one_line() {
    let mut broken = image(F);
    broken.pop();
    assert_eq!(advise(&broken), "refused 3 0\n");
    assert_eq!(advise(&image("0; d 2<0; d 2<0")), "refused 10 2\n");
    assert_eq!(advise(&image("0; 1")), "refused 14 0\n");
}

/// Minimal is not smallest: both arguments for 4 are listed.
#[test]
fn l_keeps_both_arguments() {
    let mut arguments = vec![0; 8];
    assert_eq!(list(&image(L), &mut arguments), Ok(4));
    assert_eq!(arguments[..4], [0, 128 + 2, 2 * 128 + 4, 5 * 128 + 4]);
}

/// The rule on odd positions by itself decides here. Under the root `d 4<0` stands the blocking
/// `d 5<0`, under it the proper `d 3<0`, once for 3 and once for 4. Against these speaks only
/// `d 4<0` with `d 2<4`, which does not go together with `d 5<0`, so they stay undefeated and
/// so does the root. The trees have 2, 4 and 4 nodes. Without the rule on odd positions both
/// would be defeated, and the answer would be UNDECIDED with 12 nodes.
#[test]
fn objectors_have_to_go_together() {
    let program = "0; d 2<4; d 5<0; d 3<0; d 4<0; 4<3; (3,2)";
    assert_eq!(ask(program, 4, 4096), (Code::Yes, 2 + 4 + 4));
    assert_eq!(ask(program, 5, 4096), (Code::No, 4 + 2 + 4));
}

#[test]
fn t_decides_none_of_its_three() {
    for literal in [2, 4, 6] {
        assert_eq!(ask(T, literal, 4096).0, Code::Undecided, "{literal}");
    }
}
