//! What is told where facts and strict rules contradict each other: the rules of one clash, and what they derive both ways.

mod common;

use std::collections::BTreeSet;
use std::fs;

use common::{program, run, run_with_input, shuffle, Random};
use foqtirel::image::encode;
use foqtirel::load::load_text;
use foqtirel::program::{Program, Rule};

fn path(name: &str) -> String {
    common::path("clash", name)
}

fn write(name: &str, bytes: impl AsRef<[u8]>) -> String {
    common::write("clash", name, bytes)
}

const MAY_YIELD: &str = " help: take one of them out, or turn `<-` into `-<` in one; then try again, there may be another \
                         clash\n";
/// Where all are facts, or no more rules may be defeasible.
const NONE_YIELDS: &str =
    " help: take one of them out; then try again, there may be another clash\n";

/// Texts, what is told between the place and the end, with FILE for the file's name, and what is told last.
const TEXTS: &[(&str, &str, &str)] = &[
    (
        "% nothing here\nb1: tilt -< a.\nfits <- a.\n\na.\nheavy <- fits.\nb2: ~a -< heavy.\n\n~fits <- a.\n",
        "FILE:9:1: error: the facts and strict rules contradict each other: these 3 derive `fits` and `~fits`\n \
         FILE:3:1: fits <- a.\n \
         FILE:5:1: a.\n \
         FILE:9:1: ~fits <- a.\n",
        MAY_YIELD,
    ),
    (
        "a.\n~a.\n",
        "FILE:2:1: error: the facts and strict rules contradict each other: these 2 derive `a` and `~a`\n \
         FILE:1:1: a.\n \
         FILE:2:1: ~a.\n",
        NONE_YIELDS,
    ),
    // Several rules on a line, a rule over several, labels, comments, and a body as it was typed.
    (
        "s1: b <- a. s2: ~b <-\n  c, % a comment\n\n  a . c. L9 : a. d. ~d <- c.\n",
        "FILE:4:10: error: the facts and strict rules contradict each other: these 4 derive `b` and `~b`\n \
         FILE:1:1: s1: b <- a.\n \
         FILE:1:13: s2: ~b <- c, a.\n \
         FILE:4:7: c.\n \
         FILE:4:10: L9: a.\n",
        MAY_YIELD,
    ),
    // Lines that end as on other systems, a tab, and a fact that is written as a rule.
    (
        ":- atoms x, y.\r\n\t~flies(tina) <- true.\r\n  flies( tina ).\r\ny <- x.\r\n",
        "FILE:3:3: error: the facts and strict rules contradict each other: these 2 derive `flies(tina)` and `~flies(tina)`\n \
         FILE:2:2: ~flies(tina).\n \
         FILE:3:3: flies(tina).\n",
        NONE_YIELDS,
    ),
    // Of two clashes the one that does without the last rules.
    (
        "p.\n~p.\nq.\n~q.\n",
        "FILE:2:1: error: the facts and strict rules contradict each other: these 2 derive `p` and `~p`\n \
         FILE:1:1: p.\n \
         FILE:2:1: ~p.\n",
        NONE_YIELDS,
    ),
];

fn told(file: &str, told: &str, help: &str) -> String {
    told.replace("FILE", file) + help
}

/// With 16 defeasible rules there can be no other.
#[test]
fn no_17th_defeasible_rule_is_advised() {
    for (count, help) in [(15, MAY_YIELD), (16, NONE_YIELDS)] {
        let yielding = (0..count).map(|number| format!("b{number} -< a.\n"));
        let text = yielding.collect::<String>() + "a.\n~a <- a.\n";
        let told = load_text(&text).unwrap_err().render("x", &text);
        assert!(told.ends_with(help), "{told}");
    }
}

/// By every command that reads a text, and nothing is written.
#[test]
fn a_clash_of_a_text_is_told_with_its_rules() {
    let out = &path("none");
    let _ = fs::remove_file(out);
    for (number, (text, rules, help)) in TEXTS.iter().enumerate() {
        let file = &write(&format!("{number}.delp"), text);
        for words in [
            &["ask", file, "a"][..],
            &["explain", file, "a"],
            &["tree", file, "a", "--svg", out],
            &["advise", file],
            &["compile", file, "-o", out],
            &["compile", file, "--names"],
            &["file", file, "-o", out],
            &["same", file, "shop.delp"],
            &["same", "shop.delp", file],
        ] {
            let status = if words[0] == "same" { 2 } else { 1 };
            let ran = run(words);
            let wanted = (status, "", told(file, rules, help));
            assert_eq!((ran.status, ran.out.as_str(), ran.err), wanted);
            assert!(!fs::exists(out).unwrap(), "{words:?}");
        }
    }
}

/// README.md shows such an error.
#[test]
fn the_readme_shows_what_is_told() {
    let text = "% makers' sheets\npod_fits <- base_a.\n\nbase_a.\nheavy_rider.\nsteel_ring <- heavy_rider.\n\
                bulletin_3: pod_fits -< heavy_rider.\n\n~pod_fits.\n";
    let flaw = load_text(text).expect_err("a clash");
    let told = flaw.render("orders.delp", text);
    let shown: String = told.lines().map(|line| format!("    {line}\n")).collect();
    let readme = fs::read_to_string("../README.md").expect("the README");
    assert!(readme.contains(&shown), "{shown}");
}

#[test]
fn a_file_is_named_as_other_messages_name_it() {
    for (number, (text, rules, help)) in TEXTS.iter().enumerate() {
        let file = write(&format!("{number} \u{1b}'%s.delp"), text);
        let ran = run(&["advise", &file]);
        let wanted = told(&file.replace('\u{1b}', "\\u{1b}"), rules, help);
        assert_eq!((ran.status, ran.err), (1, wanted));
        let ran = run_with_input(&["ask", "-", "a"], file.as_ref());
        assert_eq!(ran.err, told("standard input", rules, help));
    }
}

/// What an image with a clash is told to be: its atoms have no names, and its rules no places.
#[test]
fn a_clash_of_an_image_is_told_with_its_rules() {
    let out = &path("none.img");
    let _ = fs::remove_file(out);
    let fact = |head: u8| rule(false, head, &[]);
    for (name, rules, told) in [
        (
            "facts.img",
            vec![fact(0), fact(1)],
            ": these 2 derive a0 and ~a0\n rule 0: a0.\n rule 1: ~a0.\n",
        ),
        (
            "rules.img",
            vec![
                rule(true, 3, &[0]),
                fact(0),
                rule(false, 3, &[0, 4]),
                fact(6),
                rule(false, 2, &[0]),
                fact(4),
                rule(false, 1, &[2]),
            ],
            ": these 4 derive a1 and ~a1\n rule 1: a0.\n rule 2: ~a1 <- a0, a2.\n rule 4: a1 <- a0.\n rule 5: a2.\n",
        ),
    ] {
        let program = Program {
            atoms: vec![String::new(); 4],
            rules,
            pairs: Vec::new(),
        };
        let file = &write(name, encode(&program));
        let numbers = &write("numbers", "0");
        let told = |name: &str| {
            let meaning = "the facts and strict rules contradict each other";
            format!("refused 14 0: {name}: {meaning}{told}")
        };
        for words in [
            &["show", file][..],
            &["ask", file, "a0"],
            &["explain", file, "0"],
            &["tree", file, "a0", "--svg", out],
            &["advise", file],
            &["file", file, "-o", out],
            &["unfile", file, "--numbers", numbers, "-o", out],
            &["same", file, "shop.delp"],
        ] {
            let status = if words[0] == "same" { 2 } else { 1 };
            let ran = run(words);
            let wanted = (status, "", told(file));
            assert_eq!((ran.status, ran.out.as_str(), ran.err), wanted);
            assert!(!fs::exists(out).unwrap(), "{words:?}");
        }
        let ran = run_with_input(&["show", "-"], file.as_ref());
        assert_eq!(ran.err, told("standard input"));
    }
}

fn rule(defeasible: bool, head: u8, body: &[u8]) -> Rule {
    Rule {
        label: None,
        defeasible,
        head,
        body: body.to_vec(),
    }
}

/// What some rules derive, defeasible or not.
fn derived(rules: &[&Rule]) -> BTreeSet<u8> {
    let mut derived = BTreeSet::new();
    for _ in rules {
        for rule in rules {
            if rule.body.iter().all(|literal| derived.contains(literal)) {
                derived.insert(rule.head);
            }
        }
    }
    derived
}

/// The atoms of which both literals are derived.
fn both_ways(rules: &[&Rule]) -> Vec<u8> {
    let derived = derived(rules);
    let positive = derived.iter().filter(|&literal| literal % 2 == 0);
    let both = positive.filter(|&literal| derived.contains(&(literal + 1)));
    both.map(|literal| literal / 2).collect()
}

/// A rule a line, so that a rule's number is that of its line, less one.
fn typed(program: &Program) -> String {
    let rules = 0..program.rules.len();
    rules.map(|n| program.rule_text(n) + ".\n").collect()
}

/// Each atom from those before it, and the complement of one from the last; so a clash takes many rules.
fn chained(random: &mut Random) -> Program {
    let atoms = 2 + random.below(30);
    let mut rules = Vec::new();
    for atom in 0..atoms {
        let before = (0..2).map(|_| 2 * (atom - 1 - random.below(2.min(atom))) as u8);
        let body: BTreeSet<u8> = if atom == 0 {
            BTreeSet::new()
        } else {
            before.collect()
        };
        rules.push(rule(
            false,
            2 * atom as u8,
            &body.into_iter().collect::<Vec<_>>(),
        ));
    }
    let against = 2 * random.below(atoms) as u8 + 1;
    rules.push(rule(false, against, &[2 * atoms as u8 - 2]));
    shuffle(random, &mut rules);
    Program {
        atoms: (0..atoms).map(|atom| format!("a{atom}")).collect(),
        rules,
        pairs: Vec::new(),
    }
}

/// Random programs that contradict themselves, some by many rules and some in several ways.
fn contradictory(seed: u64, count: usize) -> Vec<Program> {
    let mut random = Random(seed);
    let programs = std::iter::repeat_with(|| match random.below(12) {
        0 => chained(&mut random),
        _ => program(&mut random),
    });
    let strict = |program: &Program| {
        let rules = program.rules.iter().filter(|rule| !rule.defeasible);
        both_ways(&rules.collect::<Vec<_>>())
    };
    programs
        .filter(|program| !strict(program).is_empty())
        .take(count)
        .collect()
}

/// The numbers of the rules that are told.
fn numbers_told(text: &str) -> Vec<usize> {
    let flaw = load_text(text).map(|_| ()).expect_err(text);
    assert_eq!(flaw.at, flaw.rules.last().unwrap().0, "{flaw:?}");
    let lines = flaw.rules.iter().map(|(at, _)| at.line - 1);
    lines.collect()
}

/// They are the rules that the engine marks, each as its line has it; they derive the two literals that are named and no other
/// two, and nothing both ways without any one of them.
#[test]
fn what_is_told_is_the_engines_clash() {
    let mut most = 0;
    for program in contradictory(20, 1_500) {
        let text = typed(&program);
        let numbers = numbers_told(&text);
        let mut marks = vec![7; program.rules.len()];
        let rules = foqtirel_binding::clash(&encode(&program), &mut marks);
        assert_eq!(rules, marks.len() as u64, "{text}");
        let marked = (0..marks.len()).filter(|&number| marks[number] == 1);
        assert_eq!(numbers, marked.collect::<Vec<_>>(), "{text}");

        let of = |numbers: &[usize]| -> Vec<u8> {
            let rules: Vec<&Rule> = numbers.iter().map(|&n| &program.rules[n]).collect();
            both_ways(&rules)
        };
        let &[atom] = &of(&numbers)[..] else {
            panic!("more than one way: {numbers:?} of {text}");
        };
        for left_out in 0..numbers.len() {
            let mut rest = numbers.clone();
            rest.remove(left_out);
            assert!(of(&rest).is_empty(), "{numbers:?} of {text}");
        }

        let lines: Vec<&str> = text.lines().collect();
        let last = numbers[numbers.len() - 1] + 1;
        let mut told = format!(
            "x:{last}:1: error: the facts and strict rules contradict each other: these {} derive `a{atom}` and `~a{atom}`\n",
            numbers.len()
        );
        for &number in &numbers {
            told += &format!(" x:{}:1: {}\n", number + 1, lines[number]);
        }
        let with_body = numbers.iter().any(|&n| !program.rules[n].body.is_empty());
        let defeasible = program.rules.iter().filter(|rule| rule.defeasible).count();
        told += match with_body && defeasible < 16 {
            true => MAY_YIELD,
            false => NONE_YIELDS,
        };
        assert_eq!(load_text(&text).unwrap_err().render("x", &text), told);
        most = most.max(numbers.len());
    }
    assert!(most > 20, "{most}");
}

/// Whoever does what the help says, again and again, ends with a program that is accepted.
#[test]
fn the_help_leads_to_a_sound_program() {
    let mut most = 0;
    for mut program in contradictory(21, 400) {
        let mut taken = 0;
        while load_text(&typed(&program)).is_err() {
            let numbers = numbers_told(&typed(&program));
            let with_body = numbers.iter().find(|&&n| !program.rules[n].body.is_empty());
            let defeasible = program.rules.iter().filter(|rule| rule.defeasible).count();
            match with_body {
                Some(&number) if defeasible < 16 && !yields_already(&program, number) => {
                    program.rules[number].defeasible = true;
                }
                _ => {
                    program.rules.remove(numbers[0]);
                }
            }
            taken += 1;
        }
        most = most.max(taken);
    }
    assert!(most > 3, "{most}");
}

/// Whether the rule stands there as a defeasible one too.
fn yields_already(program: &Program, number: usize) -> bool {
    let twin = Rule {
        defeasible: true,
        ..program.rules[number].clone()
    };
    program.rules.iter().any(|rule| rule.same_bytes(&twin))
}
