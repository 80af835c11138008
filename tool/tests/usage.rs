//! Help, wrong usage and exit statuses.

mod common;

use common::{run, run_with_input};

const COMMANDS: [&str; 10] = [
    "compile", "file", "unfile", "same", "show", "ask", "explain", "tree", "advise", "bill",
];

#[test]
fn help() {
    let all = run(&["--help"]);
    assert_eq!(all.status, 0);
    for command in COMMANDS {
        assert!(
            all.out.contains(&format!("foqtirel {command} ")),
            "{command}"
        );
        let page = run(&[command, "--help"]);
        assert!(
            page.status == 0 && page.out.starts_with(&format!("foqtirel {command} ")),
            "{command}: {}",
            page.out
        );
        assert_eq!(run(&["help", command]).out, page.out);
        let none = run(&[command]);
        assert!(
            none.status == 2 && none.err.contains(&format!("usage: foqtirel {command} ")),
            "{command}: {}",
            none.err
        );
    }
}

#[test]
fn help_names_every_answer_and_how_to_tell_them_apart() {
    for words in [
        &["--help"][..],
        &["help"],
        &["help", "--help"],
        &["ask", "--help"],
    ] {
        let page = run(words).out;
        for told in ["YES", "NO", "UNDECIDED", "UNKNOWN", "UNFINISHED", "first"] {
            assert!(page.contains(told), "{words:?}: {told}");
        }
    }
    assert!(run(&["compile", "--help"]).out.contains("--names"));
    let page = run(&["ask", "--help"]).out;
    assert!(page.contains("After UNFINISHED"), "{page}");
}

#[test]
fn version() {
    let told = format!("foqtirel {}\n", env!("CARGO_PKG_VERSION"));
    let ran = run(&["--version"]);
    assert_eq!((ran.status, ran.out), (0, told));
}

#[test]
fn wrong_usage() {
    let wrong: &[(&[&str], &str)] = &[
        (&[], "no command"),
        (&["asks"], "no command `asks`"),
        (&["ask", "shop.delp"], "too few words"),
        (&["ask", "shop.delp", "a", "b"], "`b` has no place here"),
        (
            &["ask", "shop.delp", "pod_fits", "--ascii"],
            "`--ascii` has no place here",
        ),
        (
            &["ask", "shop.delp", "pod_fits", "--budget"],
            "`--budget` needs a value",
        ),
        (
            &["ask", "shop.delp", "pod_fits", "--budget", "4097"],
            "a budget is 0 to 4096",
        ),
        (
            &["ask", "shop.delp", "pod_fits", "--budget", "-1"],
            "a budget is 0 to 4096",
        ),
        (&["ask", "shop.delp", "~~pod_fits"], "a second `~`"),
        (&["ask", "shop.delp", "flies(X)"], "`X` is a variable"),
        (&["ask", "shop.delp", "a b"], "`b` after the literal"),
        (&["ask", "shop.delp", ""], "expected a literal"),
        (&["ask", "none.delp", "a"], "cannot read none.delp"),
        (&["compile", "shop.delp"], "`-o IMAGE` is missing"),
        (
            &["compile", "shop.delp", "-o", "no/such/place.img"],
            "cannot write no/such/place.img",
        ),
        (&["tree", "shop.delp", "pod_fits"], "`--svg OUT` is missing"),
        (&["help", "asks"], "no command `asks`"),
        (
            &["explain", "shop.delp", "pod_fits", "--budget=4097"],
            "a budget is 0 to 4096",
        ),
        (
            &["ask", "shop.delp", "-pod_fits"],
            "negation is written '~pod_fits'",
        ),
        (&["advise", "-x"], "`-x` has no place here\n"),
        (&["ask", "shop.delp", "steel-ring"], "write `steel_ring`"),
        (&["ask", "shop.delp", "true"], "`true` is reserved"),
        (&["compile", "shop.delp", "-o", "-"], "name a file"),
        (&["file", "shop.delp"], "`-o IMAGE` is missing"),
        (&["file", "shop.delp", "-o"], "`-o` needs a value"),
        (&["file", "shop.delp", "-o", "-"], "name a file"),
        (
            &["file", "shop.delp", "-o", "no/such/place.img"],
            "cannot write no/such/place.img",
        ),
        (
            &["file", "none.delp", "-o", "x.img"],
            "cannot read none.delp",
        ),
        (&["same", "shop.delp"], "too few words"),
        (
            &["same", "shop.delp", "birds.delp", "-x"],
            "`-x` has no place here\n",
        ),
        (
            &["same", "shop.delp", "birds.delp", "bulletins.delp"],
            "`bulletins.delp` has no place here",
        ),
        (&["same", "-", "-"], "standard input can be read once"),
        (&["same", "shop.delp", "none.delp"], "cannot read none.delp"),
    ];
    let mut wrong = wrong.to_vec();
    let long = common::scratch("usage").join("long.delp");
    std::fs::write(&long, "%".repeat((1 << 24) + 1)).unwrap();
    let words = ["advise", long.to_str().unwrap()];
    wrong.push((&words, "that is no program text"));
    for (words, told) in wrong {
        let ran = run(words);
        assert!(
            ran.status == 2 && ran.out.is_empty() && ran.err.contains(told),
            "{words:?}: {} {}",
            ran.status,
            ran.err
        );
    }
}

#[test]
fn answers() {
    let asked: &[(&[&str], &str)] = &[
        (
            &["ask", "shop.delp", "pod_fits"],
            "YES (6 nodes): pod_fits is warranted",
        ),
        (
            &["ask", "shop.delp", "~pod_fits"],
            "NO (6 nodes): ~pod_fits does not hold: its complement pod_fits is warranted.",
        ),
        (
            &["ask", "shop.delp", "motor_slow"],
            "UNDECIDED (15 nodes): neither motor_slow nor ~motor_slow is warranted.",
        ),
        (
            &["ask", "shop.delp", "~pod_fitz"],
            "UNKNOWN (0 nodes): no rule mentions pod_fitz.\nDid you mean pod_fits?\n",
        ),
        (
            &["ask", "birds.delp", "flies( tina )"],
            "YES (6 nodes): flies(tina) is warranted",
        ),
        (
            &["ask", "--budget", "5", "shop.delp", "pod_fits"],
            "UNFINISHED (5 nodes): the trees for pod_fits and ~pod_fits have more nodes than the budget of 5; \
             a larger one, up to 4096, may be enough.\n",
        ),
        (
            &["ask", "../tests/vectors/n4097.img", "28"],
            "UNFINISHED (4096 nodes): the trees for a14 and ~a14 have more nodes than the budget of 4096, \
             and there is no larger one.\n",
        ),
        (
            &["explain", "shop.delp", "pod_fits", "--budget=5"],
            "UNFINISHED (5 nodes): the trees for pod_fits and ~pod_fits",
        ),
        (
            &["ask", "shop.delp", "~bulletin_3"],
            "UNKNOWN (0 nodes): no rule mentions bulletin_3.\nbulletin_3 is the label of a rule: \
             ask about a literal, such as its head pod_fits.\n",
        ),
        (
            &["explain", "shop.delp", "pod_fitz"],
            "UNKNOWN (0 nodes): no rule mentions pod_fitz.\nDid you mean pod_fits?\n",
        ),
    ];
    for (words, told) in asked {
        let ran = run(words);
        assert!(
            ran.status == 0 && ran.out.starts_with(told),
            "{words:?}: {} {}{}",
            ran.status,
            ran.out,
            ran.err
        );
    }
}

/// Six nodes are needed, and with more than that nothing changes.
#[test]
fn an_answer_stays_with_a_larger_budget() {
    let explained = |budget: u32| {
        let budget = format!("--budget={budget}");
        let ran = run(&["explain", "shop.delp", "pod_fits", &budget]);
        assert_eq!(ran.status, 0, "{}", ran.err);
        ran.out
    };
    for budget in 0..6 {
        let lead = format!("UNFINISHED ({budget} node");
        assert!(explained(budget).starts_with(&lead), "{budget}");
    }
    let answer = explained(6);
    assert!(answer.contains("YES (6 nodes): "), "{answer}");
    for budget in [7, 8, 100, 4095, 4096] {
        assert_eq!(explained(budget), answer, "{budget}");
    }
}

/// Where all 64 atoms are taken there is no number for one more, and the answer is the same.
#[test]
fn a_name_that_no_rule_has_beside_64_atoms() {
    let path = common::scratch("usage").join("atoms64.delp");
    let shown = run(&["show", "../tests/vectors/atoms64.img"]);
    std::fs::write(&path, shown.out).unwrap();
    let ran = run(&["ask", path.to_str().unwrap(), "other"]);
    let told = "UNKNOWN (0 nodes): no rule mentions other.\n";
    assert_eq!((ran.status, ran.out.as_str()), (0, told), "{}", ran.err);
}

/// Under its own name, through a link, and as standard input.
#[test]
fn nothing_is_written_over_the_program() {
    let directory = common::scratch("same");
    let text = std::fs::read_to_string(common::examples().join("shop.delp")).unwrap();
    let [program, hard, soft] = ["p.delp", "hard.img", "soft.img"].map(|name| directory.join(name));
    std::fs::write(&program, &text).unwrap();
    for link in [&hard, &soft] {
        let _ = std::fs::remove_file(link);
    }
    std::fs::hard_link(&program, &hard).unwrap();
    std::os::unix::fs::symlink(&program, &soft).unwrap();
    let name = program.to_str().unwrap();
    let turned = format!("{}/../same/p.delp", directory.display());
    for out in [
        name,
        &turned,
        hard.to_str().unwrap(),
        soft.to_str().unwrap(),
    ] {
        for ran in [
            run(&["compile", name, "-o", out]),
            run(&["file", name, "-o", out]),
            run(&["tree", name, "pod_fits", "--svg", out]),
            run_with_input(&["compile", "-", "-o", out], &program),
            run_with_input(&["file", "-", "-o", out], &program),
        ] {
            let told =
                format!("foqtirel: {out} is the program itself: name another file to write\n");
            assert_eq!((ran.status, ran.out.as_str(), ran.err), (2, "", told));
        }
    }
    assert_eq!(std::fs::read_to_string(&program).unwrap(), text);
    // The gate takes no checkout with a link in it.
    std::fs::remove_file(&soft).unwrap();
}

#[test]
fn an_image_has_no_names() {
    let directory = common::scratch("usage");
    let (image, picture) = (directory.join("shop.img"), directory.join("none.svg"));
    let (image, out) = (image.to_str().unwrap(), picture.to_str().unwrap());
    assert_eq!(run(&["compile", "shop.delp", "-o", image]).status, 0);
    let told =
        "foqtirel: an image has no names; its atoms are a0 to a11, or write a literal's number\n";
    for name in ["pod_fits", "~pod_fits", "a", "a01", "b0", "a0(x)"] {
        for words in [
            &["ask", image, name][..],
            &["explain", image, name],
            &["tree", image, name, "--svg", out],
        ] {
            let ran = run(words);
            let result = (ran.status, ran.out.as_str(), ran.err.as_str());
            assert_eq!(result, (1, "", told), "{words:?}");
        }
    }
    assert!(!picture.exists());
    for name in ["a12", "~a50", "a64", "a99999999999", "100"] {
        let ran = run(&["ask", image, name]);
        let lines = ran.out.lines().count();
        assert!(
            ran.out.starts_with("UNKNOWN (0 nodes): ") && lines == 1,
            "{}",
            ran.out
        );
    }
}

#[test]
fn compile_tells_the_numbers_of_the_literals() {
    let out = common::scratch("usage").join("names.img");
    let out = out.to_str().unwrap();
    let names = run(&["compile", "shop.delp", "--names"]);
    assert_eq!((names.status, names.out.lines().count()), (0, 24));
    assert!(names
        .out
        .starts_with("0 base_a\n1 ~base_a\n2 heavy_rider\n"));
    assert!(names.out.contains("\n10 pod_fits\n11 ~pod_fits\n"));
    let both = run(&["compile", "--names", "shop.delp", "-o", out]);
    let lead = format!("{out}: 169 bytes, 12 atoms, 22 rules (8 defeasible), 3 pairs\n");
    assert_eq!(both.out, lead + &names.out);
    let number = run(&["ask", out, "11"]).out;
    assert!(number.starts_with("NO (6 nodes)"), "{number}");
}

#[test]
fn compile_notes_a_name_that_is_not_read_as_an_image() {
    let out = common::scratch("usage").join("shop.bin");
    let ran = run(&["compile", "shop.delp", "-o", out.to_str().unwrap()]);
    let note = "\nnote: only a file whose name ends in .img is read as an image\n";
    assert!(ran.status == 0 && ran.out.ends_with(note), "{}", ran.out);
}

#[test]
fn a_program_from_standard_input() {
    let shop = common::examples().join("shop.delp");
    let ran = run_with_input(&["ask", "-", "pod_fits"], &shop);
    assert!(ran.status == 0 && ran.out.starts_with("YES"), "{}", ran.err);
    let flawed = common::scratch("usage").join("flawed.delp");
    std::fs::write(&flawed, "a").unwrap();
    let ran = run_with_input(&["advise", "-"], &flawed);
    let told = "standard input:1:2: error: a `.` is missing";
    assert!(ran.status == 1 && ran.err.starts_with(told), "{}", ran.err);
}

#[test]
fn output_that_cannot_be_written_is_told() {
    let full = std::fs::OpenOptions::new().write(true).open("/dev/full");
    let mut command = common::command(&["advise", "shop.delp"]);
    let output = command.stdout(full.unwrap()).output().unwrap();
    let told = String::from_utf8(output.stderr).unwrap();
    assert_eq!(output.status.code(), Some(2));
    assert!(
        told.starts_with("foqtirel: cannot write to standard output: "),
        "{told}"
    );
}
