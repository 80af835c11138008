//! What the examples give is what is stored beside them.

mod common;

use std::fs;
use std::path::{Path, PathBuf};

fn programs(directory: &Path) -> Vec<PathBuf> {
    let paths = fs::read_dir(directory)
        .unwrap()
        .map(|entry| entry.unwrap().path());
    let mut found: Vec<PathBuf> = paths
        .filter(|path| path.extension().is_some_and(|end| end == "delp"))
        .collect();
    found.sort();
    found
}

fn fittings() -> Vec<PathBuf> {
    let found = programs(&common::examples().join("fittings"));
    assert_eq!(found.len(), 12);
    found
}

#[test]
fn advise() {
    let examples = programs(&common::examples());
    assert!(examples.len() >= 3);
    for path in examples.into_iter().chain(fittings()) {
        let ran = common::run(&["advise", path.to_str().unwrap()]);
        let stored = fs::read_to_string(path.with_extension("advise")).unwrap();
        assert_eq!((ran.status, ran.out), (0, stored), "{}", path.display());
    }
}

/// Lines that start with `$ foqtirel ` are commands; what follows is what they print.
#[test]
fn commands() {
    for name in [
        "shop.explain",
        "birds.explain",
        "bulletins.explain",
        "branch.same",
        "group.shares",
    ] {
        let stored = fs::read_to_string(common::examples().join(name)).unwrap();
        let mut told = String::new();
        for line in stored
            .lines()
            .filter_map(|line| line.strip_prefix("$ foqtirel "))
        {
            let words: Vec<&str> = line
                .split(' ')
                .map(|word| word.trim_matches('\''))
                .collect();
            let ran = common::run(&words);
            assert_eq!(ran.status, 0, "{}", ran.err);
            told += &format!("$ foqtirel {line}\n{}\n", ran.out);
        }
        assert_eq!(told, stored, "{name}");
    }
}

/// Two branches that typed the same bulletins file the same bytes, though they compile others.
#[test]
fn branches_file_the_same() {
    let directory = common::scratch("branches");
    let written = |command: &str, name: &str| {
        let out = directory.join(format!("{command}-{name}.img"));
        let text = format!("{name}.delp");
        let ran = common::run(&[command, &text, "-o", out.to_str().unwrap()]);
        assert_eq!((ran.status, ran.err.as_str()), (0, ""));
        fs::read(out).unwrap()
    };
    assert_eq!(written("file", "bulletins"), written("file", "branch"));
    assert_ne!(
        written("compile", "bulletins"),
        written("compile", "branch")
    );
}

/// Each fitting says what to ask and what the answer is.
#[test]
fn the_twelve_fittings() {
    for path in fittings() {
        let text = fs::read_to_string(&path).unwrap();
        let after = |lead: &str| {
            text.lines()
                .find_map(|line| line.strip_prefix(lead))
                .unwrap()
                .to_string()
        };
        let (question, answer) = (after("% ask "), after("% answer "));
        let mut words = vec!["ask", path.to_str().unwrap()];
        words.extend(question.split(' '));
        let ran = common::run(&words);
        let (name, nodes) = answer.split_once(' ').unwrap();
        let plural = if nodes == "1" { "" } else { "s" };
        assert!(
            ran.out
                .starts_with(&format!("{name} ({nodes} node{plural}): ")),
            "{}: {}",
            path.display(),
            ran.out
        );
    }
}

#[test]
fn the_fittings_compile_to_the_images_of_the_vectors() {
    let directory = common::scratch("fittings");
    let images = [
        "F", "F", "Fnopair", "G", "Gpair", "H", "H", "K", "L", "T", "empty", "F",
    ];
    for (path, name) in fittings().iter().zip(images) {
        let out = directory.join("fitting.img");
        let ran = common::run(&[
            "compile",
            path.to_str().unwrap(),
            "-o",
            out.to_str().unwrap(),
        ]);
        assert_eq!(ran.status, 0, "{}", ran.err);
        let vector = common::root().join(format!("tests/vectors/{name}.img"));
        assert_eq!(
            fs::read(&out).unwrap(),
            fs::read(vector).unwrap(),
            "{}",
            path.display()
        );
    }
}

#[test]
fn picture() {
    let out = common::scratch("picture").join("shop.svg");
    let ran = common::run(&[
        "tree",
        "shop.delp",
        "pod_fits",
        "--svg",
        out.to_str().unwrap(),
    ]);
    assert_eq!(ran.status, 0, "{}", ran.err);
    assert_eq!(
        fs::read_to_string(out).unwrap(),
        fs::read_to_string(common::examples().join("shop.svg")).unwrap()
    );
}

/// One shape for each node and two in the legend; every edge is there; no text breaks the picture.
#[test]
fn a_picture_has_every_node() {
    let answers = fs::read_to_string(common::root().join("tests/vectors/n4096.advise")).unwrap();
    let mut finished = answers.lines().filter(|line| !line.contains("UNFINISHED"));
    let widest = finished.find(|line| line.ends_with(" 4096")).unwrap();
    let out = common::scratch("picture").join("wide.svg");
    let ran = common::run(&[
        "tree",
        "../tests/vectors/n4096.img",
        widest.split(' ').next().unwrap(),
        "--svg",
        out.to_str().unwrap(),
    ]);
    assert_eq!(ran.status, 0, "{}", ran.err);
    let svg = fs::read_to_string(out).unwrap();
    let shapes = svg.matches("class=\"U\"").count() + svg.matches("class=\"D\"").count();
    let edges = svg.matches("class=\"p\"").count() + svg.matches("class=\"b\"").count();
    let roots = shapes - edges;
    assert_eq!((shapes, roots < 50), (4096 + 2, true));
    assert!(!svg.contains(" -< ") && svg.ends_with("</svg>\n"));
    // So wide a picture is not made to fit a page.
    assert!(!svg.contains("max-width"));
}

#[test]
fn a_picture_keeps_the_budget() {
    let out = common::scratch("picture").join("budget.svg");
    let name = out.to_str().unwrap();
    let ran = common::run(&["tree", "shop.delp", "pod_fits", "--budget=5", "--svg", name]);
    let told = format!("{name}: pod_fits: UNFINISHED, 5 nodes\n");
    assert_eq!((ran.status, ran.out), (0, told));
    assert!(fs::read_to_string(out).unwrap().contains("max-width:100%"));
}

/// Marks by shape and colour, kinds by solid and dashed lines, each once more in the legend.
#[test]
fn a_picture_tells_marks_and_kinds_apart() {
    let out = common::scratch("picture").join("P05.svg");
    let ran = common::run(&[
        "tree",
        "fittings/P05.delp",
        "b",
        "--svg",
        out.to_str().unwrap(),
    ]);
    assert_eq!(ran.status, 0, "{}", ran.err);
    let svg = fs::read_to_string(out).unwrap();
    let count = |mark: &str| svg.matches(mark).count() - 1;
    assert_eq!(
        (count("<rect class=\"U\""), count("<polygon class=\"D\"")),
        (4, 2)
    );
    assert_eq!(
        (count("<path class=\"p\""), count("<path class=\"b\"")),
        (2, 2)
    );
    assert_eq!(count("stroke-dasharray"), 0);
}
