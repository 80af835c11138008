//! The program's answers on all vectors, read as images, are those stored beside them.

mod common;

use std::fs;
use std::path::PathBuf;

fn vectors() -> Vec<PathBuf> {
    let directory = common::root().join("tests/vectors");
    let paths = fs::read_dir(directory)
        .unwrap()
        .map(|entry| entry.unwrap().path());
    let mut images: Vec<PathBuf> = paths
        .filter(|path| path.extension().is_some_and(|end| end == "img"))
        .collect();
    images.sort();
    assert!(images.len() >= 28, "{} vectors", images.len());
    images
}

/// `~a3 NO 2` as `7 NO 2`.
fn by_number(line: &str) -> String {
    let words: Vec<&str> = line.split_whitespace().collect();
    if words[0] == "arguments" {
        return words.join(" ");
    }
    let (sign, name) = if words[0].starts_with('~') {
        (1, &words[0][1..])
    } else {
        (0, words[0])
    };
    let atom: usize = name[1..].parse().unwrap();
    format!("{} {} {}", 2 * atom + sign, words[1], words[2])
}

#[test]
fn advise_gives_the_stored_answers() {
    for image in vectors() {
        let stored = fs::read_to_string(image.with_extension("advise")).unwrap();
        let ran = common::run(&["advise", image.to_str().unwrap()]);
        if let Some(refusal) = stored.strip_prefix("refused ") {
            assert_eq!(
                (ran.status, ran.out.as_str()),
                (1, ""),
                "{}",
                image.display()
            );
            assert!(
                ran.err
                    .starts_with(&format!("refused {}: ", refusal.trim_end())),
                "{}: {}",
                image.display(),
                ran.err
            );
            continue;
        }
        let told: String = ran.out.lines().map(|line| by_number(line) + "\n").collect();
        assert_eq!((ran.status, told), (0, stored), "{}", image.display());
    }
}

#[test]
fn every_defeater_of_every_vector_has_its_reason() {
    common::with_stack(|| {
        let mut defeaters = 0;
        for path in vectors() {
            let image = fs::read(&path).unwrap();
            let name = path.display().to_string();
            defeaters += common::defeaters(&image, &name).len();
        }
        assert!(defeaters > 10_000, "{defeaters}");
    });
}

#[test]
fn a_literal_of_an_image_goes_by_name_or_number() {
    for (literal, told) in [
        ("2", "YES (3 nodes)"),
        ("a1", "YES (3 nodes)"),
        ("3", "NO (3 nodes)"),
        ("~a1", "NO (3 nodes)"),
    ] {
        let ran = common::run(&["ask", "../tests/vectors/F.img", literal]);
        assert!(
            ran.status == 0 && ran.out.starts_with(told),
            "{literal}: {}{}",
            ran.out,
            ran.err
        );
    }
    let ran = common::run(&["ask", "../tests/vectors/empty.img", "100"]);
    assert_eq!(
        (ran.status, ran.out.as_str()),
        (0, "UNKNOWN (0 nodes): no rule mentions a50.\n")
    );
    let ran = common::run(&["ask", "../tests/vectors/F.img", "128"]);
    assert_eq!(
        (ran.status, ran.err.as_str()),
        (1, "refused 20 0: a literal is below 128\n")
    );
}

/// Rules that beat each other leave neither preferred, and that is said.
#[test]
fn explain_tells_pairs_in_both_directions() {
    let told = "\
U undefeated, D defeated

1 argument for a4:

D  a4  (by r3)
`- U  ~a4  (by r0)
      blocking defeater: attacks a4; neither is preferred: r0 beats r3 and r3 beats r0

1 argument for ~a4:

D  ~a4  (by r0)
|- U  ~a3  (by ~a3 -< a0)
|     blocking defeater: attacks ~a4, which excludes ~a3; neither is preferred
`- U  a4  (by r3)
      blocking defeater: attacks ~a4; neither is preferred: r3 beats r0 and r0 beats r3

UNDECIDED (5 nodes): neither a4 nor ~a4 is warranted.
";
    let ran = common::run(&["explain", "../tests/vectors/back.img", "a4", "--ascii"]);
    assert_eq!((ran.status, ran.out.as_str()), (0, told));
}
