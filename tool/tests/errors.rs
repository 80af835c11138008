//! Every kind of flaw in a text: its line, its column, what it says and what it says to write.

mod common;

use foqtirel::load::load_text;

/// Text, line, column, what is wrong, what to write.
type Case<'a> = (&'a str, usize, usize, &'a str, &'a str);

#[rustfmt::skip]
const READING: &[Case] = &[
    ("a.\nb\nc <- a.", 2, 2, "a `.` is missing", "end each fact"),
    ("a. b <- a", 1, 10, "a `.` is missing", "end each fact"),
    ("a b.", 1, 3, "expected `.`, `<-` or `-<`, found `b`", "head -< body."),
    ("a <- b c.", 1, 8, "expected `,` and the next literal, or `.`, found `c`", "head <- body."),
    ("a <- .", 1, 3, "a strict rule without a body", "write the fact as `a.`"),
    ("b.\na -< .", 2, 3, "a defeasible rule without a body", "`a -< reason.`"),
    ("a -< true.", 1, 6, "a defeasible rule without a body", "the engine takes no presumptions"),
    ("true.", 1, 1, "`true` is reserved for the empty body", "`a <- true.` is the fact `a.`"),
    ("~true <- b.", 1, 2, "`true` is reserved for the empty body", "write another name"),
    ("a <- b, true.", 1, 9, "`true` is reserved for the empty body", "take `true` out"),
    ("a -< true, b.", 1, 6, "`true` is reserved for the empty body", "take `true` out"),
    (":- atoms true.", 1, 10, "`true` is reserved for the empty body", "write another name"),
    ("a <- true", 1, 10, "a `.` is missing", "end each fact"),
    ("a <- true b.", 1, 11, "expected `.`, found `b`", "head <- body."),
    ("a <- b,.", 1, 8, "expected a literal, found `.`", "a literal is an atom"),
    ("a <- b", 1, 7, "a `.` is missing", "end each fact"),
    ("a <-", 1, 5, "expected a literal, found the end of the text", "a literal is an atom"),
    ("~~a.", 1, 2, "a second `~`", "with one `~`"),
    ("a <- not b.", 1, 6, "`not` before a literal", "no negation as failure"),
    ("a :- b.", 1, 3, "`:-` in a rule", "`<-` for a strict rule"),
    ("a, b.", 1, 2, "`,` after a head", "one rule for each"),
    ("p(x) > q.", 1, 6, "`>` after a literal", "between labels"),
    ("p(x): q.", 1, 5, "`:` after a literal", "a label is one name"),
    ("-a.", 1, 1, "expected a literal, found `-`", "strong negation is written `~`"),
    ("a <- !b.", 1, 6, "expected a literal, found `!`", "strong negation is written `~`"),
    ("a < b.", 1, 3, "expected `.`, `<-` or `-<`, found `<`", "a strict rule is written with `<-`"),
    ("# note", 1, 1, "expected a literal, found `#`", "a comment starts with `%`"),
    ("'a b'.", 1, 1, "expected a literal, found `'`", "letters, digits and `_`"),
    ("3.", 1, 1, "expected a literal, found `3`", "starts with a small letter"),
    ("Base.", 1, 1, "`Base` is written like a variable", "write `base`"),
    ("_.", 1, 1, "`_` is written like a variable", "write `a`"),
    ("a.\n flies(X) -< bird(X).", 2, 8, "`X` is a variable", "write the ground atom"),
    ("likes(tina, _y).", 1, 13, "`_y` is a variable", "write the ground atom"),
    ("p(f(X)).", 1, 5, "`X` is a variable", "write the ground atom"),
    ("p().", 1, 3, "expected an argument, found `)`", "bird(tina)"),
    ("p(a b).", 1, 5, "expected `,` or `)`, found `b`", "flies(tina, high)"),
    (":- atom a.", 1, 4, "`atom` is no directive", "`:- atoms a, b, c.`"),
    (":- atoms a, ~b.", 1, 13, "a `~` among the atoms", "stands for both signs"),
    (":- atoms a b.", 1, 12, "expected `,` and the next atom, or `.`, found `b`", ""),
    ("r > s > t.", 1, 7, "a second `>` in one preference",
        "write each pair as its own line, `r > s.` and `s > t.`; then r beats t through s"),
    ("r > s > t > u.", 1, 7, "a second `>` in one preference", "`r > s.` and `s > t.`"),
    ("r > s > r.", 1, 7, "a second `>` in one preference", "`r > s.` and `s > r.`; then r beats r through s"),
    ("r > s > 3.", 1, 7, "a second `>` in one preference", "as its own line, as in `a > b.` and `b > c.`"),
    ("r > r > s.", 1, 7, "a second `>` in one preference", "as its own line, as in `a > b.` and `b > c.`"),
    ("r > s > s.", 1, 7, "a second `>` in one preference", "as its own line, as in `a > b.` and `b > c.`"),
    ("steel-ring.", 1, 6, "found `-`", "names use `_`: write `steel_ring`"),
    ("a <- b, steel-ring-7.", 1, 14, "found `-`", "write `steel_ring_7`"),
    ("b-3: a -< f.", 1, 2, "found `-`", "write `b_3`"),
    ("p(steel–ring).", 1, 8, "expected `,` or `)`, found `–`", "write `steel_ring`"),
    ("a -b.", 1, 3, "found `-`", "strong negation is written `~`"),
    ("x: a -< f. y: ~a -< f.\nx < y.", 2, 3, "found `<`", "write `y > x.`"),
    ("f;", 1, 2, "found `;`", "end each fact, rule and preference with `.`"),
    ("a -< f;\nf.", 1, 7, "found `;`", "end each fact, rule and preference with `.`"),
    ("f; g.", 1, 2, "found `;`", "end each fact, rule and preference with `.`"),
    ("a -< f; g.", 1, 7, "found `;`", "write `,` between the literals of a body"),
    (":- atoms a; b.", 1, 11, "found `;`", "write `,` between the atoms"),
    ("a –< f.", 1, 3, "found `–`", "`–` is not `-`, though it looks like it: write `-<` or `<-`"),
    ("a <— f.", 1, 3, "found `<`", "`—` is not `-`, though it looks like it: write `-<` or `<-`"),
    ("a −≺ f.", 1, 3, "found `−`", "write `-<` or `<-`"),
    ("a ← f.", 1, 3, "found `←`", "a strict rule is written with `<-`"),
    ("a ⤙ f.", 1, 3, "found `⤙`", "a defeasible one with `-<`"),
    ("a ⟵ f.", 1, 3, "found `⟵`", "a strict rule is written with `<-`"),
    ("–a.", 1, 1, "found `–`", "strong negation is written `~`"),
    ("3: a -< f.", 1, 1, "`3` where a rule's label should stand", "a label begins with a letter: write `r3`"),
    ("3 > r.", 1, 1, "`3` where a rule's label should stand", "a label begins with a letter"),
    (":- atoms.", 1, 9, "expected an atom, found `.`", "`:- atoms a, b, c.`"),
    ("a\u{1b}[31m.", 1, 2, "found `\\u{1b}`", "a program is plain text"),
    ("a \u{202e}b.", 1, 3, "found `\\u{202e}`", "letters, digits and `_`"),
    ("r > 3.", 1, 5, "`3` where a rule's label should stand", "write two labels"),
];

#[rustfmt::skip]
const COMPILING: &[Case] = &[
    (":- atoms a, b, a.", 1, 16, "`a` is declared twice", "take this one out"),
    ("a. c -< a, b,\n   a.", 2, 4, "`a` stands twice in this body", "write it once"),
    ("c <- ~p(x), b, ~p( x ).", 1, 16, "`~p(x)` stands twice in this body", "write it once"),
    ("c -< a, b.\nd.\n  c -< b, a.", 3, 3, "this rule stands on line 1 already", "take one of the two out"),
    ("a.\na.", 2, 1, "this rule stands on line 1 already", "take one of the two out"),
    ("r: b -< a.\nr: c -< a.", 2, 1, "the label `r` stands on line 1 already", "a label of its own"),
    ("r: b -< a.\nr > s.", 2, 5, "no rule is labelled `s`", "write `s: ` before the rule"),
    ("r: b -< a.\ns > r.", 2, 1, "no rule is labelled `s`", "write `s: ` before the rule"),
    ("r: b -< a.\ns: c <- a. r > s.", 2, 16, "`s` is a strict rule", "write the rule with `-<`"),
    ("r: b -< a.\nr > r.", 2, 5, "`r` is preferred over itself", "two different rules"),
    ("r: b -< a. s: c -< a.\nr > s.\ns > r.\n r > s.", 4, 2, "this preference stands on line 2 already", "take one"),
    ("a.\nb <- a.\n~b.", 3, 1, "these 3 derive `b` and `~b`", "turn `<-` into `-<` in one"),
    ("b <- a.\n~b.\na.", 3, 1, "these 3 derive `b` and `~b`", "turn `<-` into `-<` in one"),
    ("a.\nb <- a.\nc <- b.\n~b <- c.", 4, 1, "these 4 derive `b` and `~b`", "take one of them out"),
];

fn check(text: &str, line: usize, column: usize, what: &str, help: &str) {
    let flaw = load_text(text).map(|_| ()).expect_err(text);
    assert_eq!(
        (flaw.at.line, flaw.at.column),
        (line, column),
        "{text:?}: {flaw:?}"
    );
    assert!(
        flaw.what.contains(what) && flaw.help.contains(help),
        "{text:?}: {flaw:?}"
    );
    // Wherever the place is, it can be shown.
    assert!(flaw
        .render("x.delp", text)
        .starts_with(&format!("x.delp:{line}:{column}: error: ")));
}

#[test]
fn flaws_of_reading() {
    READING
        .iter()
        .for_each(|&(text, line, column, what, help)| check(text, line, column, what, help));
}

/// A rule with the empty body `true` is a fact; within a term, `true` is a word like others.
#[test]
fn true_is_the_empty_body() {
    let image = |text: &str| load_text(text).unwrap().0;
    assert_eq!(image("~a <- true."), image("~a."));
    assert_eq!(image("r: a <- true. b -< a."), image("a. b -< a."));
    assert_eq!(image("p(true)."), image("p(x)."));
}

#[test]
fn flaws_of_compiling() {
    COMPILING
        .iter()
        .for_each(|&(text, line, column, what, help)| check(text, line, column, what, help));
}

#[test]
fn limits_are_told_where_they_are_passed() {
    let list = |from: usize, to: usize| {
        (from..to)
            .map(|n| format!("x{n}"))
            .collect::<Vec<_>>()
            .join(", ")
    };
    check(
        &format!(":- atoms {}.\na <- b.", list(0, 64)),
        2,
        1,
        "`a` is the 65th atom",
        "at most 64 atoms",
    );
    check(
        &format!(":- atoms {}.", list(0, 65)),
        1,
        10 + list(0, 64).len() + 2,
        "`x64` is the 65th atom",
        "at most 64",
    );
    assert!(load_text(&format!(":- atoms {}.", list(0, 64))).is_ok());

    let chain = |count: usize| {
        (0..count)
            .map(|n| format!("x{} <- x{}.\n", n % 60 + 1, n / 2))
            .collect::<String>()
    };
    check(
        &(chain(96) + " y."),
        97,
        2,
        "the 97th rule",
        "at most 96 rules",
    );
    assert!(load_text(&chain(96)).is_ok());

    let loose = |count: usize| {
        (0..count)
            .map(|n| format!("y{n} -< x.\n"))
            .collect::<String>()
    };
    check(
        &loose(17),
        17,
        1,
        "the 17th defeasible rule",
        "at most 16 defeasible",
    );
    assert!(load_text(&loose(16)).is_ok());

    check(
        &format!("h <- {}, ~x0.", list(0, 8)),
        1,
        38,
        "`~x0` is the 9th literal",
        "at most 8 literals",
    );
    assert!(load_text(&format!("h <- {}.", list(0, 8))).is_ok());

    check(
        &format!("p{}a{}.", "(f".repeat(40), ")".repeat(40)),
        1,
        33,
        "a term nested too deep",
        "at most 16 deep",
    );
}

/// 240 pairs are all there are: the 241st is one that stands there already.
#[test]
fn the_most_pairs() {
    let mut text: String = (0..16).map(|n| format!("r{n}: y{n} -< x.\n")).collect();
    for first in 0..16 {
        (0..16)
            .filter(|&second| second != first)
            .for_each(|second| text += &format!("r{first} > r{second}.\n"));
    }
    assert_eq!(load_text(&text).unwrap().1.pairs.len(), 240);
    check(
        &(text + "r0 > r1."),
        257,
        1,
        "this preference stands on line 17 already",
        "take one",
    );
}

#[test]
fn a_flaw_is_shown_with_its_line_and_a_caret() {
    let path = common::scratch("errors").join("flaw.delp");
    let name = path.to_str().unwrap();
    std::fs::write(&path, "base_a.\n\t~pod_fits -< tilt, heavy, tilt.\n").unwrap();
    for words in [
        vec!["advise", name],
        vec!["ask", name, "tilt"],
        vec!["explain", name, "tilt"],
        vec!["compile", name, "-o", "x"],
    ] {
        let ran = common::run(&words);
        let told = format!(
            "{name}:2:28: error: `tilt` stands twice in this body\n 2 | \t~pod_fits -< tilt, heavy, tilt.\n   | \t{}^^^^\n \
             help: a body is a set: write it once\n",
            " ".repeat(26)
        );
        assert_eq!((ran.status, ran.out.as_str(), ran.err), (1, "", told));
    }
    assert!(!common::examples().join("x").exists());
}

/// The two lines of a flaw that show its place.
fn echoed(text: &str) -> (String, String) {
    let told = load_text(text).unwrap_err().render("x.delp", text);
    let mut lines = told.lines().skip(1).map(|line| line[5..].to_string());
    (lines.next().unwrap(), lines.next().unwrap())
}

#[test]
fn of_a_long_line_only_what_is_around_the_place_is_shown() {
    let (facts, more) = ("a. ".repeat(100), " b.".repeat(100));
    for text in [
        format!("{facts}c QQ.{more}"),
        format!("{facts}c QQ."),
        format!("c QQ.{more}"),
    ] {
        let (line, below) = echoed(&text);
        assert!(line.len() <= 104, "{line}");
        assert_eq!(line.starts_with(".."), text.starts_with("a"), "{line}");
        assert_eq!(line.ends_with(".."), text.ends_with("b."), "{line}");
        let (start, end) = (below.find('^').unwrap(), below.len());
        assert_eq!((&line[start..end], below.trim()), ("QQ", "^^"));
    }
    let (line, below) = echoed(&format!("{facts}c"));
    assert_eq!((line.len(), below.len()), (102, 103));
    let (line, below) = echoed(&format!("c {}.", "q".repeat(1000)));
    assert_eq!((line.len(), below.len()), (102, 100));
}

#[test]
fn control_characters_are_shown_and_not_obeyed() {
    let (line, below) = echoed("p(\u{1b}).");
    assert_eq!((line.as_str(), below.as_str()), ("p(\\u{1b}).", "  ^^^^^^"));
    let (line, below) = echoed("a.\r\u{c}b c.");
    assert_eq!(
        (line.as_str(), below.as_str()),
        ("a.\\r\\u{c}b c.", "           ^")
    );
    let (line, below) = echoed(&format!("b{}", "\0".repeat(500)));
    assert_eq!((line.len(), below.as_str()), (101, " ^^"));
    let ran = common::run(&["ask", "no\u{1b}ne", "a"]);
    assert!(ran.err.contains("cannot read no\\u{1b}ne"), "{}", ran.err);
    let ran = common::run(&["ask", "shop.delp", "a\u{1b}"]);
    assert!(
        ran.err.contains("the literal `a\\u{1b}`: `\\u{1b}` after"),
        "{}",
        ran.err
    );
}

#[test]
fn bytes_that_are_no_text() {
    let path = common::scratch("errors").join("bytes.delp");
    std::fs::write(&path, b"a.\nb \xff.").unwrap();
    let ran = common::run(&["advise", path.to_str().unwrap()]);
    assert_eq!(ran.status, 1);
    assert!(
        ran.err
            .contains("bytes.delp:2:3: error: a byte that is not UTF-8 text"),
        "{}",
        ran.err
    );
}

#[test]
fn a_refusal_tells_the_file_and_the_place() {
    let path = common::scratch("errors").join("broken.img");
    let name = path.to_str().unwrap();
    // a0. a1 -< a0. ~a1 -< a0. and the pairs 1 > 2 and 2 > 1.
    let sound = [
        2, 0, 3, 0, 2, 0, 0, 0, 24, 0, 2, 0, 26, 0, 3, 0, 29, 0, 3, 0, 32, 0, 4, 0, 0, 0, 1, 2, 0,
        1, 3, 0, 1, 2, 2, 1,
    ];
    for (at, byte, told) in [
        (0, 65, "refused 2 0: FILE: a count"),
        (8, 25, "refused 3 0: FILE: the directory"),
        (
            29,
            7,
            "refused 5 2: FILE, rule 2 counted from 0: a rule is strict",
        ),
        (
            28,
            9,
            "refused 6 1: FILE, rule 1 counted from 0: a rule has a literal",
        ),
        (
            30,
            2,
            "refused 10 2: FILE, rule 2 counted from 0: a rule stands there twice",
        ),
        (4, 1, "refused 11 0: FILE: the last part"),
        (
            34,
            0,
            "refused 12 1: FILE, pair 1 counted from 0: a pair is not",
        ),
    ] {
        let mut image = sound;
        image[at] = byte;
        std::fs::write(&path, image).unwrap();
        let ran = common::run(&["ask", name, "a0"]);
        let told = told.replace("FILE", name);
        assert!(
            ran.status == 1 && ran.err.starts_with(&told),
            "{told}: {}",
            ran.err
        );
        assert!(!ran.err.contains("help"), "{}", ran.err);
    }
    std::fs::write(&path, sound).unwrap();
    assert_eq!(common::run(&["ask", name, "a0"]).status, 0);
    let ran = common::run(&["advise", "../tests/vectors/args4097.img"]);
    let told = "refused 23 0: ../tests/vectors/args4097.img: the program has more";
    assert!(ran.err.starts_with(told), "{}", ran.err);
}

/// Also where the text is longer than an image, and the first bytes end within a character.
#[test]
fn a_text_in_the_place_of_an_image_is_told() {
    let path = common::scratch("errors").join("text.img");
    for text in ["a.\n".to_string(), "% é\n".repeat(400), "é".repeat(1000)] {
        std::fs::write(&path, text).unwrap();
        let ran = common::run(&["advise", path.to_str().unwrap()]);
        let help = "\n help: this is a text; name it .delp\n";
        assert!(ran.status == 1 && ran.err.ends_with(help), "{}", ran.err);
    }
    let ran = common::run(&["show", "shop.delp"]);
    let help = "\n help: this is a text; an image is needed here\n";
    assert!(ran.status == 1 && ran.err.ends_with(help), "{}", ran.err);
}

/// Any bytes at all end in an error or an answer, never in a fault.
#[test]
fn no_text_makes_the_reader_fault() {
    let pieces = [
        "a", "~", "<-", "-<", ".", ",", ":", ":-", ">", "(", ")", "X", "7", "%", "\n", " ", "é",
        "-", "atoms", "r:", ";", "–", "<", "true", "\0",
    ];
    let mut state = 7u64;
    for _ in 0..20_000 {
        let mut text = String::new();
        for _ in 0..12 {
            state = state
                .wrapping_mul(6364136223846793005)
                .wrapping_add(1442695040888963407);
            text += pieces[(state >> 33) as usize % pieces.len()];
        }
        if let Err(flaw) = load_text(&text) {
            flaw.render("x", &text);
        }
    }
}
