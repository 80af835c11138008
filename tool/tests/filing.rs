//! Filed images, and whether two programs hold the same: of random programs typed in any order, and what is told.

mod common;

use std::fs;

use common::{loaded, of_image, programs, run, run_with_input, shuffle, Random};
use foqtirel::load::{load_text, Loaded};
use foqtirel::program::Program;
use foqtirel::{engine, filing, image, same};

fn filed_image(loaded: &Loaded) -> Vec<u8> {
    let filed = filing::filed(loaded).map_err(|fault| fault.render());
    filed.unwrap().loaded.image
}

/// The engine's filed form.
fn form(image: &[u8]) -> Vec<u8> {
    engine::file(image).unwrap().image
}

fn filed(text: &str) -> Vec<u8> {
    filed_image(&loaded(text))
}

fn holds_same(one: &Loaded, other: &Loaded) -> bool {
    let verdict = same::compare(one, other)
        .map_err(|fault| fault.render())
        .unwrap();
    let same = verdict.text.contains(" hold the same: ");
    assert_eq!(verdict.same, same, "{}", verdict.text);
    assert_eq!(
        verdict.same,
        !verdict.text.contains("only here"),
        "{}",
        verdict.text
    );
    verdict.same
}

/// A program as some branch types it: rules, preferences and bodies in any order, labels of its own. Only atoms in no rule
/// are declared.
fn typed(program: &Program, branch: char, random: &mut Random) -> String {
    let label = |number: u8| format!("{branch}{number}");
    let mut statements = Vec::new();
    let mut used = vec![false; program.atoms.len()];
    for (number, rule) in program.rules.iter().enumerate() {
        let mut body: Vec<String> = rule.body.iter().map(|&l| program.literal(l)).collect();
        shuffle(random, &mut body);
        let sign = if rule.defeasible { "-<" } else { "<-" };
        let rest = match body.is_empty() {
            true => String::new(),
            false => format!(" {sign} {}", body.join(", ")),
        };
        let head = program.literal(rule.head);
        statements.push(format!("{}: {head}{rest}.", label(number as u8)));
        for literal in rule.body.iter().chain([&rule.head]) {
            used[usize::from(literal / 2)] = true;
        }
    }
    for &(first, second) in &program.pairs {
        statements.push(format!("{} > {}.", label(first), label(second)));
    }
    shuffle(random, &mut statements);
    let unused = (0..used.len()).filter(|&atom| !used[atom]);
    let unused: Vec<&str> = unused.map(|atom| program.atoms[atom].as_str()).collect();
    if !unused.is_empty() {
        statements.insert(0, format!(":- atoms {}.", unused.join(", ")));
    }
    statements.join("\n")
}

#[test]
fn one_program_in_any_order_has_one_filed_image() {
    common::with_stack(|| {
        let mut random = Random(12);
        let (mut compiled, mut moved) = (0, 0);
        for program in programs(&mut random, 600) {
            let one = typed(&program, 'x', &mut random);
            let other = typed(&program, 'y', &mut random);
            assert_eq!(filed(&one), filed(&other), "{one}\n\n{other}");
            assert!(holds_same(&loaded(&one), &loaded(&other)));
            compiled += usize::from(loaded(&one).image != loaded(&other).image);
            moved += usize::from(filed(&one) != loaded(&one).image);
        }
        assert!(compiled > 300 && moved > 300, "{compiled} {moved}");
    });
}

/// A change of one thing that leaves the program sound, or none.
fn changed(program: &Program, random: &mut Random) -> Option<Program> {
    let mut other = program.clone();
    let rules = other.rules.len();
    if rules == 0 {
        return None;
    }
    let number = random.below(rules);
    let literal = random.below(2 * program.atoms.len()) as u8;
    match random.below(5) {
        0 => other.rules[number].head = literal,
        1 => other.rules[number].body.push(literal),
        2 => {
            other.rules[number].body.pop();
        }
        3 => {
            other.pairs.pop();
        }
        _ => other.rules[number].defeasible = !other.rules[number].defeasible,
    }
    let body = &mut other.rules[number].body;
    body.sort_unstable();
    body.dedup();
    let sound = engine::check(&image::encode(&other)).is_ok();
    (sound && other != *program).then_some(other)
}

/// As texts, as images and as one of each; the engine says whether, and the tool finds where.
#[test]
fn a_change_is_seen_in_any_order() {
    common::with_stack(|| {
        let mut random = Random(13);
        let mut seen = 0;
        for program in programs(&mut random, 1500) {
            let Some(other) = changed(&program, &mut random) else {
                continue;
            };
            let texts = [&program, &other].map(|program| loaded(&typed(program, 'x', &mut random)));
            assert!(!holds_same(&texts[0], &texts[1]));
            let images = [&program, &other].map(|program| of_image(&image::encode(program)));
            assert!(!holds_same(&images[0], &images[1]));
            let typed = loaded(&typed(&program, 'x', &mut random));
            let [made, form] = [&typed.image, &filed_image(&typed)].map(|i| of_image(i));
            assert!(holds_same(&typed, &made) && holds_same(&form, &typed));
            seen += 1;
        }
        assert!(seen > 500, "{seen}");
    });
}

/// Where two programs number their atoms alike, what is found is empty exactly where the filed images are equal.
#[test]
fn what_is_found_is_what_the_engine_says() {
    common::with_stack(|| {
        let mut random = Random(14);
        let [mut equal, mut differ] = [0; 2];
        for program in programs(&mut random, 1000) {
            let other = match random.below(2) {
                0 => changed(&program, &mut random).unwrap_or_else(|| program.clone()),
                _ => program.clone(),
            };
            let found = [
                same::only_in(&program, &other),
                same::only_in(&other, &program),
            ];
            let none = found
                .iter()
                .all(|only| only.rules.is_empty() && only.pairs.is_empty());
            let [one, two] = [&program, &other].map(|program| form(&image::encode(program)));
            assert_eq!(none, one == two, "{found:?}");
            equal += usize::from(none);
            differ += usize::from(!none);
        }
        assert!(equal > 200 && differ > 200, "{equal} {differ}");
    });
}

/// What is declared keeps its numbers, in its order; what is not comes after it by name.
#[test]
fn atoms_are_numbered_as_declared_and_then_by_name() {
    let names = |text: &str| filing::by_name(&loaded(text)).atoms.join(" ");
    assert_eq!(names("tilt. base <- tilt. a2. a10."), "a10 a2 base tilt");
    assert_eq!(
        names(":- atoms tilt, rail.\nbase. a <- tilt."),
        "tilt rail a base"
    );
    assert_eq!(names("f(b). f(a). ~e."), "e f(a) f(b)");
    assert_eq!(names(""), "");
    // In the image, too: a fact b beside a rule with head a.
    let text = "b. a <- b.";
    assert_eq!(filed(text)[20..], [0, 0, 2, 0, 2]);
    assert_eq!(filed(":- atoms b.\na <- b. b."), load_text(text).unwrap().0);
}

/// `show` declares every atom, so its text has the image's numbers.
#[test]
fn a_shown_image_is_filed_as_the_image() {
    common::with_stack(|| {
        let mut random = Random(15);
        for program in programs(&mut random, 400) {
            let bytes = image::encode(&program);
            let shown = image::decode(&bytes).unwrap().text();
            let form = form(&bytes);
            assert_eq!(filed(&shown), form);
            assert_eq!(filed_image(&of_image(&bytes)), form);
        }
    });
}

fn path(name: &str) -> String {
    common::path("filing", name)
}

fn write(name: &str, bytes: impl AsRef<[u8]>) -> String {
    common::write("filing", name, bytes)
}

#[test]
fn file_tells_what_it_wrote() {
    let out = &path("shop.img");
    let ran = run(&["file", "shop.delp", "-o", out]);
    let told = format!("{out}: 169 bytes, 12 atoms, 22 rules (8 defeasible), 3 pairs\n");
    assert_eq!(
        (ran.status, ran.out, ran.err),
        (0, told.clone(), String::new())
    );
    let form = fs::read(out).unwrap();
    assert_eq!(self::form(&form), form);

    // An image that is filed already is told as such, and written all the same.
    let again = path("again.img");
    let ran = run(&["file", out, "-o", &again]);
    let note = format!("note: {out} was in filed form already\n");
    let told = told.replace(out, &again);
    assert_eq!((ran.status, ran.out), (0, told + &note));
    assert_eq!(fs::read(again).unwrap(), form);

    // Another order is not.
    let compiled = &path("compiled.img");
    assert_eq!(run(&["compile", "shop.delp", "-o", compiled]).status, 0);
    let other = &path("other.img");
    let ran = run(&["file", compiled, "-o", other]);
    assert!(
        ran.status == 0 && ran.out.lines().count() == 1,
        "{}",
        ran.out
    );
    let wanted = self::form(&fs::read(compiled).unwrap());
    assert_eq!(fs::read(other).unwrap(), wanted);

    let ran = run(&["file", "shop.delp", "-o", &path("shop.bin")]);
    assert!(ran.out.ends_with("is read as an image\n"), "{}", ran.out);
}

/// Each literal of the text has its answer under the number that `--names` tells.
#[test]
fn the_names_are_those_of_the_filed_image() {
    let out = &path("names.img");
    let told = run(&["file", "shop.delp", "--names"]).out;
    let both = run(&["file", "shop.delp", "--names", "-o", out]).out;
    assert_eq!(both.split_once('\n').unwrap().1, told);
    assert!(
        told.starts_with("0 base_a\n1 ~base_a\n2 basket_fits\n"),
        "{told}"
    );
    assert_eq!(told.lines().count(), 24);
    let answer = |file: &str, literal: &str| {
        let out = run(&["ask", file, literal]).out;
        out.split_once(':').unwrap().0.to_string()
    };
    for line in told.lines() {
        let (number, name) = line.split_once(' ').unwrap();
        assert_eq!(answer(out, number), answer("shop.delp", name), "{line}");
    }
}

/// Nothing is written where there is an error, and statuses are those of the other commands.
#[test]
fn file_refuses_what_compile_refuses() {
    let out = &path("none.img");
    let _ = fs::remove_file(out);
    let contradictory = write("clash.delp", "a.\n~a.\n");
    let flawed = write("flawed.delp", "a b.\n");
    let broken = write("broken.img", [0; 12]);
    for (file, status, told) in [
        (contradictory.as_str(), 1, "these 2 derive `a` and `~a`"),
        (&flawed, 1, "found `b`"),
        (&broken, 1, "refused 3 0: "),
        ("../tests/vectors/over1837.img", 1, "refused 1 0: "),
        ("none.img", 2, "cannot read none.img"),
    ] {
        let ran = run(&["file", file, "-o", out]);
        assert_eq!(
            (ran.status, ran.out.as_str()),
            (status, ""),
            "{file}: {}",
            ran.err
        );
        assert!(ran.err.contains(told), "{file}: {}", ran.err);
        assert!(!fs::exists(out).unwrap());
    }
    let program = write(
        "self.img",
        fs::read(common::root().join("tests/vectors/T.img")).unwrap(),
    );
    let ran = run(&["file", &program, "-o", &program]);
    let told = format!("foqtirel: {program} is the program itself: name another file to write\n");
    assert_eq!((ran.status, ran.err), (2, told));
}

const BASE: &str = "base. tilt.\nb3: fits -< base.\nb7: ~fits -< base, tilt.\nb7 > b3.\n";

/// What `same` prints of two files, without their names: a for the first, b for the second.
fn compared(one: &str, other: &str) -> (i32, String) {
    let ran = run(&["same", one, other]);
    assert_eq!(ran.err, "", "{one} {other}");
    (ran.status, ran.out.replace(one, "a").replace(other, "b"))
}

const SIZE: &str = "3 atoms, 4 rules (2 defeasible), 1 pair";

#[test]
fn texts_are_matched_by_name() {
    let one = write("one.delp", BASE);
    #[rustfmt::skip]
    let cases: &[(&str, i32, &str)] = &[
        (BASE, 0, "hold the same: SIZE\n"),
        ("y > x. % typed by another branch\ny: ~fits -< tilt, base. x: fits -< base. tilt. base <- true.", 0, "hold the same: SIZE\n"),
        (":- atoms tilt.\nbase. tilt. b3: fits -< base. b7: ~fits -< base, tilt. b7 > b3.", 0,
            "hold the same: SIZE\nnote: their images differ: `:- atoms` numbers their atoms differently\n"),
        (":- atoms rail.\nbase. tilt. b3: fits -< base. b7: ~fits -< base, tilt. b7 > b3.", 1,
            "do not hold the same\nb: only here: atom rail\n"),
        ("base. tilt.\nb3: fits -< base.\nb7: ~fits -< base, tilt.\n", 1,
            "do not hold the same\na:4:1: only here: b7 > b3.\n"),
        ("base. tilt.\nb3: fits -< base.\nb7: ~fits -< base, tilt.\n  b3 > b7.", 1,
            "do not hold the same\na:4:1: only here: b7 > b3.\nb:4:3: only here: b3 > b7.\n"),
        ("base. tilt.\n fits <- base.\nb7: ~fits -< base, tilt.\n", 1,
            "do not hold the same\na:2:1: only here: b3: fits -< base.\nb:2:2: only here: fits <- base.\n\
             a:4:1: only here: b7 > b3. (so is its second rule)\n"),
        ("base. tilt.\nb3: fits -< base.\nb7: ~fits -< tilt, rail.\nb7 > b3.", 1,
            "do not hold the same\nb: only here: atom rail\n\
             a:3:1: only here: b7: ~fits -< base, tilt.\nb:3:1: only here: b7: ~fits -< tilt, rail.\n\
             a:4:1: only here: b7 > b3. (so is its first rule)\nb:4:1: only here: b7 > b3. (so is its first rule)\n"),
        ("", 1,
            "do not hold the same\na: only here: atom base\na: only here: atom tilt\na: only here: atom fits\n\
             a:1:1: only here: base.\na:1:7: only here: tilt.\n\
             a:2:1: only here: b3: fits -< base.\na:3:1: only here: b7: ~fits -< base, tilt.\n\
             a:4:1: only here: b7 > b3. (so are its rules)\n"),
    ];
    for (text, status, told) in cases {
        let other = write("two.delp", text);
        let told = format!("a and b {}", told.replace("SIZE", SIZE));
        assert_eq!(compared(&one, &other), (*status, told), "{text}");
        // The other way round, what is told of the two changes places.
        let (turned, lines) = compared(&other, &one);
        assert_eq!(turned, *status, "{text}: {lines}");
    }
}

#[test]
fn images_are_matched_by_number() {
    let vector = |name: &str| format!("../tests/vectors/{name}.img");
    let form = &path("T.img");
    assert_eq!(run(&["file", &vector("T"), "-o", form]).status, 0);
    let size = "4 atoms, 10 rules (3 defeasible), 0 pairs";
    let told = format!("a and b hold the same: {size}\n");
    assert_eq!(compared(&vector("T"), form), (0, told));
    let told = "a and b do not hold the same\na, pair 0: only here: `a1 -< a0` > `~a1 -< a0`.\n";
    assert_eq!(
        compared(&vector("F"), &vector("Fnopair")),
        (1, told.to_string())
    );
    let told = "a and b do not hold the same\na has 2 atoms, b has 0 atoms\n\
                a, rule 0: only here: a0.\na, rule 1: only here: a1 -< a0.\na, rule 2: only here: ~a1 -< a0.\n\
                a, pair 0: only here: `a1 -< a0` > `~a1 -< a0`. (so are its rules)\n";
    assert_eq!(
        compared(&vector("F"), &vector("empty")),
        (1, told.to_string())
    );
    let told = "a and b do not hold the same\na has 0 atoms, b has 64 atoms\n";
    assert_eq!(
        compared(&vector("empty"), &vector("atoms64")),
        (1, told.to_string())
    );
}

/// An image of `compile` or of `file` holds the same as its text; one that differs is told by the text's names.
#[test]
fn a_text_and_an_image() {
    let text = write("mixed.delp", BASE);
    let note = |command: &str, file: char| {
        format!("note: an image has no names: atoms are matched by the numbers that `{command}` gives those of {file}\n")
    };
    let image = &path("mixed.img");
    for command in ["file", "compile"] {
        assert_eq!(run(&[command, &text, "-o", image]).status, 0);
        let told = format!("a and b hold the same: {SIZE}\n");
        assert_eq!(
            compared(&text, image),
            (0, told.clone() + &note(command, 'a'))
        );
        assert_eq!(compared(image, &text), (0, told + &note(command, 'b')));
    }
    let other = write("changed.delp", BASE.replace("-< base, tilt", "-< tilt"));
    let told = format!(
        "a and b do not hold the same\na:3:1: only here: b7: ~fits -< tilt.\nb, rule 3: only here: ~fits -< base, tilt.\n\
         a:4:1: only here: b7 > b3. (so is its first rule)\n\
         b, pair 0: only here: `~fits -< base, tilt` > `fits -< base`. (so is its first rule)\n{}",
        note("compile", 'a')
    );
    assert_eq!(compared(&other, image), (1, told));
    let more = write(
        "more.delp",
        format!(":- atoms base, tilt, fits, rail.\n{BASE}"),
    );
    let told = format!(
        "a and b do not hold the same\na has 3 atoms, b has 4 atoms\n{}",
        note("compile", 'b')
    );
    assert_eq!(compared(image, &more), (1, told));
}

/// No error has the status of a difference.
#[test]
fn an_error_is_no_difference() {
    let flawed = write("unread.delp", "a b.\n");
    let contradictory = write("against.delp", "a.\n~a.\n");
    let broken = write("torn.img", [0; 12]);
    for (file, told) in [
        (flawed.as_str(), "unread.delp:1:3: error: "),
        (&contradictory, "against.delp:2:1: error: "),
        (&broken, "refused 3 0: "),
        ("none.delp", "foqtirel: cannot read none.delp"),
    ] {
        for words in [["same", file, "shop.delp"], ["same", "shop.delp", file]] {
            let ran = run(&words);
            let result = (ran.status, ran.out.as_str());
            assert_eq!(result, (2, ""), "{words:?}: {}", ran.err);
            assert!(ran.err.contains(told), "{words:?}: {}", ran.err);
        }
    }
}

#[test]
fn standard_input_is_a_text_like_others() {
    let shop = common::examples().join("shop.delp");
    for words in [["same", "-", "shop.delp"], ["same", "shop.delp", "-"]] {
        let ran = run_with_input(&words, &shop);
        assert!(
            ran.status == 0 && ran.out.contains("standard input"),
            "{}",
            ran.out
        );
    }
    let out = path("input.img");
    let ran = run_with_input(&["file", "-", "-o", &out], &shop);
    assert_eq!((ran.status, ran.err.as_str()), (0, ""));
    assert_eq!(
        fs::read(out).unwrap(),
        filed(&fs::read_to_string(shop).unwrap())
    );
}

/// What is told of a file's name, a label or an atom is shown and not obeyed.
#[test]
fn names_are_shown_plainly() {
    let odd = write("odd\u{1b}.delp", "a.");
    let other = write("plain.delp", "b.");
    let ran = run(&["same", &odd, &other]);
    assert!(
        ran.status == 1 && !ran.out.contains('\u{1b}'),
        "{}",
        ran.out
    );
}
