//! Images to text and back, on random programs.

mod common;

use common::{program, Random};
use foqtirel::load::load_text;
use foqtirel::program::Program;
use foqtirel::{engine, image};

/// The same program written by hand, as it were: other names, other blanks, bodies in any order, pairs too.
fn written(program: &Program, random: &mut Random) -> String {
    let mut named = program.clone();
    for (atom, name) in named.atoms.iter_mut().enumerate() {
        *name = [
            format!("x_{atom}"),
            format!("f(c{atom},9)"),
            format!("g(h( k ),n{atom})"),
        ][random.below(3)]
        .clone();
    }
    let mut text = String::from("% written\n");
    for (atom, name) in named.atoms.iter().enumerate() {
        let end = if atom + 1 == named.atoms.len() {
            " .\n"
        } else {
            ",\n  "
        };
        text += &format!("{}{name}{end}", if atom == 0 { ":- atoms\t" } else { "" });
    }
    for (number, rule) in named.rules.iter().enumerate() {
        let mut body: Vec<String> = rule
            .body
            .iter()
            .map(|&literal| named.literal(literal))
            .collect();
        let turn = random.below(body.len().max(1));
        body.rotate_left(turn);
        let sign = if rule.defeasible { "-<" } else { "<-" };
        let rest = if body.is_empty() {
            String::new()
        } else {
            format!(" {sign}\n {} ", body.join(" ,"))
        };
        text += &format!(
            "L{number} : {}{rest}. % rule {number}\n",
            named.literal(rule.head)
        );
    }
    for (first, second) in named.pairs.iter().rev() {
        text += &format!("L{first}>L{second}.");
    }
    text
}

#[test]
fn compile_of_show_is_the_image() {
    common::with_stack(|| {
        let mut random = Random(20261115);
        let (mut kept, mut contradictory, mut largest) = (0, 0, 0);
        while kept < 2000 {
            let program = program(&mut random);
            let bytes = image::encode(&program);
            match engine::check(&bytes) {
                Ok(()) => kept += 1,
                Err(refusal) => {
                    assert_eq!(refusal.number, 14);
                    contradictory += 1;
                    assert!(load_text(&program_text(&bytes))
                        .unwrap_err()
                        .what
                        .contains("derive"));
                    continue;
                }
            }
            largest = largest.max(bytes.len());
            assert_eq!(load_text(&program_text(&bytes)).unwrap().0, bytes);
            assert_eq!(load_text(&written(&program, &mut random)).unwrap().0, bytes);
        }
        assert!(
            contradictory > 100 && largest > 900,
            "{contradictory} {largest}"
        );
    });
}

fn program_text(bytes: &[u8]) -> String {
    image::decode(bytes).unwrap().text()
}

#[test]
fn the_commands_go_round_too() {
    let directory = common::scratch("roundtrip");
    for name in [
        "F",
        "T",
        "empty",
        "full1836",
        "atoms64",
        "rules96pairs120",
        "bodies8",
        "noargs",
    ] {
        let image = common::root().join(format!("tests/vectors/{name}.img"));
        let shown = common::run(&["show", image.to_str().unwrap()]);
        assert_eq!(shown.status, 0, "{}", shown.err);
        let (text, back) = (
            directory.join(format!("{name}.delp")),
            directory.join(format!("{name}.img")),
        );
        std::fs::write(&text, shown.out).unwrap();
        let compiled = common::run(&[
            "compile",
            text.to_str().unwrap(),
            "-o",
            back.to_str().unwrap(),
        ]);
        assert_eq!(compiled.status, 0, "{}", compiled.err);
        assert_eq!(
            std::fs::read(back).unwrap(),
            std::fs::read(image).unwrap(),
            "{name}"
        );
    }
}

/// Damaged images are refused or read, and what is accepted goes round.
#[test]
fn no_image_makes_the_reader_fault() {
    common::with_stack(|| {
        let mut random = Random(8);
        for _ in 0..3000 {
            let mut bytes = image::encode(&program(&mut random));
            for _ in 0..random.below(4) {
                let at = random.below(bytes.len());
                bytes[at] = [random.below(256), random.below(8), 255][random.below(3)] as u8;
            }
            if random.below(4) == 0 {
                bytes.truncate(random.below(bytes.len()));
            }
            let decoded = image::decode(&bytes);
            if engine::check(&bytes).is_ok() {
                assert_eq!(load_text(&decoded.unwrap().text()).unwrap().0, bytes);
            }
        }
    });
}
