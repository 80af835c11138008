//! The way back from filed form: texts and images there and back, the numbers as text, and what is told where it can't be
//! gone.

mod common;

use std::fs;
use std::path::Path;

use common::{loaded, of_image, programs, run, run_with_input, shuffle, Ran, Random};
use foqtirel::fault::Fault;
use foqtirel::{engine, filing, image, numbers};

/// A directory of one test's own, as tests run at once.
struct Scratch(&'static str);

impl Scratch {
    fn path(&self, name: &str) -> String {
        common::path(&format!("unfiling/{}", self.0), name)
    }

    fn write(&self, name: &str, bytes: impl AsRef<[u8]>) -> String {
        common::write(&format!("unfiling/{}", self.0), name, bytes)
    }

    /// Files a program and goes back; returns the filed image, the text of the numbers, and the image that came back.
    fn there_and_back(&self, program: &str) -> (Vec<u8>, String, Vec<u8>) {
        let [form, table, typed] = ["form.img", "numbers", "typed.img"].map(|name| self.path(name));
        let there = run(&["file", program, "-o", &form, "--numbers", &table]);
        assert_eq!(there.status, 0, "{program}: {}", there.err);
        let back = run(&["unfile", &form, "--numbers", &table, "-o", &typed]);
        assert_eq!(back.status, 0, "{program}: {}", back.err);
        let size = there.out.lines().next().unwrap().replace(&form, &typed);
        assert_eq!(back.out, size + "\n", "{program}");
        let numbers = fs::read_to_string(table).unwrap();
        (fs::read(form).unwrap(), numbers, fs::read(typed).unwrap())
    }

    /// The small program below as a text, its filed image, and the numbers.
    fn filed(&self) -> [String; 3] {
        let program = self.write("p.delp", PROGRAM);
        let [form, table] = ["p.img", "p.numbers"].map(|name| self.path(name));
        let ran = run(&["file", &program, "-o", &form, "--numbers", &table]);
        let told = format!(
            "{form}: 38 bytes, 4 atoms, 4 rules (2 defeasible), 0 pairs\n{table}: the old numbers of 4 rules\n"
        );
        assert_eq!((ran.status, ran.out, ran.err), (0, told, String::new()));
        assert_eq!(fs::read_to_string(&table).unwrap(), NUMBERS);
        [program, form, table]
    }

    /// Goes back from an image by numbers that are written so, with plain names for the files in what is told.
    fn back(&self, image: &str, numbers: impl AsRef<[u8]>) -> Ran {
        let (table, out) = (self.write("numbers", numbers), self.path("back.img"));
        let _ = fs::remove_file(&out);
        let ran = run(&["unfile", image, "--numbers", &table, "-o", &out]);
        // What is written and what is refused exclude each other.
        assert_eq!(ran.status == 0, Path::new(&out).exists(), "{}", ran.err);
        let plain = |told: String| {
            let told = told.replace(&table, "numbers").replace(&out, "back.img");
            told.replace(image, "image")
        };
        Ran {
            status: ran.status,
            out: plain(ran.out),
            err: plain(ran.err),
        }
    }
}

/// Rules 2 and 3 go before rules 0 and 1: the strict ones come first, and then heads ascend.
const PROGRAM: &str = "up -< base.\nfits -< base.\ntilt.\nbase.\n";
const NUMBERS: &str = "3\n2\n1\n0\n";
const WRITTEN: &str = "back.img: 38 bytes, 4 atoms, 4 rules (2 defeasible), 0 pairs\n";

/// What it comes back to.
fn typed() -> Vec<u8> {
    image::encode(&filing::by_name(&loaded(PROGRAM)))
}

#[test]
fn images_come_back_in_their_exact_bytes() {
    let scratch = Scratch("images");
    let mut moved = 0;
    for entry in fs::read_dir(common::root().join("tests/vectors")).unwrap() {
        let file = entry.unwrap().path();
        let name = file.to_str().unwrap();
        let bytes = fs::read(&file).unwrap_or_default();
        if name.ends_with(".img") && engine::check(&bytes).is_ok() {
            let (form, numbers, typed) = scratch.there_and_back(name);
            assert_eq!(typed, bytes, "{name}");
            assert_eq!(numbers.lines().count(), usize::from(bytes[2]), "{name}");
            moved += usize::from(form != bytes);
        }
    }
    assert!(moved > 10, "{moved}");
}

/// Of a text comes its image with the rules in its order and the atoms numbered as `file` numbers them.
#[test]
fn texts_come_back_in_their_order() {
    let scratch = Scratch("texts");
    for name in ["shop.delp", "bulletins.delp", "branch.delp", "birds.delp"] {
        let (_, _, typed) = scratch.there_and_back(name);
        let text = fs::read_to_string(common::examples().join(name)).unwrap();
        let numbered = filing::by_name(&loaded(&text));
        assert_eq!(typed, image::encode(&numbered), "{name}");
        let image = scratch.path("typed.img");
        assert_eq!(run(&["same", name, &image]).status, 0, "{name}");
    }
    let empty = scratch.write("empty.delp", "");
    assert_eq!(scratch.there_and_back(&empty).1, "");
}

/// The text of any order of the numbers is read as they were, and leads to a program that is filed with them again.
#[test]
fn any_order_of_random_programs() {
    common::with_stack(|| {
        let mut random = Random(16);
        for program in programs(&mut random, 400) {
            let filed = engine::file(&image::encode(&program)).unwrap();
            let mut order = filed.numbers.clone();
            for _ in 0..2 {
                let placed = numbers::read(&numbers::text(&order)).unwrap();
                let read: Vec<u8> = placed.into_iter().map(|(number, _)| number).collect();
                assert_eq!(read, order);
                let typed = engine::unfile(&filed.image, &order).unwrap();
                let again = engine::file(&typed).unwrap();
                assert_eq!(
                    (again.image, again.numbers),
                    (filed.image.clone(), order.clone())
                );
                shuffle(&mut random, &mut order);
            }
            let back = engine::unfile(&filed.image, &filed.numbers).unwrap();
            assert_eq!(back, image::encode(&program));
        }
    });
}

/// The numbers may be asked for alone, and beside the names.
#[test]
fn file_writes_what_is_asked_for() {
    let scratch = Scratch("asked");
    let [program, form, table] = scratch.filed();
    fs::remove_file(&form).unwrap();
    fs::remove_file(&table).unwrap();
    let ran = run(&["file", &program, "--numbers", &table]);
    let told = format!("{table}: the old numbers of 4 rules\n");
    assert_eq!((ran.status, ran.out), (0, told.clone()));
    assert_eq!(fs::read_to_string(&table).unwrap(), NUMBERS);
    assert!(!Path::new(&form).exists());
    let ran = run(&["file", &program, "--names", "--numbers", &table]);
    let told = told + "0 base\n1 ~base\n";
    assert!(ran.out.starts_with(&told), "{}", ran.out);
    let one = scratch.write("one.delp", "a.");
    let ran = run(&["file", &one, "--numbers", &table]);
    assert_eq!(ran.out, format!("{table}: the old numbers of 1 rule\n"));
}

#[test]
fn numbers_stand_between_white_space() {
    let scratch = Scratch("blanks");
    let [_, form, _] = scratch.filed();
    for numbers in [
        "3\n2\n1\n0\n",
        "3\n2\n1\n0",
        "3 2 1 0",
        "\u{feff}3\r\n2\r\n1\r\n0\r\n",
        "\n\n 3\t2\n\n\u{a0}1 \u{3000}0 \n\n",
        "003 02 000001 0",
    ] {
        let ran = scratch.back(&form, numbers);
        let result = (ran.status, ran.out.as_str(), ran.err.as_str());
        assert_eq!(result, (0, WRITTEN, ""), "{numbers:?}");
        assert_eq!(fs::read(scratch.path("back.img")).unwrap(), typed());
    }
    for (numbers, found) in [("3 2 1 0 9", 5), ("3 2 1 0\n3\n255\n", 6)] {
        let note = format!(
            "note: numbers has {found} numbers for 4 rules; those past the rules are not used\n"
        );
        let ran = scratch.back(&form, numbers);
        assert_eq!((ran.status, ran.out), (0, WRITTEN.to_string() + &note));
    }
}

/// Each with its place, what is wrong, and what to write.
#[test]
fn what_is_no_number_is_told() {
    let scratch = Scratch("no_numbers");
    let [_, form, _] = scratch.filed();
    let no_number = "write the old number of each rule, one a line, as `file` does with --numbers";
    let too_great = "rules are numbered from 0, and there are at most 96";
    let no_text = "a table of numbers is text, as `file` writes it with --numbers";
    #[rustfmt::skip]
    let cases: &[(&[u8], &str, &str, &str)] = &[
        (b"3\n2\nx\n0", "3:1", "`x` is no number", no_number),
        (b"3 2,1 0", "1:3", "`2,1` is no number", no_number),
        (b"3 2\n -1 0", "2:2", "`-1` is no number", no_number),
        (b"+3 2 1 0", "1:1", "`+3` is no number", no_number),
        (b"3 2 1.0 0", "1:5", "`1.0` is no number", no_number),
        (b"0x3", "1:1", "`0x3` is no number", no_number),
        ("3 2 \u{663} 0".as_bytes(), "1:5", "`\u{663}` is no number", no_number),
        ("\u{feff}3 \u{feff}2".as_bytes(), "1:4", "`\\u{feff}2` is no number", no_number),
        (b"3\n\t256", "2:2", "`256` is above 255", too_great),
        (b"3\n2\n1\n0\n99999999999999999999999", "5:1", "is above 255", too_great),
        (b"3\n2\xff", "2:2", "a byte that is not UTF-8 text", no_text),
    ];
    for (numbers, place, what, help) in cases {
        let ran = scratch.back(&form, numbers);
        assert_eq!((ran.status, ran.out.as_str()), (1, ""), "{}", ran.err);
        let lead = format!("numbers:{place}: error: ");
        let help = format!("\n help: {help}\n");
        let told = ran.err.starts_with(&lead) && ran.err.ends_with(&help);
        assert!(told && ran.err.contains(what), "{}", ran.err);
    }
    let whole =
        format!("numbers:2:2: error: `x7` is no number\n 2 |  x7\n   |  ^^\n help: {no_number}\n");
    assert_eq!(scratch.back(&form, "3\n x7").err, whole);
}

#[test]
fn numbers_that_are_not_right_are_told() {
    let scratch = Scratch("not_right");
    let [_, form, _] = scratch.filed();
    #[rustfmt::skip]
    let cases = [
        ("", "25 0: numbers: FEW: 0 numbers for 4 rules"),
        ("3", "25 0: numbers: FEW: 1 number for 4 rules"),
        ("9 9 9", "25 0: numbers: FEW: 3 numbers for 4 rules"),
        ("3 2 1 3", "26 0: numbers:1:7: OTHER: 3 stands on line 1 already; rule 0 is missing"),
        ("0\n2\n0\n1", "26 0: numbers:3:1: OTHER: 0 stands on line 1 already; rule 3 is missing"),
        ("2\n2\n2\n2", "26 0: numbers:2:1: OTHER: 2 stands on line 1 already; rules 0, 1 and 3 are missing"),
        ("3\n4\n1\n0", "26 0: numbers:2:1: OTHER: 4 is not below 4, the number of rules; rule 2 is missing"),
        ("255 2 1 0", "26 0: numbers:1:1: OTHER: 255 is not below 4, the number of rules; rule 3 is missing"),
        // The first of several.
        ("1 1 9 0", "26 0: numbers:1:3: OTHER: 1 stands on line 1 already; rules 2 and 3 are missing"),
        ("9 9 1 1", "26 0: numbers:1:1: OTHER: 9 is not below 4, the number of rules; rules 0, 2 and 3 are missing"),
        // What comes past the rules mends nothing.
        ("3 2 1 1 0", "26 0: numbers:1:7: OTHER: 1 stands on line 1 already; rule 0 is missing"),
    ];
    for (numbers, told) in cases {
        let ran = scratch.back(&form, numbers);
        let told = told.replace("FEW", "there are fewer numbers than rules");
        let told = told.replace("OTHER", "this is not what `file` writes");
        let result = (ran.status, ran.out.as_str(), ran.err);
        assert_eq!(result, (1, "", format!("refused {told}\n")));
    }
}

/// Not all of many missing rules are told.
#[test]
fn many_missing_rules_are_counted() {
    let scratch = Scratch("missing");
    let form = scratch.path("T.img");
    let ran = run(&["file", "../tests/vectors/T.img", "-o", &form]);
    assert_eq!(ran.status, 0, "{}", ran.err);
    for (numbers, missing) in [
        ("0 1 2 3 4 5 6 7 8 8", "rule 9 is missing"),
        ("0 1 2 3 4 4 4 4 4 4", "rules 5, 6, 7, 8 and 9 are missing"),
        (
            "0 1 2 3 3 3 3 3 3 3",
            "rules 4, 5, 6, 7 and 2 more are missing",
        ),
        (
            "0 0 0 0 0 0 0 0 0 0",
            "rules 1, 2, 3, 4 and 5 more are missing",
        ),
    ] {
        let told = scratch.back(&form, numbers).err;
        assert!(told.ends_with(&format!(" already; {missing}\n")), "{told}");
    }
}

/// Whatever the numbers, as long as these are right; they are looked at first.
#[test]
fn an_image_that_is_not_filed_is_told() {
    let scratch = Scratch("not_filed");
    let image = scratch.write("typed.img", typed());
    let told = "refused 26 0: image: this is not what `file` writes: it is not in filed form, where rule 3 comes before \
                rule 0\n help: `file` writes the filed form of an image, and its numbers with --numbers\n";
    for numbers in [NUMBERS, "0 1 2 3"] {
        assert_eq!(scratch.back(&image, numbers).err, told);
    }
    for (numbers, told) in [
        ("0 1 2 2", "refused 26 0: numbers:1:7: "),
        ("0 1 2", "refused 25 0: numbers: "),
    ] {
        let given = scratch.back(&image, numbers).err;
        assert!(given.starts_with(told), "{given}");
    }
}

/// The engine refuses exactly where the tool finds what to tell: of the numbers, or else of the image.
#[test]
fn every_refusal_is_explained() {
    common::with_stack(|| {
        let scratch = Scratch("explained");
        let mut random = Random(26);
        let [mut gone_back, mut by_numbers, mut by_form] = [0; 3];
        for program in programs(&mut random, 300) {
            let bytes = image::encode(&program);
            let filed = engine::file(&bytes).unwrap();
            let mut order = filed.numbers.clone();
            if let Some(entry) = order.first_mut().filter(|_| random.below(2) == 0) {
                *entry = random.below(100) as u8;
            }
            let table = scratch.write("numbers", numbers::text(&order));
            let numbers = numbers::load(&table).ok().unwrap();
            let image = [&filed.image, &bytes][random.below(2)];
            match filing::unfiled(&of_image(image), &numbers) {
                Ok(typed) => {
                    assert_eq!(typed, bytes);
                    gone_back += 1;
                }
                Err(Fault::Refused(_, file, more)) if file.contains(&table) => {
                    assert!(order != filed.numbers && more.contains("missing"), "{more}");
                    by_numbers += 1;
                }
                Err(fault) => {
                    let told = fault.render();
                    assert!(told.contains("not in filed form, where rule"), "{told}");
                    assert!(order == filed.numbers && *image == bytes);
                    by_form += 1;
                }
            }
        }
        let counts = [gone_back, by_numbers, by_form];
        assert!(counts.iter().all(|&count| count > 20), "{counts:?}");
    });
}

#[test]
fn images_are_refused_as_by_other_commands() {
    let scratch = Scratch("refused");
    let broken = scratch.write("broken.img", [0; 12]);
    let contradictory = [
        1, 0, 2, 0, 0, 0, 0, 0, 20, 0, 2, 0, 22, 0, 2, 0, 24, 0, 0, 0, 0, 0, 0, 1,
    ];
    let contradictory = scratch.write("clash.img", contradictory);
    for (image, status, told) in [
        (broken.as_str(), 1, "refused 3 0: "),
        (
            &contradictory,
            1,
            ": these 2 derive a0 and ~a0\n rule 0: a0.\n rule 1: ~a0.\n",
        ),
        ("shop.delp", 1, "this is a text; an image is needed here"),
        ("none.img", 2, "cannot read "),
    ] {
        let ran = scratch.back(image, "0");
        let result = (ran.status, ran.out.as_str());
        assert_eq!(result, (status, ""), "{image}: {}", ran.err);
        assert!(ran.err.contains(told), "{image}: {}", ran.err);
    }
}

#[test]
fn wrong_usage() {
    let scratch = Scratch("usage");
    let [program, form, table] = scratch.filed();
    let (program, form, table) = (program.as_str(), form.as_str(), table.as_str());
    let long = &scratch.write("long", " ".repeat((1 << 24) + 1));
    let out = &scratch.path("none.img");
    let turned = &format!("{}/../usage/none.img", scratch.path(""));
    let page = "\nusage: foqtirel unfile IMAGE --numbers NUMBERS -o OUT\n";
    #[rustfmt::skip]
    let cases: &[(&[&str], &str, &str)] = &[
        (&["unfile", form, "-o", out], "`--numbers NUMBERS` is missing", page),
        (&["unfile", form, "--numbers", table], "`-o OUT` is missing", page),
        (&["unfile", "--numbers", table, "-o", out], "too few words", page),
        (&["unfile", form, "-o", out, "--numbers"], "`--numbers` needs a value", page),
        (&["unfile", form, out], "none.img` has no place here", page),
        (&["unfile", form, "--names"], "`--names` has no place here", page),
        (&["unfile", "-", "--numbers", "-", "-o", out], "standard input can be read once", page),
        (&["unfile", form, "--numbers", "none", "-o", out], "cannot read none", ""),
        (&["unfile", form, "--numbers", long, "-o", out], "that is no table of numbers", ""),
        (&["unfile", form, "--numbers", table, "-o", "-"], "cannot write `-`: name a file", ""),
        (&["unfile", form, "--numbers", table, "-o", "no/such.img"], "cannot write no/such.img", ""),
        (&["file", program, "--numbers", "-"], "cannot write `-`: name a file", ""),
        (&["file", program, "--numbers", "no/such"], "cannot write no/such", ""),
        (&["file", program, "-o", out, "--numbers", out], "go to two files", ""),
        (&["file", program, "-o", out, "--numbers", turned], "go to two files", ""),
        (&["compile", program, "--numbers", out], "`--numbers` has no place here", ""),
    ];
    for (words, told, page) in cases {
        let ran = run(words);
        assert_eq!((ran.status, ran.out.as_str()), (2, ""), "{words:?}");
        let told = ran.err.contains(told) && ran.err.ends_with(page);
        assert!(told && !Path::new(out).exists(), "{words:?}: {}", ran.err);
    }
}

/// Neither the image nor the numbers are written over, nor the program by its numbers.
#[test]
fn nothing_is_written_over_what_is_read() {
    let scratch = Scratch("over");
    let files = scratch.filed();
    let before = files.clone().map(|file| fs::read(file).unwrap());
    let [program, form, table] = &files;
    let link = &scratch.path("link.img");
    let _ = fs::remove_file(link);
    std::os::unix::fs::symlink(table, link).unwrap();
    let back = |out| ["unfile", form, "--numbers", table, "-o", out];
    for (words, told) in [
        (back(form), "the program itself"),
        (back(table), "the table of numbers"),
        (back(link), "the table of numbers"),
        (
            ["file", program, "-o", link, "--numbers", program],
            "the program itself",
        ),
    ] {
        let ran = run(&words);
        let told = format!(" is {told}: name another file to write\n");
        let refused = ran.status == 2 && ran.out.is_empty();
        assert!(
            refused && ran.err.ends_with(&told),
            "{words:?}: {}",
            ran.err
        );
    }
    // The gate takes no checkout with a link in it.
    fs::remove_file(link).unwrap();
    assert_eq!(files.map(|file| fs::read(file).unwrap()), before);
}

#[test]
fn either_may_be_the_standard_input() {
    let scratch = Scratch("input");
    let [_, form, table] = &scratch.filed();
    let out = &scratch.path("typed.img");
    for (words, input) in [
        (["unfile", form, "--numbers", "-", "-o", out], table),
        (["unfile", "-", "--numbers", table, "-o", out], form),
    ] {
        let ran = run_with_input(&words, Path::new(input));
        assert_eq!((ran.status, ran.err.as_str()), (0, ""), "{words:?}");
        assert_eq!(fs::read(out).unwrap(), typed());
        fs::remove_file(out).unwrap();
    }
    let flawed = scratch.write("flawed", "3 x");
    let words = ["unfile", form, "--numbers", "-", "-o", out];
    let ran = run_with_input(&words, Path::new(&flawed));
    let told = "standard input:1:3: error: `x` is no number\n";
    assert!(ran.status == 1 && ran.err.starts_with(told), "{}", ran.err);
}

#[test]
fn a_name_that_is_not_read_as_an_image_is_noted() {
    let scratch = Scratch("name");
    let [_, form, table] = &scratch.filed();
    let out = &scratch.path("typed.bin");
    let ran = run(&["unfile", form, "--numbers", table, "-o", out]);
    let note = "note: only a file whose name ends in .img is read as an image\n";
    assert!(ran.status == 0 && ran.out.ends_with(note), "{}", ran.out);
}
