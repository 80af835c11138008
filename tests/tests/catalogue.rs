//! What the program `catalogue` is expected to print, worked out by the reference.

use std::fs;
use std::path::Path;

use foqtirel_tests::reference::derivation::derived;
use foqtirel_tests::reference::image::read_image;

fn line_for(image: &[u8]) -> String {
    match read_image(image) {
        Err(refusal) => format!("refused {} {}", refusal.cause.number(), refusal.place),
        Ok(program) => {
            let mut line = String::from("derived");
            for literal in derived(&program.strict_rules(), &[]).iter() {
                line.push_str(&format!(" {}", literal.number()));
            }
            line
        }
    }
}

#[test]
fn stored_output_is_what_the_reference_derives() {
    let folder = Path::new(env!("CARGO_MANIFEST_DIR")).join("../crates/catalogue");
    let names = fs::read_to_string(folder.join("args")).unwrap();
    let mut expected = String::new();
    for name in names.lines() {
        match fs::read(folder.join("data").join(name)) {
            Ok(image) => expected.push_str(&line_for(&image)),
            Err(_) => expected.push_str("no such file"),
        }
        expected.push('\n');
    }
    let stored = fs::read_to_string(folder.join("stdout")).unwrap();
    assert_eq!(stored, expected);
    assert!(names.lines().count() >= 10);
}
