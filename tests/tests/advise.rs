//! What the program `advise` is expected to print where the gate runs it, worked out by the reference.

use std::fs;
use std::path::Path;

use foqtirel_tests::reference::advise::advise;

#[test]
fn stored_output_is_what_the_reference_advises() {
    let folder = Path::new(env!("CARGO_MANIFEST_DIR")).join("../crates/advise");
    let image = fs::read(folder.join("stdin")).unwrap();
    let stored = fs::read_to_string(folder.join("stdout")).unwrap();
    assert_eq!(stored, advise(&image));
    assert!(stored.contains("YES"));
}
