//! The numbers of `include/foqtirel.h`.

use std::collections::BTreeMap;
use std::fs;
use std::path::{Path, PathBuf};

/// The root of the repository.
pub fn root() -> PathBuf {
    Path::new(env!("CARGO_MANIFEST_DIR")).join("..")
}

/// `ImageLength` as `IMAGE_LENGTH`, the header's form of a name.
pub fn in_capitals(name: &str) -> String {
    let mut capitals = String::new();
    for (position, letter) in name.char_indices() {
        if position > 0 && letter.is_uppercase() {
            capitals.push('_');
        }
        capitals.extend(letter.to_uppercase());
    }
    capitals
}

/// Every `#define FOQTIREL_NAME number`, with `NAME` for its key; a number may be a product.
pub fn constants() -> BTreeMap<String, usize> {
    text().lines().filter_map(constant).collect()
}

/// Those of the paragraph on refusals.
pub fn causes() -> BTreeMap<String, usize> {
    let text = text();
    let (_, rest) = text.split_once("* The refusals: ").expect("a paragraph");
    let paragraph = rest.lines().take_while(|line| !line.is_empty());
    paragraph.filter_map(constant).collect()
}

fn text() -> String {
    let path = root().join("include/foqtirel.h");
    fs::read_to_string(&path).unwrap_or_else(|e| panic!("{}: {e}", path.display()))
}

fn constant(line: &str) -> Option<(String, usize)> {
    let (name, rest) = line.strip_prefix("#define FOQTIREL_")?.split_once(' ')?;
    let value = rest.split("/*").next()?.trim();
    let product = value.trim_start_matches('(').trim_end_matches(')');
    let factor = |text: &str| text.trim().strip_suffix('u')?.parse::<usize>().ok();
    let factors: Option<Vec<usize>> = product.split('*').map(factor).collect();
    Some((name.to_string(), factors?.into_iter().product()))
}
