//! Every edit that must be refused still applies: each text that it replaces stands once in its file, so that what it shows
//! has not moved away from under it. The gate tries those of must-fail, and `tools/wrong` those of wrong.

use std::fs;
use std::path::{Path, PathBuf};

fn crates() -> PathBuf {
    Path::new(env!("CARGO_MANIFEST_DIR")).join("../crates")
}

fn entries(folder: &Path) -> Vec<PathBuf> {
    let Ok(read) = fs::read_dir(folder) else {
        return Vec::new();
    };
    let mut paths: Vec<PathBuf> = read.map(|entry| entry.unwrap().path()).collect();
    paths.sort();
    paths
}

/// Makes the edit's replacements in the texts that it names, and says what is wrong with it.
fn apply(krate: &Path, edit: &str) -> Result<(), String> {
    let mut lines = edit.lines();
    if !lines.next().is_some_and(|line| line.starts_with("# ")) {
        return Err("its first line is no comment".into());
    }
    let mut texts: Vec<(String, String)> = Vec::new();
    let mut old = None;
    let mut pairs = 0;
    for line in lines {
        if let Some(file) = line.strip_prefix("file: ") {
            let at = texts.iter().position(|(name, _)| name == file);
            let text = match at {
                Some(at) => texts.remove(at).1,
                None => fs::read_to_string(krate.join(file)).map_err(|e| format!("{file}: {e}"))?,
            };
            texts.push((file.into(), text));
        } else if let Some(text) = line.strip_prefix("old: ") {
            old = Some(text);
        } else if let Some(new) = line.strip_prefix("new:") {
            let new = new.strip_prefix(' ').unwrap_or(new);
            let old = old.take().ok_or("a `new:` without its `old:`")?;
            let (file, text) = texts.last_mut().ok_or("a `new:` without its `file:`")?;
            match text.matches(old).count() {
                1 => *text = text.replace(old, new),
                n => return Err(format!("`{old}` stands {n} times in {file}")),
            }
            if old == new {
                return Err(format!("`{old}` stays as it is"));
            }
            pairs += 1;
        } else {
            return Err(format!("a line that says nothing: `{line}`"));
        }
    }
    match (pairs, old) {
        (0, _) => Err("it replaces nothing".into()),
        (_, Some(old)) => Err(format!("`{old}` without its `new:`")),
        _ => Ok(()),
    }
}

#[test]
fn every_edit_applies() {
    let mut bad = Vec::new();
    let mut seen = 0;
    for krate in entries(&crates()) {
        for folder in ["must-fail", "wrong"] {
            for edit in entries(&krate.join(folder)) {
                seen += 1;
                let text = fs::read_to_string(&edit).unwrap();
                if let Err(why) = apply(&krate, &text) {
                    bad.push(format!("{}: {why}", edit.display()));
                }
            }
        }
    }
    assert!(seen > 100, "only {seen} edits were found");
    assert!(bad.is_empty(), "{}", bad.join("\n"));
}
