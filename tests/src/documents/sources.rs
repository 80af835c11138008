//! The files of the tree, and the names that they define.

use std::collections::{BTreeMap, BTreeSet};
use std::fs;
use std::path::Path;

use super::definitions::{of_code, of_proofs};
use super::is_name_letter;

pub struct Sources {
    /// Files and folders by their path from the root.
    paths: BTreeSet<String>,
    /// The names that each file of `crates/` defines.
    definitions: BTreeMap<String, BTreeSet<String>>,
    /// The names that the Rust sources define, the calls of the header, and the words of the programs as text.
    words: BTreeSet<String>,
    /// Those of the programs as text alone.
    said: BTreeSet<String>,
    /// The text of `tools/build`.
    build: String,
}

impl Sources {
    pub fn read(root: &Path) -> Sources {
        let mut sources = Sources {
            paths: BTreeSet::new(),
            definitions: BTreeMap::new(),
            words: BTreeSet::new(),
            said: BTreeSet::new(),
            build: fs::read_to_string(root.join("tools/build")).unwrap_or_default(),
        };
        sources.walk(root, "");
        sources
    }

    fn walk(&mut self, root: &Path, folder: &str) {
        for entry in fs::read_dir(root.join(folder)).expect("a folder") {
            let entry = entry.expect("an entry");
            let name = entry.file_name().to_string_lossy().into_owned();
            let path = format!("{folder}{name}");
            let made = name == "out" && folder.starts_with("crates/");
            if made || name == "target" || name == ".git" {
                continue;
            }
            if entry.path().is_dir() {
                self.walk(root, &format!("{path}/"));
            } else {
                self.index(&path, &entry.path());
            }
            self.paths.insert(path);
        }
    }

    fn index(&mut self, path: &str, file: &Path) {
        let text = || fs::read_to_string(file).unwrap_or_else(|error| panic!("{path}: {error}"));
        let ending = path.rsplit('.').next().unwrap_or_default();
        if path.starts_with("crates/") {
            let names = match ending {
                "antt" => of_proofs(&text()),
                "rt" => of_code(&text()),
                _ => return,
            };
            self.definitions.insert(path.to_string(), names);
        } else if ending == "rs" {
            self.words.extend(of_code(&text()));
        } else if ["h", "delp"].contains(&ending) {
            let text = text();
            let words = text.split(|letter| !is_name_letter(letter));
            let own = words.filter(|word| ending == "delp" || word.starts_with("foqtirel_"));
            let own: Vec<String> = own.map(str::to_string).collect();
            if ending == "delp" {
                self.said.extend(own.iter().cloned());
            }
            self.words.extend(own);
        }
    }

    /// The files and folders that a path of a document means: from the root, from `crates/` or from a crate, there with
    /// the ending left out, too.
    pub fn find(&self, path: &str) -> Vec<&str> {
        let path = path.trim_end_matches('/');
        let forms = [
            path.to_string(),
            format!("crates/{path}"),
            format!("crates/{path}.antt"),
            format!("crates/{path}.edit"),
            format!("crates/*/{path}"),
            format!("*/{path}"),
        ];
        // A file's name alone means it wherever it is.
        let anywhere = |there: &str| {
            let name = there.rsplit('/').next().unwrap_or_default();
            !path.contains('/') && matches(path, name)
        };
        self.paths
            .iter()
            .map(String::as_str)
            .filter(|there| anywhere(there) || forms.iter().any(|form| matches(form, there)))
            .collect()
    }

    pub fn has_folder(&self, name: &str) -> bool {
        self.paths.contains(name) || self.has_crate(name) || name == "target"
    }

    pub fn has_crate(&self, name: &str) -> bool {
        self.paths.contains(&format!("crates/{name}/src"))
    }

    /// True for what a build makes: a program or a library of a crate, which `tools/build` has to name, or the command-line
    /// tool.
    pub fn makes(&self, folder: &str, made: &str) -> bool {
        if let Some(program) = made.strip_prefix("bin/") {
            let source = format!("crates/{program}/src/main.rt");
            return self.paths.contains(&source) && self.builds(program);
        }
        if let Some(library) = made.strip_prefix("staticlib/") {
            let name = library
                .strip_prefix("lib")
                .and_then(|l| l.strip_suffix(".a"));
            let there = |name| self.has_crate(name) && self.builds(library);
            return library.is_empty() || name.is_some_and(there);
        }
        folder == "tool/" && made == "release/foqtirel"
    }

    /// True if `tools/build` copies a file of this name to where it is looked for.
    fn builds(&self, file: &str) -> bool {
        let words = self.build.split_whitespace();
        words
            .filter_map(|word| word.rsplit('/').next())
            .any(|name| name == file)
    }

    /// True if a file of `crates/` defines the name, or it is the name of a crate.
    pub fn defines(&self, name: &str) -> bool {
        self.has_crate(name) || self.definitions.values().any(|names| names.contains(name))
    }

    /// The same for one file, or for those of a folder.
    pub fn defines_in(&self, path: &str, name: &str) -> bool {
        let below = format!("{path}/");
        self.definitions
            .iter()
            .filter(|(file, _)| *file == path || file.starts_with(&below))
            .any(|(_, names)| names.contains(name))
    }

    /// True if something outside `crates/` has the name.
    pub fn mentions(&self, name: &str) -> bool {
        self.words.contains(name)
    }

    /// True if a program as text has the name.
    pub fn says(&self, name: &str) -> bool {
        self.said.contains(name)
    }

    /// `crate::module::function`, `module::function` or `Type::Variant`.
    pub fn has_item(&self, item: &str) -> bool {
        let parts: Vec<&str> = item.split("::").collect();
        let (first, last) = (parts[0], parts[parts.len() - 1]);
        if !self.has_crate(first) {
            let module = format!("/{first}.rt");
            return self.definitions.iter().any(|(file, names)| {
                (file.ends_with(&module) || names.contains(first)) && names.contains(last)
            });
        }
        let source = format!("crates/{first}/src");
        parts[1..].iter().all(|part| self.defines_in(&source, part))
    }
}

/// Words that stand for any file or folder.
const ANY: [&str; 5] = ["*", "NAME", "FILE", "FUNCTION", "NOTION"];

/// True if a path has the form of another, in which one of those words may be a part, or what comes before its ending.
fn matches(form: &str, path: &str) -> bool {
    let (forms, parts) = (form.split('/'), path.split('/'));
    if forms.clone().count() != parts.clone().count() {
        return false;
    }
    forms.zip(parts).all(|(form, part)| {
        let (stem, ending) = form.rsplit_once('.').unwrap_or((form, ""));
        form == part
            || ANY.contains(&stem) && (ending.is_empty() || part.ends_with(&format!(".{ending}")))
    })
}
