//! Files to programs, with every reason why one can't be had.

use std::fs;
use std::io::{self, Read};
use std::os::unix::fs::MetadataExt;
use std::path::Path;
use std::string::FromUtf8Error;

use crate::clash::Clash;
use crate::compile::compile;
use crate::engine::{self, Refusal, CONTRADICTION};
use crate::fault::{plain, Fault, Flaw, Span};
use crate::notes::notes;
use crate::program::Program;
use crate::source::Source;
use crate::{image, text};

/// The longest image; the engine refuses a longer one.
const MOST_IMAGE: u64 = 1836;
/// Far more than 96 rules and their comments need.
const MOST_TEXT: u64 = 1 << 24;

/// A program with its image, which the engine has accepted.
pub struct Loaded {
    pub image: Vec<u8>,
    pub program: Program,
    /// The text as it was read; an image has none.
    pub source: Option<Source>,
    /// The file as messages name it.
    pub name: String,
    /// What is said of it beside any answer, in whole lines.
    pub notes: String,
}

impl Loaded {
    pub fn from_image(&self) -> bool {
        self.source.is_none()
    }

    pub fn refused(&self, refusal: Refusal) -> Fault {
        Fault::refused(refusal, &self.name)
    }
}

/// As FILE, the standard input.
pub const STANDARD_INPUT: &str = "-";

/// What messages call a file.
pub fn name_of(path: &str) -> &str {
    if path == STANDARD_INPUT {
        "standard input"
    } else {
        path
    }
}

pub fn names_image(path: &str) -> bool {
    path.ends_with(".img")
}

/// A file by its name: an image where that ends in `.img`, else a text.
pub fn load(path: &str) -> Result<Loaded, Fault> {
    if names_image(path) {
        return load_image(path);
    }
    let name = name_of(path);
    let text = read_text(path, &PROGRAM)?;
    let (image, program, source) =
        load_text(&text).map_err(|flaw| Fault::Text(flaw.render(name, &text)))?;
    engine::check(&image).map_err(|refusal| Fault::refused(refusal, name))?;
    Ok(Loaded {
        notes: notes(&program, name, Some(&source)),
        image,
        program,
        source: Some(source),
        name: name.to_string(),
    })
}

/// A sort of text: what messages call it, and what they say where a file is none.
pub struct Sort {
    pub name: &'static str,
    pub help: &'static str,
}

const PROGRAM: Sort = Sort {
    name: "program text",
    help: "save the program as UTF-8; the name of an image ends in .img",
};

/// The text in a file.
pub fn read_text(path: &str, sort: &Sort) -> Result<String, Fault> {
    let bytes = read(path, MOST_TEXT)?;
    if bytes.len() as u64 > MOST_TEXT {
        return Err(Fault::Usage(format!(
            "{} has over {MOST_TEXT} bytes: that is no {}",
            plain(name_of(path)),
            sort.name
        )));
    }
    String::from_utf8(bytes).map_err(|error| not_text(name_of(path), error, sort.help))
}

/// The image and the program of a text, and the text as it was read. A contradiction is told here, where the places of the
/// rules are known.
pub fn load_text(text: &str) -> Result<(Vec<u8>, Program, Source), Flaw> {
    let source = text::read(text)?;
    let program = compile(&source)?;
    let image = image::encode(&program);
    match Clash::find(&image, &program) {
        Some(clash) => Err(clash.flaw(&program, &source)),
        None => Ok((image, program, source)),
    }
}

/// An image, decoded only once the engine has found it sound but for a contradiction.
pub fn load_image(path: &str) -> Result<Loaded, Fault> {
    let name = name_of(path);
    let image = read(path, MOST_IMAGE)?;
    let refusal = engine::check(&image).err();
    if let Some(refusal) = refusal.filter(|refusal| refusal.number != CONTRADICTION) {
        return Err(Fault::Refused(
            refusal,
            plain(name),
            told_text(path, &image),
        ));
    }
    let Some(program) = image::decode(&image) else {
        return Err(Fault::Usage(format!(
            "{} is accepted but can't be read",
            plain(name)
        )));
    };
    match refusal {
        None => Ok(Loaded {
            notes: notes(&program, name, None),
            image,
            program,
            source: None,
            name: name.to_string(),
        }),
        Some(refusal) => {
            let told = Clash::find(&image, &program).map(|clash| clash.told(&program));
            Err(Fault::Refused(
                refusal,
                plain(name),
                told.unwrap_or_default(),
            ))
        }
    }
}

/// For a text where an image should be: what to do with it.
fn told_text(path: &str, bytes: &[u8]) -> String {
    match (is_text(bytes), names_image(path)) {
        (false, _) => String::new(),
        (true, true) => "\n help: this is a text; name it .delp".to_string(),
        (true, false) => "\n help: this is a text; an image is needed here".to_string(),
    }
}

/// Letters in UTF-8 with no zero bytes. The last character may be cut, as no more is read than an image has.
fn is_text(bytes: &[u8]) -> bool {
    let sound = match std::str::from_utf8(bytes) {
        Ok(_) => bytes.len(),
        Err(error) if error.error_len().is_none() => error.valid_up_to(),
        Err(_) => return false,
    };
    let text = String::from_utf8_lossy(&bytes[..sound]);
    !text.contains('\0') && text.contains(char::is_alphabetic)
}

/// The file's bytes, but no more than one past the most: a longer file is told as too long, not taken in whole.
fn read(path: &str, most: u64) -> Result<Vec<u8>, Fault> {
    let mut bytes = Vec::new();
    let result = match path {
        STANDARD_INPUT => io::stdin().take(most + 1).read_to_end(&mut bytes),
        _ => fs::File::open(path).and_then(|file| file.take(most + 1).read_to_end(&mut bytes)),
    };
    match result {
        Ok(_) => Ok(bytes),
        Err(error) => Err(Fault::Usage(format!(
            "cannot read {}: {error}",
            plain(name_of(path))
        ))),
    }
}

/// Whether what is to be written would go over what is read, under whatever names.
pub fn same_file(input: &str, output: &str) -> bool {
    let input = if input == STANDARD_INPUT {
        "/dev/stdin"
    } else {
        input
    };
    match (fs::metadata(input), fs::metadata(output)) {
        (Ok(one), Ok(other)) => {
            one.is_file() && (one.dev(), one.ino()) == (other.dev(), other.ino())
        }
        _ => false,
    }
}

/// Whether two names to write to are of one file, also where it is not there yet.
pub fn same_place(one: &str, other: &str) -> bool {
    let place = |path: &str| {
        let path = Path::new(path);
        let directory = path.parent().filter(|parent| *parent != Path::new(""));
        let directory = fs::canonicalize(directory.unwrap_or(Path::new("."))).ok()?;
        Some(directory.join(path.file_name()?))
    };
    same_file(one, other) || place(one).is_some_and(|one| place(other) == Some(one))
}

fn not_text(path: &str, error: FromUtf8Error, help: &str) -> Fault {
    let sound = error.utf8_error().valid_up_to();
    let lead = String::from_utf8_lossy(&error.as_bytes()[..sound]);
    let line = lead.matches('\n').count() + 1;
    let column = lead.chars().rev().take_while(|&c| c != '\n').count() + 1;
    let what = "a byte that is not UTF-8 text";
    let flaw = Flaw::new(
        Span {
            line,
            column,
            length: 1,
        },
        what,
        help,
    );
    Fault::Text(flaw.render(path, &String::from_utf8_lossy(error.as_bytes())))
}
