//! The vectors of `tests/vectors`: images, what `advise` prints for them, and whole forests; and those
//! of the change requests.

use std::fs;
use std::path::{Path, PathBuf};
use std::str::FromStr;

use crate::generator::bill::line;
use crate::generator::Verdict;
use crate::reference::bill::BRANCHES;
use crate::reference::NodeEntry;

/// Vectors and literals with exactly as many nodes as the greatest budget, with one more, and with
/// the longest line.
pub const EXTREMES: [(&str, u32); 3] = [("n4096", 20), ("n4097", 28), ("deep180", 22)];

/// The most rules that an image has.
const MOST_RULES: usize = 96;

/// The change requests that have vectors of what `advise` prints.
pub const REQUESTS: [&str; 1] = ["c11"];

pub fn directory() -> PathBuf {
    Path::new(env!("CARGO_MANIFEST_DIR")).join("vectors")
}

pub fn image(name: &str) -> Vec<u8> {
    let path = directory().join(format!("{name}.img"));
    fs::read(&path).unwrap_or_else(|error| panic!("{}: {error}", path.display()))
}

/// What `advise` is to print for an image.
pub fn advice(name: &str) -> String {
    let path = directory().join(format!("{name}.advise"));
    fs::read_to_string(&path).unwrap_or_else(|error| panic!("{}: {error}", path.display()))
}

pub fn readme() -> String {
    fs::read_to_string(directory().join("README.md")).expect("the vectors' README")
}

/// The names of all files with an ending, sorted.
pub fn names(ending: &str) -> Vec<String> {
    let mut names: Vec<String> = fs::read_dir(directory())
        .expect("the vectors")
        .map(|entry| entry.expect("an entry").path())
        .filter(|path| path.extension().is_some_and(|e| e == ending))
        .map(|path| path.file_stem().unwrap().to_string_lossy().into_owned())
        .collect();
    names.sort();
    names
}

/// The vectors of a change request, each the text before the first bar and the one after it.
fn lines_of(request: &str) -> Vec<(String, String)> {
    let path = directory().join(format!("requests/{request}.txt"));
    let text = fs::read_to_string(&path);
    let text = text.unwrap_or_else(|error| panic!("{}: {error}", path.display()));
    let lines = text.lines().filter(|line| !line.starts_with('#'));
    lines
        .map(|line| line.split_once(" | ").expect("two texts"))
        .map(|(before, after)| (before.to_string(), after.to_string()))
        .collect()
}

/// The vectors of a change request: each image with what `advise` is to print for it.
pub fn of_request(name: &str) -> Vec<(Vec<u8>, String)> {
    let advised = |(image, advice): (String, String)| {
        let text = advice.replace('|', "\n") + "\n";
        (bytes(&image), text)
    };
    lines_of(name).into_iter().map(advised).collect()
}

/// An image, the lengths of the byte table and of the number table that are lent for it, and what filing comes to.
pub struct Filing {
    pub image: Vec<u8>,
    pub rooms: (usize, usize),
    pub outcome: Result<Filed, Verdict>,
}

/// A filed form, with the old numbers of its rules where the vector has them.
pub struct Filed {
    pub form: Vec<u8>,
    pub numbers: Option<Vec<u8>>,
}

/// An image with a table of old numbers, the length of the byte table that is lent, and the image in old order or the
/// refusal.
pub struct Unfiling {
    pub image: Vec<u8>,
    pub numbers: Vec<u8>,
    pub room: usize,
    pub outcome: Result<Vec<u8>, Verdict>,
}

/// An image, the length of the byte table that is lent for it, and the marks of its clash or the refusal.
pub struct Clash {
    pub image: Vec<u8>,
    pub room: usize,
    pub outcome: Result<Vec<u8>, Verdict>,
}

/// The lines of a bill, and its shares or the refusal.
pub struct Bill {
    pub lines: Vec<u64>,
    pub outcome: Result<[u32; BRANCHES], Verdict>,
}

/// The vectors of request C-12, which name no number table, with one that is always long enough.
pub fn filings() -> Vec<Filing> {
    let filing = |(lent, outcome): &(String, String)| {
        let (image, room) = image_and_room(lent);
        Filing {
            image,
            rooms: (room, MOST_RULES),
            outcome: filing_outcome(outcome),
        }
    };
    lines_of("c12").iter().map(filing).collect()
}

/// The vectors of request C-16 for filing.
pub fn numbered_filings() -> Vec<Filing> {
    let filing = |([image, room, number_room], outcome): ([String; 3], String)| Filing {
        image: bytes(&image),
        rooms: (number(&room), number(&number_room)),
        outcome: filing_outcome(&outcome),
    };
    of_call("file").into_iter().map(filing).collect()
}

/// The vectors of request C-16 for the way back.
pub fn unfilings() -> Vec<Unfiling> {
    let unfiling = |([image, numbers, room], outcome): ([String; 3], String)| Unfiling {
        image: bytes(&image),
        numbers: numbers.split(',').map(number).collect(),
        room: number(&room),
        outcome: image_outcome(&outcome),
    };
    of_call("back").into_iter().map(unfiling).collect()
}

/// The vectors of request C-20.
pub fn clashes() -> Vec<Clash> {
    let clash = |(lent, outcome): &(String, String)| {
        let (image, room) = image_and_room(lent);
        Clash {
            image,
            room,
            outcome: marks_outcome(outcome),
        }
    };
    lines_of("c20").iter().map(clash).collect()
}

/// The vectors of request C-24.
pub fn bills() -> Vec<Bill> {
    let bill = |(lines, outcome): &(String, String)| Bill {
        lines: bill_lines(lines),
        outcome: not_refused(outcome).map(shares),
    };
    lines_of("c24").iter().map(bill).collect()
}

/// Each line as `branch:code:nodes`, and `-` for none.
pub fn bill_lines(text: &str) -> Vec<u64> {
    let lines = text.split(' ').filter(|&word| word != "-");
    let numbers = |word: &str| word.split(':').map(number).collect::<Vec<u32>>();
    lines
        .map(|word| match numbers(word)[..] {
            [branch, code, nodes] => line(branch, code, nodes),
            _ => panic!("no line of a bill: {word}"),
        })
        .collect()
}

fn shares(text: &str) -> [u32; BRANCHES] {
    let shares: Vec<u32> = text.split(' ').map(number).collect();
    shares.try_into().expect("twelve shares")
}

fn image_and_room(lent: &str) -> (Vec<u8>, usize) {
    let (image, room) = lent.split_once(' ').expect("an image and a room");
    (bytes(image), number(room))
}

/// The lines of request C-16 for one of its calls: three words that it takes, and the text after the first bar.
fn of_call(call: &str) -> Vec<([String; 3], String)> {
    let lines = lines_of("c16").into_iter();
    lines
        .filter_map(|(lent, outcome)| {
            let (name, words) = lent.split_once(' ').expect("a call");
            let words: Vec<String> = words.split(' ').map(str::to_string).collect();
            let words = words.try_into().expect("three words");
            (name == call).then_some((words, outcome))
        })
        .collect()
}

fn filing_outcome(text: &str) -> Result<Filed, Verdict> {
    let (length, rest) = granted(text)?;
    let (form, numbers) = match rest.split_once(" | ") {
        Some((form, numbers)) => (form, Some(numbers.split(' ').map(number).collect())),
        None => (rest, None),
    };
    Ok(Filed {
        form: bytes_of_length(form, length),
        numbers,
    })
}

fn image_outcome(text: &str) -> Result<Vec<u8>, Verdict> {
    let (length, image) = granted(text)?;
    Ok(bytes_of_length(image, length))
}

fn marks_outcome(text: &str) -> Result<Vec<u8>, Verdict> {
    let (rules, marks) = granted(text)?;
    let marks: Vec<u8> = marks.split(' ').map(number).collect();
    assert_eq!(marks.len(), rules, "{text}");
    Ok(marks)
}

/// A length and what comes after it, or the refusal.
fn granted(text: &str) -> Result<(usize, &str), Verdict> {
    let text = not_refused(text)?;
    let (length, rest) = text.split_once(" | ").expect("a length and more");
    Ok((number(length), rest))
}

/// The text, or the number and place of the refusal that it is.
fn not_refused(text: &str) -> Result<&str, Verdict> {
    let Some(refusal) = text.strip_prefix("refused ") else {
        return Ok(text);
    };
    let (cause, place) = refusal.split_once(' ').expect("number and place");
    Err((number(cause), number(place)))
}

fn number<Number: FromStr>(text: &str) -> Number {
    let number = text.parse().ok();
    number.unwrap_or_else(|| panic!("no number: {text}"))
}

fn bytes_of_length(hexadecimal: &str, length: usize) -> Vec<u8> {
    let bytes = bytes(hexadecimal);
    assert_eq!(bytes.len(), length, "{hexadecimal}");
    bytes
}

fn bytes(hexadecimal: &str) -> Vec<u8> {
    let digits: Vec<u8> = hexadecimal
        .chars()
        .map(|digit| digit.to_digit(16).expect("a hexadecimal digit") as u8)
        .collect();
    digits.chunks(2).map(|two| 16 * two[0] + two[1]).collect()
}

/// All images, in the order of their names, and those of the requests.
pub fn images() -> Vec<Vec<u8>> {
    let mut images: Vec<Vec<u8>> = names("img").iter().map(|name| image(name)).collect();
    for request in REQUESTS {
        images.extend(of_request(request).into_iter().map(|(image, _)| image));
    }
    let filings = filings().into_iter().chain(numbered_filings());
    images.extend(filings.map(|filing| filing.image));
    images.extend(unfilings().into_iter().map(|unfiling| unfiling.image));
    images.extend(clashes().into_iter().map(|clash| clash.image));
    images
}

/// A forest that the README writes out, asked with the greatest budget.
pub struct WholeForest {
    pub name: String,
    pub literal: u32,
    pub code: u32,
    pub list: Vec<u32>,
    pub nodes: Vec<NodeEntry>,
}

/// The whole forests at the end of the README.
pub fn whole_forests() -> Vec<WholeForest> {
    let text = readme();
    let section = text.split_once("## Whole forests").expect("the section").1;
    section
        .lines()
        .filter_map(|line| line.strip_prefix("- "))
        .map(whole_forest)
        .collect()
}

fn whole_forest(line: &str) -> WholeForest {
    let (name, rest) = line.split_once(", literal ").expect("a name");
    let (literal, rest) = rest.split_once(": ").expect("a literal");
    let quoted: Vec<&str> = rest.split('`').skip(1).step_by(2).collect();
    let [answer, list, nodes] = quoted[..] else {
        panic!("{line}");
    };
    let (code, count) = answer.split_once(' ').expect("code and nodes");
    let nodes: Vec<NodeEntry> = nodes.split(' ').map(node).collect();
    assert_eq!(count, nodes.len().to_string(), "{line}");
    WholeForest {
        name: name.to_string(),
        literal: literal.parse().expect("a literal"),
        code: code.parse().expect("a code"),
        list: list.split(' ').map(|e| e.parse().unwrap()).collect(),
        nodes,
    }
}

fn node(text: &str) -> NodeEntry {
    let numbers: Vec<u32> = text.split(':').map(|n| n.parse().unwrap()).collect();
    let [argument, parent, kind, mark] = numbers[..] else {
        panic!("{text}");
    };
    NodeEntry {
        argument,
        parent,
        kind,
        mark,
    }
}
