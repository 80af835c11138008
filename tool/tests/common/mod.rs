//! Running the program, work that calls the engine on a stack that is large enough, and chance.
#![allow(dead_code)]

use std::path::{Path, PathBuf};
use std::process::{Command, Output};

use foqtirel::engine;
use foqtirel::explain::{self, Told};
use foqtirel::load::{load_text, Loaded};
use foqtirel::program::{Program, Rule};

pub struct Ran {
    pub status: i32,
    pub out: String,
    pub err: String,
}

pub fn root() -> PathBuf {
    PathBuf::from(env!("CARGO_MANIFEST_DIR")).join("..")
}

pub fn examples() -> PathBuf {
    root().join("examples")
}

/// The program in the directory of the examples, ready to start.
pub fn command(words: &[&str]) -> Command {
    let mut command = Command::new(env!("CARGO_BIN_EXE_foqtirel"));
    command.args(words).current_dir(examples());
    command
}

pub fn run(words: &[&str]) -> Ran {
    ran(command(words).output())
}

/// Runs the program with a file as its standard input.
pub fn run_with_input(words: &[&str], input: &Path) -> Ran {
    let input = std::fs::File::open(input).expect("the input is there");
    ran(command(words).stdin(input).output())
}

fn ran(output: std::io::Result<Output>) -> Ran {
    let output = output.expect("the program starts");
    let text = |bytes: Vec<u8>| String::from_utf8(bytes).expect("UTF-8");
    Ran {
        status: output.status.code().expect("an exit status"),
        out: text(output.stdout),
        err: text(output.stderr),
    }
}

pub fn with_stack(work: fn()) {
    std::thread::Builder::new()
        .stack_size(32 << 20)
        .spawn(work)
        .unwrap()
        .join()
        .unwrap();
}

/// A small generator with a seed, so that every run tries the same programs.
pub struct Random(pub u64);

impl Random {
    pub fn below(&mut self, bound: usize) -> usize {
        self.0 = self
            .0
            .wrapping_mul(6364136223846793005)
            .wrapping_add(1442695040888963407);
        ((self.0 >> 33) as usize) % bound
    }
}

/// A program of any size that keeps the limits; its facts and strict rules may contradict each other.
pub fn program(random: &mut Random) -> Program {
    let atoms = [0, 1, 3, 6, 12, 30, 64][random.below(7)];
    let mut program = Program {
        atoms: (0..atoms).map(|atom| format!("a{atom}")).collect(),
        ..Program::default()
    };
    let most = [4, 12, 40, 97][random.below(4)].min(3 * atoms + 1);
    let wanted = if atoms == 0 { 0 } else { random.below(most) };
    let mut defeasible = 0;
    for _ in 0..wanted {
        let mut body: Vec<u8> = (0..random.below(9).min(random.below(9)))
            .map(|_| random.below(2 * atoms) as u8)
            .collect();
        body.sort_unstable();
        body.dedup();
        let yields = defeasible < 16 && !body.is_empty() && random.below(2) == 0;
        let rule = Rule {
            label: None,
            defeasible: yields,
            head: random.below(2 * atoms) as u8,
            body,
        };
        if !program.rules.contains(&rule) {
            defeasible += usize::from(yields);
            program.rules.push(rule);
        }
    }
    let yields: Vec<u8> = (0..program.rules.len())
        .filter(|&n| program.rules[n].defeasible)
        .map(|n| n as u8)
        .collect();
    for &first in &yields {
        for &second in yields.iter().filter(|&&second| second != first) {
            if random.below(4) == 0 {
                program.pairs.push((first, second));
            }
        }
    }
    program
}

/// The defeaters in the trees of all literals of an image, none where it is refused. Each has words for what it
/// attacks and why, and they fit its kind.
pub fn defeaters(image: &[u8], name: &str) -> Vec<Told> {
    let mut defeaters = Vec::new();
    let Ok(arguments) = engine::list(image) else {
        return defeaters;
    };
    let program = foqtirel::image::decode(image).unwrap();
    for literal in 0..2 * program.atoms.len() as u32 {
        let verdict = engine::query(image, literal, engine::MOST_NODES).unwrap();
        let told = explain::tell(&program, &arguments, &verdict).into_iter();
        for node in told.filter(|node| !node.root) {
            let said = !node.attacks.is_empty()
                && (node.because.contains("neither is preferred") != node.proper);
            assert!(said, "{name} {literal} {}", node.conclusion);
            defeaters.push(node);
        }
    }
    defeaters
}

/// A directory of this test's own, to write into.
pub fn scratch(name: &str) -> PathBuf {
    let directory = PathBuf::from(env!("CARGO_TARGET_TMPDIR")).join(name);
    std::fs::create_dir_all(&directory).unwrap();
    directory
}

/// A text as the tool reads it.
pub fn loaded(text: &str) -> Loaded {
    let (image, program, source) =
        load_text(text).unwrap_or_else(|flaw| panic!("{flaw:?}: {text}"));
    Loaded {
        image,
        program,
        source: Some(source),
        name: "typed.delp".to_string(),
        notes: String::new(),
    }
}

/// An image as the tool reads it.
pub fn of_image(bytes: &[u8]) -> Loaded {
    Loaded {
        image: bytes.to_vec(),
        program: foqtirel::image::decode(bytes).unwrap(),
        source: None,
        name: "typed.img".to_string(),
        notes: String::new(),
    }
}

pub fn shuffle<T>(random: &mut Random, list: &mut [T]) {
    for last in (1..list.len()).rev() {
        list.swap(last, random.below(last + 1));
    }
}

/// Random programs that the engine accepts, with names that don't ascend with the numbers.
pub fn programs(random: &mut Random, count: usize) -> Vec<Program> {
    let mut programs = Vec::new();
    while programs.len() < count {
        let mut program = self::program(random);
        if engine::check(&foqtirel::image::encode(&program)).is_ok() {
            for (atom, name) in program.atoms.iter_mut().enumerate() {
                *name = format!("{}_{atom}", ["rail", "base", "tilt"][atom % 3]);
            }
            programs.push(program);
        }
    }
    programs
}

/// A file in a directory of a test's own.
pub fn path(directory: &str, name: &str) -> String {
    let path = scratch(directory).join(name);
    path.to_str().expect("a name in UTF-8").to_string()
}

/// Writes such a file; returns its path.
pub fn write(directory: &str, name: &str, bytes: impl AsRef<[u8]>) -> String {
    let path = path(directory, name);
    std::fs::write(&path, bytes).unwrap();
    path
}
