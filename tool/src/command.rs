//! The commands: each takes its words and gives what is to be printed.

use std::fs;

use crate::asked::{find, hint, Asked};
use crate::engine::{self, Answer, Verdict, MOST_NODES};
use crate::explain::{answer_line, count, meaning, tell, trees, Told};
use crate::fault::{plain, Fault};
use crate::filing::Filed;
use crate::load::{load, load_image, names_image, same_file, same_place, Loaded, STANDARD_INPUT};
use crate::program::Program;
use crate::words::{form, sort, usage, Form, Words};
use crate::{bill, filing, help, numbers, same, shares, svg};

/// A command's text, for standard output, notes on the program, for standard error, and the exit status.
pub struct Printed {
    pub text: String,
    pub notes: String,
    pub status: u8,
}

type Command = fn(&[String]) -> Result<Printed, Fault>;

const VERSION: &str = concat!("foqtirel ", env!("CARGO_PKG_VERSION"), "\n");

/// Runs the command that the words after the program's name ask for.
pub fn run(words: &[String]) -> Result<Printed, Fault> {
    let Some((command, rest)) = words.split_first() else {
        return Err(usage("no command", help::ALL));
    };
    match (command.as_str(), rest) {
        ("--version" | "-V", _) => return Ok(page(VERSION)),
        ("help", [command, ..]) if !command.starts_with('-') => return Ok(page(named(command)?.0)),
        ("--help" | "-h" | "help", _) => return Ok(page(help::ALL)),
        _ => {}
    }
    let (about, act) = named(command)?;
    if rest.iter().any(|word| word == "--help" || word == "-h") {
        return Ok(page(about));
    }
    act(rest)
}

/// What is printed where no program is read.
fn page(text: &str) -> Printed {
    Printed {
        text: text.to_string(),
        notes: String::new(),
        status: 0,
    }
}

fn printed(loaded: Loaded, text: String) -> Printed {
    Printed {
        text,
        notes: loaded.notes,
        status: 0,
    }
}

/// A command's page and what it does.
fn named(command: &str) -> Result<(&'static str, Command), Fault> {
    Ok(match command {
        "compile" => (help::COMPILE, compile_file),
        "file" => (help::FILE, file),
        "unfile" => (help::UNFILE, unfile),
        "same" => (help::SAME, same),
        "show" => (help::SHOW, show),
        "ask" => (help::ASK, ask),
        "explain" => (help::EXPLAIN, explain),
        "tree" => (help::TREE, tree),
        "advise" => (help::ADVISE, advise),
        "bill" => (help::BILL, bill),
        other => return Err(usage(&format!("no command `{other}`"), help::ALL)),
    })
}

/// Told before anything is read: what is written may go over nothing that is read. Each input comes with what it is.
fn check_output(inputs: &[(&str, &str)], out: &str) -> Result<(), Fault> {
    let told = plain(out);
    if out == STANDARD_INPUT {
        return Err(Fault::Usage(format!("cannot write `{told}`: name a file")));
    }
    match inputs.iter().find(|(input, _)| same_file(input, out)) {
        Some((_, what)) => Err(Fault::Usage(format!(
            "{told} is {what}: name another file to write"
        ))),
        None => Ok(()),
    }
}

/// What an input is that a command answers from.
const PROGRAM: &str = "the program itself";

fn write(path: &str, bytes: &[u8]) -> Result<(), Fault> {
    fs::write(path, bytes)
        .map_err(|error| Fault::Usage(format!("cannot write {}: {error}", plain(path))))
}

fn compile_file(words: &[String]) -> Result<Printed, Fault> {
    write_made(
        words,
        &form(1, &["-o"], &["--names"], help::COMPILE),
        |loaded| {
            Ok(Made {
                loaded,
                numbers: Vec::new(),
                note: String::new(),
            })
        },
    )
}

fn file(words: &[String]) -> Result<Printed, Fault> {
    let form = form(1, &["-o", "--numbers"], &["--names"], help::FILE);
    write_made(words, &form, |typed| {
        let Filed { loaded, numbers } = filing::filed(&typed)?;
        let note = match loaded.image == typed.image && typed.from_image() {
            true => format!("note: {} was in filed form already\n", plain(&typed.name)),
            false => String::new(),
        };
        Ok(Made {
            loaded,
            numbers,
            note,
        })
    })
}

/// What is made of a program to be written.
struct Made {
    /// With the image that is written.
    loaded: Loaded,
    /// The old numbers of its rules, where they have others now.
    numbers: Vec<u8>,
    note: String,
}

/// Writes the image that is made of a program, and the old numbers of its rules, and tells the numbers of its literals: what
/// is asked for.
fn write_made(
    words: &[String],
    form: &Form,
    make: fn(Loaded) -> Result<Made, Fault>,
) -> Result<Printed, Fault> {
    let words = sort(words, form)?;
    let (out, numbers) = (words.value("-o"), words.value("--numbers"));
    if out.is_none() && numbers.is_none() && !words.flag("--names") {
        return Err(usage("`-o IMAGE` is missing", form.page));
    }
    for out in out.iter().chain(&numbers) {
        check_output(&[(words.places[0], PROGRAM)], out)?;
    }
    let both = out.zip(numbers);
    if both.is_some_and(|(image, table)| same_place(image, table)) {
        let what = "the image and the numbers go to two files";
        return Err(usage(what, form.page));
    }
    let made = make(load(words.places[0])?)?;
    let mut told = String::new();
    if let Some(out) = out {
        write(out, &made.loaded.image)?;
        told += &(written(out, &made.loaded.image, &made.loaded.program) + &made.note);
    }
    if let Some(out) = numbers {
        write(out, numbers::text(&made.numbers).as_bytes())?;
        let rules = count(made.numbers.len(), "rule");
        told += &format!("{}: the old numbers of {rules}\n", plain(out));
    }
    if words.flag("--names") {
        told += &numbered(&made.loaded.program);
    }
    Ok(printed(made.loaded, told))
}

/// What was written, with a note where this tool would not read it back.
fn written(out: &str, image: &[u8], program: &Program) -> String {
    let note = match names_image(out) {
        true => "",
        false => "note: only a file whose name ends in .img is read as an image\n",
    };
    let bytes = count(image.len(), "byte");
    format!("{}: {bytes}, {}\n{note}", plain(out), program.size())
}

fn unfile(words: &[String]) -> Result<Printed, Fault> {
    let words = sort(words, &form(1, &["--numbers", "-o"], &[], help::UNFILE))?;
    let needed = |option: &str, shown: &str| {
        let missing = || usage(&format!("`{shown}` is missing"), help::UNFILE);
        words.value(option).ok_or_else(missing)
    };
    let table = needed("--numbers", "--numbers NUMBERS")?;
    let out = needed("-o", "-o OUT")?;
    if [words.places[0], table] == [STANDARD_INPUT; 2] {
        return Err(once(help::UNFILE));
    }
    let inputs = [(words.places[0], PROGRAM), (table, "the table of numbers")];
    check_output(&inputs, out)?;
    let loaded = load_image(words.places[0])?;
    let numbers = numbers::load(table)?;
    let typed = filing::unfiled(&loaded, &numbers)?;
    write(out, &typed)?;
    let note = numbers.note(loaded.program.rules.len());
    let told = written(out, &typed, &loaded.program) + &note;
    Ok(printed(loaded, told))
}

/// Told of a command with two files to read.
fn once(page: &str) -> Fault {
    usage("standard input can be read once", page)
}

/// The literals with their numbers, which are what the C call takes.
fn numbered(program: &Program) -> String {
    (0..2 * program.atoms.len())
        .map(|literal| format!("{literal} {}\n", program.literal(literal as u8)))
        .collect()
}

fn same(words: &[String]) -> Result<Printed, Fault> {
    let words = sort(words, &form(2, &[], &[], help::SAME))?;
    if words.places == [STANDARD_INPUT; 2] {
        return Err(once(help::SAME));
    }
    let compared = |fault: Fault| Fault::Compared(fault.render());
    let one = load(words.places[0]).map_err(compared)?;
    let other = load(words.places[1]).map_err(compared)?;
    let verdict = same::compare(&one, &other).map_err(compared)?;
    Ok(Printed {
        text: verdict.text,
        notes: one.notes + &other.notes,
        status: u8::from(!verdict.same),
    })
}

fn show(words: &[String]) -> Result<Printed, Fault> {
    let words = sort(words, &form(1, &[], &[], help::SHOW))?;
    let loaded = load_image(words.places[0])?;
    let text = loaded.program.text();
    Ok(printed(loaded, text))
}

/// The engine's verdict. An atom that the program doesn't have is asked as one past its atoms; where all 64 are
/// taken there is no such number, and the answer is UNKNOWN by its definition.
fn verdict(loaded: &Loaded, asked: &Asked, budget: u32) -> Result<Verdict, Fault> {
    let past = 2 * loaded.program.atoms.len() as u32;
    let result = match asked.number {
        Some(number) => engine::query(&loaded.image, number, budget),
        None if past < 128 => engine::query(&loaded.image, past, budget),
        None => engine::list(&loaded.image).map(|_| Verdict {
            answer: Answer::Unknown,
            nodes: 0,
            forest: Vec::new(),
        }),
    };
    result.map_err(|refusal| loaded.refused(refusal))
}

/// A question as its words put it.
struct Question {
    loaded: Loaded,
    asked: Asked,
    verdict: Verdict,
}

fn question(words: &Words, page: &str) -> Result<Question, Fault> {
    let budget = match words.value("--budget").map(str::parse::<u32>) {
        None => MOST_NODES,
        Some(Ok(budget)) if budget <= MOST_NODES => budget,
        Some(_) => return Err(usage("a budget is 0 to 4096", page)),
    };
    let loaded = load(words.places[0])?;
    let asked = find(&loaded, words.places[1], page)?;
    let verdict = verdict(&loaded, &asked, budget)?;
    Ok(Question {
        loaded,
        asked,
        verdict,
    })
}

impl Question {
    fn answer(&self) -> String {
        answer_line(&self.asked.name, &self.asked.complement, &self.verdict) + "\n"
    }

    fn hint(&self) -> String {
        hint(&self.loaded, &self.asked)
    }

    fn told(&self) -> Result<Vec<Told>, Fault> {
        let loaded = &self.loaded;
        let arguments = engine::list(&loaded.image).map_err(|refusal| loaded.refused(refusal))?;
        Ok(tell(&loaded.program, &arguments, &self.verdict))
    }
}

fn ask(words: &[String]) -> Result<Printed, Fault> {
    let words = sort(words, &form(2, &["--budget"], &[], help::ASK))?;
    let question = question(&words, help::ASK)?;
    let text = question.answer() + &question.hint();
    Ok(printed(question.loaded, text))
}

fn explain(words: &[String]) -> Result<Printed, Fault> {
    let words = sort(words, &form(2, &["--budget"], &["--ascii"], help::EXPLAIN))?;
    let question = question(&words, help::EXPLAIN)?;
    let program = &question.loaded.program;
    let text = match (question.verdict.answer, question.asked.number) {
        (Answer::Yes | Answer::No | Answer::Undecided, Some(number)) => {
            let ascii = words.flag("--ascii");
            trees(program, &question.told()?, number as u8, ascii) + &question.answer()
        }
        _ => question.answer() + &question.hint(),
    };
    Ok(printed(question.loaded, text))
}

fn tree(words: &[String]) -> Result<Printed, Fault> {
    let words = sort(words, &form(2, &["--svg", "--budget"], &[], help::TREE))?;
    let out = words
        .value("--svg")
        .ok_or_else(|| usage("`--svg OUT` is missing", help::TREE))?;
    check_output(&[(words.places[0], PROGRAM)], out)?;
    let question = question(&words, help::TREE)?;
    let Question { asked, verdict, .. } = &question;
    let heading = format!(
        "{}: {}, {}",
        asked.name,
        verdict.answer.name(),
        count(verdict.nodes as usize, "node")
    );
    let sentence = meaning(&asked.name, &asked.complement, verdict) + ".";
    let picture = svg::picture(&heading, &sentence, &question.told()?);
    write(out, picture.as_bytes())?;
    let text = format!("{}: {heading}\n{}", plain(out), question.hint());
    Ok(printed(question.loaded, text))
}

fn advise(words: &[String]) -> Result<Printed, Fault> {
    let words = sort(words, &form(1, &[], &[], help::ADVISE))?;
    let loaded = load(words.places[0])?;
    let Loaded { image, program, .. } = &loaded;
    let arguments = engine::list(image).map_err(|refusal| loaded.refused(refusal))?;
    let names: Vec<String> = (0..2 * program.atoms.len())
        .map(|literal| program.literal(literal as u8))
        .collect();
    let widest = names
        .iter()
        .map(|name| name.chars().count())
        .max()
        .unwrap_or(0);
    let mut text = format!("arguments {}\n", arguments.len());
    for (literal, name) in names.iter().enumerate() {
        let result = engine::query(image, literal as u32, MOST_NODES);
        let Verdict { answer, nodes, .. } = result.map_err(|refusal| loaded.refused(refusal))?;
        text += &format!("{name:widest$}  {:10}  {nodes}\n", answer.name());
    }
    Ok(printed(loaded, text))
}

fn bill(words: &[String]) -> Result<Printed, Fault> {
    let words = sort(words, &form(1, &[], &[], help::BILL))?;
    let bill = bill::load(words.places[0])?;
    let shares = bill.shares()?;
    Ok(page(&shares::table(&bill.lines, &shares)))
}
