//! The examples, made and run as they say: their words and trees are held to the vectors and to the reference.

use std::fs::OpenOptions;
use std::path::{Path, PathBuf};
use std::process::Command;

use foqtirel_tests::compiler::{assert_success, c_compilation, run, shared_library};
use foqtirel_tests::generator::Description;
use foqtirel_tests::header::root;
use foqtirel_tests::reference::tree::Forest;
use foqtirel_tests::reference::{Analysis, Literal, NodeEntry, MOST_NODES};
use foqtirel_tests::vectors;

/// A program and the words that always go before those of a question.
struct Example {
    program: PathBuf,
    words: Vec<PathBuf>,
}

impl Example {
    fn command(&self) -> Command {
        let mut command = Command::new(&self.program);
        command.args(&self.words);
        command
    }
}

/// A directory of the caller's own, as tests run at once.
fn directory(name: &str) -> PathBuf {
    let directory = Path::new(env!("CARGO_TARGET_TMPDIR")).join(name);
    std::fs::create_dir_all(&directory).expect("a directory");
    directory
}

fn compiled(name: &str, caller: &str) -> Example {
    let program = directory(caller).join(name);
    let source = root().join(format!("examples/{name}.c"));
    assert_success(&mut c_compilation(&source, &program));
    Example {
        program,
        words: Vec::new(),
    }
}

/// None where there is no Python 3. What the name stands for may be a script that looks for it: it is asked once.
fn in_python(caller: &str) -> Option<Example> {
    let mut python = Command::new("python3");
    python.args(["-c", "import sys; print(sys.executable)"]);
    let Ok(output) = python.output().map_err(|_| {
        println!("no python3: examples/ask.py was not run");
    }) else {
        return None;
    };
    let program = String::from_utf8(output.stdout).expect("a path");
    let script = root().join("examples/ask.py");
    Some(Example {
        program: program.trim_end().into(),
        words: vec![script, shared_library(&directory(caller))],
    })
}

/// What the program printed, with its exit status.
fn ask(example: &Example, name: &str, rest: &[&str]) -> (String, Option<i32>) {
    let image = vectors::directory().join(format!("{name}.img"));
    let output = run(example.command().arg(image).args(rest));
    let printed = String::from_utf8_lossy(&output.stdout).into_owned();
    let complained = !output.stderr.is_empty();
    assert_eq!(complained, printed.is_empty(), "{name} {rest:?}");
    (printed, output.status.code())
}

/// The literals of a vector to ask about: all of a few, else the first, the last and some between.
fn some_literals(literals: &[&str]) -> Vec<String> {
    let step = if literals.len() <= 8 { 1 } else { 9 };
    let mut chosen: Vec<&str> = literals.iter().copied().step_by(step).collect();
    chosen.extend(literals.last());
    chosen.into_iter().map(str::to_string).collect()
}

#[test]
fn host_answers_as_the_vectors_say() {
    let host = compiled("host", "host_answers");
    let mut answers = 0;
    let mut refusals = 0;
    for name in vectors::names("img") {
        let advice = vectors::advice(&name);
        let lines: Vec<&str> = advice.lines().collect();
        if let Some(cause) = lines[0].strip_prefix("refused ") {
            let number = cause.split(' ').next().expect("a number");
            let (printed, status) = ask(&host, &name, &["0"]);
            assert!(
                printed.starts_with(&format!("refused {number}: ")),
                "{name}: {printed}"
            );
            assert_eq!(status, Some(1), "{name}");
            refusals += 1;
            continue;
        }
        for line in some_literals(&lines[1..]) {
            let (literal, answer) = line.split_once(' ').expect("a literal");
            let (printed, status) = ask(&host, &name, &[literal]);
            assert!(
                printed.starts_with(&format!("{answer}: ")),
                "{name} {line}: {printed}"
            );
            assert_eq!(status, Some(0), "{name} {line}");
            answers += 1;
        }
    }
    assert!(
        answers >= 60 && refusals >= 3,
        "{answers} answers, {refusals} refusals"
    );
}

#[test]
fn host_says_what_it_means() {
    let host = compiled("host", "host_words");
    let said = |name: &str, rest: &[&str]| ask(&host, name, rest);
    let told = |line: &str, status: i32| (format!("{line}\n"), Some(status));
    assert_eq!(
        said("F", &["2"]),
        told("YES 3: the literal is warranted", 0)
    );
    assert_eq!(
        said("F", &["3"]),
        told("NO 3: the complement is warranted", 0)
    );
    let neither = "UNDECIDED 4: neither the literal nor its complement is warranted";
    assert_eq!(said("Fnopair", &["2"]), told(neither, 0));
    assert_eq!(
        said("empty", &["100"]),
        told("UNKNOWN 0: no rule mentions the atom", 0)
    );
    let unfinished = "UNFINISHED 2: the trees have more nodes than the budget";
    assert_eq!(said("F", &["2", "2"]), told(unfinished, 0));
    assert_eq!(
        said("F", &["128"]),
        told("refused 20: a literal is below 128", 1)
    );
    assert_eq!(
        said("F", &["2", "4097"]),
        told("refused 21: a budget is at most 4,096", 1)
    );
    assert_eq!(
        said("len11", &["2"]),
        told("refused 1: an image has 12 to 1,836 bytes", 1)
    );
    let full = "refused 23: the program has more than 4,096 arguments";
    assert_eq!(said("args4097", &["2"]), told(full, 1));
}

/// A literal's trees as the examples print them, and the word and nodes of the answer, by the reference.
fn told(analysis: &Analysis, literal: u32, budget: u32) -> (String, String) {
    let mut arguments = vec![0; MOST_NODES];
    let mut nodes = vec![NodeEntry::default(); MOST_NODES];
    let answer = analysis.query(literal, budget, &mut arguments, &mut nodes);
    let answer = answer.expect("an answer");
    let answer = format!("{} {}", answer.code.word(), answer.nodes);
    if answer.starts_with("UNKNOWN") || answer.starts_with("UNFINISHED") {
        return (String::new(), answer);
    }
    let literal = Literal::new(literal as u8);
    let forest = Forest::of(literal, analysis, MOST_NODES).expect("a forest");
    let entries = forest.entries();
    let mut depths: Vec<usize> = Vec::new();
    let mut trees = String::new();
    for side in [literal, literal.complement()] {
        trees += &format!("for {}:\n", side.number());
        for root in forest.roots_for(side, analysis) {
            for (number, entry) in entries.iter().enumerate().skip(root) {
                if number > root && entry.kind == 0 {
                    break;
                }
                let depth = if entry.kind == 0 {
                    1
                } else {
                    depths[entry.parent as usize] + 1
                };
                depths.push(depth);
                let argument = analysis.arguments[entry.argument as usize];
                trees += &format!(
                    "{}{} {} 0x{:04x} {}\n",
                    "  ".repeat(depth),
                    ["U", "D"][entry.mark as usize - 1],
                    ["root", "proper", "blocking"][entry.kind as usize],
                    argument.entry() / 128,
                    argument.literal.number()
                );
            }
        }
    }
    assert_eq!(depths.len(), entries.len());
    (trees, answer)
}

/// Holds what an example prints of some vectors to a form that `expected` makes of the number of arguments, the trees
/// and the answer. Returns how many answers it gave, and in how many lines their trees were told.
fn assert_tells_the_forests(
    example: &Example,
    names: &[&str],
    expected: impl Fn(usize, &str, &str) -> String,
) -> (usize, usize) {
    let (mut answers, mut lines) = (0, 0);
    for name in names {
        let Ok(analysis) = Analysis::of_image(&vectors::image(name)) else {
            continue;
        };
        let count = analysis.arguments.len();
        if count > MOST_NODES {
            continue;
        }
        let literals: Vec<String> = (0..2 * analysis.program.atoms)
            .map(|literal| literal.to_string())
            .collect();
        let literals: Vec<&str> = literals.iter().map(String::as_str).collect();
        let extremes = vectors::EXTREMES.iter().filter(|(of, _)| of == name);
        let extremes = extremes.map(|(_, literal)| literal.to_string());
        for literal in some_literals(&literals).into_iter().chain(extremes) {
            for budget in ["4096", "2"] {
                let about = format!("{name}, literal {literal}, budget {budget}");
                let number = literal.parse().expect("a literal");
                let (trees, answer) = told(&analysis, number, budget.parse().expect("a budget"));
                let (printed, status) = ask(example, name, &[&literal, budget]);
                assert_eq!(status, Some(0), "{about}");
                let wanted = expected(count, &trees, &answer);
                assert!(printed.starts_with(&wanted), "{about}: {printed}");
                assert_eq!(printed.lines().count(), wanted.lines().count(), "{about}");
                answers += 1;
                lines += trees.lines().count();
            }
        }
    }
    (answers, lines)
}

#[test]
fn trees_are_the_references() {
    let trees = compiled("trees", "trees_forests");
    let form = |_, trees: &str, answer: &str| format!("{trees}{answer}: ");
    let names = vectors::names("img");
    let names: Vec<&str> = names.iter().map(String::as_str).collect();
    let (answers, lines) = assert_tells_the_forests(&trees, &names, form);
    assert!(
        answers >= 300 && lines >= 8_000,
        "{answers} answers, {lines} lines"
    );
}

#[test]
fn trees_tells_refusals_with_their_place() {
    let trees = compiled("trees", "trees_refusals");
    let told = |line: &str| (format!("{line}\n"), Some(1));
    let long = "refused 1 at 0: an image has 12 to 1,836 bytes";
    assert_eq!(ask(&trees, "over1837", &["2"]), told(long));
    let literal = "refused 20 at 0: a literal is below 128";
    assert_eq!(ask(&trees, "F", &["128"]), told(literal));
    let budget = "refused 21 at 0: a budget is at most 4,096";
    assert_eq!(ask(&trees, "F", &["2", "4097"]), told(budget));
    let full = "refused 23 at 0: the program has more than 4,096 arguments";
    assert_eq!(ask(&trees, "args4097", &["2"]), told(full));
}

#[test]
fn python_tells_the_references_trees() {
    let Some(python) = in_python("python_forests") else {
        return;
    };
    let names = ["T", "n4096", "noargs"];
    let form = |count, trees: &str, answer: &str| format!("arguments {count}\n{trees}{answer}\n");
    let (answers, lines) = assert_tells_the_forests(&python, &names, form);
    assert!(
        answers >= 30 && lines >= 4_096,
        "{answers} answers, {lines} lines"
    );
    let refused = |name, rest: &[&str], line: &str| {
        assert_eq!(ask(&python, name, rest), (format!("{line}\n"), Some(1)));
    };
    refused("over1837", &["2"], "refused 1 0");
    refused("F", &["128"], "refused 20 0");
    refused("F", &["2", "4097"], "refused 21 0");
    refused("args4097", &["2"], "refused 23 0");
    let clashing = directory("python_forests").join("clashing");
    let program = Description::parse("4; 0; d 1<4; 2<0; 3<0,4; 1").expect("a program");
    std::fs::write(clashing.with_extension("img"), program.image()).expect("an image");
    let name = clashing.to_str().expect("a name in UTF-8");
    refused(name, &["2"], "refused 14 0: rules 0 1 3 4");
}

/// A bill by the script's own class, with an answer of the library on it.
#[test]
fn python_shares_out_a_bill() {
    let Some(python) = in_python("python_bill") else {
        return;
    };
    let script = "
import sys
sys.path.insert(0, sys.argv[1])
import ask
foqtirel = ask.Foqtirel(sys.argv[2])
answer = foqtirel.query(open(sys.argv[3], 'rb').read(), 2, 4096)
print(answer, foqtirel.bill([(4, 'YES', 16), (7, 'NO', 9), (11, *answer), (0, 'UNFINISHED', 4096)]))
print(foqtirel.bill([]))
good, roomless = (0, 'YES', 4096), [(2**32, 'YES', 5), (2**64, 'NO', 5), (-1, 'NO', 5), (3, 'YES', 2**16), (3, 'NO', -2**16)]
for lines in [[(0, 'UNKNOWN', 0)] * 513, [good, (12, 'UNKNOWN', 0)]] + [[good, bad] for bad in roomless]:
    try:
        foqtirel.bill(lines)
    except ask.Refused as refused:
        print(refused)
";
    let mut command = Command::new(&python.program);
    // Nothing is to be written beside the script.
    command
        .args(["-B", "-c", script])
        .arg(root().join("examples"));
    command
        .arg(&python.words[1])
        .arg(vectors::directory().join("F.img"));
    let printed = assert_success(&mut command).stdout;
    let wanted = "('YES', 3) [0, 0, 0, 0, 164, 0, 0, 163, 0, 0, 0, 161]
[0, 0, 0, 0, 0, 0, 0, 0, 0, 0, 0, 0]
refused 34 0
";
    let wanted = wanted.to_string() + &"refused 35 1\n".repeat(6);
    assert_eq!(String::from_utf8_lossy(&printed), wanted);
}

/// Where nothing is asked, or the image can't be read, or the answer not be written, nothing looks like an answer.
#[test]
fn what_is_no_answer_has_its_own_status() {
    let mut examples = vec![compiled("host", "statuses"), compiled("trees", "statuses")];
    examples.extend(in_python("statuses"));
    for example in &examples {
        for rest in [
            &[][..],
            &["-1"],
            &["two"],
            &["2x"],
            &["4294967296"],
            &["2", ""],
            &["2", "3", "4"],
        ] {
            assert_eq!(
                ask(example, "F", rest),
                (String::new(), Some(2)),
                "{rest:?}"
            );
        }
        let nothing = (String::new(), Some(3));
        assert_eq!(ask(example, "no such vector", &["2"]), nothing);
        let full = OpenOptions::new().write(true).open("/dev/full");
        let image = vectors::directory().join("F.img");
        let mut command = example.command();
        let unwritten = run(command.arg(image).arg("2").stdout(full.expect("a device")));
        assert_eq!(unwritten.status.code(), Some(3), "{command:?}");
        assert!(!unwritten.stderr.is_empty(), "{command:?}");
        let directory = run(example.command().arg(vectors::directory()).arg("2"));
        assert_eq!(directory.status.code(), Some(3));
        assert!(directory.stdout.is_empty() && !directory.stderr.is_empty());
    }
}
