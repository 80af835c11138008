//! How much stack the calls need, and whether what the header says of them holds.
//!
//! Each order runs in a process of its own, on a thread with a stack of a given size, so that
//! a stack that doesn't suffice shows as a process that failed.

use std::collections::BTreeMap;
use std::process::Command;
use std::{fs, thread};

use foqtirel_binding::{self as library, Node};
use foqtirel_tests::generator::accepted::small_programs;
use foqtirel_tests::generator::bill::{bills, longest};
use foqtirel_tests::generator::clash::{clashing, slow_clash, with_clash};
use foqtirel_tests::generator::filing::alike;
use foqtirel_tests::generator::{accepted, all_applicable, many_arguments, Description};
use foqtirel_tests::header::{constants, root};
use foqtirel_tests::reference::image::defeasible_rules;
use foqtirel_tests::reference::{check, MOST_NODES};
use foqtirel_tests::sides::REFERENCE;
use foqtirel_tests::vectors;

const KIB: usize = 1024;
const PAGE: usize = 4 * KIB;
/// The system gives a thread this much even where less is asked for.
const LEAST_THREAD: usize = 16 * KIB;
/// Tells a process of this test what to do.
const ORDER: &str = "FOQTIREL_STACK_ORDER";
/// Enough for every list the tests make.
const TABLE: usize = 100_000;
const BUDGET: u32 = MOST_NODES as u32;
/// Enough for every filed form and its old numbers.
const MOST_IMAGE: usize = 1836;
const MOST_RULES: usize = 96;

/// Vectors and random programs with at most so many defeasible rules.
fn images_up_to(most: usize) -> Vec<Vec<u8>> {
    let programs = accepted(3, 300).chain(small_programs(3, 100));
    let mut images = vectors::images();
    images.extend(programs.map(|case| case.image));
    images.extend(clashing(3, 200).map(|(_, program)| program.image()));
    images.extend((0..=16).map(|rules| all_applicable(rules).image()));
    let programs = [many_arguments(), alike(), slow_clash()];
    images.extend(programs.map(|program| program.image()));
    images.retain(|image| defeasible_rules(image) <= most);
    images
}

/// Bills with at most so many lines.
fn bills_up_to(most: usize) -> Vec<Vec<u64>> {
    let mut all: Vec<Vec<u64>> = bills(3, 900).map(|(_, lines)| lines).collect();
    all.push(longest());
    all.retain(|lines| lines.len() <= most);
    all
}

#[derive(Clone, Copy, PartialEq)]
enum Call {
    Check,
    Clash,
    File,
    Unfile,
    List,
    Trees,
    Query,
    Bill,
}

impl Call {
    const ALL: [Call; 8] = [
        Call::Check,
        Call::Clash,
        Call::File,
        Call::Unfile,
        Call::List,
        Call::Trees,
        Call::Query,
        Call::Bill,
    ];

    fn name(self) -> &'static str {
        match self {
            Call::Check => "check",
            Call::Clash => "clash",
            Call::File => "file",
            Call::Unfile => "unfile",
            Call::List => "list",
            Call::Trees => "trees",
            Call::Query => "query",
            Call::Bill => "bill",
        }
    }

    /// True if it is asked about a literal.
    fn answers(self) -> bool {
        matches!(self, Call::Trees | Call::Query)
    }
}

/// What a process is to call on its small stack: for each literal of each image, or for each bill.
struct Order {
    call: Call,
    budget: u32,
    questions: Vec<Question>,
}

#[derive(Default)]
struct Question {
    image: Vec<u8>,
    /// The old numbers, for the way back.
    numbers: Vec<u8>,
    literals: Vec<u32>,
    /// Of a bill.
    lines: Vec<u64>,
}

/// The way back is asked about the filed form, and what clashes about a program in which something does.
fn question(call: Call, image: Vec<u8>, literals: Vec<u32>) -> Question {
    let (image, numbers) = match call {
        Call::Unfile if check(&image).is_ok() => REFERENCE.filed(&image),
        Call::Clash if check(&image).is_ok() => {
            let clashing = with_clash(&Description::of_image(&image));
            (clashing.image(), Vec::new())
        }
        _ => (image, Vec::new()),
    };
    Question {
        image,
        numbers,
        literals,
        lines: Vec::new(),
    }
}

/// Asked once, as the calls that take no literal are.
fn bill(lines: Vec<u64>) -> Question {
    Question {
        lines,
        literals: vec![0],
        ..Question::default()
    }
}

/// An image of `bench/anchor`.
fn anchored(name: &str) -> Vec<u8> {
    let path = root().join(format!("bench/anchor/{name}.img"));
    fs::read(&path).unwrap_or_else(|error| panic!("{}: {error}", path.display()))
}

/// `nothing`, or a call and its images: `rules=N` applicable rules, `upto=N` rules at most,
/// `anchor=NAME`, or the name of a vector with one literal; then `budget=N`, where it is not the
/// greatest. Of bills `lines=N` at most.
fn order_of(what: &str) -> Option<Order> {
    let (word, rest) = what.split_once(' ')?;
    let call = Call::ALL.into_iter().find(|call| call.name() == word);
    let call = call.unwrap_or_else(|| panic!("no such call: {what}"));
    let (images, budget) = match rest.split_once(" budget=") {
        Some((images, number)) => (images, number.parse().expect("a budget")),
        None => (rest, BUDGET),
    };
    let (sort, which) = images.split_once('=').expect("a sort of images");
    let number = || which.parse::<usize>().expect("a number");
    let images = match sort {
        "lines" => {
            let questions = bills_up_to(number()).into_iter().map(bill).collect();
            return Some(Order {
                call,
                budget,
                questions,
            });
        }
        "rules" => vec![all_applicable(number()).image()],
        "upto" => images_up_to(number()),
        "anchor" => vec![anchored(which)],
        name => {
            let questions = vec![question(call, vectors::image(name), vec![number() as u32])];
            return Some(Order {
                call,
                budget,
                questions,
            });
        }
    };
    let literals = |image: &[u8]| match image.first() {
        Some(&atoms) if call.answers() => (0..2 * u32::from(atoms).clamp(1, 64)).collect(),
        _ => vec![0],
    };
    let questions = images.into_iter().map(|image| {
        let literals = literals(&image);
        question(call, image, literals)
    });
    Some(Order {
        call,
        budget,
        questions: questions.collect(),
    })
}

/// The tables that the calls are lent.
struct Tables {
    bytes: Vec<u8>,
    entries: Vec<u8>,
    arguments: Vec<u32>,
    nodes: Vec<Node>,
}

/// Returns how many calls were not refused.
fn carry_out(order: &Order, tables: &mut Tables) -> usize {
    let Tables {
        bytes,
        entries,
        arguments,
        nodes,
    } = tables;
    let budget = order.budget;
    let mut answered = 0;
    for question in &order.questions {
        let Question {
            image,
            numbers,
            lines,
            ..
        } = question;
        for &literal in &question.literals {
            let refused = match order.call {
                Call::Check => library::check(image) >> 32 != 0,
                Call::Clash => library::clash(image, entries) >> 32 != 0,
                Call::File => library::file(image, bytes, entries) >> 32 != 0,
                Call::Unfile => library::unfile(image, numbers, bytes) >> 32 != 0,
                Call::List => library::list(image, arguments) >> 32 != 0,
                Call::Trees => library::trees(image, literal, budget, arguments, nodes) >> 32 != 0,
                Call::Query => library::query(image, literal, budget) >> 16 == 0,
                Call::Bill => library::bill(lines).number != 0,
            };
            answered += usize::from(!refused);
        }
    }
    answered
}

/// Not a test by itself: what the processes of the other tests run.
#[test]
fn child() {
    let Ok(order) = std::env::var(ORDER) else {
        return;
    };
    let (stack, what) = order.split_once(' ').expect("a size and what to call");
    let order = order_of(what);
    let mut tables = Tables {
        bytes: vec![0; MOST_IMAGE],
        entries: vec![0; MOST_RULES],
        arguments: vec![0; TABLE],
        nodes: vec![Node::default(); MOST_NODES],
    };
    let thread = thread::Builder::new()
        .stack_size(stack.parse().expect("a size"))
        .spawn(move || order.map_or(0, |order| carry_out(&order, &mut tables)))
        .expect("a thread");
    println!("answered {}", thread.join().expect("a result"));
}

/// True if a stack of so many bytes is enough.
fn suffices(stack: usize, what: &str) -> bool {
    let output = Command::new(std::env::current_exe().expect("this program"))
        .args(["--exact", "child", "--nocapture"])
        .env(ORDER, format!("{stack} {what}"))
        .output()
        .expect("a process");
    let printed = String::from_utf8_lossy(&output.stdout).into_owned();
    let complaint = String::from_utf8_lossy(&output.stderr).into_owned();
    if output.status.success() {
        let some = printed.contains("answered ") && !printed.contains("answered 0");
        assert!(some || what == "nothing", "nothing was answered: {printed}");
    } else {
        // A stack that is left ends the process by a signal, so it has no code.
        let by_signal = output.status.code().is_none();
        assert!(by_signal, "failed for another reason: {complaint}");
    }
    output.status.success()
}

/// The least stack that is enough, in bytes, to a page, and at least what a thread has anyway.
fn least_stack(what: &str) -> usize {
    let (mut too_little, mut enough) = (LEAST_THREAD - PAGE, 4096 * KIB);
    assert!(suffices(enough, what), "{what} needs more than 4 MiB");
    while enough - too_little > PAGE {
        let middle = (too_little + enough) / 2 / PAGE * PAGE;
        if suffices(middle, what) {
            enough = middle;
        } else {
            too_little = middle;
        }
    }
    enough
}

/// Each figure of the header with what it is enough for.
#[test]
fn every_call_ends_on_the_stack_of_the_header() {
    let header = constants();
    for (figure, most, what) in [
        ("STACK_CHECK", 16, "check upto=16"),
        ("STACK_CHECK", 16, "clash upto=16"),
        ("STACK_CHECK", 16, "bill lines=1000"),
        ("STACK_FILE", 16, "file upto=16"),
        ("STACK_FILE", 16, "unfile upto=16"),
        ("STACK_LIST_12", 128, "list upto=12"),
        ("STACK_LIST", 2048, "list upto=16"),
        ("STACK_12_RULES", 512, "trees upto=12"),
        ("STACK_12_RULES", 512, "query upto=12"),
        ("STACK_MOST", 4096, "trees upto=16"),
        ("STACK_MOST", 4096, "query upto=16"),
    ] {
        assert!(header[figure] <= most * KIB, "{figure}");
        assert!(suffices(header[figure], what), "{what} on {figure}");
    }
}

/// Vector, a literal with one node, one with a line of so many arguments and no other node.
const DEEP: (&str, u32, u32, usize) = ("deep180", 0, 22, 180);

/// The header's figures allow for the longest lines, though no test has one.
#[test]
fn the_figures_of_the_header_hold() {
    let header = constants();
    let (name, shallow, deep, length) = DEEP;
    let figures = [
        (12, header["STACK_12_LINE"], header["STACK_12_RULES"]),
        (16, MOST_NODES, header["STACK_MOST"]),
    ];
    let mut lines = String::new();
    let mut held = true;
    for call in Call::ALL.into_iter().filter(|call| call.answers()) {
        let word = call.name();
        let shallow = least_stack(&format!("{word} {name}={shallow}"));
        let deep = least_stack(&format!("{word} {name}={deep}"));
        let level = (deep - shallow + PAGE).div_ceil(length - 1);
        lines += &format!(
            "least stack of {word}: {} KiB for a line of one argument, {} KiB for one of {length}: \
             at most {level} bytes for each argument more\n",
            shallow / KIB,
            deep / KIB
        );
        held &= level <= header["STACK_LEVEL"];
        for (rules, longest, stack) in figures {
            let least = least_stack(&format!("{word} rules={rules}"));
            let with_lines = least + (longest + 1) * level;
            lines += &format!(
                "least stack of {word} for {rules} defeasible rules: {} KiB; with a line of {longest}: \
                 {} KiB of the header's {}\n",
                least / KIB,
                with_lines / KIB,
                stack / KIB
            );
            held &= with_lines <= stack;
        }
    }
    print!("{lines}");
    assert!(held, "{lines}");
    // how many masks nine rules have, so that no line is longer
    let of_nine = (1 << 9) - 1;
    assert!(of_nine <= header["STACK_12_LINE"], "what is said of nine");
}

/// A call with a smaller budget goes one argument past it at most, and then says UNFINISHED.
#[test]
fn a_smaller_budget_takes_less_stack() {
    let (name, shallow, deep, length) = DEEP;
    let mut lines = String::new();
    for call in Call::ALL.into_iter().filter(|call| call.answers()) {
        let word = call.name();
        let shallow = least_stack(&format!("{word} {name}={shallow}"));
        let least = |budget: usize| least_stack(&format!("{word} {name}={deep} budget={budget}"));
        let whole = least(length);
        let each = (whole - shallow) / (length - 1);
        for budget in [0, 30, 60, 120] {
            let (stack, most) = (least(budget), shallow + budget * each + PAGE);
            lines += &format!(
                "least stack of {word} for a line of {length} with a budget of {budget}: {} KiB\n",
                stack / KIB
            );
            assert!(stack <= most && most < whole, "{lines}");
        }
    }
    print!("{lines}");
}

/// Images with the stack that a C call has to stay under on each of their literals, and whether it does.
const BARS: [(&str, usize, bool); 2] = [("shop1", 160 * KIB, false), ("all16", 192 * KIB, false)];

/// Judged where it is said to hold.
#[test]
fn a_c_call_stays_under_its_bar() {
    let mut lines = String::new();
    let mut held = true;
    for (name, bar, holds) in BARS {
        let least = least_stack(&format!("query anchor={name}"));
        lines += &format!(
            "least stack of query on {name}: {} KiB, to be under {} KiB\n",
            least / KIB,
            bar / KIB
        );
        held &= least < bar || !holds;
    }
    print!("{lines}");
    assert!(held, "{lines}");
}

/// Measured, not judged.
#[test]
fn least_stacks() {
    let alone = least_stack("nothing");
    assert_eq!(alone, LEAST_THREAD, "the measure itself takes stack");
    let mut lines = String::new();
    for rules in [0, 8, 12, 16] {
        let of_images = Call::ALL.into_iter().filter(|&call| call != Call::Bill);
        let least = of_images.map(|call| {
            let word = call.name();
            let bytes = least_stack(&format!("{word} rules={rules}"));
            format!("{word} {} KiB", bytes / KIB)
        });
        let least = least.collect::<Vec<_>>().join(", ");
        lines += &format!("least stack for {rules} defeasible rules: {least}\n");
    }
    let least = least_stack("bill lines=512") / KIB;
    lines += &format!("least stack of bill: {least} KiB\n");
    print!("{lines}");
}

/// Measured, not judged: what each function of the library takes off the stack pointer at once,
/// or in a loop that touches every page on the way.
#[test]
fn largest_frames() {
    let path = library::library();
    let output = Command::new("objdump")
        .args(["-d", "--no-show-raw-insn"])
        .arg(path)
        .output()
        .expect("objdump (of binutils) is needed to see the library's frames");
    assert!(output.status.success(), "objdump {}", path.display());
    let frames = frames_of(&String::from_utf8_lossy(&output.stdout));
    let mut lines = String::new();
    for (name, bytes) in &frames {
        lines += &format!("largest frame of {name}: {bytes} bytes\n");
    }
    print!("{lines}");
    for call in Call::ALL {
        let name = format!("foqtirel_{}", call.name());
        assert!(frames.contains_key(&name), "{name}");
    }
}

fn frames_of(disassembly: &str) -> BTreeMap<String, usize> {
    let mut frames = BTreeMap::new();
    let mut name = String::new();
    for line in disassembly.lines() {
        if let Some((_, rest)) = line.split_once(" <").filter(|_| line.ends_with(">:")) {
            name = rest.trim_end_matches(">:").to_string();
            frames.insert(name.clone(), 0);
        } else if let (Some(bytes), Some(most)) = (reserved(line), frames.get_mut(&name)) {
            *most = bytes.max(*most);
        }
    }
    frames
}

/// `sub $0x...,%rsp`, or the same on %r11, which holds where a loop over the pages ends.
fn reserved(line: &str) -> Option<usize> {
    let (_, operands) = line.split_once("sub ")?;
    let (number, register) = operands.trim().strip_prefix("$0x")?.split_once(',')?;
    let stack = matches!(register.trim(), "%rsp" | "%r11");
    usize::from_str_radix(number, 16).ok().filter(|_| stack)
}
