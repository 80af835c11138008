//! Bills: the table held to its own columns, to the calls' shares and to sums made here, and what is told where there is none.

mod common;

use std::path::Path;

use common::{run, run_with_input, Ran, Random};
use foqtirel_binding::{bill, line, Refusal, BRANCHES};

const HEADING: &str = "branch  lines     sum        88%    down    cut  more   share";

/// Runs the command on such a text, in a file of the caller's own and called `bill` in what is told.
fn billed(caller: &str, text: impl AsRef<[u8]>) -> Ran {
    let file = common::write("bill", caller, text);
    let ran = run(&["bill", &file]);
    Ran {
        err: ran.err.replace(&file, "bill"),
        ..ran
    }
}

/// What is printed of a text that is a bill.
fn printed(caller: &str, text: impl AsRef<[u8]>) -> String {
    let ran = billed(caller, text);
    assert_eq!((ran.status, ran.err.as_str()), (0, ""));
    ran.out
}

/// The error of a text that is none.
fn told(caller: &str, text: impl AsRef<[u8]>) -> String {
    let ran = billed(caller, text);
    assert_eq!((ran.status, ran.out.as_str()), (1, ""), "{}", ran.err);
    ran.err
}

/// A row of the table; its part and what is cut off in hundredths of a cent.
#[derive(Clone, Copy, Debug, Default, PartialEq, Eq)]
struct Row {
    lines: u64,
    sum: u64,
    part: u64,
    down: u64,
    cut: u64,
    more: u64,
    share: u64,
}

fn row(line: &str, name: &str) -> Row {
    assert_eq!(line.len(), HEADING.len(), "{line}");
    let words: Vec<&str> = line.split_whitespace().collect();
    assert_eq!((words[0], words.len()), (name, 8), "{line}");
    let number = |word: &str| word.parse::<u64>().unwrap();
    let hundredths = |word: &str| {
        let (whole, behind) = word.split_once('.').unwrap();
        assert_eq!(behind.len(), 2, "{line}");
        100 * number(whole) + number(behind)
    };
    Row {
        lines: number(words[1]),
        sum: number(words[2]),
        part: hundredths(words[3]),
        down: number(words[4]),
        cut: hundredths(words[5]),
        more: number(words[6]),
        share: number(words[7]),
    }
}

/// The twelve rows of a table and that of the group. The sentence below them repeats the group's.
fn rows(text: &str) -> ([Row; BRANCHES], Row) {
    let lines: Vec<&str> = text.lines().collect();
    assert_eq!((lines[0], lines.len()), (HEADING, BRANCHES + 3), "{text}");
    let of_branch = |branch: usize| row(lines[branch + 1], &branch.to_string());
    let group = row(lines[BRANCHES + 1], "group");
    let sentence = format!(
        "The group pays {} cents: 88 hundredths of {}, to the nearest cent.",
        group.share, group.sum
    );
    assert_eq!(lines[BRANCHES + 2], sentence);
    assert!(lines.iter().all(|line| line.len() <= 80), "{text}");
    (std::array::from_fn(of_branch), group)
}

/// Branch, code and nodes.
type Entry = (u32, u32, u32);

fn text_of(entries: &[Entry]) -> String {
    let lines = entries.iter();
    lines
        .map(|(branch, code, nodes)| format!("{branch} {code} {nodes}\n"))
        .collect()
}

fn packed(entries: &[Entry]) -> Vec<u64> {
    let lines = entries.iter();
    lines
        .map(|&(branch, code, nodes)| line(branch, code * 65_536 + nodes))
        .collect()
}

/// What a line costs, by counting.
fn cost(code: u32, nodes: u32) -> u64 {
    let eights = (0..nodes).step_by(8).count() as u64;
    [0, 180 + 3 * eights, 180 + 3 * eights, 90 + 3 * eights, 0, 0][code as usize]
}

/// Holds a table to its lines: each number is made anew, and each column added up.
#[track_caller]
fn assert_shared_out(text: &str, entries: &[Entry]) {
    let (found, group) = rows(text);
    let shares = bill(&packed(entries)).shares().unwrap();
    let mut added = Row::default();
    for (branch, row) in found.into_iter().enumerate() {
        let own = entries.iter().filter(|entry| entry.0 as usize == branch);
        let costs: Vec<u64> = own.map(|&(_, code, nodes)| cost(code, nodes)).collect();
        let (lines, sum) = (costs.len() as u64, costs.iter().sum());
        assert_eq!((row.lines, row.sum), (lines, sum), "{branch} of {text}");
        assert_eq!(row.part, 88 * sum, "{branch} of {text}");
        assert_eq!(row.down, row.part / 100, "{branch} of {text}");
        assert_eq!(row.cut, row.part % 100, "{branch} of {text}");
        assert_eq!(row.share, shares[branch].into(), "{branch} of {text}");
        assert_eq!(row.down + row.more, row.share, "{branch} of {text}");
        added = Row {
            lines: added.lines + lines,
            sum: added.sum + sum,
            part: added.part + row.part,
            down: added.down + row.down,
            cut: added.cut + row.cut,
            more: added.more + row.more,
            share: added.share + row.share,
        };
    }
    assert_eq!(group, added, "{text}");
    assert_eq!(group.share, (88 * group.sum + 50) / 100, "{text}");
    let mut order: Vec<usize> = (0..BRANCHES).collect();
    order.sort_by_key(|&branch| (99 - found[branch].cut, branch));
    for (rank, branch) in (0..).zip(order) {
        let more = u64::from(rank < group.more);
        assert_eq!(found[branch].more, more, "{branch} of {text}");
    }
}

const ONE_EACH: &str = "\
branch  lines     sum        88%    down    cut  more   share
     0      1     180     158.40     158   0.40     0     158
     1      1     183     161.04     161   0.04     0     161
     2      1     183     161.04     161   0.04     0     161
     3      1     186     163.68     163   0.68     1     164
     4      1    1716    1510.08    1510   0.08     0    1510
     5      1      90      79.20      79   0.20     0      79
     6      1      93      81.84      81   0.84     1      82
     7      1      93      81.84      81   0.84     1      82
     8      1      96      84.48      84   0.48     0      84
     9      1    1626    1430.88    1430   0.88     1    1431
    10      1       0       0.00       0   0.00     0       0
    11      1       0       0.00       0   0.00     0       0
 group     12    4446    3912.48    3908   4.48     4    3912
The group pays 3912 cents: 88 hundredths of 4446, to the nearest cent.
";

/// Where eights of nodes start, for each answer, in every way to write them.
#[test]
fn words_and_codes() {
    let words = "0 YES 0\n1 NO 1\n2 YES 8\n3 NO 9\n4 YES 4096\n5 UNDECIDED 0\n6 UNDECIDED 1\n7 UNDECIDED 8\n\
                 8 UNDECIDED 9\n9 UNDECIDED 4096\n10 UNKNOWN 4096\n11 UNFINISHED 4096\n";
    let codes = words.replace("YES", "1").replace("NO", "2");
    let codes = codes.replace("UNDECIDED", "3").replace("UNK2WN", "4");
    let codes = codes.replace("UNFINISHED", "5");
    assert!(!codes.contains(char::is_alphabetic), "{codes}");
    let mixed = words
        .replace("YES", "Yes")
        .replace("UNDECIDED", "unDecided");
    let backwards: String = words
        .lines()
        .rev()
        .map(|line| format!("{line}\n"))
        .collect();
    for text in [
        words,
        &words.to_lowercase(),
        &codes,
        &mixed,
        &backwards,
        words.trim_end(),
        &words.replace('\n', "\r\n"),
        &words.replace(' ', "\t  "),
        &words.replace(' ', "\u{a0}"),
        &words.replace(' ', " 000"),
        &words.replace('\n', " \n\n \t \n"),
        &words.replace('\n', "% 0 YES 1\n% 12\n  %%\n"),
        &words.replace('\n', " % x y z\r\n%\r\n"),
        &format!("\u{feff}{words}"),
        &format!("\u{feff}% lines\n{words}% the end"),
    ] {
        let text = text.replace("000YES", "YES").replace("000NO", "NO");
        let text = text.replace("000UN", "UN");
        assert_eq!(printed("words", &text), ONE_EACH, "{text}");
    }
}

#[test]
fn a_bill_without_lines() {
    let nothing = "     0      0       0       0.00       0   0.00     0       0\n";
    for text in ["", "\n", "\r\n \t\n", "% nothing\n", "\u{feff}", "%"] {
        let out = printed("nothing", text);
        assert!(out.contains(nothing), "{out}");
        assert_shared_out(&out, &[]);
    }
}

/// Every figure has room at its greatest.
#[test]
fn the_greatest_bill() {
    let lines = "11 YES 4096\n".repeat(512);
    let out = printed("greatest", &lines);
    let group = " group    512  878592  773160.96  773160   0.96     1  773161\n\
                 The group pays 773161 cents: 88 hundredths of 878592, to the nearest cent.\n";
    assert!(out.ends_with(group), "{out}");
    assert_shared_out(&out, &[(11, 1, 4096); 512]);
}

/// A bill with few kinds of lines, so that fractions are often equal, or with many.
fn entries(random: &mut Random) -> Vec<Entry> {
    let branches = [1, 3, BRANCHES][random.below(3)];
    let most = [2, 40, 4097][random.below(3)];
    let lines = [3, 12, 40, 513][random.below(4)];
    (0..random.below(lines))
        .map(|_| {
            let branch = BRANCHES - 1 - random.below(branches);
            let code = 1 + random.below(5);
            (branch as u32, code as u32, random.below(most) as u32)
        })
        .collect()
}

/// The lines as somebody may have typed them.
fn typed(random: &mut Random, entries: &[Entry]) -> String {
    let mut text = String::new();
    for (branch, code, nodes) in entries {
        let names = ["YES", "NO", "UNDECIDED", "UNKNOWN", "UNFINISHED"];
        let name = names[*code as usize - 1];
        let answer = match random.below(3) {
            0 => code.to_string(),
            1 => name.to_lowercase(),
            _ => name.to_string(),
        };
        let blank = [" ", "\t", "   "][random.below(3)];
        let end = ["\n", "\r\n", " % 1 2\n", "\n\n", "%\n% 3 YES 4\n"][random.below(5)];
        text += &format!("{branch}{blank}{answer}{blank}{nodes}{end}");
    }
    text
}

#[test]
fn random_bills() {
    let mut random = Random(24);
    let [mut cents, mut decided, mut upwards] = [0; 3];
    for _ in 0..300 {
        let entries = entries(&mut random);
        let text = typed(&mut random, &entries);
        let out = printed("random", &text);
        assert_shared_out(&out, &entries);
        let (found, group) = rows(&out);
        cents += group.more;
        upwards += u64::from(group.part % 100 > 50);
        // The lower branch of two with one fraction has the last cent.
        let fraction = |row: &Row| (row.part % 100, row.more);
        let equal = |with: &Row| {
            let (cut, _) = fraction(with);
            with.more == 1 && found.iter().any(|other| fraction(other) == (cut, 0))
        };
        decided += u64::from(found.iter().any(equal));
    }
    assert!(
        cents > 300 && decided > 10 && upwards > 60,
        "{cents} cents, {decided} by the branch, {upwards} upwards"
    );
}

const BRANCH: &str = "a branch is a number from 0 to 11";
const ANSWER: &str =
    "an answer is YES, NO, UNDECIDED, UNKNOWN or UNFINISHED, or its code from 1 to 5";
const NODES: &str = "nodes are a number from 0 to 4096";
const FORM: &str = "a line is a branch, an answer and its nodes, as in `3 YES 16`";

/// Each with its place, what is wrong, and what to write.
#[test]
fn what_is_no_line_is_told() {
    let both = |help: &str| format!("{help}; {FORM}");
    let (branch, answer, nodes) = (&both(BRANCH), &both(ANSWER), &both(NODES));
    #[rustfmt::skip]
    let cases: &[(&str, &str, &str, &str)] = &[
        ("x YES 1", "1:1", "`x` is no branch", branch),
        ("-1 YES 1", "1:1", "`-1` is no branch", branch),
        ("+1 YES 1", "1:1", "`+1` is no branch", branch),
        ("0x1 YES 1", "1:1", "`0x1` is no branch", branch),
        ("1.0 YES 1", "1:1", "`1.0` is no branch", branch),
        ("1e1 YES 1", "1:1", "`1e1` is no branch", branch),
        ("YES 1 1", "1:1", "`YES` is no branch", branch),
        ("0,YES,1", "1:1", "`0,YES,1` is no branch", branch),
        ("\u{663} YES 1", "1:1", "`\u{663}` is no branch", branch),
        ("# 0 YES 1", "1:1", "`#` is no branch", branch),
        ("0 YES 1\n\u{feff}1 YES 1", "2:1", "`\\u{feff}1` is no branch", branch),
        ("0 YES 1\n\u{1b}[1m YES 1", "2:1", "`\\u{1b}[1m` is no branch", branch),
        ("0 MAYBE 1", "1:3", "`MAYBE` is no answer", answer),
        ("0 YESS 1", "1:3", "`YESS` is no answer", answer),
        ("0 Y 1", "1:3", "`Y` is no answer", answer),
        ("0 -1 1", "1:3", "`-1` is no answer", answer),
        ("0 1.0 1", "1:3", "`1.0` is no answer", answer),
        ("0 0x1 1", "1:3", "`0x1` is no answer", answer),
        ("0 YES, 1", "1:3", "`YES,` is no answer", answer),
        ("0 YES -1", "1:7", "`-1` is no number of nodes", nodes),
        ("0 YES +1", "1:7", "`+1` is no number of nodes", nodes),
        ("0 YES 0x10", "1:7", "`0x10` is no number of nodes", nodes),
        ("0 YES 1.5", "1:7", "`1.5` is no number of nodes", nodes),
        ("0 YES 4,096", "1:7", "`4,096` is no number of nodes", nodes),
        ("0 YES six", "1:7", "`six` is no number of nodes", nodes),
        ("0 YES NO", "1:7", "`NO` is no number of nodes", nodes),
        ("% x\r\n\r\n \t1 NO x\r\n", "3:8", "`x` is no number of nodes", nodes),
        ("0", "1:2", "the answer is missing", FORM),
        (" 0 % YES 16", "1:3", "the answer is missing", FORM),
        ("0 YES", "1:6", "the number of nodes is missing", FORM),
        ("0 YES%16", "1:6", "the number of nodes is missing", FORM),
        ("0 YES\n16", "1:6", "the number of nodes is missing", FORM),
        ("0 YES 1 2", "1:9", "`2` after the nodes", FORM),
        ("0 YES 1 1 YES 1", "1:9", "`1` after the nodes", FORM),
        ("0 YES 4 096", "1:9", "`096` after the nodes", FORM),
        // The first of several.
        ("x MAYBE", "1:1", "`x` is no branch", branch),
        ("0 MAYBE", "1:3", "`MAYBE` is no answer", answer),
        ("0 YES x 1", "1:7", "`x` is no number of nodes", nodes),
        ("0 YES 1 2\n0 YES", "1:9", "`2` after the nodes", FORM),
        // Before any limit.
        ("12 6 4097\n0 YES x", "2:7", "`x` is no number of nodes", nodes),
        ("99 YES", "1:7", "the number of nodes is missing", FORM),
    ];
    for (text, place, what, help) in cases {
        let told = told("no_line", text);
        let lead = format!("bill:{place}: error: {what}\n ");
        let help = format!("^\n help: {help}\n");
        assert!(told.starts_with(&lead) && told.ends_with(&help), "{told}");
    }
    let whole = format!(
        "bill:2:4: error: `MAY` is no answer\n 2 | 10 MAY 1 % x\n   |    ^^^\n help: {answer}\n"
    );
    assert_eq!(told("no_line", "0 YES 1\n10 MAY 1 % x\n"), whole);
    let whole = format!(
        "bill:1:6: error: the number of nodes is missing\n 1 | 0 YES  % 3\n   |      ^\n help: {FORM}\n"
    );
    assert_eq!(told("no_line", "0 YES  % 3\n"), whole);
    let long = told("no_line", "0 YES ".to_string() + &"x".repeat(100_000));
    let lead = format!(
        "bill:1:7: error: `{}..` is no number of nodes\n",
        "x".repeat(40)
    );
    assert!(
        long.starts_with(&lead) && long.len() < 1_000,
        "{}",
        long.len()
    );
    let no_text = "bill:2:3: error: a byte that is not UTF-8 text\n 2 | 1 \u{fffd}\n   |   ^\n \
                   help: a bill is text, with lines such as `3 YES 16`\n";
    assert_eq!(told("no_line", b"0 YES 1\n1 \xff"), no_text);
}

/// A message about a line that breaks a limit: the place in the file, the line with carets, and what is right.
fn refusal(head: &str, broken: &str, line: (usize, &str), carets: &str, help: &str) -> String {
    let (number, line) = line;
    let margin = " ".repeat(number.to_string().len());
    format!(
        "refused {head}: a line breaks a limit: {broken}\n {number} | {line}\n {margin} | {carets}\n help: {help}\n"
    )
}

const FAR_BRANCH: &str = "its branch is over 11";
const NO_CODE: &str = "its answer code is outside 1 to 5";
const MANY_NODES: &str = "its nodes are over 4096";

#[test]
fn a_line_that_breaks_a_limit_is_told() {
    let text = "% lines\n\n0 YES 1\n  12 YES 1 % far\n13 YES 1\n";
    let line = (4, "  12 YES 1 % far");
    let whole = refusal("35 1: bill:4:3", FAR_BRANCH, line, "  ^^", BRANCH);
    assert_eq!(told("limit", text), whole);
    let text = "0 YES 1\n".repeat(9) + "11\t0\t4096\r\n";
    let line = (10, "11\t0\t4096");
    let whole = refusal("35 9: bill:10:4", NO_CODE, line, "  \t^", ANSWER);
    assert_eq!(told("limit", text), whole);
    let line = (1, "11 unfinished 4097");
    let carets = "              ^^^^";
    let whole = refusal("35 0: bill:1:15", MANY_NODES, line, carets, NODES);
    assert_eq!(told("limit", "11 unfinished 4097\n12 6 1"), whole);
    // Of one line, the first field that breaks its own.
    for (text, column, broken) in [
        ("12 6 4097", 1, FAR_BRANCH),
        ("11 6 4097", 4, NO_CODE),
        ("11 5 4097", 6, MANY_NODES),
        ("12 5 4096", 1, FAR_BRANCH),
    ] {
        let lead = format!("refused 35 0: bill:1:{column}: a line breaks a limit: {broken}\n");
        let told = told("limit", text);
        assert!(told.starts_with(&lead), "{told}");
    }
    for entry in [(11, 5, 4096), (0, 1, 0), (11, 1, 0), (0, 5, 4096)] {
        assert_shared_out(&printed("limit", text_of(&[entry])), &[entry]);
    }
}

/// Numbers that would become those of another line if they were cut to the bits of their field, or added to the next one.
#[test]
fn a_number_too_large_for_its_field_makes_no_other_line() {
    let far = "9".repeat(40);
    let [far, halves, wraps] = [far.as_str(), "4294967296", "18446744073709551616"];
    for (field, numbers, broken, help) in [
        (
            0,
            &["12", "4294967295", halves, "4294967297", wraps, far, "0012"][..],
            FAR_BRANCH,
            BRANCH,
        ),
        (
            1,
            &[
                "0",
                "00",
                "6",
                "65535",
                "65536",
                "65537",
                halves,
                "4294967297",
                wraps,
                far,
            ],
            NO_CODE,
            ANSWER,
        ),
        (
            2,
            &["4097", "65535", "65536", "65537", halves, wraps, far],
            MANY_NODES,
            NODES,
        ),
    ] {
        for number in numbers {
            let mut words = ["3", "1", "8"];
            words[field] = number;
            let line = words.join(" ");
            let before = "0 NO 3\n".repeat(2);
            let head = format!("35 2: bill:3:{}", 1 + 2 * field);
            let carets = " ".repeat(2 * field) + &"^".repeat(number.len());
            let whole = refusal(&head, broken, (3, &line), &carets, help);
            assert_eq!(told("large", before + &line + "\n0 YES 1\n"), whole);
        }
    }
}

#[test]
fn at_most_512_lines() {
    let most: Vec<Entry> = (0..512).map(|n| (n % 12, 1 + n % 5, 8 * n)).collect();
    let lines = text_of(&most);
    assert_shared_out(&printed("most", &lines), &most);
    let spread = lines.replace('\n', " % line\n\n% no line\n");
    assert_shared_out(&printed("most", &spread), &most);
    let refused = |line: usize, column: usize, count: usize, shown: &str, carets: &str| {
        let margin = " ".repeat(line.to_string().len());
        format!(
            "refused 34 0: bill:{line}:{column}: a bill has at most 512 lines: there are {count}, and this is number 513\n \
             {line} | {shown}\n {margin} | {carets}\n help: make several bills of them; each is rounded by itself\n"
        )
    };
    let past = told("past", lines.clone() + "7 YES 16");
    assert_eq!(past, refused(513, 1, 513, "7 YES 16", "^^^^^^^^"));
    let past = told("past", spread.clone() + " 7  NO 1 % x\n" + &lines);
    assert_eq!(past, refused(1537, 2, 1025, " 7  NO 1 % x", " ^^^^^^^"));
    // Before any line that breaks a limit, and after one that is none.
    let past = told("past", "12 6 4097\n".repeat(513));
    assert_eq!(past, refused(513, 1, 513, "12 6 4097", "^^^^^^^^^"));
    let flaw = told("past", lines.repeat(2) + "x");
    assert!(flaw.starts_with("bill:1025:1: error: `x` is "), "{flaw}");
}

/// The number and the place are the call's, and the line of the file is that of the place.
#[test]
fn random_refusals() {
    let mut random = Random(35);
    let [mut bad, mut long] = [0; 2];
    for _ in 0..200 {
        let mut entries = entries(&mut random);
        entries.extend([(0, 1, 1)].repeat([1, 1, 1, 513][random.below(4)]));
        for _ in 0..1 + random.below(3) {
            let place = random.below(entries.len());
            let entry = &mut entries[place];
            match random.below(3) {
                0 => entry.0 = 12 + random.below(1 << 20) as u32,
                1 => entry.1 = [0, 6 + random.below(65_530) as u32][random.below(2)],
                _ => entry.2 = 4097 + random.below(61_439) as u32,
            }
        }
        let Refusal { number, place } = bill(&packed(&entries)).shares().unwrap_err();
        let line = match number {
            34 => 513,
            _ => place + 1,
        };
        let told = told("refusals", text_of(&entries));
        let lead = format!("refused {number} {place}: bill:{line}:");
        assert!(told.starts_with(&lead), "{lead} {told}");
        assert!(told.contains("^\n help: "), "{told}");
        bad += usize::from(number == 35);
        long += usize::from(number == 34);
    }
    assert!(bad > 100 && long > 30, "{bad} bad lines, {long} too long");
}

#[test]
fn a_bill_from_standard_input() {
    let words = ["bill", "-"];
    let example = common::examples().join("group.bill");
    let ran = run_with_input(&words, &example);
    assert_eq!((ran.status, ran.err.as_str()), (0, ""));
    assert_eq!(ran.out, run(&["bill", "group.bill"]).out);
    for (text, told) in [
        ("0 YES", "standard input:1:6: error: the number of nodes "),
        ("0 6 1", "refused 35 0: standard input:1:3: a line breaks "),
    ] {
        let input = common::write("bill", "input", text);
        let ran = run_with_input(&words, Path::new(&input));
        assert_eq!((ran.status, ran.out.as_str()), (1, ""));
        assert!(ran.err.starts_with(told), "{}", ran.err);
    }
}

#[test]
fn wrong_usage() {
    let long = &common::write("bill", "long", "%".repeat((1 << 24) + 1));
    let page = "\nusage: foqtirel bill BILL\n";
    #[rustfmt::skip]
    let cases: &[(&[&str], &str, &str)] = &[
        (&["bill"], "too few words", page),
        (&["bill", "group.bill", "group.bill"], "`group.bill` has no place here", page),
        (&["bill", "group.bill", "--names"], "`--names` has no place here", page),
        (&["bill", "-x", "group.bill"], "`-x` has no place here", page),
        (&["bill", "none.bill"], "cannot read none.bill", ""),
        (&["bill", "."], "cannot read .", ""),
        (&["bill", long], "that is no bill", ""),
    ];
    for (words, told, page) in cases {
        let ran = run(words);
        assert_eq!((ran.status, ran.out.as_str()), (2, ""), "{words:?}");
        let told = ran.err.contains(told) && ran.err.ends_with(page);
        assert!(told, "{words:?}: {}", ran.err);
    }
}

/// What the page says of a bill is a bill.
#[test]
fn the_page_has_a_bill() {
    let page = run(&["bill", "--help"]).out;
    let indented = page.lines().filter_map(|line| line.strip_prefix("    "));
    let lines: Vec<&str> = indented.take(3).collect();
    let entries = [(0, 1, 6), (11, 3, 15)];
    assert_shared_out(&printed("page", lines.join("\n")), &entries);
    assert!(page.lines().all(|line| line.len() <= 80), "{page}");
}
