//! Times the proved library against Rust, both built for release, in one run, and holds its instructions against those
//! of the anchor.
//!
//! `--out FILE` keeps the table of the calls, `--compare FILE` prints what changed since such a file was written, and
//! `--only TEXT` leaves out the images without the text in their name. With `--worst` it looks for the queries and the runs
//! of `advise` that take the most instead.

mod anchor;
mod calls;
mod cases;
mod child;
mod images;
mod measuring;
mod table;
mod timing;
mod worst;

fn main() {
    let mut arguments = std::env::args().skip(1).peekable();
    if arguments.peek().is_some_and(|first| first == child::ONCE) {
        return child::once(&arguments.skip(1).collect::<Vec<_>>());
    }
    let (mut out, mut compare, mut only, mut worst) = (None, None, String::new(), false);
    while let Some(option) = arguments.next() {
        let mut text = || arguments.next().unwrap_or_else(|| panic!("what {option}?"));
        match option.as_str() {
            "--out" => out = Some(text()),
            "--compare" => compare = Some(text()),
            "--only" => only = text(),
            "--worst" => worst = true,
            _ => panic!("--out FILE, --compare FILE, --only TEXT or --worst, but not {option}"),
        }
    }
    if worst {
        return worst::table(&only);
    }
    // Read before anything is measured, so that a wrong name shows at once, and --out may name the same file.
    let before = compare.map(|file| table::read(&file));
    let mut rows = measuring::table(&only);
    measuring::filed(&rows);
    let against = measuring::anchored(&only);
    rows.extend(against.iter().map(|against| against.row.clone()));
    if let Some(file) = out {
        table::write(&file, &rows);
    }
    if let Some(before) = before {
        table::compare(&before, &rows);
        println!();
    }
    measuring::targets(&rows, &against, &only);
}
