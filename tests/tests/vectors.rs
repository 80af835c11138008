//! The reference against the vectors, and the vectors' notation against the image builder.

use std::collections::BTreeMap;

use foqtirel_tests::generator::Description;
use foqtirel_tests::reference::tree::{line_to, Forest};
use foqtirel_tests::reference::{advise, query, Analysis, Code, Literal, NodeEntry};
use foqtirel_tests::vectors::{advice, image, names, of_request, readme, whole_forests};

/// Name, program and remark of each row of the README's table.
fn table() -> Vec<(String, String, String)> {
    readme()
        .lines()
        .filter(|line| line.starts_with("| ") && !line.starts_with("| Name"))
        .map(|line| {
            let cells: Vec<&str> = line.split('|').map(str::trim).collect();
            let program = cells[2].trim_matches('`').to_string();
            (cells[1].to_string(), program, cells[3].to_string())
        })
        .collect()
}

#[test]
fn every_vector_is_advised_as_written() {
    let images = names("img");
    assert_eq!(images, names("advise"), "each image has its text");
    let mut listed: Vec<String> = table().into_iter().map(|row| row.0).collect();
    listed.sort();
    assert_eq!(images, listed, "the README lists all vectors");
    for name in images {
        assert_eq!(advise(&image(&name)), advice(&name), "{name}");
    }
}

#[test]
fn chains_are_advised_as_requested() {
    let vectors = of_request("c11");
    assert_eq!(vectors.len(), 41, "vectors of the request");
    for (image, text) in vectors {
        assert_eq!(advise(&image), text, "{image:02x?}");
    }
}

#[test]
fn written_programs_build_to_the_images() {
    let mut programs: BTreeMap<String, Description> = BTreeMap::new();
    for (name, program, _) in table() {
        let base = program.split_once(" and ").and_then(|(base, pair)| {
            let mut description: Description = programs.get(base)?.clone();
            description.pairs = Description::parse(pair).ok()?.pairs;
            Some(description)
        });
        let parsed = base.or_else(|| Description::parse(&program).ok());
        let Some(mut description) = parsed.filter(|_| !program.is_empty()) else {
            continue;
        };
        // The notation leaves open whether there are more atoms than the rules need.
        let atoms = u16::from(image(&name)[0]);
        assert!(atoms >= description.atoms, "{name}: too few atoms");
        description.atoms = atoms;
        assert_eq!(description.image(), image(&name), "{name}: {program}");
        programs.insert(name, description);
    }
    let built: Vec<&str> = programs.keys().map(String::as_str).collect();
    assert_eq!(
        built,
        [
            "F", "Fnopair", "G", "Gpair", "H", "K", "L", "T", "back", "chained", "closed",
            "concord", "itself", "n4096", "n4097", "noargs", "replaced", "subarg", "whole"
        ]
    );
}

/// Every `lit n: ANSWER nodes` of the README's table.
#[test]
fn remarks_of_the_table_hold() {
    let mut found = 0;
    for (name, _, remark) in table() {
        for piece in remark.split(';') {
            let Some((_, rest)) = piece.split_once("lit ") else {
                continue;
            };
            let Some((literal, answer)) = rest.split_once(": ") else {
                continue;
            };
            let (Ok(literal), Some((word, rest))) =
                (literal.parse::<u32>(), answer.split_once(' '))
            else {
                continue;
            };
            let Ok(nodes) = rest
                .split([',', ' '])
                .next()
                .unwrap_or_default()
                .parse::<usize>()
            else {
                continue;
            };
            if word.chars().all(|c| c.is_ascii_uppercase()) {
                let answer = ask(&image(&name), literal, 4096);
                assert_eq!(
                    (answer.0.word(), answer.1),
                    (word, nodes),
                    "{name}: {piece}"
                );
                found += 1;
            }
        }
    }
    assert!(found >= 25, "only {found} remarks understood");
}

fn ask(image: &[u8], literal: u32, budget: u32) -> (Code, usize) {
    let mut arguments = vec![0; 4096];
    let mut nodes = vec![NodeEntry::default(); 4096];
    let answer = query(image, literal, budget, &mut arguments, &mut nodes).expect("an answer");
    (answer.code, answer.nodes)
}

#[test]
fn node_counts_around_the_greatest_budget() {
    assert_eq!(ask(&image("n4096"), 20, 4096).1, 4096);
    assert_ne!(ask(&image("n4096"), 20, 4096).0, Code::Unfinished);
    assert_eq!(
        ask(&image("n4096"), 20, 4095),
        (Code::Unfinished, 4095),
        "one node more than the budget"
    );
    assert_eq!(ask(&image("n4097"), 28, 4096), (Code::Unfinished, 4096));
    let analysis = Analysis::of_image(&image("n4097")).expect("a sound image");
    let forest = Forest::of(Literal::new(28), &analysis, 5000).expect("a small forest");
    assert_eq!(forest.nodes.len(), 4097);
}

#[test]
fn empty_forest_needs_no_budget() {
    assert_eq!(ask(&image("noargs"), 2, 0), (Code::Undecided, 0));
    assert_eq!(ask(&image("F"), 2, 2), (Code::Unfinished, 2));
    assert_eq!(ask(&image("F"), 2, 0), (Code::Unfinished, 0));
}

#[test]
fn longest_line_of_deep180() {
    let analysis = Analysis::of_image(&image("deep180")).expect("a sound image");
    let forest = Forest::of(Literal::new(22), &analysis, 4096).expect("a small forest");
    let longest = (0..forest.nodes.len())
        .map(|number| line_to(number, &forest.nodes, &analysis).len())
        .max();
    assert_eq!(longest, Some(180));
}

/// The whole forests at the end of the README.
#[test]
fn whole_forests_are_as_written() {
    let forests = whole_forests();
    assert_eq!(forests.len(), 7, "forests in the README");
    for forest in forests {
        let about = format!("{} {}", forest.name, forest.literal);
        let image = image(&forest.name);
        let mut list = vec![0; 4096];
        let mut nodes = vec![NodeEntry::default(); 4096];
        let given = query(&image, forest.literal, 4096, &mut list, &mut nodes).expect("an answer");
        let count = forest.nodes.len();
        assert_eq!(
            (given.code.number(), given.nodes),
            (forest.code, count),
            "{about}"
        );
        let listed = forest.list.len();
        assert_eq!(list[..listed], forest.list, "{about}");
        assert!(list[listed..].iter().all(|&entry| entry == 0), "{about}");
        assert_eq!(nodes[..count], forest.nodes, "{about}");
    }
}
