//! The reference against the definitions once more, on small programs of every kind.

use std::collections::{BTreeMap, BTreeSet};

use foqtirel_tests::generator::accepted::{accepted, small_programs};
use foqtirel_tests::generator::{all_applicable, chained, chained_sixteen, taking_turns, Random};
use foqtirel_tests::reference::attack::{Defeat, Preference};
use foqtirel_tests::reference::derivation::{contradictory, derived};
use foqtirel_tests::reference::line::{acceptable, line_limit, Step};
use foqtirel_tests::reference::tree::{children, line_to, warranted, Forest, Mark};
use foqtirel_tests::reference::{
    read_image, Analysis, Argument, Code, Kind, Literal, NodeEntry, Program, Rule, MOST_NODES,
};
use foqtirel_tests::vectors::image;

const SEED: u64 = 4711;

fn small_analyses(count: usize) -> impl Iterator<Item = Analysis> {
    small_programs(SEED, count).filter_map(|case| Analysis::of_image(&case.image).ok())
}

/// The same with as many programs whose listed pairs form chains.
fn small_and_chained(count: usize) -> impl Iterator<Item = Analysis> {
    let chained = chained(SEED, count).map(|case| Analysis::of_image(&case.image));
    small_analyses(count).chain(chained.map(|analysis| analysis.expect("a sound image")))
}

/// A derivation chain, looked for backwards: the literal is the head of a rule whose body is
/// derived without it.
fn has_chain(rules: &[&Rule], literal: Literal, open: &mut Vec<Literal>) -> bool {
    if open.contains(&literal) {
        return false;
    }
    open.push(literal);
    let found = rules.iter().any(|rule| {
        rule.head == literal
            && rule
                .body
                .iter()
                .all(|&needed| has_chain(rules, needed, open))
    });
    open.pop();
    found
}

#[test]
fn derived_literals_have_chains() {
    for analysis in small_analyses(300) {
        let everything: Vec<&Rule> = analysis.program.rules.iter().collect();
        let strict = analysis.program.strict_rules();
        for rules in [everything, strict] {
            let found = derived(&rules, &[]);
            for literal in (0..2 * analysis.program.atoms as u8).map(Literal::new) {
                let chain = has_chain(&rules, literal, &mut Vec::new());
                assert_eq!(found.contains(literal), chain, "{literal:?} {rules:?}");
            }
        }
    }
}

/// Definition 2 read off directly, for every mask and literal and every proper subset.
#[test]
fn the_list_is_the_arguments_by_definition() {
    for analysis in small_analyses(300) {
        let program = &analysis.program;
        let masks = 1u32 << program.defeasible_numbers().len();
        let mut by_definition = Vec::new();
        for mask in 0..masks {
            for literal in (0..2 * program.atoms as u8).map(Literal::new) {
                let derives = |mask: u32| derived(&program.rules_with(mask), &[]).contains(literal);
                let minimal = || (0..mask).all(|m| m & !mask != 0 || !derives(m));
                let consistent = !contradictory(&program.rules_with(mask), &[]);
                if consistent && derives(mask) && minimal() {
                    by_definition.push(Argument { mask, literal });
                }
            }
        }
        assert_eq!(analysis.arguments, by_definition);
    }
}

/// The numbers of the rules at the ends of all chains of so many listed pairs that begin with a
/// rule: each pair begins where the one before it ends.
fn ends_of_chains(program: &Program, rule: usize, length: usize) -> BTreeSet<usize> {
    let mut ends = BTreeSet::from([rule]);
    for _ in 0..length {
        let next = program
            .pairs
            .iter()
            .filter(|(first, _)| ends.contains(first));
        ends = next.map(|&(_, second)| second).collect();
    }
    ends
}

/// Which rules beat which, by chains of every length. A chain that passes no rule twice has at most
/// as many pairs as there are rules.
fn beating_by_definition(program: &Program) -> BTreeSet<(usize, usize)> {
    let rules = program.defeasible_numbers();
    let mut beating = BTreeSet::new();
    for &rule in &rules {
        for length in 1..=rules.len() {
            let ends = ends_of_chains(program, rule, length);
            beating.extend(ends.into_iter().map(|end| (rule, end)));
        }
    }
    beating
}

/// The same as the reference has it, asked for every two rules and for every rule with itself.
fn beating(program: &Program) -> BTreeSet<(usize, usize)> {
    let preference = Preference::of(program);
    let rules = program.defeasible_numbers();
    let mut beating = BTreeSet::new();
    for (bit, &rule) in rules.iter().enumerate() {
        for (other_bit, &other) in rules.iter().enumerate() {
            if preference.some_rule_beats(1 << bit, 1 << other_bit) {
                beating.insert((rule, other));
            }
        }
    }
    beating
}

#[test]
fn rules_beat_each_other_by_definition() {
    let mut listed = 0;
    let mut chained_only = 0;
    let mut themselves = 0;
    let programs = chained(SEED, 1100).chain(chained_sixteen(SEED, 40));
    for case in programs.chain(small_programs(SEED, 200)) {
        let program = read_image(&case.image).expect("a sound image");
        let beating = beating(&program);
        assert_eq!(beating, beating_by_definition(&program), "{}", case.note);
        listed += program.pairs.len();
        chained_only += beating.len() - program.pairs.len();
        themselves += beating.iter().filter(|(a, b)| a == b).count();
    }
    println!("{listed} listed pairs, {chained_only} by chains only, {themselves} with itself");
    assert!(listed > 5_000 && chained_only > 5_000 && themselves > 1_000);
}

/// Sixteen defeasible rules, numbered from 1, with some listed pairs.
fn sixteen_with(mut pairs: Vec<(u8, u8)>) -> Program {
    pairs.sort_unstable();
    let mut description = all_applicable(16);
    description.pairs = pairs;
    read_image(&description.image()).expect("a sound image")
}

#[test]
fn without_pairs_no_rule_beats_another() {
    assert_eq!(beating(&sixteen_with(Vec::new())), BTreeSet::new());
}

/// So many rules beat each other and themselves, and the rest beat none and are beaten by none.
#[test]
fn rules_on_a_closed_chain_beat_each_other_and_themselves() {
    let mut random = Random::seeded(SEED);
    for length in 2..=16 {
        let mut rules: Vec<u8> = (1..=16).collect();
        random.shuffle(&mut rules);
        rules.truncate(length);
        let next = |place: usize| rules[(place + 1) % length];
        let pairs = (0..length).map(|place| (rules[place], next(place)));
        let mut all = BTreeSet::new();
        for &one in &rules {
            all.extend(rules.iter().map(|&other| (one.into(), other.into())));
        }
        assert_eq!(beating(&sixteen_with(pairs.collect())), all, "{rules:?}");
    }
}

/// A chain that isn't closed orders its rules, however they stand in the table.
#[test]
fn rules_on_an_open_chain_beat_all_that_come_later() {
    let mut random = Random::seeded(SEED);
    let ascending: Vec<u8> = (1..=16).collect();
    let mut shuffled = ascending.clone();
    random.shuffle(&mut shuffled);
    let descending: Vec<u8> = ascending.iter().rev().copied().collect();
    for rules in [ascending, descending, shuffled] {
        let pairs = rules.windows(2).map(|two| (two[0], two[1]));
        let mut later = BTreeSet::new();
        for (place, &one) in rules.iter().enumerate() {
            let others = rules[place + 1..].iter();
            later.extend(others.map(|&other| (one.into(), other.into())));
        }
        assert_eq!(beating(&sixteen_with(pairs.collect())), later, "{rules:?}");
    }
}

/// Definitions 3 and 4 read off directly for two arguments.
fn defeat_by_definition(
    analysis: &Analysis,
    beating: &BTreeSet<(usize, usize)>,
    x: Argument,
    y: Argument,
) -> Option<Defeat> {
    let program = &analysis.program;
    let strict = program.strict_rules();
    let names = program.defeasible_numbers();
    let uses = |argument: Argument, rule: usize| {
        let bit = names.iter().position(|&name| name == rule).unwrap();
        argument.mask & 1 << bit != 0
    };
    let beats = |one: Argument, other: Argument| {
        beating
            .iter()
            .any(|&(winner, loser)| uses(one, winner) && uses(other, loser))
    };
    let preferred = |one: Argument, other: Argument| beats(one, other) && !beats(other, one);
    let attacked: Vec<Argument> = analysis
        .arguments
        .iter()
        .copied()
        .filter(|z| z.mask & y.mask == z.mask)
        .filter(|z| contradictory(&strict, &[x.literal, z.literal]))
        .collect();
    if attacked.iter().any(|&z| preferred(x, z)) {
        Some(Defeat::Proper)
    } else if attacked.iter().any(|&z| !preferred(z, x)) {
        Some(Defeat::Blocking)
    } else {
        None
    }
}

#[test]
fn defeaters_are_those_by_definition() {
    for analysis in small_and_chained(200) {
        let beating = beating_by_definition(&analysis.program);
        for (index, &y) in analysis.arguments.iter().enumerate() {
            let by_definition: Vec<(usize, Defeat)> = analysis
                .arguments
                .iter()
                .enumerate()
                .filter_map(|(i, &x)| Some((i, defeat_by_definition(&analysis, &beating, x, y)?)))
                .collect();
            assert_eq!(*analysis.defeaters_of(index), by_definition);
        }
    }
}

/// The conditions of Definition 6, each read off directly over the whole line.
#[derive(Clone, Copy, Debug, PartialEq, Eq, PartialOrd, Ord)]
enum Condition {
    EvenConcordant,
    OddConcordant,
    NoSubArgument,
    BlockingAnsweredProperly,
}

fn violated_by_definition(line: &[Step], analysis: &Analysis) -> Vec<Condition> {
    let concordant = |parity: usize| {
        let mut together = 0;
        for (position, step) in line.iter().enumerate() {
            if position % 2 == parity {
                together |= step.argument.mask;
            }
        }
        !contradictory(&analysis.program.rules_with(together), &[])
    };
    let mut sub_argument = false;
    let mut blocking_twice = false;
    for later in 0..line.len() {
        for earlier in 0..later {
            let (one, other) = (line[later].argument.mask, line[earlier].argument.mask);
            sub_argument |= one | other == other;
        }
        if later > 0 && line[later - 1].defeat == Some(Defeat::Blocking) {
            blocking_twice |= line[later].defeat != Some(Defeat::Proper);
        }
    }
    let mut violated = Vec::new();
    for (condition, holds) in [
        (Condition::EvenConcordant, concordant(0)),
        (Condition::OddConcordant, concordant(1)),
        (Condition::NoSubArgument, !sub_argument),
        (Condition::BlockingAnsweredProperly, !blocking_twice),
    ] {
        if !holds {
            violated.push(condition);
        }
    }
    violated
}

/// How often a condition was the only one that kept a defeater out.
type Decisive = BTreeMap<Condition, usize>;

/// Every node's children are all defeaters that keep the whole line acceptable, in list order,
/// each followed by its own subtree; and the marks are those of Definition 8.
#[test]
fn forests_are_trees_by_definition() {
    let mut nodes_seen = 0;
    let mut decisive = Decisive::new();
    for analysis in small_and_chained(600) {
        for literal in (0..2 * analysis.program.atoms as u8).map(Literal::new) {
            let Some(forest) = Forest::of(literal, &analysis, 300) else {
                continue;
            };
            let roots: Vec<usize> = forest
                .nodes
                .iter()
                .filter(|node| node.parent.is_none())
                .map(|node| node.argument)
                .collect();
            assert_eq!(roots, analysis.roots_of_forest(literal));
            for number in 0..forest.nodes.len() {
                check_node(number, &forest, &analysis, &mut decisive);
                nodes_seen += 1;
            }
            check_preorder(&forest);
        }
    }
    assert!(nodes_seen > 5_000, "only {nodes_seen}");
    println!("{decisive:?}");
    for condition in [
        Condition::EvenConcordant,
        Condition::OddConcordant,
        Condition::NoSubArgument,
        Condition::BlockingAnsweredProperly,
    ] {
        let times = decisive.get(&condition).copied().unwrap_or(0);
        assert!(times >= 20, "{condition:?} was decisive {times} times");
    }
}

fn check_node(number: usize, forest: &Forest, analysis: &Analysis, decisive: &mut Decisive) {
    let line = line_to(number, &forest.nodes, analysis);
    assert!(acceptable(&line, &analysis.derived_by));
    let mut expected: Vec<(usize, Option<Defeat>)> = Vec::new();
    for &(argument, defeat) in analysis.defeaters_of(forest.nodes[number].argument).iter() {
        let mut longer = line.clone();
        longer.push(Step {
            argument: analysis.arguments[argument],
            defeat: Some(defeat),
        });
        let violated = violated_by_definition(&longer, analysis);
        assert_eq!(
            acceptable(&longer, &analysis.derived_by),
            violated.is_empty()
        );
        match violated[..] {
            [] => expected.push((argument, Some(defeat))),
            [only] => *decisive.entry(only).or_default() += 1,
            _ => {}
        }
    }
    let children: Vec<usize> = (0..forest.nodes.len())
        .filter(|&child| forest.nodes[child].parent == Some(number))
        .collect();
    let given: Vec<(usize, Option<Defeat>)> = children
        .iter()
        .map(|&child| (forest.nodes[child].argument, forest.nodes[child].defeat))
        .collect();
    assert_eq!(given, expected);
    let some_child_undefeated = children
        .iter()
        .any(|&child| forest.marks[child] == Mark::Undefeated);
    let defeated = forest.marks[number] == Mark::Defeated;
    assert_eq!(defeated, some_child_undefeated);
}

/// In preorder, a node's parent is the node before it or one of that node's ancestors.
fn check_preorder(forest: &Forest) {
    for number in 1..forest.nodes.len() {
        let mut above = Some(number - 1);
        let parent = forest.nodes[number].parent;
        while above != parent {
            above = forest.nodes[above.expect("the parent is further up")].parent;
        }
    }
}

/// The masks of a line differ, and none is empty unless it stands alone: so no line has more nodes than there are different
/// non-empty masks, or than one.
fn check_length(line: &[Step], analysis: &Analysis) {
    let masks: BTreeSet<u32> = line.iter().map(|step| step.argument.mask).collect();
    assert_eq!(masks.len(), line.len(), "a mask comes twice: {line:?}");
    assert!(!masks.contains(&0) || line.len() == 1, "{line:?}");
    let most = line_limit(&analysis.arguments);
    assert!(line.len() <= most, "more than {most} nodes: {line:?}");
}

#[test]
fn no_line_has_more_nodes_than_there_are_masks() {
    let mut lines = 0;
    // Lines that are as long as can be, by how long that is.
    let mut as_long: BTreeMap<usize, usize> = BTreeMap::new();
    for analysis in small_and_chained(600) {
        let most = line_limit(&analysis.arguments);
        for literal in (0..2 * analysis.program.atoms as u8).map(Literal::new) {
            let Some(forest) = Forest::of(literal, &analysis, 300) else {
                continue;
            };
            for number in 0..forest.nodes.len() {
                let line = line_to(number, &forest.nodes, &analysis);
                check_length(&line, &analysis);
                lines += 1;
                if line.len() == most {
                    *as_long.entry(most).or_default() += 1;
                }
            }
        }
    }
    println!("{lines} lines; as long as can be: {as_long:?}");
    assert!(lines > 20_000, "only {lines}");
    let times = |length: usize| as_long.get(&length).copied().unwrap_or(0);
    assert!(times(1) > 100 && times(2) > 20, "{as_long:?}");
}

/// Two sides that take turns until every rule is used up, and facts alone.
#[test]
fn some_lines_have_as_many_nodes_as_there_are_masks() {
    for rules in 0..=16 {
        let analysis = Analysis::of_image(&taking_turns(rules).image()).expect("a sound image");
        assert_eq!(line_limit(&analysis.arguments), rules.max(1));
        let literal = if rules == 0 { 4 } else { 0 };
        let forest =
            Forest::of(Literal::new(literal), &analysis, MOST_NODES).expect("a small forest");
        let lines = (0..forest.nodes.len()).map(|n| line_to(n, &forest.nodes, &analysis).len());
        assert_eq!(lines.max(), Some(rules.max(1)), "{rules} rules");
    }
}

/// A line of replies at random, down to one that has none.
fn random_line(root: usize, analysis: &Analysis, random: &mut Random) -> Vec<Step> {
    let mut line = Vec::new();
    let mut reply = Some((root, None));
    while let Some((last, defeat)) = reply {
        let argument = analysis.arguments[last];
        line.push(Step { argument, defeat });
        let replies: Vec<(usize, Defeat)> = children(&line, last, analysis).collect();
        let chosen = (!replies.is_empty()).then(|| random.pick(&replies));
        reply = chosen.map(|(argument, defeat)| (argument, Some(defeat)));
    }
    line
}

/// In forests that no budget is enough for.
#[test]
fn lines_of_enormous_trees_are_no_longer() {
    let mut random = Random::seeded(SEED);
    let analysis = Analysis::of_image(&image("deep180")).expect("a sound image");
    let mut lengths = Vec::new();
    for literal in Literal::all() {
        if Forest::of(literal, &analysis, MOST_NODES).is_some() {
            continue;
        }
        for root in analysis.roots_of_forest(literal).repeat(4) {
            let line = random_line(root, &analysis, &mut random);
            check_length(&line, &analysis);
            lengths.push(line.len());
        }
    }
    let (lines, longest) = (lengths.len(), lengths.into_iter().max());
    println!("{lines} lines, the longest {longest:?}");
    assert!(lines > 1_000 && longest > Some(100), "{lines} {longest:?}");
}

#[test]
fn answers_follow_warrant() {
    let mut asked = 0;
    for analysis in small_and_chained(600) {
        let mut arguments = vec![0; analysis.arguments.len()];
        let mut nodes = vec![NodeEntry::default(); 1000];
        for number in 0..2 * analysis.program.atoms as u32 {
            let literal = Literal::new(number as u8);
            let mut ask = |literal: Literal| {
                analysis
                    .query(literal.number().into(), 1000, &mut arguments, &mut nodes)
                    .expect("an answer")
            };
            let answer = ask(literal);
            let opposite = ask(literal.complement());
            assert_eq!(answer.nodes, opposite.nodes);
            if matches!(answer.code, Code::Unfinished | Code::Unknown) {
                assert_eq!(answer.code, opposite.code);
                continue;
            }
            asked += 1;
            let for_it = warranted(literal, &analysis);
            let against = warranted(literal.complement(), &analysis);
            assert!(!(for_it && against), "both warranted");
            assert_eq!(answer.code == Code::Yes, for_it);
            assert_eq!(answer.code == Code::No, against);
            assert_eq!(opposite.code == Code::Yes, against);
        }
    }
    assert!(asked > 2_000, "only {asked}");
}

/// A forest of any size is given up at once; its nodes would never fit anywhere.
#[test]
fn enormous_forests_are_given_up_at_once() {
    let analysis = Analysis::of_image(&image("deep180")).expect("a sound image");
    let literal = Literal::new(80);
    let mut arguments = vec![0; 4096];
    let mut nodes = vec![NodeEntry::default(); 4096];
    for budget in [0, 1, 100, 4096] {
        let answer = analysis
            .query(literal.number().into(), budget, &mut arguments, &mut nodes)
            .expect("an answer");
        assert_eq!(answer.code, Code::Unfinished);
        assert_eq!(answer.nodes, budget as usize);
    }
    let forest = Forest::of(literal, &analysis, 300_000);
    assert!(forest.is_none(), "far from small");
}

/// The programs are worth asking about: all answers and kinds of defeat come up, and long lines.
#[test]
fn the_generated_programs_are_rich() {
    let mut codes: BTreeMap<Code, usize> = BTreeMap::new();
    let mut kinds: BTreeMap<u32, usize> = BTreeMap::new();
    let mut long_lines = 0;
    let mut most_defeasible = 0;
    for case in accepted(SEED, 320) {
        let Ok(analysis) = Analysis::of_image(&case.image) else {
            continue;
        };
        let defeasible = analysis.program.defeasible_numbers().len();
        most_defeasible = most_defeasible.max(defeasible);
        assert!(analysis
            .program
            .rules
            .iter()
            .all(|rule| rule.kind == Kind::Strict || !rule.body.is_empty()));
        let mut arguments = vec![0; analysis.arguments.len()];
        let mut nodes = vec![NodeEntry::default(); 4096];
        for literal in 0..2 * analysis.program.atoms as u32 {
            let answer = analysis
                .query(literal, 4096, &mut arguments, &mut nodes)
                .expect("an answer");
            *codes.entry(answer.code).or_default() += 1;
            if answer.code == Code::Unfinished {
                continue;
            }
            for (number, node) in nodes[..answer.nodes].iter().enumerate() {
                *kinds.entry(node.kind).or_default() += 1;
                let mut length = 1;
                let mut here = number;
                while nodes[here].parent as usize != here {
                    here = nodes[here].parent as usize;
                    length += 1;
                }
                long_lines += usize::from(length >= 4);
            }
        }
    }
    println!("{codes:?} {kinds:?} {long_lines} {most_defeasible}");
    for code in [Code::Yes, Code::No, Code::Undecided, Code::Unknown] {
        let seen = codes.get(&code).copied().unwrap_or(0);
        assert!(seen >= 200, "{code:?} {seen} times");
    }
    let unfinished = codes.get(&Code::Unfinished).copied().unwrap_or(0);
    assert!(unfinished >= 5, "unfinished {unfinished} times");
    for kind in 0..=2 {
        let seen = kinds.get(&kind).copied().unwrap_or(0);
        assert!(seen >= 1000, "kind {kind} {seen} times");
    }
    assert!(long_lines >= 500, "{long_lines} lines of four or more");
    assert_eq!(most_defeasible, 16);
}
