//! An answer in words, and its trees in a terminal.

use crate::engine::{Answer, Argument, Verdict, MOST_NODES};
use crate::preference::{beats, listing};
use crate::program::Program;
use crate::reason::{Attack, Reasons, Standing};

/// A node of the forest in words, for the terminal and for the picture.
pub struct Told {
    pub parent: usize,
    pub root: bool,
    pub undefeated: bool,
    pub proper: bool,
    pub literal: u8,
    pub conclusion: String,
    /// The defeasible rules it uses; none where facts and strict rules are enough.
    pub rules: Vec<String>,
    /// What it attacks, and what decides between the two; a root attacks nothing.
    pub attacks: String,
    pub because: String,
}

/// The forest in words, node for node.
pub fn tell(program: &Program, arguments: &[Argument], verdict: &Verdict) -> Vec<Told> {
    let mut reasons = Reasons::new(program, arguments);
    let argument = |index: usize| arguments[verdict.forest[index].argument as usize];
    let mut told = Vec::new();
    for (index, node) in verdict.forest.iter().enumerate() {
        let (mine, root) = (argument(index), node.kind == 0);
        let target = argument(node.parent as usize);
        let attack = if root {
            None
        } else {
            reasons.attack(mine, target, node.kind)
        };
        told.push(Told {
            parent: node.parent as usize,
            root,
            undefeated: node.undefeated(),
            proper: node.kind == 1,
            literal: mine.literal,
            conclusion: program.literal(mine.literal),
            rules: program.rule_names(&program.rules_of(mine.mask)),
            attacks: attack
                .as_ref()
                .map(|attack| attacks(program, mine, target, attack))
                .unwrap_or_default(),
            because: attack
                .as_ref()
                .map(|attack| because(program, &attack.standing))
                .unwrap_or_default(),
        });
    }
    told
}

fn attacks(program: &Program, mine: Argument, target: Argument, attack: &Attack) -> String {
    let literal = program.literal(attack.literal);
    let inside = if attack.literal == target.literal {
        ""
    } else {
        "the sub-argument for "
    };
    let excluding = match attack.literal == mine.literal ^ 1 {
        true => String::new(),
        false => format!(", which excludes {}", program.literal(mine.literal)),
    };
    format!("attacks {inside}{literal}{excluding}")
}

fn because(program: &Program, standing: &Standing) -> String {
    match standing {
        Standing::Preferred(chain) => beats(&program.rule_names(chain)),
        Standing::NoChain => "neither is preferred".to_string(),
        Standing::Mutual(there, back) => format!(
            "neither is preferred: {}",
            both_ways(&program.rule_names(there), &program.rule_names(back))
        ),
    }
}

/// Two chains in one sentence, or one where it leads both ways, between rules that both arguments use.
fn both_ways(there: &[String], back: &[String]) -> String {
    if there == back {
        let mut ends = vec![there[0].clone(), there[there.len() - 1].clone()];
        ends.dedup();
        return format!("both use {}, and {}", listing(&ends), beats(there));
    }
    // Without a comma, the rules between would run into the second chain.
    let comma = if there.len() > 2 { "," } else { "" };
    format!("{}{comma} and {}", beats(there), beats(back))
}

pub fn count(number: usize, thing: &str) -> String {
    format!("{number} {thing}{}", if number == 1 { "" } else { "s" })
}

/// What an answer means for this literal.
pub fn meaning(literal: &str, complement: &str, verdict: &Verdict) -> String {
    let atom = literal.trim_start_matches('~');
    match verdict.answer {
        Answer::Yes => format!(
            "{literal} is warranted: an argument for it stands against all that speaks against it"
        ),
        Answer::No => format!("{literal} does not hold: its complement {complement} is warranted"),
        Answer::Undecided => format!("neither {literal} nor {complement} is warranted"),
        Answer::Unknown => format!("no rule mentions {atom}"),
        Answer::Unfinished => {
            let budget = verdict.nodes;
            let larger = match budget {
                MOST_NODES => ", and there is no larger one".to_string(),
                _ => format!("; a larger one, up to {MOST_NODES}, may be enough"),
            };
            format!(
                "the trees for {literal} and {complement} have more nodes than the budget of {budget}{larger}"
            )
        }
    }
}

/// The answer and its meaning in one line.
pub fn answer_line(literal: &str, complement: &str, verdict: &Verdict) -> String {
    let nodes = count(verdict.nodes as usize, "node");
    format!(
        "{} ({nodes}): {}.",
        verdict.answer.name(),
        meaning(literal, complement, verdict)
    )
}

struct Branches {
    inner: &'static str,
    last: &'static str,
    through: &'static str,
}

const UNICODE: Branches = Branches {
    inner: "├─ ",
    last: "└─ ",
    through: "│  ",
};
const ASCII: Branches = Branches {
    inner: "|- ",
    last: "`- ",
    through: "|  ",
};

/// The trees, indented; a heading goes before the trees of each literal.
pub fn trees(program: &Program, told: &[Told], literal: u8, ascii: bool) -> String {
    let mut text = String::new();
    if !told.is_empty() {
        text += "U undefeated, D defeated\n\n";
    }
    for asked in [literal, literal ^ 1] {
        let roots = told
            .iter()
            .filter(|node| node.root && node.literal == asked)
            .count();
        let name = program.literal(asked);
        match roots {
            0 => text += &format!("No argument for {name}.\n\n"),
            _ => {
                text += &format!(
                    "{} for {name}:\n\n{}",
                    count(roots, "argument"),
                    side(told, asked, ascii)
                )
            }
        }
    }
    text
}

/// The trees of one literal's arguments. Nodes stand in preorder, so a node's lead is known before its children's.
fn side(told: &[Told], asked: u8, ascii: bool) -> String {
    let branches = if ascii { ASCII } else { UNICODE };
    let mut last_child = vec![0; told.len()];
    for (index, node) in told.iter().enumerate() {
        last_child[node.parent] = index;
    }
    let has_child = |index: usize| last_child[index] > index;
    let mut text = String::new();
    let mut leads = vec![String::new(); told.len()];
    let mut within = false;
    for (index, node) in told.iter().enumerate() {
        if node.root {
            within = node.literal == asked;
            if within && !text.is_empty() {
                text.push('\n');
            }
        }
        if !within {
            continue;
        }
        let mut first = String::new();
        if !node.root {
            let last = last_child[node.parent] == index;
            let lead = leads[node.parent].clone();
            first = lead.clone() + if last { branches.last } else { branches.inner };
            leads[index] = lead + if last { "   " } else { branches.through };
        }
        let below = leads[index].clone()
            + if has_child(index) {
                branches.through
            } else {
                "   "
            };
        text += &entry(node, &first, &below);
    }
    text + "\n"
}

fn entry(node: &Told, first: &str, below: &str) -> String {
    let mark = if node.undefeated { "U" } else { "D" };
    let rules = match node.rules.is_empty() {
        true => "facts and strict rules alone".to_string(),
        false => format!("by {}", node.rules.join("; ")),
    };
    let mut text = format!("{first}{mark}  {}  ({rules})\n", node.conclusion);
    if !node.root {
        let kind = if node.proper { "proper" } else { "blocking" };
        text += &format!(
            "{below}{kind} defeater: {}; {}\n",
            node.attacks, node.because
        );
    }
    text
}
