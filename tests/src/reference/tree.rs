//! Definitions 7 and 8: dialectical trees, their marks, and the forest of a literal.

use super::analysis::Analysis;
use super::attack::Defeat;
use super::line::{still_acceptable, Step};
use super::literal::Literal;

/// A node entry of the lent table.
#[derive(Clone, Copy, Debug, Default, PartialEq, Eq)]
pub struct NodeEntry {
    pub argument: u32,
    pub parent: u32,
    /// 0 root, 1 proper, 2 blocking.
    pub kind: u32,
    /// 1 U, 2 D.
    pub mark: u32,
}

#[derive(Clone, Copy, Debug, PartialEq, Eq)]
pub enum Mark {
    Undefeated,
    Defeated,
}

/// A node of the forest. Its number is its position in preorder.
#[derive(Clone, Copy, Debug)]
pub struct Node {
    /// Position in the argument list.
    pub argument: usize,
    /// None for a root.
    pub parent: Option<usize>,
    pub defeat: Option<Defeat>,
}

/// A whole forest with its marks, nothing pruned.
pub struct Forest {
    pub nodes: Vec<Node>,
    pub marks: Vec<Mark>,
}

impl Forest {
    /// The forest of a literal, or None as soon as it is known to have more than `most` nodes.
    pub fn of(literal: Literal, analysis: &Analysis, most: usize) -> Option<Forest> {
        let nodes = grow(literal, analysis, most)?;
        let marks = mark(&nodes);
        Some(Forest { nodes, marks })
    }

    /// The root numbers of the trees of the arguments for the literal.
    pub fn roots_for<'a>(
        &'a self,
        literal: Literal,
        analysis: &'a Analysis,
    ) -> impl Iterator<Item = usize> + 'a {
        (0..self.nodes.len()).filter(move |&number| {
            let node = self.nodes[number];
            node.parent.is_none() && analysis.arguments[node.argument].literal == literal
        })
    }

    pub fn entries(&self) -> Vec<NodeEntry> {
        self.nodes
            .iter()
            .zip(&self.marks)
            .enumerate()
            .map(|(number, (node, mark))| NodeEntry {
                argument: node.argument as u32,
                parent: node.parent.unwrap_or(number) as u32,
                kind: match node.defeat {
                    None => 0,
                    Some(Defeat::Proper) => 1,
                    Some(Defeat::Blocking) => 2,
                },
                mark: match mark {
                    Mark::Undefeated => 1,
                    Mark::Defeated => 2,
                },
            })
            .collect()
    }
}

/// The nodes of the forest in preorder.
///
/// Nodes not yet numbered wait on a stack with the next in preorder on top. They count as
/// nodes, so the walk gives up at the first node above `most`.
fn grow(literal: Literal, analysis: &Analysis, most: usize) -> Option<Vec<Node>> {
    let mut nodes: Vec<Node> = Vec::new();
    let mut waiting: Vec<Node> = Vec::new();
    for argument in analysis.roots_of_forest(literal) {
        waiting.push(Node {
            argument,
            parent: None,
            defeat: None,
        });
        if waiting.len() > most {
            return None;
        }
    }
    waiting.reverse();
    while let Some(node) = waiting.pop() {
        let number = nodes.len();
        nodes.push(node);
        let line = line_to(number, &nodes, analysis);
        let first_child = waiting.len();
        for (argument, defeat) in children(&line, node.argument, analysis) {
            waiting.push(Node {
                argument,
                parent: Some(number),
                defeat: Some(defeat),
            });
            if nodes.len() + waiting.len() > most {
                return None;
            }
        }
        waiting[first_child..].reverse();
    }
    Some(nodes)
}

/// The line from the root down to a node.
pub fn line_to(number: usize, nodes: &[Node], analysis: &Analysis) -> Vec<Step> {
    let mut line = Vec::new();
    let mut here = Some(number);
    while let Some(number) = here {
        let node = nodes[number];
        line.push(Step {
            argument: analysis.arguments[node.argument],
            defeat: node.defeat,
        });
        here = node.parent;
    }
    line.reverse();
    line
}

/// All defeaters of the last argument that keep the line acceptable, in list order.
pub fn children<'a>(
    line: &'a [Step],
    last: usize,
    analysis: &'a Analysis,
) -> impl Iterator<Item = (usize, Defeat)> + 'a {
    let defeaters = analysis.defeaters_of(last);
    let mut longer = line.to_vec();
    (0..defeaters.len()).filter_map(move |position| {
        let (argument, defeat) = defeaters[position];
        longer.push(Step {
            argument: analysis.arguments[argument],
            defeat: Some(defeat),
        });
        let acceptable = still_acceptable(&longer, &analysis.derived_by);
        longer.pop();
        acceptable.then_some((argument, defeat))
    })
}

/// Marks from the last node to the first: children have greater numbers than their parent.
fn mark(nodes: &[Node]) -> Vec<Mark> {
    let mut children: Vec<Vec<usize>> = vec![Vec::new(); nodes.len()];
    for (number, node) in nodes.iter().enumerate() {
        if let Some(parent) = node.parent {
            children[parent].push(number);
        }
    }
    let mut marks = vec![Mark::Undefeated; nodes.len()];
    for number in (0..nodes.len()).rev() {
        let all_children_defeated = children[number]
            .iter()
            .all(|&child| marks[child] == Mark::Defeated);
        marks[number] = if all_children_defeated {
            Mark::Undefeated
        } else {
            Mark::Defeated
        };
    }
    marks
}

/// Definition 9 by itself: some argument for the literal is undefeated in its whole tree.
/// No budget and no table play a part, so this is for programs with small trees only.
pub fn warranted(literal: Literal, analysis: &Analysis) -> bool {
    (0..analysis.arguments.len())
        .filter(|&index| analysis.arguments[index].literal == literal)
        .any(|index| {
            let mut line = vec![Step {
                argument: analysis.arguments[index],
                defeat: None,
            }];
            undefeated(&mut line, index, analysis)
        })
}

fn undefeated(line: &mut Vec<Step>, last: usize, analysis: &Analysis) -> bool {
    let replies: Vec<(usize, Defeat)> = children(line, last, analysis).collect();
    replies.into_iter().all(|(argument, defeat)| {
        line.push(Step {
            argument: analysis.arguments[argument],
            defeat: Some(defeat),
        });
        let reply_undefeated = undefeated(line, argument, analysis);
        line.pop();
        !reply_undefeated
    })
}
