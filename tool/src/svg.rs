//! The trees as a picture. Everything is placed by counting characters of a fixed-width font, so that the same
//! forest gives the same picture everywhere.

use crate::explain::Told;

const CHARACTER: f64 = 7.3;
const LINE: f64 = 16.0;
const PAD: f64 = 14.0;
const GAP: f64 = 22.0;
const RISE: f64 = 46.0;
const MARGIN: f64 = 24.0;
const ROW: f64 = 1500.0;
const WRAP: usize = 34;
/// A wider picture keeps its size and is scrolled.
const WIDEST: f64 = 1600.0;

struct Box {
    lines: Vec<(&'static str, String)>,
    width: f64,
    height: f64,
    /// Of the node with all below it.
    span: f64,
    depth: usize,
    left: f64,
    top: f64,
}

/// The whole picture: heading, forest, legend.
pub fn picture(heading: &str, meaning: &str, told: &[Told]) -> String {
    let mut boxes: Vec<Box> = told.iter().map(make_box).collect();
    measure(told, &mut boxes);
    let (width, height) = place(told, &mut boxes);
    let meaning = wrap(meaning, 100);
    let top = MARGIN + 30.0 + LINE * meaning.len() as f64 + 20.0;
    let widest = meaning
        .iter()
        .map(|line| line.chars().count())
        .max()
        .unwrap_or(0) as f64
        * CHARACTER;
    let full = width.max(widest).max(640.0) + 2.0 * MARGIN;
    let tall = top + height + 70.0;
    let mut svg = format!(
        "<svg xmlns=\"http://www.w3.org/2000/svg\" viewBox=\"0 0 {full:.0} {tall:.0}\" width=\"{full:.0}\" \
         height=\"{tall:.0}\"{} role=\"img\">\n<title>{}</title>\n{STYLE}\
         <rect width=\"100%\" height=\"100%\" fill=\"#ffffff\"/>\n<text class=\"h\" x=\"{MARGIN}\" y=\"{:.0}\">{}</text>\n",
        shrinking(full),
        escape(heading),
        MARGIN + 14.0,
        escape(heading)
    );
    for (index, line) in meaning.iter().enumerate() {
        let y = MARGIN + 40.0 + LINE * index as f64;
        svg += &format!(
            "<text class=\"m\" x=\"{MARGIN}\" y=\"{y:.0}\">{}</text>\n",
            escape(line)
        );
    }
    svg += &format!("<g transform=\"translate({MARGIN} {top:.0})\">\n");
    for (index, node) in told.iter().enumerate().filter(|(_, node)| !node.root) {
        svg += &edge(&boxes[index], &boxes[node.parent], node.proper);
    }
    for (node, shape) in told.iter().zip(&boxes) {
        svg += &draw(node, shape);
    }
    svg += "</g>\n";
    svg += &legend(top + height + 34.0);
    svg + "</svg>\n"
}

/// A picture fits itself into a narrower page, but not where its text would become too small to read.
fn shrinking(width: f64) -> &'static str {
    if width > WIDEST {
        ""
    } else {
        " style=\"max-width:100%;height:auto\""
    }
}

const STYLE: &str = "<style>\n\
text { font-family: 'DejaVu Sans Mono', Menlo, Consolas, monospace; font-size: 12px; fill: #1c1c1c }\n\
.h { font-size: 17px; font-weight: bold }\n.m { font-size: 12px }\n.c { font-weight: bold; text-anchor: middle }\n\
.r { text-anchor: middle }\n.w { text-anchor: middle; fill: #505050 }\n\
.U { fill: #dcebfa; stroke: #1f5fa8; stroke-width: 2 }\n.D { fill: #fde6d0; stroke: #b8560f; stroke-width: 2 }\n\
.p { fill: none; stroke: #404040; stroke-width: 2 }\n\
.b { fill: none; stroke: #404040; stroke-width: 2; stroke-dasharray: 7 5 }\n</style>\n";

fn make_box(node: &Told) -> Box {
    let mark = if node.undefeated { "U" } else { "D" };
    let mut lines = vec![("c", format!("{mark}  {}", node.conclusion))];
    if node.rules.is_empty() {
        lines.push(("r", "facts and strict rules".to_string()));
    }
    for rule in &node.rules {
        lines.extend(
            wrap(&format!("by {rule}"), WRAP)
                .into_iter()
                .map(|line| ("r", line)),
        );
    }
    if !node.root {
        for part in [&node.attacks, &node.because] {
            lines.extend(wrap(part, WRAP).into_iter().map(|line| ("w", line)));
        }
    }
    let longest = lines
        .iter()
        .map(|(_, line)| line.chars().count())
        .max()
        .unwrap_or(0);
    let width = longest as f64 * CHARACTER + 2.0 * PAD;
    let height = lines.len() as f64 * LINE + PAD;
    Box {
        lines,
        width,
        height,
        span: 0.0,
        depth: 0,
        left: 0.0,
        top: 0.0,
    }
}

/// Depths front to back, then the width of each node with all below it, back to front: children follow their parents.
fn measure(told: &[Told], boxes: &mut [Box]) {
    for (index, node) in told.iter().enumerate().filter(|(_, node)| !node.root) {
        boxes[index].depth = boxes[node.parent].depth + 1;
    }
    for (index, node) in told.iter().enumerate().rev() {
        let below = boxes[index].span;
        boxes[index].span = below.max(boxes[index].width + GAP);
        if !node.root {
            boxes[node.parent].span += boxes[index].span;
        }
    }
}

/// Trees side by side, in a new row where one would pass the widest tree or the usual width. Gives the width and height of all.
fn place(told: &[Told], boxes: &mut [Box]) -> (f64, f64) {
    let roots: Vec<usize> = (0..told.len()).filter(|&index| told[index].root).collect();
    let row = roots
        .iter()
        .map(|&root| boxes[root].span)
        .fold(ROW, f64::max);
    let (mut x, mut y, mut row_height, mut width) = (0.0f64, 0.0f64, 0.0f64, 0.0f64);
    for (place, &root) in roots.iter().enumerate() {
        let end = roots.get(place + 1).copied().unwrap_or(told.len());
        if x > 0.0 && x + boxes[root].span > row {
            (x, y, row_height) = (0.0, y + row_height + RISE, 0.0);
        }
        row_height = row_height.max(place_tree(told, boxes, root..end, (x, y)));
        x += boxes[root].span + GAP;
        width = width.max(x);
    }
    (width, y + row_height)
}

/// One tree with its upper left corner at a point. Gives its height.
fn place_tree(
    told: &[Told],
    boxes: &mut [Box],
    range: std::ops::Range<usize>,
    (x, y): (f64, f64),
) -> f64 {
    let deepest = range
        .clone()
        .map(|index| boxes[index].depth)
        .max()
        .unwrap_or(0);
    let mut heights = vec![0.0f64; deepest + 1];
    for index in range.clone() {
        heights[boxes[index].depth] = boxes[index].height.max(heights[boxes[index].depth]);
    }
    let mut below: Vec<f64> = vec![0.0; range.len()];
    for index in range.clone().filter(|&index| !told[index].root) {
        below[told[index].parent - range.start] += boxes[index].span;
    }
    let mut next = vec![x; range.len()];
    for index in range.clone() {
        let depth = boxes[index].depth;
        let start = if told[index].root {
            x
        } else {
            next[told[index].parent - range.start]
        };
        if !told[index].root {
            next[told[index].parent - range.start] += boxes[index].span;
        }
        let shape = &mut boxes[index];
        shape.left = start + (shape.span - shape.width) / 2.0;
        shape.top = y + heights[..depth].iter().sum::<f64>() + RISE * depth as f64;
        // Children narrower than their parent stand in its middle.
        next[index - range.start] = start + (shape.span - below[index - range.start]) / 2.0;
    }
    heights.iter().sum::<f64>() + RISE * deepest as f64
}

fn edge(child: &Box, parent: &Box, proper: bool) -> String {
    let (x1, y1) = (child.left + child.width / 2.0, child.top);
    let (x2, y2) = (parent.left + parent.width / 2.0, parent.top + parent.height);
    let middle = y1 - RISE / 2.0;
    let class = if proper { "p" } else { "b" };
    format!(
        "<path class=\"{class}\" d=\"M{x1:.1} {y1:.1} C{x1:.1} {middle:.1} {x2:.1} {middle:.1} {x2:.1} {y2:.1}\"/>\n"
    )
}

/// Undefeated: round ends. Defeated: cut corners.
fn shape(undefeated: bool, x: f64, y: f64, width: f64, height: f64) -> String {
    if undefeated {
        let round = (height / 2.0).min(22.0);
        return format!(
            "<rect class=\"U\" x=\"{x:.1}\" y=\"{y:.1}\" width=\"{width:.1}\" height=\"{height:.1}\" rx=\"{round:.1}\"/>\n"
        );
    }
    let cut = 10.0;
    let (right, bottom) = (x + width, y + height);
    let corners = [
        (x + cut, y),
        (right - cut, y),
        (right, y + cut),
        (right, bottom - cut),
        (right - cut, bottom),
        (x + cut, bottom),
        (x, bottom - cut),
        (x, y + cut),
    ];
    let points: Vec<String> = corners
        .iter()
        .map(|(x, y)| format!("{x:.1},{y:.1}"))
        .collect();
    format!("<polygon class=\"D\" points=\"{}\"/>\n", points.join(" "))
}

fn draw(node: &Told, place: &Box) -> String {
    let mut svg = shape(
        node.undefeated,
        place.left,
        place.top,
        place.width,
        place.height,
    );
    let x = place.left + place.width / 2.0;
    for (index, (class, line)) in place.lines.iter().enumerate() {
        let y = place.top + PAD / 2.0 + 12.0 + LINE * index as f64;
        svg += &format!(
            "<text class=\"{class}\" x=\"{x:.1}\" y=\"{y:.1}\">{}</text>\n",
            escape(line)
        );
    }
    svg
}

fn legend(y: f64) -> String {
    let mut svg = format!("<g transform=\"translate({MARGIN} {y:.0})\">\n");
    svg += &(shape(true, 0.0, -14.0, 34.0, 22.0) + "<text x=\"42\" y=\"1\">U undefeated</text>\n");
    svg +=
        &(shape(false, 150.0, -14.0, 34.0, 22.0) + "<text x=\"192\" y=\"1\">D defeated</text>\n");
    svg += "<path class=\"p\" d=\"M290 -3 h36\"/><text x=\"334\" y=\"1\">proper defeater</text>\n";
    svg +=
        "<path class=\"b\" d=\"M464 -3 h36\"/><text x=\"508\" y=\"1\">blocking defeater</text>\n";
    svg + "</g>\n"
}

/// Lines of at most so many characters, broken at blanks; a longer word stays whole.
fn wrap(text: &str, most: usize) -> Vec<String> {
    let mut lines: Vec<String> = Vec::new();
    for word in text.split_whitespace() {
        match lines.last_mut() {
            Some(line) if line.chars().count() + 1 + word.chars().count() <= most => {
                line.push(' ');
                line.push_str(word);
            }
            _ => lines.push(word.to_string()),
        }
    }
    lines
}

fn escape(text: &str) -> String {
    text.replace('&', "&amp;")
        .replace('<', "&lt;")
        .replace('>', "&gt;")
}
