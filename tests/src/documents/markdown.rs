//! A document as a row of gaps, code spans, commands and paths.

use super::sources::Sources;

#[derive(Debug, PartialEq)]
pub enum Piece {
    /// Text between two others, its white space folded and its remarks in brackets left out.
    Gap(String),
    /// Between backquotes, and no path.
    Code { line: usize, text: String },
    /// A line of a block of code.
    Command { line: usize, text: String },
    /// In a code span, a command or plain text.
    Path { line: usize, path: String },
}

impl Piece {
    pub fn line(&self) -> usize {
        match self {
            Piece::Gap(_) => 0,
            Piece::Code { line, .. } | Piece::Command { line, .. } | Piece::Path { line, .. } => {
                *line
            }
        }
    }
}

/// The pieces of a document: a gap first and last, and between any two others.
pub fn pieces(text: &str, sources: &Sources) -> Vec<Piece> {
    let mut reader = Reader {
        sources,
        pieces: Vec::new(),
        gap: String::new(),
    };
    let mut in_code = false;
    let mut code = String::new();
    let mut in_block = false;
    let mut after_blank = true;
    for (number, line) in text.lines().enumerate() {
        let number = number + 1;
        let indented = line.starts_with("    ");
        in_block = indented && (in_block || after_blank) || line.is_empty() && in_block;
        after_blank = line.is_empty();
        if in_block && !in_code {
            reader.command(number, line);
            continue;
        }
        for (position, part) in line.split('`').enumerate() {
            if position > 0 {
                in_code = !in_code;
                if !in_code {
                    reader.code(number, &std::mem::take(&mut code));
                }
            }
            if in_code {
                code += part;
            } else {
                reader.text(number, part);
            }
        }
        if in_code {
            code.push(' ');
        } else {
            reader.gap.push(' ');
        }
    }
    reader.end_gap();
    reader.pieces
}

struct Reader<'a> {
    sources: &'a Sources,
    pieces: Vec<Piece>,
    gap: String,
}

impl Reader<'_> {
    fn end_gap(&mut self) {
        let gap = without_remarks(&std::mem::take(&mut self.gap));
        let words: Vec<&str> = gap.split_whitespace().collect();
        let folded = words.join(" ").replace(" ,", ",");
        self.pieces.push(Piece::Gap(folded));
    }

    fn push(&mut self, piece: Piece) {
        self.end_gap();
        self.pieces.push(piece);
    }

    fn path(&mut self, line: usize, path: &str) {
        let path = path.to_string();
        self.push(Piece::Path { line, path });
    }

    fn text(&mut self, line: usize, text: &str) {
        let mut rest = text;
        while let Some(start) = rest.find(|letter| !is_separator(letter)) {
            self.gap += &rest[..start];
            rest = &rest[start..];
            let end = rest.find(is_separator).unwrap_or(rest.len());
            let word = rest[..end].trim_end_matches(['.', ':']);
            if self.is_path_in_text(word) {
                self.path(line, word);
            } else {
                self.gap += word;
            }
            rest = &rest[word.len()..];
            if word.is_empty() {
                // Only marks, such as the dots of an ellipsis.
                self.gap += &rest[..end];
                rest = &rest[end..];
            }
        }
        self.gap += rest;
    }

    /// In plain text a slash may stand between two words, too.
    fn is_path_in_text(&self, word: &str) -> bool {
        let Some((first, _)) = word.split_once('/') else {
            return false;
        };
        let parts = ["/specs", "/proofs", "/src/", "/must-fail/"];
        self.sources.has_folder(first) || parts.iter().any(|part| word.contains(part))
    }

    fn code(&mut self, line: usize, text: &str) {
        let mut paths = paths_in(text).peekable();
        if paths.peek().is_none() {
            let text = text.to_string();
            return self.push(Piece::Code { line, text });
        }
        for path in paths {
            self.path(line, path);
        }
    }

    fn command(&mut self, line: usize, text: &str) {
        for path in paths_in(text) {
            self.path(line, path);
        }
        let text = text.to_string();
        self.push(Piece::Command { line, text });
    }
}

/// The words of code that are paths, or the names of files.
fn paths_in(code: &str) -> impl Iterator<Item = &str> {
    let words = code.split_whitespace().map(|word| {
        let flag = word.strip_prefix("-I").unwrap_or(word);
        flag.trim_matches(|letter| "(),;<>\"".contains(letter))
    });
    words.filter(|word| {
        let file = word.rsplit_once('.').is_some_and(|(stem, ending)| {
            !stem.is_empty() && ENDINGS.contains(&ending) && !stem.contains("::")
        });
        word.contains('/') && !word.starts_with('-') || file
    })
}

/// Endings of the files of this tree that documents name.
const ENDINGS: [&str; 13] = [
    "antt", "rt", "edit", "md", "rs", "h", "c", "py", "a", "img", "delp", "svg", "tsv",
];

fn is_separator(letter: char) -> bool {
    letter.is_whitespace() || "()[]|,;\"".contains(letter)
}

/// Leaves out what stands in brackets that are closed again.
fn without_remarks(text: &str) -> String {
    let mut kept = String::new();
    let mut rest = text;
    while let Some(end) = rest.find(')') {
        match rest[..end].rfind('(') {
            Some(start) => kept += &rest[..start],
            None => kept += &rest[..=end],
        }
        rest = &rest[end + 1..];
    }
    kept + rest
}
