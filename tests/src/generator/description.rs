//! Plain descriptions of programs and the images built from them.

/// A rule as it will stand in the image.
#[derive(Clone, Debug, PartialEq, Eq)]
pub struct RuleText {
    pub defeasible: bool,
    pub head: u8,
    pub body: Vec<u8>,
}

impl RuleText {
    pub fn bytes(&self) -> Vec<u8> {
        let mut bytes = vec![u8::from(self.defeasible), self.head];
        bytes.extend_from_slice(&self.body);
        bytes
    }
}

pub fn strict(head: u8, body: &[u8]) -> RuleText {
    RuleText {
        defeasible: false,
        head,
        body: body.to_vec(),
    }
}

pub fn defeasible(head: u8, body: &[u8]) -> RuleText {
    RuleText {
        defeasible: true,
        head,
        body: body.to_vec(),
    }
}

/// A program to be put into an image. Nothing is checked, sorted or repaired.
#[derive(Clone, Debug, Default, PartialEq, Eq)]
pub struct Description {
    pub atoms: u16,
    pub rules: Vec<RuleText>,
    pub pairs: Vec<(u8, u8)>,
}

impl Description {
    pub fn parts(&self) -> Parts {
        Parts {
            atoms: self.atoms,
            pair_count: self.pairs.len() as u16,
            rules: self.rules.iter().map(RuleText::bytes).collect(),
            last: self.pairs.iter().flat_map(|p| [p.0, p.1]).collect(),
        }
    }

    pub fn image(&self) -> Vec<u8> {
        self.parts().image()
    }

    /// The program of a sound image.
    pub fn of_image(image: &[u8]) -> Description {
        let number = |at: usize| u16::from_le_bytes([image[at], image[at + 1]]);
        let part = |entry: usize| {
            let offset = usize::from(number(8 + 4 * entry));
            &image[offset..offset + usize::from(number(10 + 4 * entry))]
        };
        let rules = usize::from(number(2));
        let rule = |bytes: &[u8]| RuleText {
            defeasible: bytes[0] == 1,
            head: bytes[1],
            body: bytes[2..].to_vec(),
        };
        Description {
            atoms: number(0),
            rules: (0..rules).map(|entry| rule(part(entry))).collect(),
            pairs: part(rules).chunks(2).map(|two| (two[0], two[1])).collect(),
        }
    }

    /// Reads the notation of document 01: rules and pairs separated by semicolons, `head<body`,
    /// `d` for defeasible, body literals separated by commas, pairs as `(first,second)`. The
    /// atom count is the least that fits, unless `atoms n` names a greater one.
    pub fn parse(text: &str) -> Result<Description, String> {
        let mut description = Description::default();
        for item in text.split(';').map(str::trim).filter(|i| !i.is_empty()) {
            if let Some(count) = item.strip_prefix("atoms ") {
                description.atoms = number(count)?;
            } else if let Some(pair) = item.strip_prefix('(') {
                let pair = pair.strip_suffix(')').ok_or(format!("open pair {item}"))?;
                let (first, second) = pair.split_once(',').ok_or(format!("pair {item}"))?;
                description.pairs.push((number(first)?, number(second)?));
            } else {
                description.rules.push(rule(item)?);
            }
        }
        for rule in &description.rules {
            for &literal in rule.body.iter().chain([&rule.head]) {
                description.atoms = description.atoms.max(u16::from(literal) / 2 + 1);
            }
        }
        Ok(description)
    }
}

fn number<T: std::str::FromStr>(text: &str) -> Result<T, String> {
    text.trim().parse().map_err(|_| format!("number {text:?}"))
}

fn rule(item: &str) -> Result<RuleText, String> {
    let (defeasible, rest) = match item.strip_prefix("d ") {
        Some(rest) => (true, rest),
        None => (false, item),
    };
    let (head, body) = match rest.split_once('<') {
        Some((head, body)) => (
            number(head)?,
            body.split(',').map(number).collect::<Result<_, _>>()?,
        ),
        None => (number(rest)?, Vec::new()),
    };
    Ok(RuleText {
        defeasible,
        head,
        body,
    })
}

/// An image in pieces: the header's numbers and the parts. The directory follows from these.
#[derive(Clone, Debug, PartialEq, Eq)]
pub struct Parts {
    pub atoms: u16,
    pub pair_count: u16,
    pub rules: Vec<Vec<u8>>,
    pub last: Vec<u8>,
}

impl Parts {
    /// The offset and length of each part.
    pub fn directory(&self) -> Vec<(u16, u16)> {
        let mut offset = 12 + 4 * self.rules.len();
        let mut entries = Vec::new();
        for part in self.rules.iter().chain([&self.last]) {
            entries.push((offset as u16, part.len() as u16));
            offset += part.len();
        }
        entries
    }

    pub fn contents(&self) -> Vec<u8> {
        let mut bytes = self.rules.concat();
        bytes.extend_from_slice(&self.last);
        bytes
    }

    pub fn image(&self) -> Vec<u8> {
        self.image_with(&self.directory(), &self.contents())
    }

    /// The image with some other directory and some other bytes after it.
    pub fn image_with(&self, directory: &[(u16, u16)], contents: &[u8]) -> Vec<u8> {
        let mut image = Vec::new();
        for count in [self.atoms, self.rules.len() as u16, self.pair_count, 0] {
            image.extend_from_slice(&count.to_le_bytes());
        }
        for (offset, length) in directory {
            image.extend_from_slice(&offset.to_le_bytes());
            image.extend_from_slice(&length.to_le_bytes());
        }
        image.extend_from_slice(contents);
        image
    }
}
