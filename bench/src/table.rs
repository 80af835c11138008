//! The rows of the table: printed, kept in a file of tab-separated values, and held against those of an earlier file.

use std::fs;

/// Times are in microseconds. What is not known was over the limit, could not be counted, or was not asked for.
#[derive(Clone)]
pub struct Row {
    pub image: String,
    pub call: String,
    pub proved: f64,
    pub plain: Option<f64>,
    pub instructions: Option<u64>,
    pub plain_instructions: Option<u64>,
    /// Those of the anchor, where it has the image.
    pub anchor: Option<u64>,
}

pub const HEAD: &str =
    "image              call      proved us  reference us    ratio  proved instr.  reference instr.";

impl Row {
    pub fn line(&self) -> String {
        format!(
            "{:<18} {:<7} {:>11.1} {:>13} {:>8} {:>14} {:>17}",
            self.image,
            self.call,
            self.proved,
            shown(self.plain.map(|plain| format!("{plain:.1}"))),
            shown(
                self.plain
                    .map(|plain| format!("{:.4}", self.proved / plain))
            ),
            shown(self.instructions),
            shown(self.plain_instructions),
        )
    }

    fn record(&self) -> String {
        format!(
            "{}\t{}\t{:.3}\t{}\t{}\t{}\t{}\n",
            self.image,
            self.call,
            self.proved,
            shown(self.plain.map(|plain| format!("{plain:.3}"))),
            shown(self.instructions),
            shown(self.plain_instructions),
            shown(self.anchor),
        )
    }

    /// How many times the anchor's instructions the proved call takes.
    pub fn times_anchor(&self) -> Option<f64> {
        let (count, anchor) = self.instructions.zip(self.anchor)?;
        Some(count as f64 / anchor as f64)
    }

    fn parse(line: &str) -> Option<Row> {
        let fields: Vec<&str> = line.split('\t').collect();
        let [image, call, proved, plain, instructions, plain_instructions, anchor] = fields[..]
        else {
            return None;
        };
        Some(Row {
            image: image.into(),
            call: call.into(),
            proved: proved.parse().ok()?,
            plain: plain.parse().ok(),
            instructions: instructions.parse().ok(),
            plain_instructions: plain_instructions.parse().ok(),
            anchor: anchor.parse().ok(),
        })
    }
}

pub fn shown(value: Option<impl ToString>) -> String {
    value.map_or("-".into(), |value| value.to_string())
}

const FIELDS: &str = "image\tcall\tproved_us\treference_us\tinstructions\treference_instructions\tanchor_instructions\n";

pub fn write(file: &str, rows: &[Row]) {
    let records: String = rows.iter().map(Row::record).collect();
    fs::write(file, format!("{FIELDS}{records}")).unwrap_or_else(|error| panic!("{file}: {error}"));
}

pub fn read(file: &str) -> Vec<Row> {
    let text = fs::read_to_string(file).unwrap_or_else(|error| panic!("{file}: {error}"));
    let parsed = |line| Row::parse(line).unwrap_or_else(|| panic!("{file}: no row: {line}"));
    text.lines().skip(1).map(parsed).collect()
}

/// Prints by how much each row changed. Of the times only the ratio can be compared between two runs.
pub fn compare(before: &[Row], now: &[Row]) {
    println!("change in %        call    instructions    ratio");
    for row in now {
        let same = |other: &&Row| other.image == row.image && other.call == row.call;
        let Some(old) = before.iter().find(same) else {
            println!("{:<18} {:<7} {:>12}", row.image, row.call, "new");
            continue;
        };
        let count = |row: &Row| row.instructions.map(|count| count as f64);
        let ratio = |row: &Row| row.plain.map(|plain| row.proved / plain);
        println!(
            "{:<18} {:<7} {:>12} {:>8}",
            row.image,
            row.call,
            change(count(old), count(row)),
            change(ratio(old), ratio(row)),
        );
    }
}

fn change(before: Option<f64>, now: Option<f64>) -> String {
    match (before, now) {
        (Some(before), Some(now)) if before > 0.0 => {
            format!("{:+.1}", 100.0 * (now / before - 1.0))
        }
        _ => "-".into(),
    }
}
