//! How often each answer came, by command.

use std::collections::BTreeMap;
use std::fmt::Write;

use crate::tape::{Answer, Line};

/// An answer, and for 10, 29, 39 and 40 the first operand: reason, domain, table, fault of the tape.
type Row = (u64, Option<u64>);

/// The opening, the seven commands, unknown bytes.
const COLUMNS: [&str; 9] = [
    "opening", "01", "02", "03", "04", "05", "06", "07", "unknown",
];

#[derive(Default)]
pub struct Coverage {
    rows: BTreeMap<Row, [u64; COLUMNS.len()]>,
    pub lines: u64,
    pub tapes: u64,
}

/// What can be seen.
#[derive(Clone, Copy, PartialEq)]
pub enum Of {
    /// 31, reason 12 and 39 for a placement need a store that no tape can build.
    Tapes,
    /// What such stores are there for, and what commands get on them. Reasons 1 to 10 and 40 ask nothing of a store.
    HandMade,
}

impl Coverage {
    pub fn add_tape(&mut self, lines: &[Line], bytes: &[Option<u8>]) {
        self.tapes += 1;
        for (line, byte) in lines.iter().zip(bytes) {
            self.add(*byte, &line.answer);
        }
    }

    /// The answer to a command with this byte, to the opening where there is none.
    pub fn add(&mut self, byte: Option<u8>, answer: &Answer) {
        let column = match byte {
            None => 0,
            Some(byte @ 1..=7) => byte as usize,
            Some(_) => COLUMNS.len() - 1,
        };
        let first = matches!(answer.number, 10 | 29 | 39 | 40).then_some(answer.operands[0]);
        self.rows.entry((answer.number, first)).or_default()[column] += 1;
        self.lines += 1;
    }

    pub fn merge(&mut self, other: Self) {
        for (row, counts) in other.rows {
            let sums = self.rows.entry(row).or_default();
            for (sum, count) in sums.iter_mut().zip(counts) {
                *sum += count;
            }
        }
        self.lines += other.lines;
        self.tapes += other.tapes;
    }

    pub fn table(&self) -> String {
        let mut out = format!("{:<10}{:>10}", "answer", "all");
        for name in COLUMNS {
            let _ = write!(out, "{name:>10}");
        }
        out.push('\n');
        for (row, counts) in &self.rows {
            let _ = write!(out, "{:<10}{:>10}", name(*row), counts.iter().sum::<u64>());
            for count in counts {
                let text = match count {
                    0 => ".".to_string(),
                    count => count.to_string(),
                };
                let _ = write!(out, "{text:>10}");
            }
            out.push('\n');
        }
        out
    }

    /// How often a command with this byte got the answer.
    pub fn count(&self, answer: u64, first: Option<u64>, byte: u8) -> u64 {
        let counts = self.rows.get(&(answer, first));
        counts.map_or(0, |counts| counts[byte as usize])
    }

    /// The answers that can be had and that did not come.
    pub fn not_seen(&self, of: Of) -> String {
        let mut due: Vec<Row> = Vec::new();
        for answer in [0, 1, 2].into_iter().chain(10..=40) {
            match answer {
                10 if of == Of::Tapes => due.extend((1..=10).map(|reason| (10, Some(reason)))),
                10 => due.push((10, Some(12))),
                29 | 39 => due.extend((0..=2).map(|which| (answer, Some(which)))),
                31 if of == Of::Tapes => {}
                40 if of == Of::Tapes => due.extend([(40, Some(1)), (40, Some(2))]),
                40 => {}
                _ => due.push((answer, None)),
            }
        }
        let mut missing: Vec<String> = due
            .into_iter()
            .filter(|row| !self.rows.contains_key(row))
            .map(name)
            .collect();
        if of == Of::HandMade && self.count(39, Some(1), 5) == 0 {
            missing.push("39/1 for a placement".to_string());
        }
        match missing.is_empty() {
            true => "none".to_string(),
            false => missing.join(" "),
        }
    }
}

fn name((answer, first): Row) -> String {
    match first {
        None => answer.to_string(),
        Some(first) => format!("{answer}/{first}"),
    }
}
