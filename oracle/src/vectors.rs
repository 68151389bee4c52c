//! Stored vectors, for programs that have no Rust at hand: a fixed list of tapes with what the oracle prints for them,
//! and stores made by hand with what the second reading answers on them. README.md has their form.

use std::io;
use std::path::Path;

use crate::blocks;
use crate::cases::{self, Case};
use crate::coverage::{Coverage, Of};
use crate::generate::{self, Kind};
use crate::tape::Line;
use crate::trials::trials;
use crate::{dump, handlers, text};

/// Kind, first seed, number of tapes, and the most commands of each.
const GENERATED: [(Kind, u64, u64, usize); 6] = [
    (Kind::Deep, 1, 3, 300),
    (Kind::Faults, 1, 3, 250),
    (Kind::Full, 31, 1, 620),
    (Kind::Broken, 1, 16, usize::MAX),
    (Kind::Opening, 1, 16, usize::MAX),
    (Kind::Ranges, 200, 1, 200),
];

/// The crates that replay the tapes, each with its copy, and the crate that tries the stores made by hand.
const REPLAY: [&str; 3] = ["vectors", "vectors_apply", "vectors_owned"];
const HAND_MADE: &str = "vectors_hand_made";

/// The room of the programs: bytes of a tape, lines of its answers, bytes of a case's name, patches and commands.
const TAPE_ROOM: usize = 65_536;
const LINE_ROOM: usize = 1_024;
const NAME_ROOM: usize = 256;
const PATCH_ROOM: usize = 1_024;
const COMMAND_ROOM: usize = 4_096;

/// What a program is given, and what it has to print.
struct Vectors {
    stdin: Vec<u8>,
    stdout: String,
}

/// Writes `stdin` and `stdout` of each crate in the directory.
pub fn write(crates: &Path) -> io::Result<()> {
    let tapes = tapes()?;
    for name in REPLAY {
        tapes.write(&crates.join(name))?;
    }
    hand_made()?.write(&crates.join(HAND_MADE))
}

impl Vectors {
    fn new() -> Self {
        Self {
            stdin: Vec::new(),
            stdout: String::new(),
        }
    }

    /// The lengths of the parts, eight bytes each, and numbers; then the parts.
    fn put(&mut self, parts: &[&[u8]], numbers: &[usize]) {
        for part in parts {
            self.stdin.extend((part.len() as u64).to_le_bytes());
        }
        for number in numbers {
            self.stdin.extend((*number as u64).to_le_bytes());
        }
        for part in parts {
            self.stdin.extend(*part);
        }
    }

    fn write(&self, directory: &Path) -> io::Result<()> {
        std::fs::create_dir_all(directory)?;
        std::fs::write(directory.join("stdin"), &self.stdin)?;
        std::fs::write(directory.join("stdout"), &self.stdout)
    }
}

fn too_long(name: &str) -> io::Error {
    io::Error::other(format!("{name} is too long"))
}

/// The tapes with their names.
pub fn list() -> Vec<(String, Vec<u8>)> {
    let mut list: Vec<(String, Vec<u8>)> = trials()
        .into_iter()
        .map(|trial| (trial.name.to_string(), trial.tape))
        .collect();
    for (kind, first, count, most) in GENERATED {
        for seed in first..first + count {
            let mut parts = generate::tape(kind, seed);
            parts.commands.truncate(most);
            list.push((format!("{} {seed}", kind.name()), parts.bytes()));
        }
    }
    list
}

/// The tapes and what the oracle prints for them.
fn tapes() -> io::Result<Vectors> {
    let mut vectors = Vectors::new();
    let mut coverage = Coverage::default();
    for (name, tape) in list() {
        let run = handlers::run(&tape);
        if tape.len() > TAPE_ROOM || run.lines.len() > LINE_ROOM {
            return Err(too_long(&name));
        }
        vectors.put(&[name.as_bytes(), &tape], &[]);
        vectors.stdout.push_str(&format!("tape {name}\n"));
        vectors.stdout.push_str(&text(&run.lines));
        vectors.stdout.push_str(&dump::dump(run.store.as_ref()));
        coverage.add_tape(&run.lines, &run.bytes);
    }
    print!("{}", coverage.table());
    let (commands, tapes) = (coverage.lines, coverage.tapes);
    println!("{commands} commands on {tapes} tapes");
    match coverage.not_seen(Of::Tapes).as_str() {
        "none" => Ok(vectors),
        missing => Err(io::Error::other(format!("no answer {missing}"))),
    }
}

/// The stores made by hand and what the second reading answers.
fn hand_made() -> io::Result<Vectors> {
    let mut vectors = Vectors::new();
    let mut coverage = Coverage::default();
    let mut last: Vec<u8> = Vec::new();
    let cases = cases::list();
    for case in &cases {
        let patches = patches(case);
        let name = case.name.as_bytes();
        if name.len() > NAME_ROOM
            || case.tape.len() > TAPE_ROOM
            || patches.len() > PATCH_ROOM
            || case.commands.len() > COMMAND_ROOM
        {
            return Err(too_long(&case.name));
        }
        // The program begins with zeros, and keeps what the last tape left.
        let tape = match case.tape == last {
            true => &[],
            false => &case.tape[..],
        };
        if case.tape.is_empty() && !last.is_empty() {
            return Err(io::Error::other(format!(
                "{} stands behind a tape",
                case.name
            )));
        }
        last = case.tape.clone();
        vectors.put(&[name, tape, &patches, &case.commands], &[case.length]);
        vectors.stdout.push_str(&tried(case, &mut coverage));
    }
    print!("{}", coverage.table());
    println!(
        "{} commands on {} stores made by hand",
        coverage.lines,
        cases.len()
    );
    Ok(vectors)
}

/// Each a place in eight bytes, a count in one, and so many bytes.
fn patches(case: &Case) -> Vec<u8> {
    let mut bytes = Vec::new();
    for (at, patch) in &case.patches {
        bytes.extend((*at as u64).to_le_bytes());
        bytes.push(u8::try_from(patch.len()).expect("a patch is short"));
        bytes.extend(patch);
    }
    bytes
}

/// How many questions the program asks.
const QUESTIONS: usize = 8;

/// What the program has to print for a case.
fn tried(case: &Case, coverage: &mut Coverage) -> String {
    let block = case.block();
    let mut left = block.clone();
    let answers = blocks::apply(&mut left, &case.commands);
    let mut at = 0;
    for answer in &answers {
        coverage.add(Some(case.commands[at]), answer);
        let end = crate::model::command_end(&case.commands, at);
        at = end.unwrap_or(case.commands.len());
    }
    let lines: Vec<Line> = (1..)
        .zip(answers)
        .map(|(number, answer)| Line { number, answer })
        .collect();
    let answered = match blocks::sound(&block) {
        true => QUESTIONS,
        false => 0,
    };
    let mut out = format!("case {}\nquestions answered {answered}\n", case.name);
    out.push_str(&text(&lines));
    out.push_str("the same by enter\n");
    let mut changed = (0..block.len()).filter(|at| block[*at] != left[*at]);
    match changed.next() {
        None => out.push_str("no byte changed\n"),
        Some(first) => {
            let last = changed.next_back().unwrap_or(first);
            out.push_str(&format!(
                "first byte changed {first}\nlast byte changed {last}\n"
            ));
        }
    }
    out
}
