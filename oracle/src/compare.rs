//! The oracle against the program and the static library, tape by tape; and the library against the second reading
//! on stores made by hand.

use std::fs::{self, File};
use std::path::{Path, PathBuf};
use std::process::{Command, Stdio};
use std::sync::Mutex;
use std::sync::atomic::{AtomicUsize, Ordering};

#[cfg(feature = "library")]
use crate::against;
#[cfg(not(feature = "library"))]
use crate::against_nothing as against;
use crate::alter::{self, HandMade};
use crate::blocks;
use crate::cases;
use crate::coverage::{Coverage, Of};
use crate::difference::{self, Difference};
use crate::generate::{self, KINDS, Kind, Parts};
use crate::random::Random;
use crate::{dump, handlers, model, text};

/// What is compared with the oracle.
pub enum Side {
    /// A command with its first words; `--dump` is put behind them.
    Program(Vec<String>),
    Library,
    Model,
}

pub struct Plan {
    pub sides: Vec<Side>,
    pub kinds: Vec<Kind>,
    pub tapes: usize,
    pub seed: u64,
    /// Stores made by hand from the last store of each tape.
    pub hand_made: usize,
}

/// How many tapes a difference may be tried on to make it small.
const SHRINKING: usize = 3000;

/// From the repository's root.
const SMALL_TAPE: &str = "oracle/target/difference.tape";
const BLOCK: &str = "oracle/target/difference.block";
const COMMANDS: &str = "oracle/target/difference.commands";

/// Tapes of each kind that `--short` takes.
const SHORT_TAPES: usize = 20;

/// What was compared.
#[derive(Default)]
struct Seen {
    tapes: Coverage,
    sent: against::Sent,
}

/// Runs the plan and prints the first difference, or the coverage; whether there was no difference.
pub fn compare(plan: &Plan) -> bool {
    let mut seen = Seen::default();
    if plan.tries_blocks() && !listed_cases(&mut seen.sent) {
        return false;
    }
    let total = plan.kinds.len() * plan.tapes;
    let next = AtomicUsize::new(0);
    let first = Mutex::new(None::<usize>);
    let all = Mutex::new(seen);
    let workers = std::thread::available_parallelism().map_or(1, |count| count.get());
    std::thread::scope(|scope| {
        for worker in 0..workers {
            let (next, first, all) = (&next, &first, &all);
            scope.spawn(move || {
                let scratch = Scratch::new(worker);
                let mut seen = Seen::default();
                loop {
                    let at = next.fetch_add(1, Ordering::Relaxed);
                    if at >= total || first.lock().unwrap().is_some_and(|known| known < at) {
                        break;
                    }
                    if plan.differs(at, &scratch, &mut seen) {
                        let mut first = first.lock().unwrap();
                        *first = Some(first.map_or(at, |known| known.min(at)));
                    }
                }
                let mut all = all.lock().unwrap();
                all.tapes.merge(seen.tapes);
                all.sent.merge(seen.sent);
            });
        }
    });
    if let Some(at) = first.into_inner().unwrap() {
        plan.report(at);
        return false;
    }
    plan.print(&all.into_inner().unwrap());
    true
}

/// Each store that is made by hand for a clause or an answer (cases/), with its commands in one call and one by one.
fn listed_cases(sent: &mut against::Sent) -> bool {
    for case in cases::list() {
        for commands in [vec![case.commands.clone()], model::split(&case.commands)] {
            let made = HandMade {
                block: case.block(),
                how: vec![],
                commands,
            };
            if let Err(found) = against::hand_made(&made, &mut Random::new(1), sent) {
                println!("difference in the case '{}'", case.name);
                found.print();
                keep(&made);
                return false;
            }
        }
    }
    true
}

impl Plan {
    fn tape(&self, at: usize) -> (Kind, u64) {
        let seed = self.seed.wrapping_add((at % self.tapes) as u64);
        (self.kinds[at / self.tapes], seed)
    }

    /// What the pieces of the tape are drawn from, and the stores made by hand from its last one.
    fn draw(&self, at: usize) -> u64 {
        let (kind, seed) = self.tape(at);
        seed ^ (kind as u64 + 1) << 32
    }

    fn tries_blocks(&self) -> bool {
        self.hand_made > 0 && self.sides.iter().any(|side| matches!(side, Side::Library))
    }

    /// The tape through every side, and the stores made by hand from its last one.
    fn differs(&self, at: usize, scratch: &Scratch, seen: &mut Seen) -> bool {
        let (kind, seed) = self.tape(at);
        let tape = generate::tape(kind, seed).bytes();
        let run = handlers::run(&tape);
        seen.tapes.add_tape(&run.lines, &run.bytes);
        let differs = |side: &Side| {
            let compared = side.compare(&tape, &run, self.draw(at), scratch, &mut seen.sent);
            compared.is_err()
        };
        if self.sides.iter().any(differs) {
            return true;
        }
        if !self.tries_blocks() {
            return false;
        }
        let (_, model) = model::run(&tape);
        (0..self.hand_made).any(|number| {
            let (made, mut random) = hand_made(&model, self.draw(at), number);
            against::hand_made(&made, &mut random, &mut seen.sent).is_err()
        })
    }

    /// Prints the difference: that of the tape, made small, or that of a store made by hand.
    fn report(&self, at: usize) {
        let (kind, seed) = self.tape(at);
        println!("difference in {} {seed}", kind.name());
        let parts = generate::tape(kind, seed);
        let scratch = Scratch::new(usize::MAX);
        for side in &self.sides {
            if let Err(found) = side.of(&parts, self.draw(at), &scratch) {
                found.print();
                side.shrink_and_print(parts, self.draw(at), &scratch);
                return;
            }
        }
        let (_, model) = model::run(&parts.bytes());
        for number in 0..self.hand_made {
            let (made, mut random) = hand_made(&model, self.draw(at), number);
            let mut sent = against::Sent::default();
            if let Err(found) = against::hand_made(&made, &mut random, &mut sent) {
                println!("in store {number} made by hand from its last one:");
                made.how.iter().for_each(|how| println!("  {how}"));
                found.print();
                keep(&made);
                let kind = kind.name();
                println!(
                    "again: oracle/compare --library --kind {kind} --hand-made {} 1 {seed}",
                    number + 1
                );
                return;
            }
        }
        println!("not there again");
    }

    fn print(&self, seen: &Seen) {
        print!("{}", seen.tapes.table());
        println!("not seen: {}", seen.tapes.not_seen(Of::Tapes));
        let (commands, tapes) = (seen.tapes.lines, seen.tapes.tapes);
        println!("{commands} commands compared on {tapes} tapes");
        let sent = &seen.sent;
        if sent.pieces > 0 {
            println!(
                "each tape through lupinadze_run, and through lupinadze_open and lupinadze_apply in {} pieces, of which \
                 {} end in a cut command",
                sent.pieces, sent.cut
            );
        }
        if sent.blocks > 0 {
            println!("\nstores made by hand:");
            print!("{}", sent.coverage.table());
            println!("not seen: {}", sent.coverage.not_seen(Of::HandMade));
            println!(
                "{} commands compared on {} stores made by hand, {} of them sound; 31 came {} times, 39 for a placement {}",
                sent.coverage.lines,
                sent.blocks,
                sent.sound,
                sent.coverage.count(31, None, 5),
                sent.coverage.count(39, Some(1), 5)
            );
        }
        if sent.questions > 0 {
            println!("{} questions compared", sent.questions);
        }
        println!("differences: 0");
    }
}

/// A store made by hand, by a number, and what its trial draws from.
fn hand_made(base: &model::Model, draw: u64, number: usize) -> (HandMade, Random) {
    let mut random = Random::new(draw ^ ((number as u64 + 1) << 40));
    let made = alter::hand_made(&mut random, base);
    (made, random)
}

/// Leaves the block and its commands behind.
fn keep(made: &HandMade) {
    for command in &made.commands {
        println!("  {}", hexadecimal(command));
    }
    for (path, bytes) in [(BLOCK, &made.block), (COMMANDS, &made.commands.concat())] {
        match fs::write(path, bytes) {
            Ok(()) => println!("written to {path}"),
            Err(error) => println!("{path}: {error}"),
        }
    }
    println!("oracle block {BLOCK} {COMMANDS} gives the second reading's answers");
}

impl Side {
    /// Why the other side cannot be run, if it cannot.
    pub fn missing(&self) -> Option<String> {
        match self {
            Self::Model => None,
            Self::Library => against::missing(),
            Self::Program(words) => {
                let Some(program) = words.first() else {
                    return Some("TAPE is empty".to_string());
                };
                let run = Command::new(program)
                    .args(&words[1..])
                    .stdin(Stdio::null())
                    .output();
                run.err().map(|error| format!("{program}: {error}"))
            }
        }
    }

    fn compare(
        &self,
        tape: &[u8],
        run: &handlers::Run,
        draw: u64,
        scratch: &Scratch,
        sent: &mut against::Sent,
    ) -> Result<(), Difference> {
        let lines = text(&run.lines);
        let dump = dump::dump(run.store.as_ref());
        match self {
            Self::Model => {
                let (model_lines, model) = model::run(tape);
                difference::lines("lines", &lines, &text(&model_lines))?;
                difference::lines("dump", &dump, &model.dump())?;
                let block = blocks::bytes(&model);
                difference::lines("dump of the block", &dump, &blocks::rows(&block).dump())
            }
            Self::Library => against::tape(tape, &run.lines, &dump, Random::new(draw), sent),
            Self::Program(words) => {
                fs::write(&scratch.0, tape).expect("the tape is written");
                run_program(words, &[], &scratch.0, &lines)?;
                run_program(words, &["--dump"], &scratch.0, &format!("{lines}{dump}"))
            }
        }
    }

    fn of(&self, parts: &Parts, draw: u64, scratch: &Scratch) -> Result<(), Difference> {
        let tape = parts.bytes();
        let mut sent = against::Sent::default();
        self.compare(&tape, &handlers::run(&tape), draw, scratch, &mut sent)
    }

    /// Makes the tape small and prints it.
    fn shrink_and_print(&self, parts: Parts, draw: u64, scratch: &Scratch) {
        let small = self.shrink(parts, draw, scratch);
        println!("a small tape with a difference, opening and commands in hexadecimal:");
        println!("  {}", hexadecimal(&small.opening));
        for command in &small.commands {
            println!("  {}", hexadecimal(command));
        }
        self.of(&small, draw, scratch).expect_err("kept").print();
        match fs::write(SMALL_TAPE, small.bytes()) {
            Ok(()) => println!("written to {SMALL_TAPE}"),
            Err(error) => println!("{SMALL_TAPE}: {error}"),
        }
    }

    /// Leaves out runs of commands, long ones first, as long as a difference stays.
    fn shrink(&self, mut parts: Parts, draw: u64, scratch: &Scratch) -> Parts {
        let mut tries = 0;
        let mut length = parts.commands.len().div_ceil(2).max(1);
        loop {
            let mut at = 0;
            let mut left_out = false;
            while at < parts.commands.len() && tries < SHRINKING {
                let mut without = parts.clone();
                let end = (at + length).min(parts.commands.len());
                without.commands.drain(at..end);
                tries += 1;
                if self.of(&without, draw, scratch).is_err() {
                    parts = without;
                    left_out = true;
                } else {
                    at = end;
                }
            }
            if tries >= SHRINKING || (length == 1 && !left_out) {
                return parts;
            }
            length = length.div_ceil(2).max(1);
        }
    }
}

fn run_program(
    words: &[String],
    more: &[&str],
    tape: &Path,
    expected: &str,
) -> Result<(), Difference> {
    let what = format!("{} {}", words.join(" "), more.join(" "));
    let output = Command::new(&words[0])
        .args(&words[1..])
        .args(more)
        .stdin(Stdio::from(File::open(tape).expect("the tape is there")))
        .output()
        .unwrap_or_else(|error| panic!("{what}: {error}"));
    if output.status.code().is_none() {
        return Err(Difference::new(&what, "an end", output.status));
    }
    difference::lines(&what, expected, &String::from_utf8_lossy(&output.stdout))
}

fn hexadecimal(bytes: &[u8]) -> String {
    bytes.iter().map(|byte| format!("{byte:02x}")).collect()
}

/// A file of this process for one worker's tapes, gone when it is done.
struct Scratch(PathBuf);

impl Scratch {
    fn new(worker: usize) -> Self {
        let name = format!("oracle-{}-{worker}.tape", std::process::id());
        Self(std::env::temp_dir().join(name))
    }
}

impl Drop for Scratch {
    fn drop(&mut self) {
        let _ = fs::remove_file(&self.0);
    }
}

fn program() -> Side {
    let words = std::env::var("TAPE").unwrap_or("./tape".to_string());
    Side::Program(words.split_whitespace().map(str::to_string).collect())
}

/// The plan that the words of the command line ask for.
pub fn plan(words: &[String]) -> Option<Plan> {
    let mut sides = vec![program(), Side::Library];
    let mut kinds = KINDS.to_vec();
    let mut hand_made = 10;
    let mut numbers = Vec::new();
    let mut words = words.iter();
    while let Some(word) = words.next() {
        match word.as_str() {
            "--model" => sides = vec![Side::Model],
            "--program" => sides = vec![program()],
            "--library" => sides = vec![Side::Library],
            "--kind" => kinds = vec![Kind::named(words.next()?)?],
            "--hand-made" => hand_made = words.next()?.parse().ok()?,
            "--short" => numbers.push(SHORT_TAPES as u64),
            number => numbers.push(number.parse().ok()?),
        }
    }
    let (tapes, seed) = match numbers[..] {
        [tapes] => (tapes, 1),
        [tapes, seed] => (tapes, seed),
        _ => return None,
    };
    Some(Plan {
        sides,
        kinds,
        tapes: (tapes as usize).max(1),
        seed,
        hand_made,
    })
}
