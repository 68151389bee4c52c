//! The library beside the original: the same command sequences, in one run, in turn. bench/run starts it;
//! README.md says what the columns mean.

mod calls;
mod depth;
mod rows;
mod sequence;
mod stack;

use std::hint::black_box;
use std::process::ExitCode;
use std::time::{Duration, Instant};

use lupinadze::{Store, linked};

use calls::{CALL_SIDES, Calls};
use rows::{CallRow, Row, Workload};
use sequence::{SIDES, Sequence, Side};

const SEEDS: std::ops::RangeInclusive<u64> = 1..=50;

/// Runs of a row: at least, and at most; in between its time decides.
const LEAST: usize = 51;
const MOST: usize = 4001;

/// Runs of each mixed tape.
const MIXED_RUNS: usize = 9;

/// A sample takes at least this long, so that the clock's own cost is small in it.
const SAMPLE: Duration = Duration::from_micros(100);
const MOST_TIMES: usize = 32;

const METHOD: &str = "\
Nanoseconds for one command. a: the Rust handlers behind the tape, as the oracle runs them (decoding, admission,
handler, answers collected); b: the same handlers alone on values made beforehand; c: `lupinadze_run`. All three
take the same commands in turn, in one process; the answers of a and c are equal, and so are the stores that a
and b leave. A run of a row times the tape up to the row's last command and the tape before its first; a figure
is the difference of the means of the lower halves of all runs, divided by the commands in between. A command
that changes nothing is repeated 200 times.";

const CALLS: &str = "\
Nanoseconds for one command on a store that lives between calls. own: the Rust handlers behind a store that they
own, each command decoded, admitted and handled; one, many: `lupinadze_apply` with one and with 100 commands a
call, on a block that the caller holds, which each call tests whole before all else; run: `lupinadze_run` on the
same commands, by the difference above, which tests no store. empty: a store with its opening's 16 tables; full:
32 nodes, 16 tables, 64 tablets with a placement each, 256 retirements. A figure is the mean of the lower half
of all runs, each on a store as it was before.";

/// Nanoseconds for a command on each side.
struct Figures {
    name: String,
    sides: [f64; 3],
    runs: usize,
}

fn main() -> ExitCode {
    let budget = match std::env::args().nth(1).map(|word| word.parse::<f64>()) {
        None => 3.0,
        Some(Ok(seconds)) if seconds > 0.0 => seconds,
        Some(_) => {
            eprintln!("usage: bench/run [SECONDS]");
            return ExitCode::from(2);
        }
    };
    let budget = Duration::from_secs_f64(budget);

    println!("{METHOD}");
    println!("\n### Command by command\n");
    header("command");
    for row in rows::by_command() {
        print(&measure(&row, budget));
    }
    println!("\n### As a table fills\n");
    header("the command that adds the row");
    for row in rows::by_fill() {
        print(&measure(&row, budget));
    }
    println!("\n### Mixed tapes\n");
    header("tapes");
    let mixed = rows::mixed(SEEDS, false);
    for (name, workloads) in [
        ("deep, seeds 1 to 50", &mixed),
        (
            "the same, no command on a full table",
            &rows::mixed(SEEDS, true),
        ),
    ] {
        print(&measure_tapes(name, workloads));
    }
    println!("\n### Calls on a store\n\n{CALLS}\n");
    call_header("command");
    for row in rows::by_call() {
        print_calls(&measure_calls(&row, budget));
    }
    print_calls(&measure_mixed_calls(
        "mixed tapes, deep, seeds 1 to 50",
        &mixed,
    ));
    println!("\n{}", soundness());
    stack(&mixed)
}

fn header(first: &str) {
    println!(
        "| {first} | a, original on the tape | b, its handlers alone | c, `lupinadze_run` | c/a | c/b | runs |"
    );
    println!("|---|--:|--:|--:|--:|--:|--:|");
}

fn print(figures: &Figures) {
    let [a, b, c] = figures.sides;
    println!(
        "| {} | {a:.0} ns | {b:.0} ns | {c:.0} ns | {:.2} | {:.1} | {} |",
        figures.name,
        c / a,
        c / b,
        figures.runs
    );
}

/// For each side, in each run: the tape with the row's commands and the tape before them, one right behind the other.
fn measure(row: &Row, budget: Duration) -> Figures {
    let mut before = Sequence::new(row.before.clone());
    let mut whole = Sequence::new([&row.before[..], &row.timed].concat());
    let commands = whole.commands() - before.commands();
    for answer in &whole.answers[before.answers.len()..] {
        assert_eq!(answer[0], row.answer, "{}", row.name);
    }
    let times = SIDES.map(|side| times(&mut whole, side));
    let mut with: [Vec<f64>; 3] = Default::default();
    let mut without: [Vec<f64>; 3] = Default::default();
    let start = Instant::now();
    let mut runs = 0;
    while runs < LEAST || (runs < MOST && start.elapsed() < budget) {
        for turn in 0..SIDES.len() {
            let at = (runs + turn) % SIDES.len();
            let time = |sequence: &mut Sequence| {
                sequence.time(SIDES[at], times[at]).as_nanos() as f64 / times[at] as f64
            };
            if runs % 2 == 0 {
                with[at].push(time(&mut whole));
                without[at].push(time(&mut before));
            } else {
                without[at].push(time(&mut before));
                with[at].push(time(&mut whole));
            }
        }
        runs += 1;
    }
    let sides = std::array::from_fn(|at| {
        let with = lower_half(std::mem::take(&mut with[at]));
        (with - lower_half(std::mem::take(&mut without[at]))) / commands as f64
    });
    Figures {
        name: row.name.clone(),
        sides,
        runs,
    }
}

/// Whole tapes, opening included, summed and divided by the number of commands.
fn measure_tapes(name: &str, workloads: &[Workload]) -> Figures {
    let mut commands = 0;
    let mut sums = [0.0; 3];
    for workload in workloads {
        let mut sequence = Sequence::new(workload.tape());
        commands += sequence.commands();
        let mut samples: [Vec<f64>; 3] = Default::default();
        for run in 0..MIXED_RUNS {
            for turn in 0..SIDES.len() {
                let at = (run + turn) % SIDES.len();
                samples[at].push(sequence.time(SIDES[at], 1).as_nanos() as f64);
            }
        }
        for (sum, samples) in sums.iter_mut().zip(samples) {
            *sum += lower_half(samples);
        }
    }
    Figures {
        name: format!("{name}: {commands} commands"),
        sides: sums.map(|sum| sum / commands as f64),
        runs: MIXED_RUNS,
    }
}

/// How often a sequence is run in one sample.
fn times(sequence: &mut Sequence, side: Side) -> usize {
    sample_times(sequence.time(side, 1))
}

/// How often what takes so long once is run in one sample.
fn sample_times(once: Duration) -> usize {
    let once = once.max(Duration::from_nanos(1));
    (SAMPLE.as_nanos() / once.as_nanos() + 1).min(MOST_TIMES as u128) as usize
}

/// The mean of the lower half: what a run takes where other work does not disturb it.
fn lower_half(mut values: Vec<f64>) -> f64 {
    values.sort_by(f64::total_cmp);
    values.truncate(values.len().div_ceil(2));
    values.iter().sum::<f64>() / values.len() as f64
}

/// Nanoseconds for a command: own, one and many of `CALL_SIDES`, and the run of the same commands.
struct CallFigures {
    name: String,
    sides: [f64; 4],
    runs: usize,
}

fn call_header(first: &str) {
    println!("| {first} | own | one | many | run | one/own | many/own | many/run | runs |");
    println!("|---|--:|--:|--:|--:|--:|--:|--:|--:|");
}

fn print_calls(figures: &CallFigures) {
    let [own, one, many, run] = figures.sides;
    println!(
        "| {} | {own:.0} ns | {one:.0} ns | {many:.0} ns | {run:.0} ns | {:.2} | {:.2} | {:.2} | {} |",
        figures.name,
        one / own,
        many / own,
        many / run,
        figures.runs
    );
}

/// The three sides of calls, and the run of a tape with the row's commands and without them, in turn.
fn measure_calls(row: &CallRow, budget: Duration) -> CallFigures {
    let mut calls = Calls::new(&row.before, row.commands.clone());
    for answer in &calls.answers {
        assert_eq!(answer[0], row.answer, "{}", row.name);
    }
    let mut before = Sequence::new(row.before.clone());
    let mut whole = Sequence::new([&row.before[..], &row.commands.concat()].concat());
    let call_times = CALL_SIDES.map(|side| sample_times(calls.time(side, 1)));
    let run_times = times(&mut whole, Side::Library);
    let mut samples: [Vec<f64>; 5] = Default::default();
    let start = Instant::now();
    let mut runs = 0;
    while runs < LEAST || (runs < MOST && start.elapsed() < budget) {
        for turn in 0..samples.len() {
            let at = (runs + turn) % samples.len();
            let (time, times) = match at {
                0..3 => (calls.time(CALL_SIDES[at], call_times[at]), call_times[at]),
                3 => (whole.time(Side::Library, run_times), run_times),
                _ => (before.time(Side::Library, run_times), run_times),
            };
            samples[at].push(time.as_nanos() as f64 / times as f64);
        }
        runs += 1;
    }
    let commands = calls.commands() as f64;
    let [own, one, many, with, without] = samples.map(lower_half);
    CallFigures {
        name: format!("{}, {}", row.name, number_of(calls.commands())),
        sides: [own, one, many, with - without].map(|time| time / commands),
        runs,
    }
}

fn number_of(commands: usize) -> String {
    match commands {
        1 => "once".to_string(),
        more => format!("{more} times"),
    }
}

/// Whole workloads on a store that their opening gives, summed and divided by the number of commands. The
/// run's time has the opening in it.
fn measure_mixed_calls(name: &str, workloads: &[Workload]) -> CallFigures {
    let mut commands = 0;
    let mut sums = [0.0; 4];
    for workload in workloads {
        let mut calls = Calls::new(&workload.opening, workload.commands.clone());
        let mut sequence = Sequence::new(workload.tape());
        commands += calls.commands();
        let mut samples: [Vec<f64>; 4] = Default::default();
        for run in 0..MIXED_RUNS {
            for turn in 0..samples.len() {
                let at = (run + turn) % samples.len();
                let time = match at {
                    0..3 => calls.time(CALL_SIDES[at], 1),
                    _ => sequence.time(Side::Library, 1),
                };
                samples[at].push(time.as_nanos() as f64);
            }
        }
        for (sum, samples) in sums.iter_mut().zip(samples) {
            *sum += lower_half(samples);
        }
    }
    CallFigures {
        name: format!("{name}: {commands} commands"),
        sides: sums.map(|sum| sum / commands as f64),
        runs: MIXED_RUNS,
    }
}

/// What each call on a store begins with.
fn soundness() -> String {
    let [empty, full] = [rows::empty_store(), rows::full_store()].map(|tape| {
        let (mut store, taken) = Store::open_bytes(&tape).expect("the opening is accepted");
        store.apply(&tape[taken..]);
        let samples = (0..LEAST).map(|_| {
            let start = Instant::now();
            for _ in 0..MOST_TIMES {
                assert_eq!(linked::is_sound(black_box(store.as_bytes())), 1);
            }
            start.elapsed().as_nanos() as f64 / MOST_TIMES as f64
        });
        lower_half(samples.collect())
    });
    format!("`lupinadze_is_sound`: {empty:.0} ns on the empty store, {full:.0} ns on the full one.")
}

/// Prints the stack that each function of the library takes, and holds the header to it.
fn stack(mixed: &[Workload]) -> ExitCode {
    let mut tapes: Vec<Vec<u8>> = mixed.iter().map(Workload::tape).collect();
    tapes.extend(oracle::vectors::list().into_iter().map(|(_, tape)| tape));
    tapes.push(rows::full_store());
    let depths = depth::all(&tapes);
    println!(
        "\n### Stack\n\nDeepest on {} tapes and the stores that they leave.\n",
        tapes.len()
    );
    println!("| function | bytes |\n|---|--:|");
    for (name, bytes) in &depths {
        println!("| `lupinadze_{name}` | {bytes} |");
    }
    let mut code = ExitCode::SUCCESS;
    for (name, bytes) in depths {
        let allowed = depth::allowed(name);
        if bytes > allowed {
            eprintln!(
                "bindings/lupinadze.h leaves {allowed} bytes of stack to lupinadze_{name}, which takes {bytes}"
            );
            code = ExitCode::FAILURE;
        }
    }
    code
}
