//! The oracle's program: its words, standard input and standard output.

use std::fs;
use std::io::{self, Read, Write};
use std::process::ExitCode;

use oracle::tape::Line;
use oracle::{blocks, compare, dump, generate, handlers, model, text, vectors};

const USAGE: &str = "usage: oracle [--dump] < TAPE
       oracle model [--dump] < TAPE
       oracle generate KIND SEED > TAPE
       oracle block BLOCK COMMANDS
       oracle compare [--program|--library|--model] [--kind KIND] [--hand-made N] TAPES [SEED]
       oracle compare .. --short
       oracle vectors DIRECTORY
KIND is deep, faults, full, broken, opening or ranges";

fn main() -> ExitCode {
    let words: Vec<String> = std::env::args().skip(1).collect();
    let words_as_text: Vec<&str> = words.iter().map(String::as_str).collect();
    match words_as_text[..] {
        [] => by_handlers(false),
        ["--dump"] => by_handlers(true),
        ["model"] => by_model(false),
        ["model", "--dump"] => by_model(true),
        ["generate", kind, seed] => match (generate::Kind::named(kind), seed.parse()) {
            (Some(kind), Ok(seed)) => print(&generate::tape(kind, seed).bytes()),
            _ => usage(),
        },
        ["block", block, commands] => match by_block(block, commands) {
            Ok(out) => print(out.as_bytes()),
            Err(error) => {
                eprintln!("{error}");
                ExitCode::FAILURE
            }
        },
        ["compare", ..] => match compare::plan(&words[1..]) {
            Some(plan) => by_plan(&plan),
            None => usage(),
        },
        ["vectors", directory] => match vectors::write(directory.as_ref()) {
            Ok(()) => ExitCode::SUCCESS,
            Err(error) => {
                eprintln!("{directory}: {error}");
                ExitCode::FAILURE
            }
        },
        _ => usage(),
    }
}

fn usage() -> ExitCode {
    eprintln!("{USAGE}");
    ExitCode::from(2)
}

fn by_plan(plan: &compare::Plan) -> ExitCode {
    if let Some(missing) = plan.sides.iter().find_map(compare::Side::missing) {
        eprintln!("{missing}");
        return ExitCode::from(2);
    }
    match compare::compare(plan) {
        true => ExitCode::SUCCESS,
        false => ExitCode::FAILURE,
    }
}

fn by_handlers(with_dump: bool) -> ExitCode {
    let run = handlers::run(&input());
    let mut out = text(&run.lines);
    if with_dump {
        out.push_str(&dump::dump(run.store.as_ref()));
    }
    print(out.as_bytes())
}

fn by_model(with_dump: bool) -> ExitCode {
    let (lines, model) = model::run(&input());
    let mut out = text(&lines);
    if with_dump {
        out.push_str(&model.dump());
    }
    print(out.as_bytes())
}

/// What the second reading says of a block and of commands to it: the clauses of reason 12 that it breaks, the
/// answers, and the rows left.
fn by_block(block: &str, commands: &str) -> io::Result<String> {
    let (mut block, commands) = (fs::read(block)?, fs::read(commands)?);
    let broken = blocks::broken(&block);
    let mut out: String = broken
        .iter()
        .map(|clause| format!("breaks: {clause}\n"))
        .collect();
    let answers = blocks::apply(&mut block, &commands);
    let lines = (1..)
        .zip(answers)
        .map(|(number, answer)| Line { number, answer });
    out.push_str(&text(&lines.collect::<Vec<_>>()));
    if broken.is_empty() {
        out.push_str(&blocks::rows(&block).dump());
    }
    Ok(out)
}

fn input() -> Vec<u8> {
    let mut bytes = Vec::new();
    io::stdin()
        .read_to_end(&mut bytes)
        .expect("standard input is read");
    bytes
}

fn print(bytes: &[u8]) -> ExitCode {
    match io::stdout().write_all(bytes) {
        Ok(()) => ExitCode::SUCCESS,
        Err(_) => ExitCode::FAILURE,
    }
}
