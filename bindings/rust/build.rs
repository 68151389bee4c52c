//! Finds liblupinadze.a: in the directory that LUPINADZE_LIB_DIR names, else in the repository's
//! crates/lupinadze/out, where `rt lib` proves and writes it if it is older than a crate, or not there. That
//! takes minutes; what goes on is said on the terminal, since cargo holds back what a build script prints
//! until it has ended.

use std::fs::{File, OpenOptions};
use std::io::{BufRead, BufReader, Write};
use std::path::{Path, PathBuf};
use std::process::{Command, Stdio};
use std::time::SystemTime;
use std::{env, fs};

const ARCHIVE: &str = "liblupinadze.a";

fn main() {
    println!("cargo::rerun-if-env-changed=LUPINADZE_LIB_DIR");
    let directory = match env::var_os("LUPINADZE_LIB_DIR") {
        Some(directory) => PathBuf::from(directory),
        None => built(),
    };
    let archive = directory.join(ARCHIVE);
    assert!(archive.exists(), "{} is not there", archive.display());
    println!("cargo::rerun-if-changed={}", archive.display());
    println!("cargo::rustc-link-search=native={}", directory.display());
    println!("cargo::rustc-link-lib=static=lupinadze");
}

fn built() -> PathBuf {
    let root =
        PathBuf::from(env::var_os("CARGO_MANIFEST_DIR").expect("cargo sets it")).join("../..");
    let sources = [root.join("crates"), root.join("crates.txt")];
    for source in &sources {
        println!("cargo::rerun-if-changed={}", source.display());
    }
    let package = root.join("crates/lupinadze");
    let archive = package.join("out").join(ARCHIVE);
    let newest = sources.iter().filter_map(|source| changed(source)).max();
    if changed(&archive) < newest {
        let before = SystemTime::now();
        prove(&package);
        // `rt` leaves the archive as it is where nothing in it changes
        if let Ok(archive) = File::options().append(true).open(&archive) {
            archive.set_modified(before).expect("the archive is ours");
        }
    }
    package.join("out")
}

/// `rt lib`, with the crate that it is at on the terminal.
fn prove(package: &Path) {
    say(
        "crates/lupinadze/out has no current liblupinadze.a: `rt lib` proves and builds it, some minutes at first",
    );
    let start = SystemTime::now();
    let mut prover = Command::new("rt")
        .arg("lib")
        .current_dir(package)
        .stdout(Stdio::piped())
        .spawn()
        .unwrap_or_else(|error| {
            panic!("rt: {error}; LUPINADZE_LIB_DIR may name a directory that has {ARCHIVE}")
        });
    let lines = BufReader::new(prover.stdout.take().expect("it is piped")).lines();
    for line in lines.map_while(Result::ok) {
        if let Some((name, _)) = line
            .strip_prefix("crate ")
            .and_then(|rest| rest.split_once(':'))
        {
            tell(&format!("{name} is proved"));
        }
        // shown by cargo if this fails
        println!("rt: {line}");
    }
    let status = prover.wait().expect("it was started");
    assert!(status.success(), "rt lib in crates/lupinadze: {status}");
    let seconds = start.elapsed().map_or(0, |time| time.as_secs());
    say(&format!(
        "liblupinadze.a is proved and built, in {seconds} s"
    ));
}

/// A line for the terminal at once, and for cargo's own output behind the script's end.
fn say(what: &str) {
    println!("cargo::warning={what}");
    tell(what);
}

fn tell(what: &str) {
    if let Ok(mut terminal) = OpenOptions::new().write(true).open("/dev/tty") {
        // without a terminal nobody waits in front of it
        let _ = writeln!(terminal, "lupinadze: {what}");
    }
}

/// When a file was last changed, or the newest file of a directory, but for what `rt` writes to out/;
/// nothing where there is none.
fn changed(path: &Path) -> Option<SystemTime> {
    match fs::read_dir(path) {
        Ok(_) if path.ends_with("out") => None,
        Ok(entries) => entries
            .filter_map(|entry| changed(&entry.ok()?.path()))
            .max(),
        Err(_) => fs::metadata(path).ok()?.modified().ok(),
    }
}
