// The comparison host's program, for the gate and for whoever looks into a difference: compare, replay, bench, sample.
#![deny(unsafe_code)]

mod bench;
mod cases;
mod commands;
mod compare;
mod damage;
mod generate;
mod inputs;
mod layout;
mod maker;
#[cfg(any(test, not(feature = "port")))]
mod mirror;
#[cfg(feature = "port")]
#[allow(unsafe_code)]
mod port;
mod proofs;
mod pump;
mod reader;
mod rebuild;
mod records;
mod replay;
mod sample;
mod sound;
mod stored;
mod subject;
mod suite;
#[cfg(test)]
mod tests;

use std::path::{Path, PathBuf};
use std::process::ExitCode;

const USAGE: &str = "\
compare [--files N] [--seed S] [--share K/N] [--failing DIRECTORY]
replay FILE
bench
sample [--directory DIRECTORY]";

fn main() -> ExitCode {
    let words: Vec<String> = std::env::args().skip(1).collect();
    match run(&words) {
        Ok(true) => ExitCode::SUCCESS,
        Ok(false) => ExitCode::FAILURE,
        Err(message) => {
            eprintln!("{message}");
            ExitCode::FAILURE
        }
    }
}

fn run(words: &[String]) -> Result<bool, String> {
    let words: Vec<&str> = words.iter().map(String::as_str).collect();
    match words.split_first() {
        Some((&"compare", options)) => compare(options),
        Some((&"replay", &[path])) => replay_case(Path::new(path)),
        Some((&"bench", &[])) => {
            bench::run(subject::ours());
            Ok(true)
        }
        Some((&"sample", &[])) => done(sample::print(&mut std::io::stdout().lock())),
        Some((&"sample", &["--directory", path])) => store(Path::new(path)),
        _ => Err(USAGE.to_string()),
    }
}

fn done(result: std::io::Result<()>) -> Result<bool, String> {
    result.map(|()| true).map_err(|e| e.to_string())
}

fn store(directory: &Path) -> Result<bool, String> {
    let reached = stored::write(directory).map_err(|e| e.to_string())?;
    reached.print();
    Ok(reached.all())
}

fn compare(options: &[&str]) -> Result<bool, String> {
    let (mut files, mut seed) = (20_000, 1);
    let mut share = suite::Share { first: 0, of: 1 };
    let mut failing = PathBuf::from("target/failing");
    for option in options.chunks(2) {
        match *option {
            ["--files", n] => files = n.parse().map_err(|_| USAGE)?,
            ["--seed", n] => seed = n.parse().map_err(|_| USAGE)?,
            ["--share", part] => share = share_of(part).ok_or(USAGE)?,
            ["--failing", path] => failing = PathBuf::from(path),
            _ => return Err(USAGE.to_string()),
        }
    }
    Ok(suite::Suite::new(subject::ours(), share, failing).run(files, seed))
}

// "1/4" is the second of four shares.
fn share_of(part: &str) -> Option<suite::Share> {
    let (first, of) = part.split_once('/')?;
    let (first, of) = (first.parse().ok()?, of.parse().ok()?);
    (first < of).then(|| suite::Share { first, of })
}

// A failing case again, with what the rebuild says of it.
fn replay_case(path: &Path) -> Result<bool, String> {
    let case = cases::load(path)?;
    if let cases::Case::File(input) = &case {
        let lines = replay::replay(input, &mut replay::Desk::unopened());
        print!("{}", String::from_utf8_lossy(&lines));
    }
    let verdict = suite::again(subject::ours(), case);
    match &verdict {
        Ok(()) => println!("1 passed, 0 failed"),
        Err(difference) => println!("{difference}\n0 passed, 1 failed"),
    }
    Ok(verdict.is_ok())
}
