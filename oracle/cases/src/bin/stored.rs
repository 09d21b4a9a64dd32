//! `stored`: writes the list that `oracle_cases` replays, and what it must say of it, from the Rust's answers.
//! `stored --check`: whether both are still what it would write. `stored N SEED`: what a list of N from another seed would have.

use std::env;
use std::fs;
use std::path::Path;
use std::process::ExitCode;

use cases::stored::{
    chosen, list_path, seldom_met, stored, summary, summary_path, Case, CASES, SEED,
};

const USAGE: &str = "usage: stored [--check | N SEED]";

fn main() -> ExitCode {
    let words: Vec<String> = env::args().skip(1).collect();
    let words: Vec<&str> = words.iter().map(String::as_str).collect();
    let done = match words[..] {
        [] => kept(write),
        ["--check"] => kept(check),
        [count, seed] => tried(count, seed),
        _ => Err(USAGE.to_string()),
    };
    match done {
        Ok(()) => ExitCode::SUCCESS,
        Err(fault) => {
            eprintln!("{fault}");
            ExitCode::FAILURE
        }
    }
}

fn kept(each: fn(&Path, &[u8]) -> Result<(), String>) -> Result<(), String> {
    let cases = chosen(CASES, SEED);
    each(&list_path(), &stored(&cases)?)?;
    each(&summary_path(), summary(&cases).as_bytes())?;
    said(&cases)
}

fn write(path: &Path, bytes: &[u8]) -> Result<(), String> {
    fs::write(path, bytes).map_err(|fault| format!("{}: {fault}", path.display()))
}

fn check(path: &Path, bytes: &[u8]) -> Result<(), String> {
    match fs::read(path) {
        Ok(there) if there == bytes => Ok(()),
        Ok(_) => Err(format!("{} is not what the Rust answers", path.display())),
        Err(fault) => Err(format!("{}: {fault}", path.display())),
    }
}

fn tried(count: &str, seed: &str) -> Result<(), String> {
    let [Ok(count), Ok(seed)] = [count.parse::<u64>(), seed.parse()] else {
        return Err(USAGE.to_string());
    };
    let cases = chosen(count as usize, seed);
    println!("{} bytes", stored(&cases)?.len());
    said(&cases)
}

fn said(cases: &[Case]) -> Result<(), String> {
    print!("{}", summary(cases));
    match seldom_met(cases) {
        seldom if seldom.is_empty() => Ok(()),
        seldom => Err(format!("seldom or never met: {}", seldom.join(", "))),
    }
}
