//! `definitions N SEED`: the proof checker computes document 01's definitions on N random inputs, and must find the plain answers.

mod claims;
mod folder;
mod opened;
mod sample;

use std::path::PathBuf;
use std::process::ExitCode;
use std::{env, fs, process};

use folder::Folder;
use sample::{Input, Sample};

const USAGE: &str = "usage: definitions N SEED";
const CHOSEN_FOLDER: &str = "DEFINITIONS_FOLDER";

fn main() -> ExitCode {
    match run() {
        Ok(report) => {
            println!("{report}");
            ExitCode::SUCCESS
        }
        Err(fault) => {
            eprintln!("{fault}");
            ExitCode::FAILURE
        }
    }
}

fn run() -> Result<String, String> {
    let (count, seed) = arguments().ok_or(USAGE)?;
    let inputs: Vec<Input> = Sample::new(seed).take(count).collect();
    match env::var_os(CHOSEN_FOLDER) {
        Some(chosen) => {
            check(PathBuf::from(chosen), &inputs)?;
        }
        None => {
            let folder = check(folder_outside_any_repository(), &inputs)?;
            folder.remove().map_err(|fault| fault.to_string())?;
        }
    }
    Ok(format!("{count} inputs, the definitions agree"))
}

fn arguments() -> Option<(usize, u64)> {
    let mut words = env::args().skip(1);
    let count = words.next()?.parse().ok()?;
    let seed = words.next()?.parse().ok()?;
    words.next().is_none().then_some((count, seed))
}

// `rt check` refuses a repository that has a file of antt outside its crates, in a folder of cargo's too.
fn folder_outside_any_repository() -> PathBuf {
    env::temp_dir().join(format!("definitions-{}", process::id()))
}

fn check(path: PathBuf, inputs: &[Input]) -> Result<Folder, String> {
    let folder = written(path, inputs).map_err(|fault| format!("no claims: {fault}"))?;
    let output = folder
        .check()
        .map_err(|fault| format!("rt cannot be run: {fault}"))?;
    if output.status.success() {
        return Ok(folder);
    }
    let said = [output.stdout, output.stderr].concat();
    Err(format!(
        "{}\nthe claims are in {}",
        String::from_utf8_lossy(&said),
        folder.claims().display()
    ))
}

fn written(path: PathBuf, inputs: &[Input]) -> std::io::Result<Folder> {
    let folder = Folder::make(path)?;
    let text = claims::text(&folder.opened()?, inputs);
    fs::write(folder.claims(), text)?;
    Ok(folder)
}
