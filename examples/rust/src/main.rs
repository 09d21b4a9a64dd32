//! `list FILE`: what is wrong with the record in FILE, each entry of its list as a number on a line of its own, or the refusal.
//! `list --answers FILE`: the answers of scoping (with an empty seed), closedness, demands and the arithmetic test, and the record's names.
//!
//! To build and run it, from the root of the repository:
//!
//! ```text
//! (cd crates/noravilump && rt lib)
//! cargo run --release --offline --manifest-path examples/rust/Cargo.toml -- FILE
//! ```
//!
//! `noravilump.rs` is the wrapper to copy. An entry is `rule * 16777216 + node * 256 + name`; include/noravilump.h says what each
//! number means. The record is refused by one line, `refused NUMBER at byte OFFSET`. The status is 1 where FILE cannot be read or the
//! answer cannot be written, and 0 otherwise, a refusal included.

mod noravilump;

use std::env;
use std::ffi::OsString;
use std::fs;
use std::io::{self, BufWriter, Write};
use std::process::ExitCode;

use noravilump::{Answer, Refusal};

type Print = fn(&[u8]) -> io::Result<()>;

fn main() -> ExitCode {
    let words: Vec<OsString> = env::args_os().skip(1).collect();
    let (path, print): (&OsString, Print) = match &words[..] {
        [flag, path] if flag == "--answers" => (path, print_answers),
        [path] => (path, print_list),
        _ => {
            eprintln!("usage: list [--answers] FILE");
            return ExitCode::FAILURE;
        }
    };
    match fs::read(path) {
        Ok(record) => written(print(&record)),
        Err(error) => {
            eprintln!("list: cannot read {}: {error}", path.display());
            ExitCode::FAILURE
        }
    }
}

fn written(result: io::Result<()>) -> ExitCode {
    match result {
        Ok(()) => ExitCode::SUCCESS,
        Err(error) => {
            eprintln!("list: cannot write: {error}");
            ExitCode::FAILURE
        }
    }
}

fn print_list(record: &[u8]) -> io::Result<()> {
    let mut out = BufWriter::new(io::stdout().lock());
    match noravilump::list(record) {
        Ok(entries) => {
            for entry in entries {
                writeln!(out, "{entry}")?;
            }
        }
        Err(Refusal { number, offset }) => writeln!(out, "refused {number} at byte {offset}")?,
    }
    out.flush()
}

fn print_answers(record: &[u8]) -> io::Result<()> {
    let mut out = BufWriter::new(io::stdout().lock());
    let answers = [
        ("scoping", noravilump::scoping(record, 0)),
        ("closedness", noravilump::closedness(record)),
        ("demands", noravilump::demands(record)),
        ("arithmetic", noravilump::arithmetic(record)),
    ];
    for (question, answer) in answers {
        let Answer {
            number,
            place,
            name,
        } = answer;
        writeln!(out, "{question} {number} {place} {name}")?;
    }
    let names = (0..=u8::MAX).map_while(|number| noravilump::name(record, number));
    for (number, name) in names.enumerate() {
        write!(out, "name {number} ")?;
        out.write_all(name)?;
        writeln!(out)?;
    }
    out.flush()
}
