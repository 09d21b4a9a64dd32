//! `compare N SEED`: N random, damaged and short inputs through the proved library, the plain second implementation and the Rust.

use std::env;
use std::process::ExitCode;

use linked::comparing::Comparer;
use linked::inputs::any_input;
use linked::tally::Tally;
use linked::Proved;
use plain::random::Rng;

const USAGE: &str = "usage: compare N SEED";
/// So many inputs meet every answer and every shape often, or the inputs have gone blind.
const ENOUGH_TO_MEET_ALL: usize = 100_000;

fn main() -> ExitCode {
    let Some((count, seed)) = arguments() else {
        eprintln!("{USAGE}");
        return ExitCode::FAILURE;
    };
    match compare(count, seed) {
        Ok(tally) => report(count, seed, &tally),
        Err(difference) => {
            eprintln!("{difference}");
            ExitCode::FAILURE
        }
    }
}

fn compare(count: usize, seed: u64) -> Result<Tally, String> {
    let mut rng = Rng::new(seed);
    let mut comparer = Comparer::new(Proved);
    let mut tally = Tally::default();
    for _ in 0..count {
        let input = any_input(&mut rng);
        let met = comparer
            .compare(&input)
            .map_err(|difference| format!("{difference}\n{input:02X?}"))?;
        tally.add(&met);
    }
    Ok(tally)
}

fn report(count: usize, seed: u64, tally: &Tally) -> ExitCode {
    println!("{count} inputs, seed {seed}: the names, the answers and the lists agree");
    for line in tally.lines() {
        println!("{line}");
    }
    let seldom = tally.seldom_met();
    if count >= ENOUGH_TO_MEET_ALL && !seldom.is_empty() {
        eprintln!("seldom or never met: {}", seldom.join(", "));
        return ExitCode::FAILURE;
    }
    ExitCode::SUCCESS
}

fn arguments() -> Option<(usize, u64)> {
    let mut words = env::args().skip(1);
    let count = words.next()?.parse().ok()?;
    let seed = words.next()?.parse().ok()?;
    words.next().is_none().then_some((count, seed))
}
