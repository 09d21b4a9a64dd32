use std::collections::BTreeSet;
use std::fmt;
use std::ops::RangeInclusive;
use std::process::ExitCode;

use plain::answers::{arithmetic, closedness, demands, scoping, Answer};
use plain::cases::{all, Case};
use plain::lists::Entry;
use plain::Record;

const SCOPING: RangeInclusive<u32> = 20..=27;
const CLOSEDNESS: RangeInclusive<u32> = 28..=28;
const DEMANDS: RangeInclusive<u32> = 30..=32;

fn main() -> ExitCode {
    match run() {
        Ok(0) => ExitCode::SUCCESS,
        Ok(_) => ExitCode::FAILURE,
        Err(fault) => {
            eprintln!("{fault}");
            ExitCode::FAILURE
        }
    }
}

fn run() -> Result<usize, String> {
    let cases = all()?;
    let mut differences = 0;
    for case in &cases {
        differences += run_case(case)?;
    }
    println!("{} cases, {differences} differences", cases.len());
    Ok(differences)
}

fn run_case(case: &Case) -> Result<usize, String> {
    let record = match plain::read(&case.bytes) {
        Ok(record) => record,
        Err(refusal) => {
            println!(
                "{}  refused: {} at offset {}",
                case.label, refusal.number, refusal.offset
            );
            return Ok(1);
        }
    };
    let said = Answers::of_the_rust(&record);
    let expected = Answers::of_the_case(case, &record)?;
    println!("{}  {said}", case.label);
    let differences = expected.differences(&said);
    for difference in &differences {
        println!("    {difference}");
    }
    Ok(differences.len())
}

struct Answers {
    scoping: Answer,
    closedness: Answer,
    demands: Answer,
    arithmetic: bool,
}

impl Answers {
    fn of_the_rust(record: &Record) -> Answers {
        let condition = plain::condition(record);
        Answers {
            scoping: scoping(&condition, &BTreeSet::new()),
            closedness: closedness(&condition),
            demands: demands(&condition),
            arithmetic: arithmetic(&condition) != Answer::ACCEPTED,
        }
    }

    fn of_the_case(case: &Case, record: &Record) -> Result<Answers, String> {
        let first = |rules| first_of(rules, &case.list, record);
        Ok(Answers {
            scoping: first(SCOPING)?,
            closedness: first(CLOSEDNESS)?,
            demands: first(DEMANDS)?,
            arithmetic: case.arithmetic,
        })
    }

    fn differences(&self, said: &Answers) -> Vec<String> {
        self.worded()
            .into_iter()
            .zip(said.worded())
            .filter(|(expected, said)| expected != said)
            .map(|((question, expected), (_, said))| {
                format!("{question}: the case has {expected}, the Rust {said}")
            })
            .collect()
    }

    fn worded(&self) -> [(&'static str, String); 4] {
        let yes_or_no = if self.arithmetic { "yes" } else { "no" };
        [
            ("scoping", self.scoping.to_string()),
            ("closedness", self.closedness.to_string()),
            ("demands", self.demands.to_string()),
            ("arithmetic", yes_or_no.to_string()),
        ]
    }
}

impl fmt::Display for Answers {
    fn fmt(&self, f: &mut fmt::Formatter<'_>) -> fmt::Result {
        let parts = self
            .worded()
            .map(|(question, answer)| format!("{question} {answer}"));
        write!(f, "{}", parts.join("  "))
    }
}

fn first_of(rules: RangeInclusive<u32>, list: &[Entry], record: &Record) -> Result<Answer, String> {
    match list.iter().find(|entry| rules.contains(&entry.rule)) {
        None => Ok(Answer::ACCEPTED),
        Some(entry) => Ok(Answer {
            rule: entry.rule,
            name: name_in_question(entry, record)?,
        }),
    }
}

fn name_in_question(entry: &Entry, record: &Record) -> Result<Option<String>, String> {
    let Some(number) = entry.name else {
        return Ok(None);
    };
    match record.names.get(usize::from(number)) {
        Some(name) => Ok(Some(name.clone())),
        None => Err(format!(
            "rule {} is about name {number}, which its record does not have",
            entry.rule
        )),
    }
}
