//! A sample of the Rust's answers, which the program `oracle_cases` replays on the proved library with no Rust at hand.

use std::collections::{BTreeMap, BTreeSet};
use std::iter::repeat_with;
use std::path::PathBuf;

use plain::answers::{arithmetic, closedness, demands, scoping, Answer};
use plain::cases;
use plain::random::{record, Rng};
use plain::{condition, read, Record};

/// With which the stored list is made.
pub const CASES: usize = 400;
pub const SEED: u64 = 20_261_115;

/// The whole list fits into what the program reads at once.
pub const MOST_BYTES: usize = 65_536;
const SMALL: usize = 24;
const LARGER: usize = 48;
const ONE_LARGER_IN: usize = 10;
const MOST_RECORD_BYTES: usize = 250;
/// Of the records with the same five rules no more are taken, so that the rare ones are there too.
const MOST_ALIKE: usize = 6;
/// A table that goes past the first word of a set takes as much room as two dozen small records, so there are few.
const MOST_WIDE: usize = 2;
const FIRST_WORD: u8 = 64;
const MOST_WIDE_BYTES: usize = 3500;
/// Each answer to each question is met so many times at least, or the list shows too little.
const LEAST_MET: usize = 5;
const DRAWS_FOR_EACH: usize = 1000;

pub const QUESTIONS: [&str; 5] = [
    "scoping",
    "scoping with a seed",
    "closedness",
    "demands",
    "arithmetic",
];

/// 0 is "accepted", and the arithmetic test's "no".
const ANSWERS: [&[u8]; 5] = [
    &[0, 20, 21, 22, 23, 24, 25, 26, 27],
    &[0, 20, 21, 22, 23, 24, 25, 26, 27],
    &[0, 28],
    &[0, 30, 31, 32],
    &[0, 40],
];

const NO_NAME: u8 = 255;

/// The rule that the Rust answers, and the number of its name.
#[derive(Clone, Copy)]
struct Said {
    rule: u8,
    name: u8,
}

pub struct Case {
    bytes: Vec<u8>,
    seed: u128,
    said: [Said; 5],
}

impl Case {
    fn of(bytes: Vec<u8>, record: &Record, seed: u128) -> Case {
        let asked = condition(record);
        let answers = [
            scoping(&asked, &BTreeSet::new()),
            scoping(&asked, &record.texts(seed)),
            closedness(&asked),
            demands(&asked),
            arithmetic(&asked),
        ];
        Case {
            bytes,
            seed,
            said: answers.map(|answer| numbered(&answer, record)),
        }
    }

    fn rules(&self) -> [u8; 5] {
        self.said.map(|said| said.rule)
    }

    /// One whose first finding is of a name past the first word of a set.
    fn is_wide(&self) -> bool {
        let second_word = FIRST_WORD..NO_NAME;
        let names = self.said.map(|said| said.name);
        self.bytes.len() <= MOST_WIDE_BYTES && names.iter().any(|name| second_word.contains(name))
    }

    /// The record's length in two bytes, the seed in sixteen, low bytes first; rule and name of each answer; the record.
    fn stored(&self) -> Vec<u8> {
        let length = u16::try_from(self.bytes.len()).expect("a record has less than 65,536 bytes");
        let mut stored = length.to_le_bytes().to_vec();
        stored.extend(self.seed.to_le_bytes());
        stored.extend(self.said.iter().flat_map(|said| [said.rule, said.name]));
        stored.extend(&self.bytes);
        stored
    }
}

fn numbered(answer: &Answer, record: &Record) -> Said {
    let number = |name| record.names.iter().position(|other| other == name);
    let name = answer.name.as_ref().map(|name| {
        let number = number(name).expect("the Rust speaks of the record's names only");
        u8::try_from(number).expect("a table has no more than 128 names")
    });
    Said {
        rule: u8::try_from(answer.rule).expect("document 01's rules are below 41"),
        name: name.unwrap_or(NO_NAME),
    }
}

/// What chance seldom grows: a count reads a binder of the count around it, and the last of two arguments ties.
const NESTED_COUNTS: &str = "\
case nested: (count for x where P{a:x} && (count for y where Q{a:x,b:y}) > 0) > 0
bytes: 01 01  02 78 00*23  02 79 00*23  20 00  30  31 01 00 00 00 01 00  18 01 00 02 00  20 00  20 01  30  31 02 00 05 00 06 00  31 01 00 04 00 07 00  18 02 00 08 00  30  33 00 01 00 0A 00  2A 0B 00 09 00  22 00 00  17 03 0C 00 0D 00  10 03 00 0E 00  30  33 00 00 00 10 00  2A 11 00 0F 00  22 00 00  17 03 12 00 13 00  7F 15 00
list:
arithmetic: no
";

/// So many accepted records: first those of cases.txt and the one above, then records at random, small ones mostly. There are fewer where nothing new
/// is drawn for long.
pub fn chosen(count: usize, seed: u64) -> Vec<Case> {
    let mut rng = Rng::new(seed);
    let mut choice = Choice::default();
    let mut cases: Vec<Case> = written()
        .into_iter()
        .map(|bytes| asked(bytes, &mut rng))
        .collect();
    let drawn = repeat_with(|| any_case(&mut rng)).take(DRAWS_FOR_EACH * count);
    cases.extend(drawn.filter(|case| choice.takes(case)).take(count));
    cases.truncate(count);
    cases
}

fn written() -> Vec<Vec<u8>> {
    let nested = cases::parse(NESTED_COUNTS).expect("the case above is in the form of cases.txt");
    let all = cases::all().expect("cases.txt is in its form");
    all.into_iter()
        .chain(nested)
        .map(|case| case.bytes)
        .collect()
}

/// What is in the list so far.
#[derive(Default)]
struct Choice {
    records: BTreeSet<Vec<u8>>,
    alike: BTreeMap<[u8; 5], usize>,
    wide: usize,
}

impl Choice {
    fn takes(&mut self, case: &Case) -> bool {
        let is_small = case.bytes.len() <= MOST_RECORD_BYTES;
        let is_wide = self.wide < MOST_WIDE && case.is_wide();
        let alike = self.alike.entry(case.rules()).or_default();
        let is_wanted = (is_small || is_wide) && *alike < MOST_ALIKE;
        let is_taken = is_wanted && self.records.insert(case.bytes.clone());
        *alike += usize::from(is_taken);
        self.wide += usize::from(is_taken && is_wide);
        is_taken
    }
}

fn any_case(rng: &mut Rng) -> Case {
    let most = if rng.one_in(ONE_LARGER_IN) {
        LARGER
    } else {
        SMALL
    };
    let size = 1 + rng.below(most);
    let bytes = record(rng, size);
    asked(bytes, rng)
}

fn asked(bytes: Vec<u8>, rng: &mut Rng) -> Case {
    let read = read(&bytes).expect("the record is an accepted one");
    let seed = u128::from(rng.number()) << 64 | u128::from(rng.number());
    Case::of(bytes, &read, seed)
}

pub fn stored(cases: &[Case]) -> Result<Vec<u8>, String> {
    let list: Vec<u8> = cases.iter().flat_map(Case::stored).collect();
    if list.len() > MOST_BYTES {
        return Err(format!(
            "the list has {} bytes, more than {MOST_BYTES}",
            list.len()
        ));
    }
    Ok(list)
}

/// In the words of `oracle_cases`, which counts what the proved library answers: how often each rule was answered, and that nothing differs.
pub fn summary(cases: &[Case]) -> String {
    let counted = (0..).zip(QUESTIONS).map(|(number, question)| {
        let counts = counts(cases, number);
        let counts: Vec<String> = counts
            .into_iter()
            .map(|(rule, count)| format!("{rule} {count}"))
            .collect();
        format!("{question}: {}\n", counts.join(", "))
    });
    let last = format!("{} cases replayed, 0 differ\n", cases.len());
    counted.chain([last]).collect()
}

/// The answers of the four questions that the list has too few of.
pub fn seldom_met(cases: &[Case]) -> Vec<String> {
    let mut seldom = Vec::new();
    for (number, question) in QUESTIONS.into_iter().enumerate() {
        let counts = counts(cases, number);
        let few = |rule: &&u8| counts.get(rule).is_none_or(|&count| count < LEAST_MET);
        let few = ANSWERS[number].iter().filter(few);
        seldom.extend(few.map(|rule| format!("{question} {rule}")));
    }
    seldom
}

fn counts(cases: &[Case], question: usize) -> BTreeMap<u8, usize> {
    let mut counts = BTreeMap::new();
    for case in cases {
        *counts.entry(case.said[question].rule).or_default() += 1;
    }
    counts
}

/// What `oracle_cases` reads.
pub fn list_path() -> PathBuf {
    program().join("stdin")
}

/// What `oracle_cases` must write.
pub fn summary_path() -> PathBuf {
    program().join("stdout")
}

fn program() -> PathBuf {
    PathBuf::from(env!("CARGO_MANIFEST_DIR")).join("../../crates/oracle_cases")
}

#[cfg(test)]
mod tests {
    use plain::lists::{arithmetic, list};
    use plain::{cases::parse, read};

    use super::NESTED_COUNTS;

    #[test]
    fn nothing_is_found_in_the_nested_counts() {
        let cases = parse(NESTED_COUNTS).unwrap();
        let record = read(&cases[0].bytes).unwrap();
        assert_eq!(list(&record), cases[0].list);
        assert_eq!(arithmetic(&record), cases[0].arithmetic);
    }
}
