//! One input through a library, the plain second implementation and the Rust.

use std::fmt::Debug;
use std::hint::black_box;
use std::ops::RangeInclusive;

use plain::lists::{self, pack, Entry};

use crate::answers::{first, Answers};
use crate::inputs::Input;
use crate::lending::{self, Buffer};
use crate::seeds::{turned_past_the_table, Seeds};
use crate::{Asked, Library, Reading, Stretch, NO_STRETCH};

const BY_THE_PLAIN: &str = "the plain second implementation";
const BY_THE_RUST: &str = "the Rust";

/// Keeps what every input needs, so that none has to allocate it.
pub struct Comparer<L> {
    library: L,
    before: Vec<u8>,
    packed: Vec<u32>,
    buffer: Buffer,
}

/// What an input turned out to be.
pub struct Met {
    pub reading: Reading,
    /// Whether the number that was looked up is a name's.
    pub named: bool,
    pub answers: Answers<Asked>,
    pub list: Vec<Entry>,
}

impl<L: Library> Comparer<L> {
    pub fn new(library: L) -> Comparer<L> {
        Comparer {
            library,
            before: Vec::new(),
            packed: Vec::new(),
            buffer: Buffer::default(),
        }
    }

    /// What the input is, or how the library differs from the others on it.
    pub fn compare(&mut self, input: &Input) -> Result<Met, String> {
        self.before.clone_from(&input.bytes);
        let reading = plain::read(&self.before);
        let answers = Answers::of_the_library(&self.library, &input.bytes, &input.seeds);
        let list = reading.as_ref().map(lists::list).unwrap_or_default();
        let difference = self
            .in_a_name(input, &reading)
            .or_else(|| in_answers(&answers, &reading, &input.seeds))
            .or_else(|| self.past_the_table(input, &reading, &answers))
            .or_else(|| self.in_the_list(input, &reading, &list))
            .or_else(|| in_a_part(&answers, &reading, &list))
            .or_else(|| self.in_the_input(input));
        match difference {
            Some(difference) => Err(difference),
            None => Ok(Met {
                named: plain_text(&reading, input.name).is_some(),
                reading,
                answers,
                list,
            }),
        }
    }

    fn in_a_name(&self, input: &Input, reading: &Reading) -> Option<String> {
        let said = self.library.name(&input.bytes, input.name);
        let text = plain_text(reading, input.name);
        let expected = plain_stretch(text, input.name);
        unlike(BY_THE_PLAIN, "where a name stands", said, expected)
            .or_else(|| in_a_text(&input.bytes, said, text))
    }

    /// Of refused bytes there is no table that a bit could be past.
    fn past_the_table(
        &self,
        input: &Input,
        reading: &Reading,
        answers: &Answers<Asked>,
    ) -> Option<String> {
        let names = reading.as_ref().ok()?.names.len();
        input
            .seeds
            .into_iter()
            .zip(answers.scoping)
            .find_map(|(seed, expected)| {
                let turned = turned_past_the_table(seed, names);
                let said = self.library.scoping(&input.bytes, turned);
                let question = "scoping with the bits past the table turned";
                unlike("without that", question, said, expected)
            })
    }

    fn in_the_list(&mut self, input: &Input, reading: &Reading, list: &[Entry]) -> Option<String> {
        self.packed.clear();
        self.packed.extend(list.iter().map(pack));
        let listing = reading.as_ref().map(|_| self.packed.as_slice());
        lending::difference(&self.library, &input.bytes, listing, &mut self.buffer)
    }

    fn in_the_input(&self, input: &Input) -> Option<String> {
        (black_box(&input.bytes) != &self.before)
            .then(|| format!("the input was written to; it was {:02X?}", self.before))
    }
}

/// The Rust has no reader: of refused bytes it has nothing to say.
fn in_answers(said: &Answers<Asked>, reading: &Reading, seeds: &Seeds) -> Option<String> {
    let by_the_rust = reading.as_ref().ok().and_then(|record| {
        let expected = Answers::of_the_rust(record, seeds);
        in_one_of(BY_THE_RUST, &said.rules_and_names(), &expected)
    });
    by_the_rust.or_else(|| in_one_of(BY_THE_PLAIN, said, &Answers::of_the_plain(reading, seeds)))
}

fn in_one_of<A: Copy + Debug + PartialEq>(
    by_whom: &str,
    said: &Answers<A>,
    expected: &Answers<A>,
) -> Option<String> {
    let (question, said, expected) = said.difference(expected)?;
    unlike(by_whom, question, said, expected)
}

/// The rules of scoping, closedness and demands.
const PARTS: [RangeInclusive<u32>; 3] = [20..=27, 28..=28, 30..=32];

/// By then the library is known to have written this list.
fn in_a_part(answers: &Answers<Asked>, reading: &Reading, list: &[Entry]) -> Option<String> {
    reading.as_ref().ok()?;
    let [without_a_seed, ..] = answers.scoping;
    let said = [without_a_seed, answers.closedness, answers.demands];
    PARTS.into_iter().zip(said).find_map(|(rules, said)| {
        let part = list.iter().filter(|entry| rules.contains(&entry.rule));
        unlike("the list", "the answer of a check", said, first(part))
    })
}

fn unlike<T: Debug + PartialEq>(
    by_whom: &str,
    question: &str,
    said: T,
    expected: T,
) -> Option<String> {
    (said != expected)
        .then(|| format!("{question}: the library says {said:?}, {by_whom} {expected:?}"))
}

/// Nothing for an unknown number and for bytes that are turned away.
fn plain_text(reading: &Reading, number: u8) -> Option<&str> {
    let names = &reading.as_ref().ok()?.names;
    names.get(usize::from(number)).map(String::as_str)
}

/// After the format record of 2 bytes, a name record of 25 for each name before it, and its own kind.
fn plain_stretch(text: Option<&str>, number: u8) -> Stretch {
    text.map_or(NO_STRETCH, |text| Stretch {
        at: 2 + 25 * usize::from(number) + 1,
        len: text.len(),
    })
}

/// The place is reckoned alike by both sides: the bytes that stand there show that it is the right one.
fn in_a_text(bytes: &[u8], stretch: Stretch, text: Option<&str>) -> Option<String> {
    let said = bytes[stretch.at..].get(..stretch.len);
    let expected = Some(text.unwrap_or_default().as_bytes());
    unlike(BY_THE_PLAIN, "the text of a name", said, expected)
}

#[cfg(test)]
mod tests {
    use super::*;
    use crate::answers::NOTHING;
    use crate::Proved;

    fn record_in_full() -> Vec<u8> {
        let mut cases = plain::cases::all().unwrap().into_iter();
        cases.find(|case| case.label == "full").unwrap().bytes
    }

    #[test]
    fn a_part_that_begins_with_another_entry_than_its_answer() {
        let reading = plain::read(&record_in_full());
        let list = lists::list(reading.as_ref().unwrap());
        let right = Answers::of_the_plain(&reading, &[0; 5]);
        assert_eq!(in_a_part(&right, &reading, &list), None);
        let entry_of_another_part = Answers {
            demands: right.closedness,
            ..right
        };
        assert!(in_a_part(&entry_of_another_part, &reading, &list).is_some());
        let no_entry = Answers {
            closedness: NOTHING,
            ..right
        };
        assert!(in_a_part(&no_entry, &reading, &list).is_some());
        assert!(in_a_part(&right, &reading, &[]).is_some());
    }

    #[test]
    fn a_stretch_that_holds_other_bytes_than_the_name() {
        let bytes = record_in_full();
        let [f, g] = [Stretch { at: 3, len: 1 }, Stretch { at: 28, len: 1 }];
        assert_eq!(in_a_text(&bytes, f, Some("f")), None);
        assert_eq!(in_a_text(&bytes, g, Some("g")), None);
        assert_eq!(in_a_text(&bytes, NO_STRETCH, None), None);
        assert!(in_a_text(&bytes, f, Some("g")).is_some());
        assert!(in_a_text(&bytes, f, None).is_some());
        assert!(in_a_text(&bytes, NO_STRETCH, Some("f")).is_some());
        let past_the_end = Stretch {
            at: bytes.len(),
            len: 1,
        };
        assert!(in_a_text(&bytes, past_the_end, Some("f")).is_some());
    }

    #[test]
    fn an_input_that_was_written_to() {
        let mut comparer = Comparer::new(Proved);
        let mut input = Input {
            bytes: record_in_full(),
            name: 0,
            seeds: [0; 5],
        };
        comparer.before.clone_from(&input.bytes);
        assert_eq!(comparer.in_the_input(&input), None);
        input.bytes[1] = 2;
        assert!(comparer.in_the_input(&input).is_some());
    }
}
