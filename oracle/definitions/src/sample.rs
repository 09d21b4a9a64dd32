//! Inputs at random, and the plain answers to them.

use plain::lists::{self, pack, Entry};
use plain::names::Equality;
use plain::random::{damaged, noise, record, Rng};
use plain::{read, NodeNumber, Record, Refusal};

const MOST_NODES: usize = 25;
const MOST_NAMES: usize = 128;

/// Bytes, and what the questions about them are asked with: the names in scope, the lent buffer, and the number of a name.
pub struct Input {
    pub bytes: Vec<u8>,
    pub seed: u128,
    pub lent: Vec<u32>,
    pub name: usize,
}

/// As many records as damaged ones and as pieces of noise, without end.
pub struct Sample {
    rng: Rng,
    made: usize,
}

impl Sample {
    pub fn new(seed: u64) -> Sample {
        Sample {
            rng: Rng::new(seed),
            made: 0,
        }
    }

    fn bytes(&mut self) -> Vec<u8> {
        let size = 1 + self.rng.below(MOST_NODES).max(self.rng.below(MOST_NODES));
        let whole = record(&mut self.rng, size);
        match self.made % 3 {
            0 => whole,
            1 => damaged(&mut self.rng, &whole),
            _ => noise(&mut self.rng),
        }
    }

    /// With room for the entries most of the time, and one short of it now and then.
    fn lent(&mut self, entries: usize) -> Vec<u32> {
        let room = if self.rng.one_in(8) {
            entries.saturating_sub(1)
        } else {
            entries + self.rng.below(3)
        };
        (0..room).map(|_| self.rng.number() as u32).collect()
    }
}

impl Iterator for Sample {
    type Item = Input;

    fn next(&mut self) -> Option<Input> {
        let bytes = self.bytes();
        self.made += 1;
        let entries = read(&bytes).map_or(0, |record| lists::list(&record).len());
        let any_name = self.rng.below(MOST_NAMES + 2);
        Some(Input {
            bytes,
            seed: u128::from(self.rng.number()) << 64 | u128::from(self.rng.number()),
            lent: self.lent(entries),
            name: self.rng.choose(&[0, 1, 2, any_name]),
        })
    }
}

pub enum Answers {
    Refused(Refusal),
    Accepted(Accepted),
}

pub struct Accepted {
    pub names: usize,
    pub nodes: usize,
    pub entries: usize,
    pub buffer: Vec<u32>,
    pub arithmetic: bool,
    pub scoping: Option<Entry>,
    pub closedness: Option<Entry>,
    pub demands: Option<Entry>,
    pub name: String,
    pub equalities: Vec<(NodeNumber, Equality)>,
}

impl Answers {
    pub fn to(input: &Input) -> Answers {
        match read(&input.bytes) {
            Ok(record) => Answers::Accepted(Accepted::to(input, &record)),
            Err(refusal) => Answers::Refused(refusal),
        }
    }
}

impl Accepted {
    fn to(input: &Input, record: &Record) -> Accepted {
        let list: Vec<u32> = lists::list(record).iter().map(pack).collect();
        Accepted {
            names: record.names.len(),
            nodes: record.nodes.len(),
            entries: list.len(),
            buffer: filled(&input.lent, &list),
            arithmetic: lists::arithmetic(record),
            scoping: lists::scoping(record, input.seed).first().copied(),
            closedness: lists::closedness(record).first().copied(),
            demands: lists::demands(record).first().copied(),
            name: record.names.get(input.name).cloned().unwrap_or_default(),
            equalities: record.equalities(),
        }
    }
}

fn filled(lent: &[u32], list: &[u32]) -> Vec<u32> {
    let mut buffer = lent.to_vec();
    if let Some(first_ones) = buffer.get_mut(..list.len()) {
        first_ones.copy_from_slice(list);
    }
    buffer
}

#[cfg(test)]
mod tests {
    use plain::names::{Equality, Reason};

    use super::{filled, Answers, Sample};

    const INPUTS_OF_THE_GATE: usize = 1000;
    const SEED_OF_THE_GATE: u64 = 1;

    #[test]
    fn a_list_changes_the_first_entries_or_none() {
        assert_eq!(filled(&[7, 8, 9], &[1, 2]), [1, 2, 9]);
        assert_eq!(filled(&[7, 8], &[1, 2]), [1, 2]);
        assert_eq!(filled(&[7], &[1, 2]), [7]);
    }

    #[test]
    fn in_the_gate_equalities_tie_either_side_or_nothing_for_every_reason() {
        let said: Vec<Equality> = Sample::new(SEED_OF_THE_GATE)
            .take(INPUTS_OF_THE_GATE)
            .flat_map(|input| match Answers::to(&input) {
                Answers::Refused(_) => Vec::new(),
                Answers::Accepted(accepted) => accepted.equalities,
            })
            .map(|(_, equality)| equality)
            .collect();
        assert!(said.iter().any(|said| matches!(said, Equality::Left(_))));
        assert!(said.iter().any(|said| matches!(said, Equality::Right(_))));
        for reason in [
            Reason::BothBare,
            Reason::NeitherBare,
            Reason::Wildcard,
            Reason::Arithmetic,
        ] {
            assert!(said.contains(&Equality::Nothing(reason)), "{reason:?}");
        }
    }
}
