//! The plain second implementation in the place of the proved library, with a slip or without one.

use linked::answers::{refused, Answers};
use linked::lending::NO_ROOM;
use linked::seeds::SEEDS;
use linked::{Asked, Library, Stretch, NO_NAME, NO_STRETCH};
use plain::lists::{list, pack};
use plain::{read, Record};

/// What is made of the right answers before they are given.
#[derive(Clone, Copy)]
pub struct Slip<'a> {
    pub answer: &'a dyn Fn(Question, Asked) -> Asked,
    pub list: &'a dyn Fn(Asked, &mut [u32]) -> Asked,
    pub name: &'a dyn Fn(Stretch) -> Stretch,
}

#[derive(Debug, Clone, Copy, PartialEq)]
pub enum Question {
    Scoping { seed: u128 },
    Closedness,
    Demands,
    Arithmetic,
}

pub const NO_SLIP: Slip = Slip {
    answer: &|_, said| said,
    list: &|said, _| said,
    name: &|said| said,
};

impl Library for Slip<'_> {
    fn scoping(&self, bytes: &[u8], seed: u128) -> Asked {
        let [said, ..] = Answers::of_the_plain(&read(bytes), &[seed; SEEDS]).scoping;
        (self.answer)(Question::Scoping { seed }, said)
    }

    fn closedness(&self, bytes: &[u8]) -> Asked {
        (self.answer)(Question::Closedness, without_a_seed(bytes).closedness)
    }

    fn demands(&self, bytes: &[u8]) -> Asked {
        (self.answer)(Question::Demands, without_a_seed(bytes).demands)
    }

    fn arithmetic(&self, bytes: &[u8]) -> Asked {
        (self.answer)(Question::Arithmetic, without_a_seed(bytes).arithmetic)
    }

    fn list(&self, bytes: &[u8], lent: &mut [u32]) -> Asked {
        let said = match read(bytes) {
            Ok(record) => filled(lent, &record),
            Err(refusal) => refused(&refusal),
        };
        (self.list)(said, lent)
    }

    fn name(&self, bytes: &[u8], number: u8) -> Stretch {
        let names = read(bytes).map_or(Vec::new(), |record| record.names);
        let number = usize::from(number);
        (self.name)(names.get(number).map_or(NO_STRETCH, |name| Stretch {
            at: 3 + 25 * number,
            len: name.len(),
        }))
    }
}

fn without_a_seed(bytes: &[u8]) -> Answers<Asked> {
    Answers::of_the_plain(&read(bytes), &[0; SEEDS])
}

fn filled(lent: &mut [u32], record: &Record) -> Asked {
    let entries: Vec<u32> = list(record).iter().map(pack).collect();
    let room = lent.get_mut(..entries.len());
    let number = if room.is_some() { 0 } else { NO_ROOM };
    if let Some(room) = room {
        room.copy_from_slice(&entries);
    }
    Asked {
        number,
        place: entries.len() as u32,
        name: NO_NAME,
    }
}
