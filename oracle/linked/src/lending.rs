//! The list into a lent buffer: what is said, what is written, and that nothing else is.

use plain::Refusal;

use crate::answers::refused;
use crate::{Asked, Library, NO_NAME};

pub const NO_ROOM: u32 = 50;
/// Lent past the list, and watched behind what is lent.
const SPARE: usize = 5;
const BEHIND: usize = 3;

/// Lent again and again, so that no input has to allocate it.
#[derive(Default)]
pub struct Buffer {
    entries: Vec<u32>,
    lent: usize,
}

impl Buffer {
    fn lend(&mut self, room: usize) -> &mut [u32] {
        self.entries.clear();
        self.entries.extend((0..room + BEHIND).map(before));
        self.lent = room;
        &mut self.entries[..room]
    }

    /// The first entry from a place on, behind what was lent too, that is not what it was.
    fn touched_from(&self, start: usize) -> Option<usize> {
        (start..self.entries.len()).find(|&place| self.entries[place] != before(place))
    }
}

/// What an entry is before it is lent: another at each place, and none with a rule that a list has.
fn before(place: usize) -> u32 {
    0xA5 << 24 | place as u32
}

/// What the list should be: its numbers, or why the bytes are turned away.
pub type Listing<'a> = Result<&'a [u32], &'a Refusal>;

/// How a library's list differs from what it should be, with room to spare, with just enough room and with one entry less.
pub fn difference(
    library: &impl Library,
    bytes: &[u8],
    listing: Listing,
    buffer: &mut Buffer,
) -> Option<String> {
    let entries = listing.map_or(0, <[u32]>::len);
    [Some(entries + SPARE), Some(entries), entries.checked_sub(1)]
        .into_iter()
        .flatten()
        .find_map(|room| {
            let said = library.list(bytes, buffer.lend(room));
            difference_in(said, listing, buffer)
                .map(|difference| format!("the list, with room for {room}: {difference}"))
        })
}

fn difference_in(said: Asked, listing: Listing, buffer: &Buffer) -> Option<String> {
    let expected = answer(listing, buffer.lent);
    if said != expected {
        return Some(format!("the library says {said:?}, and not {expected:?}"));
    }
    let written = written(listing, buffer.lent);
    let wrong = (0..written.len()).find(|&place| buffer.entries[place] != written[place]);
    if let Some(place) = wrong {
        let [said, expected] = [buffer.entries[place], written[place]];
        return Some(format!("entry {place} is {said}, and not {expected}"));
    }
    buffer
        .touched_from(written.len())
        .map(|place| format!("entry {place} was written to"))
}

fn answer(listing: Listing, room: usize) -> Asked {
    match listing {
        Ok(list) => Asked {
            number: if list.len() <= room { 0 } else { NO_ROOM },
            place: list.len() as u32,
            name: NO_NAME,
        },
        Err(refusal) => refused(refusal),
    }
}

fn written(listing: Listing<'_>, room: usize) -> &[u32] {
    listing
        .ok()
        .filter(|list| list.len() <= room)
        .unwrap_or_default()
}

#[cfg(test)]
mod tests {
    use super::*;

    #[test]
    fn what_is_behind_the_lent_part_is_watched() {
        let mut buffer = Buffer::default();
        assert_eq!(buffer.lend(2).len(), 2);
        assert_eq!(buffer.touched_from(0), None);
        buffer.entries[2] = 0;
        assert_eq!(buffer.touched_from(0), Some(2));
        assert_eq!(buffer.touched_from(3), None);
    }

    #[test]
    fn a_buffer_is_new_each_time_it_is_lent() {
        let mut buffer = Buffer::default();
        buffer.lend(3).fill(0);
        assert_eq!(buffer.touched_from(0), Some(0));
        buffer.lend(3);
        assert_eq!(buffer.touched_from(0), None);
    }
}
