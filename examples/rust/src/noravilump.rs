//! The proved library behind safe functions; include/noravilump.h says what each number means.

/// Document 01's numbers for an answer.
#[repr(C)]
#[derive(Debug, Clone, Copy, PartialEq, Eq)]
pub struct Answer {
    pub number: u32,
    pub place: u32,
    pub name: u32,
}

/// Why there is no list: the refusal's number, and the offset of the record at fault.
#[derive(Debug, Clone, Copy, PartialEq, Eq)]
pub struct Refusal {
    pub number: u32,
    pub offset: u32,
}

#[repr(C)]
struct Stretch {
    at: usize,
    len: usize,
}

const TOO_SHORT: u32 = 50;

unsafe extern "C" {
    fn noravilump_scoping(record: *const u8, len: usize, seed_low: u64, seed_high: u64) -> Answer;
    fn noravilump_closedness(record: *const u8, len: usize) -> Answer;
    fn noravilump_demands(record: *const u8, len: usize) -> Answer;
    fn noravilump_arithmetic(record: *const u8, len: usize) -> Answer;
    fn noravilump_list(record: *const u8, len: usize, entries: *mut u32, room: usize) -> Answer;
    fn noravilump_name(record: *const u8, len: usize, number: u8) -> Stretch;
}

/// The seed has a bit for each name that is in scope from outside, name 0 lowest.
pub fn scoping(record: &[u8], seed: u128) -> Answer {
    let [low, high] = [seed as u64, (seed >> 64) as u64];
    // SAFETY: the library asks for a slice and reads nothing else; it is proved to do so for all bytes.
    unsafe { noravilump_scoping(record.as_ptr(), record.len(), low, high) }
}

pub fn closedness(record: &[u8]) -> Answer {
    // SAFETY: as above.
    unsafe { noravilump_closedness(record.as_ptr(), record.len()) }
}

pub fn demands(record: &[u8]) -> Answer {
    // SAFETY: as above.
    unsafe { noravilump_demands(record.as_ptr(), record.len()) }
}

pub fn arithmetic(record: &[u8]) -> Answer {
    // SAFETY: as above.
    unsafe { noravilump_arithmetic(record.as_ptr(), record.len()) }
}

/// The list into a lent buffer: 0 with the count, 50 with the entries needed, or a refusal, which writes nothing.
pub fn list_into(record: &[u8], entries: &mut [u32]) -> Answer {
    // SAFETY: the two slices are apart, and the library writes to the entries alone.
    unsafe {
        noravilump_list(
            record.as_ptr(),
            record.len(),
            entries.as_mut_ptr(),
            entries.len(),
        )
    }
}

/// The list, in a buffer that grows where it is too short.
pub fn list(record: &[u8]) -> Result<Vec<u32>, Refusal> {
    let mut entries = vec![0; 16];
    let mut answer = list_into(record, &mut entries);
    if answer.number == TOO_SHORT {
        entries.resize(answer.place as usize, 0);
        answer = list_into(record, &mut entries);
    }
    if answer.number != 0 {
        return Err(Refusal {
            number: answer.number,
            offset: answer.place,
        });
    }
    entries.truncate(answer.place as usize);
    Ok(entries)
}

/// The name of a number, as the part of the record where it stands; nothing for an unknown number and for a record that is turned away.
pub fn name(record: &[u8], number: u8) -> Option<&[u8]> {
    // SAFETY: as for scoping.
    let Stretch { at, len } = unsafe { noravilump_name(record.as_ptr(), record.len(), number) };
    (len > 0).then(|| &record[at..at + len])
}
