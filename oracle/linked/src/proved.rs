use crate::{Asked, Library, Stretch};

/// The library that `rt lib` writes in crates/noravilump, as include/noravilump.h declares it.
pub struct Proved;

unsafe extern "C" {
    fn noravilump_scoping(record: *const u8, len: usize, seed_low: u64, seed_high: u64) -> Asked;
    fn noravilump_closedness(record: *const u8, len: usize) -> Asked;
    fn noravilump_demands(record: *const u8, len: usize) -> Asked;
    fn noravilump_arithmetic(record: *const u8, len: usize) -> Asked;
    fn noravilump_list(record: *const u8, len: usize, entries: *mut u32, room: usize) -> Asked;
    fn noravilump_name(record: *const u8, len: usize, number: u8) -> Stretch;
}

impl Library for Proved {
    fn scoping(&self, bytes: &[u8], seed: u128) -> Asked {
        let [low, high] = [seed as u64, (seed >> 64) as u64];
        // SAFETY: the contract asks nothing of the caller but a slice, and reads only that.
        unsafe { noravilump_scoping(bytes.as_ptr(), bytes.len(), low, high) }
    }

    fn closedness(&self, bytes: &[u8]) -> Asked {
        // SAFETY: as above.
        unsafe { noravilump_closedness(bytes.as_ptr(), bytes.len()) }
    }

    fn demands(&self, bytes: &[u8]) -> Asked {
        // SAFETY: as above.
        unsafe { noravilump_demands(bytes.as_ptr(), bytes.len()) }
    }

    fn arithmetic(&self, bytes: &[u8]) -> Asked {
        // SAFETY: as above.
        unsafe { noravilump_arithmetic(bytes.as_ptr(), bytes.len()) }
    }

    fn list(&self, bytes: &[u8], lent: &mut [u32]) -> Asked {
        // SAFETY: the contract asks for two slices that are apart, and writes only to the lent one.
        unsafe { noravilump_list(bytes.as_ptr(), bytes.len(), lent.as_mut_ptr(), lent.len()) }
    }

    fn name(&self, bytes: &[u8], number: u8) -> Stretch {
        // SAFETY: as for scoping.
        unsafe { noravilump_name(bytes.as_ptr(), bytes.len(), number) }
    }
}
