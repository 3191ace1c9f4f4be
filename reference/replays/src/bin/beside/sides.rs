//! The two replays, called alike.

use traces::replay::{TooShort, replay};

unsafe extern "C" {
    fn fuvgyarom_replay(
        trace: *const u8,
        trace_length: usize,
        listing: *mut u8,
        listing_length: usize,
        written: *mut usize,
    ) -> u8;
}

#[derive(Clone, Copy, PartialEq, Eq, Debug)]
pub enum Answer {
    Written(usize),
    TooShort,
    NoMemory,
    /// A code that the interface does not have.
    Unknown(u8),
}

#[derive(Clone, Copy)]
pub enum Side {
    Ours,
    Reference,
}

impl Side {
    pub fn replay(self, trace: &[u8], listing: &mut [u8]) -> Answer {
        match self {
            Side::Ours => ours(trace, listing),
            Side::Reference => reference(trace, listing),
        }
    }
}

fn ours(trace: &[u8], listing: &mut [u8]) -> Answer {
    let mut written = usize::MAX;
    // SAFETY: both pointers come from slices of the lengths given with them, and a `usize` is there
    // for the answer.
    let code = unsafe { fuvgyarom_replay(trace.as_ptr(), trace.len(), listing.as_mut_ptr(), listing.len(), &mut written) };
    match code {
        0 => Answer::Written(written),
        18 => Answer::TooShort,
        255 => Answer::NoMemory,
        other => Answer::Unknown(other),
    }
}

fn reference(trace: &[u8], listing: &mut [u8]) -> Answer {
    match replay(trace, listing) {
        Ok(length) => Answer::Written(length),
        Err(TooShort) => Answer::TooShort,
    }
}
