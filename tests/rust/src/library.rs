//! The foreign functions of the library.

use crate::compare::Calls;
use crate::recode;

extern "C" {
    fn lockplan_verdict(text: *const u8, text_len: usize, out: *mut u8, out_len: usize) -> u64;
    fn lockplan_pairs(text: *const u8, text_len: usize, proc: u64, out: *mut u8, out_len: usize) -> u64;
    fn lockplan_tidy(text: *const u8, text_len: usize, out: *mut u8, out_len: usize) -> u64;
    fn lockplan_straight(text: *const u8, text_len: usize, out: *mut u8, out_len: usize) -> u64;
    fn lockplan_space(text: *const u8, text_len: usize) -> u64;
    fn lockplan_crossings(
        text: *const u8,
        text_len: usize,
        first: u64,
        second: u64,
        out: *mut u8,
        out_len: usize,
    ) -> u64;
}

pub fn verdict(text: &[u8], out: &mut [u8]) -> u64 {
    // SAFETY: both parts are lent for the call with their lengths.
    unsafe { lockplan_verdict(text.as_ptr(), text.len(), out.as_mut_ptr(), out.len()) }
}

pub fn pairs(text: &[u8], proc: u64, out: &mut [u8]) -> u64 {
    // SAFETY: as above.
    unsafe { lockplan_pairs(text.as_ptr(), text.len(), proc, out.as_mut_ptr(), out.len()) }
}

pub fn tidy(text: &[u8], out: &mut [u8]) -> u64 {
    // SAFETY: as above.
    unsafe { lockplan_tidy(text.as_ptr(), text.len(), out.as_mut_ptr(), out.len()) }
}

pub fn straight(text: &[u8], out: &mut [u8]) -> u64 {
    // SAFETY: as above.
    unsafe { lockplan_straight(text.as_ptr(), text.len(), out.as_mut_ptr(), out.len()) }
}

pub fn space(text: &[u8]) -> u64 {
    // SAFETY: as above.
    unsafe { lockplan_space(text.as_ptr(), text.len()) }
}

pub fn crossings(text: &[u8], first: u64, second: u64, out: &mut [u8]) -> u64 {
    // SAFETY: as above.
    unsafe { lockplan_crossings(text.as_ptr(), text.len(), first, second, out.as_mut_ptr(), out.len()) }
}

pub const CALLS: Calls = Calls { verdict, pairs, tidy, straight, space, crossings };

/// The calls of a library from before shares, their pairs written as records.
pub const RECODED: Calls = Calls {
    pairs: |text, proc, out| recode::pairs(pairs, text, proc, out),
    crossings: |text, first, second, out| recode::crossings(crossings, text, first, second, out),
    ..CALLS
};
