//! The C functions of the library made of the reference, to try the C program
//! and the comparison without the library.

use std::slice::{from_raw_parts, from_raw_parts_mut};

use lockplan_tests::standin;

/// # Safety
/// `text` and `out` point to as many bytes as their lengths say.
#[no_mangle]
pub unsafe extern "C" fn lockplan_verdict(
    text: *const u8,
    text_len: usize,
    out: *mut u8,
    out_len: usize,
) -> u64 {
    standin::verdict(from_raw_parts(text, text_len), from_raw_parts_mut(out, out_len))
}

/// # Safety
/// `text` and `out` point to as many bytes as their lengths say.
#[no_mangle]
pub unsafe extern "C" fn lockplan_pairs(
    text: *const u8,
    text_len: usize,
    proc: u64,
    out: *mut u8,
    out_len: usize,
) -> u64 {
    standin::pairs(from_raw_parts(text, text_len), proc, from_raw_parts_mut(out, out_len))
}

/// # Safety
/// `text` and `out` point to as many bytes as their lengths say.
#[no_mangle]
pub unsafe extern "C" fn lockplan_tidy(
    text: *const u8,
    text_len: usize,
    out: *mut u8,
    out_len: usize,
) -> u64 {
    standin::tidy(from_raw_parts(text, text_len), from_raw_parts_mut(out, out_len))
}

/// # Safety
/// `text` and `out` point to as many bytes as their lengths say.
#[no_mangle]
pub unsafe extern "C" fn lockplan_straight(
    text: *const u8,
    text_len: usize,
    out: *mut u8,
    out_len: usize,
) -> u64 {
    standin::straight(from_raw_parts(text, text_len), from_raw_parts_mut(out, out_len))
}

/// # Safety
/// `text` points to as many bytes as its length says.
#[no_mangle]
pub unsafe extern "C" fn lockplan_space(text: *const u8, text_len: usize) -> u64 {
    standin::space(from_raw_parts(text, text_len))
}

/// # Safety
/// `text` and `out` point to as many bytes as their lengths say.
#[no_mangle]
pub unsafe extern "C" fn lockplan_crossings(
    text: *const u8,
    text_len: usize,
    first: u64,
    second: u64,
    out: *mut u8,
    out_len: usize,
) -> u64 {
    standin::crossings(from_raw_parts(text, text_len), first, second, from_raw_parts_mut(out, out_len))
}
