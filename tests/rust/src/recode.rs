//! The answers of a library from before shares, written as records: a plan without share keeps
//! its answers.

use crate::answer::{Answer, REFUSED};
use crate::compare::{CrossingsCall, PairsCall};
use crate::crossings::COUPLE_BYTES;
use crate::reference::{MAX_PAIRS, MAX_WORDS, PAIR_WORDS};

/// The bytes of a couple of old words.
const OLD_COUPLE: usize = 16;

/// The record of an old word, held set times 32 plus wanted lock: nothing shared, wanted by a
/// hold.
pub fn record(word: u64) -> [u64; PAIR_WORDS] {
    [word / 32, 0, word % 32 * 2 + 1]
}

/// The records of old words.
pub fn records(words: &[u64]) -> Vec<[u64; PAIR_WORDS]> {
    words.iter().copied().map(record).collect()
}

/// Writes so many old words as records.
fn put_records(words: &[u8], count: usize, out: &mut [u8]) {
    let old = words.chunks_exact(8).map(|bytes| u64::from_le_bytes(bytes.try_into().expect("a word")));
    let bytes: Vec<u8> = old.take(count).flat_map(record).flat_map(u64::to_le_bytes).collect();
    out[..bytes.len()].copy_from_slice(&bytes);
}

/// The pair list of an old library, by the words that are lent to a new one.
pub fn pairs(old: PairsCall, text: &[u8], proc: u64, out: &mut [u8]) -> u64 {
    let words = if out.len() / 8 < MAX_WORDS { MAX_PAIRS - 1 } else { MAX_PAIRS };
    let mut list = vec![0; 8 * words];
    let number = old(text, proc, &mut list);
    if Answer::new(number).kind != REFUSED {
        put_records(&list, Answer::new(number).b as usize, out);
    }
    number
}

/// The crossings of an old library, by the room that a new one is lent.
pub fn crossings(old: CrossingsCall, text: &[u8], first: u64, second: u64, out: &mut [u8]) -> u64 {
    let fit = out.len() / COUPLE_BYTES;
    let mut couples = vec![0; OLD_COUPLE * fit];
    let number = old(text, first, second, &mut couples);
    if Answer::new(number).kind != REFUSED {
        put_records(&couples, 2 * fit.min(Answer::new(number).b as usize), out);
    }
    number
}
