//! The bytes of a vector; which byte has what is in README.md.

use crate::melp::{OldRecord, Record, Refusal};
use crate::set_bytes::bytes_of;

/// One vector.
pub type Vector = [u8; 256];

/// A vector of a kind, all else 0.
pub fn vector_of(kind: u8) -> Vector {
    let mut vector = [0; 256];
    vector[0] = kind;
    vector
}

/// Put bytes into a vector.
pub fn put(vector: &mut Vector, at: usize, bytes: &[u8]) {
    vector[at..at + bytes.len()].copy_from_slice(bytes);
}

/// Put a refusal at a byte, or what the call gives after it.
pub fn put_answer<T>(
    vector: &mut Vector,
    at: usize,
    answer: Result<T, Refusal>,
    bytes: impl Fn(&T) -> Vec<u8>,
) {
    match answer {
        Err(refusal) => vector[at] = refusal.number(),
        Ok(given) => put(vector, at + 1, &bytes(&given)),
    }
}

/// Sixteen kinds in two bytes: a bit for each, 1 for a repeat, the oldest most significant.
fn kinds_bytes(repeats: &[bool; 16]) -> [u8; 2] {
    let bits = repeats
        .iter()
        .fold(0u16, |bits, r| 2 * bits + u16::from(*r));
    bits.to_be_bytes()
}

/// The sixteen kinds of two such bytes, given as one number.
pub fn kinds_of(bits: u16) -> [bool; 16] {
    std::array::from_fn(|i| bits >> (15 - i) & 1 == 1)
}

/// A record of the old kind in fourteen bytes: last set, last G2, and the kinds.
pub fn old_record_bytes(old: &OldRecord) -> Vec<u8> {
    let [high, low] = kinds_bytes(&old.repeats);
    [&bytes_of(&old.last.set)[..], &[old.last.g2, high, low]].concat()
}

/// A record in fifteen bytes: those of the old kind, and the count of repeats.
pub fn record_bytes(record: &Record) -> Vec<u8> {
    let old = OldRecord {
        last: record.last,
        repeats: record.repeats,
    };
    [&old_record_bytes(&old)[..], &[record.repeat_count]].concat()
}

/// 54 bits by logical number as a number, bit 0 the most significant.
pub fn word_of(logical: &[u8; 54]) -> u64 {
    logical.iter().fold(0, |word, b| 2 * word + u64::from(*b))
}

/// The low 54 bits of a number by logical number.
pub fn bits_of_word(word: u64) -> [u8; 54] {
    std::array::from_fn(|j| ((word >> (53 - j)) & 1) as u8)
}
