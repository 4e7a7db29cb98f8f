//! Vectors of sets in bytes: reading and writing them.

use crate::coder_vectors::any_set;
use crate::layout::{put, put_answer, vector_of, Vector};
use crate::melp::{Set, Voicing};
use crate::random::Random;
use crate::set_bytes::{bytes_of, set_of};

/// A set field by field, in an order of their own: 1 if voiced, L1 to L4, G2, G1, pitch index, B, F, flag.
fn field_bytes(set: &Set) -> Vec<u8> {
    let own = |v: Voicing| [v.pitch, v.bandpass, v.fourier, v.aperiodic];
    [
        &[u8::from(set.voicing.is_some())][..],
        &set.lsf,
        &[set.g2, set.g1],
        &set.voicing.map_or([0; 4], own),
    ]
    .concat()
}

// ---- Kind 23: reading ----

/// The bytes that an unvoiced set lacks.
const LACKING: [usize; 4] = [1, 8, 9, 10];

/// The vector of reading so many bytes.
fn reading_of(bytes: &[u8]) -> Vector {
    let mut vector = vector_of(23);
    vector[1] = bytes.len() as u8;
    put(&mut vector, 2, bytes);
    put_answer(&mut vector, 14, set_of(bytes), field_bytes);
    vector
}

/// Bytes in another form than a set's, mostly.
fn spoil(random: &mut Random, bytes: &mut Vec<u8>) {
    match random.below(6) {
        0 => bytes[0] ^= 1,
        1 => bytes[0] = random.outside(1),
        2 | 3 => bytes[random.pick(&LACKING)] = random.inside(255),
        4 => bytes.push(random.inside(255)),
        _ => bytes.truncate(random.between(0, 10) as usize),
    }
}

/// A vector of reading: the bytes of a set, or bytes in another form.
pub fn reading(random: &mut Random) -> Vector {
    let mut bytes = bytes_of(&any_set(random, 4)).to_vec();
    if random.once_in(2) {
        spoil(random, &mut bytes);
    }
    if random.once_in(12) {
        bytes.fill_with(|| random.inside(255));
    }
    reading_of(&bytes)
}

// ---- Kind 24: writing ----

/// A vector of the bytes of a set.
pub fn writing(random: &mut Random) -> Vector {
    let set = any_set(random, 4);
    let mut vector = vector_of(24);
    put(&mut vector, 1, &field_bytes(&set));
    put(&mut vector, 12, &bytes_of(&set));
    vector
}

// ---- All conditions in turn ----

/// Bytes with one of them replaced.
fn with(bytes: &[u8; 11], at: usize, byte: u8) -> Vector {
    let mut other = *bytes;
    other[at] = byte;
    reading_of(&other)
}

/// The bytes of an unvoiced and of a voiced set.
pub const SETS: [[u8; 11]; 2] = [
    [0, 0, 87, 41, 23, 10, 17, 5, 0, 0, 0],
    [1, 42, 87, 41, 23, 10, 17, 5, 12, 200, 1],
];

/// The unvoiced and the voiced set.
pub fn sets() -> [Set; 2] {
    SETS.map(|bytes| set_of(&bytes).expect("the bytes of a set"))
}

/// Of both sets: every length, every first byte up to 3, and 1 in every byte that an unvoiced set lacks.
pub fn conditions() -> Vec<Vector> {
    let mut vectors = Vec::new();
    for bytes in SETS {
        let longer = [&bytes[..], &[0]].concat();
        vectors.extend((0..=12).map(|size| reading_of(&longer[..size])));
        vectors.extend((0..=3).map(|first| with(&bytes, 0, first)));
        vectors.extend(LACKING.map(|at| with(&bytes, at, 1)));
    }
    vectors
}
