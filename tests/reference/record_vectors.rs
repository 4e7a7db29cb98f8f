//! Vectors of a receiver's record: one as it stands, a fresh one, and one of the old kind taken over.

use crate::coder_vectors::spoil;
use crate::frames::random_set;
use crate::layout::{kinds_of, old_record_bytes, put, record_bytes, vector_of, Vector};
use crate::melp::{self, Last, OldRecord, Record, Refusal};
use crate::random::Random;
use crate::set_bytes::set_of;
use crate::set_vectors::{sets, SETS};

// ---- Records at random ----

/// Which of the latest 16 frames were repeats, often about as many as mute needs.
fn random_repeats(random: &mut Random) -> [bool; 16] {
    let count = match random.below(6) {
        0 => 0,
        1 => random.between(0, 16),
        _ => random.between(6, 9),
    };
    let all: Vec<usize> = (0..16).collect();
    let mut repeats = [false; 16];
    for i in random.some_of(&all, count as usize) {
        repeats[i] = true;
    }
    repeats
}

/// A last set and a last G2 in range; often the G2 is not the one of the set, and sometimes both are those of a fresh record.
fn random_last(random: &mut Random) -> Last {
    if random.once_in(12) {
        return melp::fresh_record().last;
    }
    let set = random_set(random);
    let other = random.inside(31);
    Last {
        set,
        g2: random.pick(&[set.g2, other]),
    }
}

/// Put the last G2, a field of the last set, or one of either out of its range.
fn spoil_last(random: &mut Random, last: &mut Last) {
    let choice = random.below(8);
    if choice < 2 {
        last.g2 = random.outside(31);
    }
    if choice > 0 {
        spoil(random, &mut last.set);
    }
}

/// A record of the old kind, once in so many times with a field out of its range.
pub fn any_old_record(random: &mut Random, once_in: u64) -> OldRecord {
    let mut last = random_last(random);
    if random.once_in(once_in) {
        spoil_last(random, &mut last);
    }
    OldRecord {
        last,
        repeats: random_repeats(random),
    }
}

/// A wrong count of repeats: near the right one, that of the kinds one frame later, at an end of the range or past it, or with
/// one bit changed.
fn wrong_count(random: &mut Random, repeats: &[bool; 16]) -> u8 {
    let right = melp::count_repeats(repeats);
    let later = |repeat| melp::count_repeats(&melp::push_kind(repeats, repeat));
    let near = [right + 1, right.wrapping_sub(1), later(true), later(false)];
    let others = [0, 16, 17, 255, right ^ 1 << random.below(8)];
    let wrong: Vec<u8> = [&near[..], &others]
        .concat()
        .into_iter()
        .filter(|count| *count != right)
        .collect();
    random.pick(&wrong)
}

/// A record, once in so many times with a field out of its range, and as often with a wrong count of repeats.
pub fn any_record(random: &mut Random, once_in: u64) -> Record {
    let (_, mut record) = melp::take_over(&any_old_record(random, once_in));
    if random.once_in(once_in) {
        record.repeat_count = wrong_count(random, &record.repeats);
    }
    record
}

// ---- Kind 14: a record as it stands ----

/// The vector of whether a record is valid, and whether its count of repeats mutes.
fn record_vector(record: &Record) -> Vector {
    let mut vector = vector_of(14);
    put(&mut vector, 1, &record_bytes(record));
    vector[16] = u8::from(melp::record_is_valid(record));
    vector[17] = melp::mute_of(record.repeat_count);
    vector
}

/// A vector of a record as it stands.
pub fn record(random: &mut Random) -> Vector {
    record_vector(&any_record(random, 3))
}

// ---- Kind 15: fresh ----

/// The vector of what a sender and a receiver start with.
pub fn fresh(_: &mut Random) -> Vector {
    let mut vector = vector_of(15);
    vector[1] = melp::FRESH_SYNC;
    put(&mut vector, 2, &record_bytes(&melp::fresh_record()));
    vector
}

// ---- Kind 34: a record of the old kind taken over ----

/// The vector of taking a record over; the record beside a refusal counts too.
fn take_over_vector(old: &OldRecord) -> Vector {
    let (refusal, record) = melp::take_over(old);
    let mut vector = vector_of(34);
    put(&mut vector, 1, &old_record_bytes(old));
    vector[15] = refusal.map_or(0, Refusal::number);
    put(&mut vector, 16, &record_bytes(&record));
    vector
}

/// A vector of taking a record over.
pub fn take_over(random: &mut Random) -> Vector {
    take_over_vector(&any_old_record(random, 3))
}

// ---- All conditions in turn ----

/// Kinds as bits: no repeat; seven repeats and eight, each without and with the oldest; all.
const HISTORIES: [u16; 6] = [0x0000, 0x00FE, 0x80FC, 0x00FF, 0x80FE, 0xFFFF];

/// Kinds as bits, with a wrong count of repeats, two of each way: one more, one less, none, sixteen, seventeen, the highest,
/// and with one bit more.
const WRONG_COUNTS: [(u16, u8); 14] = [
    (0x00FE, 8),
    (0x8000, 2),
    (0x80FE, 7),
    (0x0001, 0),
    (0xAAAA, 0),
    (0xFFFF, 0),
    (0x0000, 16),
    (0xFFFE, 16),
    (0xFFFF, 17),
    (0x5555, 17),
    (0x0000, 255),
    (0x7FFF, 255),
    (0x0FF0, 136),
    (0x0180, 34),
];

/// A record of the old kind with some kinds; its last G2 is not the one of its last set.
fn old_record_with(kinds: u16) -> OldRecord {
    let [_, set] = sets();
    OldRecord {
        last: Last { set, g2: 9 },
        repeats: kinds_of(kinds),
    }
}

/// The valid record with some kinds.
pub fn record_with(kinds: u16) -> Record {
    melp::take_over(&old_record_with(kinds)).1
}

/// Valid records with as many repeats as mute needs, one less, none and all.
pub fn histories() -> [Record; 6] {
    HISTORIES.map(record_with)
}

/// Records of which the count of repeats alone is wrong.
pub fn wrong_counts() -> [Record; 14] {
    WRONG_COUNTS.map(|(kinds, repeat_count)| Record {
        repeat_count,
        ..record_with(kinds)
    })
}

/// Kinds of the records of the old kind that are taken over: no repeat, only the oldest, only the latest, seven, eight, all.
const TAKEN_OVER: [u16; 6] = [0x0000, 0x8000, 0x0001, 0x80FC, 0x5555, 0xFFFF];

/// A byte of the voiced set's, and a value out of its range.
const OUT_OF_RANGE: [(usize, u8); 9] = [
    (1, 99),
    (2, 128),
    (3, 64),
    (4, 64),
    (5, 64),
    (6, 32),
    (7, 8),
    (8, 16),
    (10, 2),
];

/// A record of the old kind with one byte of its last set replaced, and a last G2.
fn old_record_but(at: usize, byte: u8, g2: u8) -> OldRecord {
    let mut bytes = SETS[1];
    bytes[at] = byte;
    let set = set_of(&bytes).expect("the bytes of a set");
    OldRecord {
        last: Last { set, g2 },
        ..old_record_with(0xA5A4)
    }
}

/// Records taken over: valid ones, one of them with B = 1 and the highest G2; then with each field out of its range, and two.
fn taken_over() -> Vec<OldRecord> {
    let mut records = TAKEN_OVER.map(old_record_with).to_vec();
    records.push(old_record_but(8, 1, 31));
    records.extend(OUT_OF_RANGE.map(|(at, byte)| old_record_but(at, byte, 9)));
    records.extend([32, 255].map(|g2| old_record_but(8, 12, g2)));
    records.push(old_record_but(2, 128, 32));
    records
}

/// Records with the true count of repeats and another field out of its range, or two.
pub fn out_of_range() -> Vec<Record> {
    let taken = taken_over();
    let refused = taken.iter().filter(|old| !melp::old_record_is_valid(old));
    refused.map(|old| melp::take_over(old).1).collect()
}

/// Valid records and wrong counts of repeats as they stand, and records taken over.
pub fn conditions() -> Vec<Vector> {
    let records = [&histories()[..], &wrong_counts()].concat();
    let mut vectors: Vec<Vector> = records.iter().map(record_vector).collect();
    vectors.extend(taken_over().iter().map(take_over_vector));
    vectors
}
