//! Vectors of receiving.

use crate::frames::{frame_with, random_received};
use crate::layout::{put, record_bytes, vector_of, Vector};
use crate::melp::{self, FrameResult, Kind, Record, Refusal};
use crate::order_lists::List;
use crate::random::Random;
use crate::record_vectors::{any_record, histories, out_of_range, wrong_counts};
use crate::set_bytes::bytes_of;
use crate::set_vectors::sets;

// ---- The vector of a call ----

/// A result in nineteen bytes.
fn result_bytes(result: &FrameResult) -> Vec<u8> {
    let kind = match result.kind {
        Kind::Unvoiced => 0,
        Kind::Voiced => 1,
        Kind::Repeat => 2,
    };
    [
        &[kind][..],
        &bytes_of(&result.set),
        &(result.first_level as u16).to_be_bytes(),
        &(result.second_level as u16).to_be_bytes(),
        &[result.mute, result.sync, result.repaired],
    ]
    .concat()
}

/// The vector of a kind of receiving: a record, the bytes received, the list, and the answer; a refusal leaves the record.
pub fn receiving(
    kind: u8,
    record: &Record,
    received: &[u8],
    list: &List,
    answer: Result<(FrameResult, Record), Refusal>,
) -> Vector {
    let mut vector = vector_of(kind);
    put(&mut vector, 1, &record_bytes(record));
    vector[16] = received.len() as u8;
    put(&mut vector, 17, received);
    list.put(&mut vector);
    let next = match answer {
        Err(refusal) => {
            vector[26] = refusal.number();
            *record
        }
        Ok((result, next)) => {
            put(&mut vector, 27, &result_bytes(&result));
            next
        }
    };
    put(&mut vector, 46, &record_bytes(&next));
    vector
}

/// The vector of receiving without confidences, by value (kind 9) or in place (kind 22).
pub fn receive_vector(kind: u8, record: &Record, received: &[u8], list: &List) -> Vector {
    let answer = melp::receive(record, received, list.given());
    receiving(kind, record, received, list, answer)
}

// ---- Kinds 9 and 22: receiving ----

/// A vector of receiving one frame.
pub fn receive(random: &mut Random, list: &List) -> Vector {
    let record = any_record(random, 8);
    receive_vector(9, &record, &random_received(random, &list.order), list)
}

/// A vector of receiving one frame into a record in place: all else is as in kind 9.
pub fn receive_in_place(random: &mut Random, list: &List) -> Vector {
    let mut vector = receive(random, list);
    vector[0] = 22;
    vector
}

// ---- All conditions in turn ----

/// A frame that is accepted, and one that is a repeat, both in the default order.
fn two_frames() -> [[u8; 7]; 2] {
    let [unvoiced, _] = sets();
    let order = melp::default_order();
    [&[][..], &[28, 29]].map(|flips| frame_with(&unvoiced, flips, &order))
}

/// Valid records, each with a frame that is accepted and with a repeat.
pub fn counted() -> Vec<(Record, [u8; 7])> {
    let both = |record: Record| two_frames().map(|frame| (record, frame));
    histories().map(both).concat()
}

/// Records with a wrong count of repeats, by turns two with an accepted frame and two with a repeat, so that of two kinds in
/// turn each gets both.
pub fn miscounted() -> Vec<(Record, [u8; 7])> {
    let [accepted, repeat] = two_frames();
    let frames = [accepted, accepted, repeat, repeat];
    let in_turn = frames.iter().copied().cycle();
    wrong_counts().iter().copied().zip(in_turn).collect()
}

/// Counts of repeats around mute with either frame and records out of range, by value and in place; and wrong counts by value
/// and in place in turn.
pub fn conditions() -> Vec<Vector> {
    let default = List::of(melp::default_order());
    let mut vectors = Vec::new();
    for kind in [9, 22] {
        let vector =
            |(record, frame): &(Record, [u8; 7])| receive_vector(kind, record, frame, &default);
        vectors.extend(counted().iter().map(vector));
        let [accepted, _] = two_frames();
        vectors.extend(
            out_of_range()
                .iter()
                .map(|record| vector(&(*record, accepted))),
        );
    }
    for (kind, (record, frame)) in [9, 22].iter().cycle().zip(miscounted()) {
        vectors.push(receive_vector(*kind, &record, &frame, &default));
    }
    vectors
}
