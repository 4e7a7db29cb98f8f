//! Receiving with records of the old kind, to try document 02's T-06: one that is taken over leads to the same answers.

use crate::frames::random_received;
use crate::melp::{self, FrameReading, FrameResult, OldRecord, Record, Refusal};
use crate::order_lists::{random_list, List};
use crate::random::Random;
use crate::record_vectors::any_old_record;
use crate::soft::{self, CONFIDENCES};

/// What a call of a receiver gets beside its record; without confidences it is one of document 01's.
struct Call {
    bytes: Vec<u8>,
    confidences: Option<Vec<u8>>,
    list: List,
}

/// Receive with a record.
fn receive(record: &Record, call: &Call) -> Result<(FrameResult, Record), Refusal> {
    match &call.confidences {
        None => melp::receive(record, &call.bytes, call.list.given()),
        Some(confidences) => soft::receive(record, &call.bytes, confidences, call.list.given()),
    }
}

/// The frame of a call as read.
fn read(call: &Call) -> Result<FrameReading, Refusal> {
    match &call.confidences {
        None => melp::read(&call.bytes, call.list.given()),
        Some(confidences) => soft::read(&call.bytes, confidences, call.list.given()),
    }
}

/// Receive with a record of the old kind: mute comes from its kinds.
fn receive_old(old: &OldRecord, call: &Call) -> Result<(FrameResult, OldRecord), Refusal> {
    let frame = read(call)?;
    if !melp::old_record_is_valid(old) {
        return Err(Refusal::Record);
    }
    let next = OldRecord {
        last: melp::last_after(&old.last, &frame),
        repeats: melp::repeats_after(&old.repeats, &frame),
    };
    let is_mute = next.repeats.iter().filter(|r| **r).count() >= 8;
    let result = melp::result_of(&old.last, &frame, u8::from(is_mute))?;
    Ok((result, next))
}

/// A call in an order of its own, half of the time with confidences, of which there are sometimes too few.
fn random_call(random: &mut Random) -> Call {
    let list = random_list(random);
    let bytes = random_received(random, &list.order);
    let count = CONFIDENCES - usize::from(random.once_in(12));
    let confidences = (0..count).map(|_| random.inside(255)).collect();
    Call {
        bytes,
        confidences: random.once_in(2).then_some(confidences),
        list,
    }
}

/// An answer without the record, and the record after it: a refusal leaves that.
fn split<R: Copy>(
    record: &R,
    answer: Result<(FrameResult, R), Refusal>,
) -> (Result<FrameResult, Refusal>, R) {
    match answer {
        Err(refusal) => (Err(refusal), *record),
        Ok((result, next)) => (Ok(result), next),
    }
}

/// Whether a list of calls has the same answers with a record of the old kind and with it taken over, the one record stays the
/// other taken over, and taking over is refused as a good frame is with the old one.
fn list_keeps_step(random: &mut Random) -> bool {
    let mut old = any_old_record(random, 8);
    let (refusal, mut record) = melp::take_over(&old);
    (0..40).all(|_| {
        let call = random_call(random);
        let (expected, next_old) = split(&old, receive_old(&old, &call));
        let (answer, next) = split(&record, receive(&record, &call));
        (old, record) = (next_old, next);
        answer == expected
            && (read(&call).is_err() || expected.err() == refusal)
            && melp::take_over(&old) == (refusal, record)
    })
}

/// Whether five hundred lists of calls keep step; some start with a record that is refused.
pub fn lists_keep_step() -> bool {
    let mut random = Random::new(6);
    (0..500).all(|_| list_keeps_step(&mut random))
}
