//! Vectors of an order and of the default one; and of every call that takes an order: in all orders and lists that are none,
//! with every combination of its refusals, and with answers that are wrong.

use crate::coder_vectors::{bits_vector, frame_vector, pack_vector};
use crate::frames::frame_with;
use crate::layout::{put, vector_of, word_of, Vector};
use crate::melp::{self, Order, Record, Refusal, Set};
use crate::order_lists::{self, inverse, no_orders, orders, List};
use crate::random::Random;
use crate::receiver_vectors;
use crate::record_vectors::{record_with, wrong_counts};
use crate::set_vectors::sets;
use crate::soft_vectors::{self, Confidences, DOUBTED};

// ---- Kind 36: an order ----

/// The vector of whether a list is an order, and of its burst width.
fn order_vector(list: &List) -> Vector {
    let mut vector = vector_of(36);
    list.put(&mut vector);
    vector[1] = u8::from(melp::is_order(list.given()));
    match melp::burst_width(list.given()) {
        Err(refusal) => vector[2] = refusal.number(),
        Ok(width) => vector[3] = width as u8,
    }
    vector
}

/// A vector of an order.
pub fn order(_: &mut Random, list: &List) -> Vector {
    order_vector(list)
}

// ---- Kind 37: the default order ----

/// The vector of the default order.
pub fn default(_: &mut Random) -> Vector {
    let mut vector = vector_of(37);
    put(&mut vector, 1, &melp::default_order());
    vector
}

// ---- A call with an order ----

/// Each kind with an order: the byte of its refusal, and its refusals, the first that applies being given.
const KINDS: [(u8, usize, &[u8]); 9] = [
    (1, 14, &[1, 10, 5]),
    (9, 26, &[2, 10, 3, 4]),
    (10, 16, &[10]),
    (11, 11, &[2, 10, 3]),
    (22, 26, &[2, 10, 3, 4]),
    (32, 26, &[2, 10, 3, 9, 4]),
    (33, 26, &[2, 10, 3, 9, 4]),
    (35, 26, &[2, 10, 3, 9]),
    (36, 2, &[10]),
];

/// The bytes of a frame with the faults that 2 and 3 refuse, where asked for: a byte more or less, a padding bit. Where both
/// are, it is a byte more, so that the padding bit stays.
fn faulty_bytes(frame: [u8; 7], faults: &[u8], turn: usize) -> Vec<u8> {
    let mut bytes = frame.to_vec();
    if faults.contains(&3) {
        bytes[6] |= [1, 2][turn % 2];
    }
    if faults.contains(&2) {
        let is_longer = turn % 2 == 0 || faults.contains(&3);
        bytes.resize(if is_longer { 8 } else { 6 }, 0);
    }
    bytes
}

/// A record; one that 4 refuses has by turns a wrong count of repeats and a G2 out of range.
fn faulty_record(faults: &[u8], turn: usize) -> Record {
    if !faults.contains(&4) {
        return record_with(0x00FE);
    }
    if turn % 2 == 0 {
        return wrong_counts()[turn % 14];
    }
    let mut record = record_with(0x00FE);
    record.last.g2 = 32;
    record
}

/// The vector of a call of a kind with the faults that some refusals are about; that of 10 is the list's. Sets are by turns
/// unvoiced and voiced.
fn call(kind: u8, list: &List, faults: &[u8], turn: usize) -> Vector {
    let set = sets()[turn % 2];
    let record = faulty_record(faults, turn);
    let bytes = |flips: &[usize]| faulty_bytes(frame_with(&set, flips, &list.order), faults, turn);
    let short = if faults.contains(&9) {
        [53, 55]
    } else {
        [54; 2]
    };
    let count = short[turn % 2];
    match kind {
        1 => pack_call(set, list, faults),
        9 | 22 => receiver_vectors::receive_vector(kind, &record, &bytes(&[3, 30]), list),
        10 => frame_vector(word(&set), list),
        11 => bits_vector(&bytes(&[3, 30]), list),
        32 | 33 => {
            let confidences = Confidences::even(255).with(&DOUBTED, 0, &list.order);
            let confidences = confidences.sized(count);
            soft_vectors::receive_vector(kind, &record, &bytes(&DOUBTED), &confidences, list)
        }
        35 => soft_vectors::taking_vector(&bytes(&[]), &Confidences::rising().sized(count), list),
        36 => order_vector(list),
        _ => unreachable!("no kind with an order"),
    }
}

/// The vector of packing a set with the faults that 1 and 5 refuse.
fn pack_call(mut set: Set, list: &List, faults: &[u8]) -> Vector {
    if faults.contains(&5) {
        set.g1 = 8;
    }
    let room = if faults.contains(&1) { 6 } else { 7 };
    pack_vector(&set, 1, room, list)
}

/// The 54 bits of a set as a number, with others above them.
fn word(set: &Set) -> u64 {
    let order = melp::default_order();
    let logical = melp::bits_of_frame(&frame_with(set, &[], &order), &order);
    word_of(&logical.expect("a frame")) | 0x2AA << 54
}

// ---- All conditions in turn ----

/// Each call in each of the orders, of receiving by value and in place in turn.
fn in_orders() -> Vec<Vector> {
    let mut vectors = Vec::new();
    for (turn, list) in orders().iter().enumerate() {
        let [receive, soft] = [[9, 32], [22, 33]][turn / 2 % 2];
        for kind in [1, receive, 10, 11, soft, 35, 36] {
            vectors.push(call(kind, list, &[], turn));
        }
    }
    vectors
}

/// Each of the lists that are none as an order, and in one other call, all of them in turn.
fn in_no_order() -> Vec<Vector> {
    let calls = KINDS[..8].iter().cycle();
    let lists = no_orders();
    let others = lists.iter().zip(calls).enumerate();
    others
        .flat_map(|(turn, (list, (kind, _, _)))| [order_vector(list), call(*kind, list, &[], turn)])
        .collect()
}

/// The vector of a call with some of its refusals, of which the first has to be given; a list that is none is one of them in
/// turn.
fn refused(kind: u8, at: usize, faults: &[u8], turn: usize) -> Vector {
    let lists = no_orders();
    let list = if faults.contains(&10) {
        lists[turn % lists.len()]
    } else {
        orders()[turn % 10]
    };
    let vector = call(kind, &list, faults, turn);
    assert_eq!(vector[at], faults.first().copied().unwrap_or(0));
    vector
}

/// Every call with every combination of its refusals.
fn combinations() -> Vec<Vector> {
    let mut vectors = Vec::new();
    for (kind, at, refusals) in KINDS {
        for mask in 0..1usize << refusals.len() {
            let chosen = (0..refusals.len()).filter(|i| mask >> i & 1 == 1);
            let faults: Vec<u8> = chosen.map(|i| refusals[i]).collect();
            let turn = mask + faults.len() + usize::from(kind);
            vectors.push(refused(kind, at, &faults, turn));
        }
    }
    vectors
}

/// All calls in all orders and lists that are none, orders of all burst widths, and every combination of refusals.
pub fn conditions() -> Vec<Vector> {
    let widths = order_lists::orders_of_all_widths();
    let mut vectors: Vec<Vector> = widths.iter().map(order_vector).collect();
    vectors.extend([in_orders(), in_no_order(), combinations()].concat());
    vectors
}

// ---- Wrong answers ----

/// A call with an order and what it would give with another one.
fn as_in_another(kind: u8, order: Order, other: Order, turn: usize) -> Vector {
    let list = List::of(order);
    let mut wrong = call(kind, &List::of(other).beside(order), &[], turn);
    list.put(&mut wrong);
    assert_ne!(wrong, call(kind, &list, &[], turn));
    wrong
}

/// Every call as if the list were its inverse, and as if it were the default order.
fn other_orders() -> Vec<Vector> {
    let mut vectors = Vec::new();
    let permuted = orders()[9].order;
    for (turn, (kind, _, _)) in KINDS[..8].iter().enumerate() {
        let block = order_lists::block();
        vectors.push(as_in_another(*kind, block, inverse(&block), turn / 2));
        vectors.push(as_in_another(
            *kind,
            permuted,
            melp::default_order(),
            turn / 2,
        ));
    }
    vectors
}

/// Every call with 10 and another of its refusals, the second being told in the place of the first.
fn second_refusals() -> Vec<Vector> {
    let mut vectors = Vec::new();
    for (kind, at, refusals) in KINDS {
        for (turn, other) in refusals.iter().filter(|number| **number != 10).enumerate() {
            let both = |number: &&u8| **number == 10 || *number == other;
            let faults: Vec<u8> = refusals.iter().filter(both).copied().collect();
            let mut wrong = refused(kind, at, &faults, turn);
            wrong[at] = faults[1];
            vectors.push(wrong);
        }
    }
    vectors
}

/// Burst widths that are one more and one less, and one told of a list that is no order.
fn widths() -> Vec<Vector> {
    let [default, .., permuted] = orders();
    let told = |list: &List, change: fn(u8) -> u8| {
        let mut vector = order_vector(list);
        vector[3] = change(vector[3]);
        vector
    };
    let mut refused = told(&no_orders()[0], |_| 7);
    (refused[1], refused[2]) = (1, 0);
    let mut vectors = vec![refused];
    for list in [default, permuted] {
        vectors.extend([
            told(&list, |width| width + 1),
            told(&list, |width| width - 1),
        ]);
    }
    vectors
}

/// Confidences left in the order of places: as they are handed on, and as they decide what is received.
fn unsorted_confidences() -> Vec<Vector> {
    let list = List::of(order_lists::block());
    let mut taken = call(35, &list, &[], 0);
    let by_place: [u8; 54] = std::array::from_fn(|t| taken[62 + t]);
    put(&mut taken, 118, &by_place);
    let mut vectors = vec![taken];
    for kind in [32, 33] {
        let right = call(kind, &list, &[], 0);
        let frame = &right[17..24];
        let given = Confidences::even(255).with(&DOUBTED, 0, &list.order);
        let record = record_with(0x00FE);
        let moved = given.as_if_by_number(&list.order);
        let mut wrong = soft_vectors::receive_vector(kind, &record, frame, &moved, &list);
        given.put(&mut wrong, 61);
        assert_ne!(wrong, right);
        vectors.push(wrong);
    }
    vectors
}

/// Answers that are wrong in the order, in the refusal, in the burst width or in the confidences.
pub fn wrong_vectors() -> Vec<Vector> {
    [
        other_orders(),
        second_refusals(),
        widths(),
        unsorted_confidences(),
    ]
    .concat()
}

/// Vectors refused by 10, with one entry more than a vector can have.
pub fn bad_vectors() -> Vec<Vector> {
    let long = orders()[0].sized(order_lists::MOST);
    let mut vectors = Vec::new();
    for (kind, at, _) in KINDS {
        let mut vector = call(kind, &long, &[], 0);
        assert_eq!(vector[at], Refusal::Order.number());
        vector[180] += 1;
        vectors.push(vector);
    }
    vectors
}
