//! Document 01's section "Examples", tried on the independent implementation, and our own for T-02, T-05, T-06 and T-07; the
//! eighth is in `spectrum.rs`.

use crate::frames;
use crate::melp::{
    self, default_order, FrameResult, Kind, PitchClass, Record, Refusal, Set, WordReading,
};
use crate::old_record;
use crate::order_file;
use crate::order_lists::{self, exchanged, identity};
use crate::random::Random;
use crate::set_vectors::sets;
use crate::soft;

/// The frame of example 6 as the document prints it.
const EXAMPLE_FRAME: [u8; 7] = [0x80, 0x56, 0x0D, 0x40, 0x15, 0x00, 0x10];

/// The set of example 6.
const EXAMPLE_SET: Set = Set {
    lsf: [90, 0, 0, 0],
    g2: 11,
    g1: 0,
    voicing: None,
};

/// The frame of example 6 with some places changed.
fn flipped(places: &[usize]) -> [u8; 7] {
    frames::flipped(EXAMPLE_FRAME, places)
}

/// Example 1: pitch codes.
fn example_1() -> bool {
    let classes = [
        (0x00, PitchClass::Unvoiced),
        (0x40, PitchClass::Unvoiced),
        (0x60, PitchClass::Erased),
        (0x07, PitchClass::Voiced(0)),
        (0x70, PitchClass::Voiced(83)),
        (0x7F, PitchClass::Voiced(98)),
    ];
    let codes = [(0, 0x07), (83, 0x70), (98, 0x7F)];
    classes
        .iter()
        .all(|(code, class)| melp::pitch_class(*code) == Ok(*class))
        && codes
            .iter()
            .all(|(index, code)| melp::pitch_code(*index) == Ok(*code))
}

/// Example 2: word A.
fn example_2() -> bool {
    let sent = melp::encode_word(8, &[1, 0, 1, 1]);
    let read = |wrong: &[usize]| {
        let mut word = sent.clone();
        wrong.iter().for_each(|p| word[*p] = 1 - word[*p]);
        melp::decode_word(8, &word)
    };
    let data = |bits: [u8; 4], repaired| WordReading::Data {
        data: bits.to_vec(),
        repaired,
    };
    sent == [1, 0, 1, 1, 0, 1, 0, 0]
        && read(&[]) == data([1, 0, 1, 1], 0)
        && read(&[0]) == data([1, 0, 1, 1], 1)
        && read(&[0, 1]) == WordReading::Erased
        && read(&[4, 5, 6]) == data([1, 0, 1, 0], 1)
}

/// Example 3: word B.
fn example_3() -> bool {
    melp::parity(6, &[0, 1, 0]) == [1, 0, 1]
}

/// Example 4: first levels and their choice.
fn example_4() -> bool {
    let second = 1860 + 402 * 11;
    melp::first_level(11, 0, 10) == Ok(6081)
        && melp::first_level(11, 1, 10) == Ok(4764)
        && melp::first_level(11, 7, 10) == Ok(7398)
        && melp::choose(6639, second, 10) == Ok((11, 0))
        && melp::choose(6640, second, 10) == Ok((11, 5))
}

/// Example 5: the first threshold of G2.
fn example_5() -> bool {
    let g2 = |level| melp::choose(0, level, 0).map(|codes| codes.0);
    g2(2061) == Ok(0) && g2(2062) == Ok(1)
}

/// Example 6: a frame packed by a fresh sender, and its line in section "Program hear".
fn example_6() -> bool {
    let order = default_order();
    let received = melp::receive(&melp::fresh_record(), &EXAMPLE_FRAME, &order);
    let expected = FrameResult {
        kind: Kind::Unvoiced,
        set: EXAMPLE_SET,
        first_level: 4071,
        second_level: 6282,
        mute: 0,
        sync: 0,
        repaired: 0,
    };
    melp::pack(&EXAMPLE_SET, 0, 7, &order) == Ok((EXAMPLE_FRAME, 1))
        && received.map(|(result, _)| result) == Ok(expected)
}

/// Example 7: two repairs, and two flips in word A.
fn example_7() -> bool {
    let receive =
        |places: &[usize]| melp::receive(&melp::fresh_record(), &flipped(places), &default_order());
    let repaired = receive(&[0, 6]).map(|(r, _)| (r.kind, r.set, r.repaired));
    let erased = receive(&[0, 7]).map(|(r, _)| (r.kind, r.repaired));
    repaired == Ok((Kind::Unvoiced, EXAMPLE_SET, 2)) && erased == Ok((Kind::Repeat, 0))
}

/// The spare's syndrome (document 02, T-02): u0 and p2 of word B, or all its parity bits, make a repeat; u3 of word C, which
/// leaves the same three bits, is repaired.
fn spare_syndrome() -> bool {
    let receive = |bits: &[usize]| {
        let places = frames::places_of(bits, &default_order());
        melp::receive(&melp::fresh_record(), &flipped(&places), &default_order())
            .map(|(r, _)| (r.kind, r.set.lsf[0], r.repaired))
    };
    receive(&[8, 13]) == Ok((Kind::Repeat, 0, 0))
        && receive(&[11, 12, 13]) == Ok((Kind::Repeat, 0, 0))
        && receive(&[17]) == Ok((Kind::Unvoiced, 90, 1))
}

/// Words chosen by confidences (document 02, T-05). A of 1011 with u0 and u1 flipped is a choice among u0 and u1, u2 and p3,
/// u3 and p0, p1 and p2. B of 010 with its parity flipped becomes 000, 011 or 110 at equal confidences, so 000.
fn chosen_words() -> bool {
    let a = |confidences: [u8; 8]| soft::choose_word(&[0, 1, 1, 1, 0, 1, 0, 0], &confidences);
    let b = |confidences: [u8; 6]| soft::choose_word(&[0, 1, 0, 0, 1, 0], &confidences);
    let data = |bits: &[u8], repaired| WordReading::Data {
        data: bits.to_vec(),
        repaired,
    };
    a([9; 8]) == WordReading::Erased
        && a([3, 1, 2, 50, 50, 50, 50, 2]) == WordReading::Erased
        && a([3, 1, 2, 50, 50, 50, 50, 3]) == data(&[1, 0, 1, 1], 2)
        && a([3, 1, 2, 50, 50, 50, 50, 1]) == data(&[0, 1, 0, 1], 2)
        && b([1; 6]) == data(&[0, 0, 0], 2)
        && b([1, 1, 1, 0, 0, 0]) == data(&[0, 1, 0], 3)
}

/// Example 7's places 0 and 7 with confidences (document 02, T-05): low ones there mend the frame; equal ones make a repeat,
/// and so do all 0 in the frame as sent. 53 are refused.
fn confident_frame() -> bool {
    let receive = |places: &[usize], confidences: &[u8]| {
        let frame = flipped(places);
        soft::receive(&melp::fresh_record(), &frame, confidences, &default_order())
            .map(|(r, _)| (r.kind, r.set.lsf[0], r.repaired))
    };
    let mut low = [200; 54];
    (low[0], low[7]) = (40, 60);
    receive(&[0, 7], &low) == Ok((Kind::Unvoiced, 90, 2))
        && receive(&[0, 7], &[200; 54]) == Ok((Kind::Repeat, 0, 0))
        && receive(&[], &[0; 54]) == Ok((Kind::Repeat, 0, 0))
        && receive(&[], &[200; 53]) == Err(Refusal::Confidences)
}

/// Mute bit and count of repeats after each of some frames, received from fresh.
fn counts(frames: &[[u8; 7]]) -> Result<Vec<(u8, u8)>, Refusal> {
    let mut record = melp::fresh_record();
    let mut counts = Vec::new();
    for frame in frames {
        let (result, next) = melp::receive(&record, frame, &default_order())?;
        counts.push((result.mute, next.repeat_count));
        record = next;
    }
    Ok(counts)
}

/// Mute bits of so many copies of a frame, received from fresh.
fn mutes(frame: [u8; 7], count: usize) -> Result<Vec<u8>, Refusal> {
    let counts = counts(&vec![frame; count])?;
    Ok(counts.iter().map(|(mute, _)| *mute).collect())
}

/// Example 9: eight erased frames, erased by the pitch code or by word A.
fn example_9() -> bool {
    let by_pitch = flipped(&frames::places_of(&[28, 29], &default_order()));
    let by_word = flipped(&[0, 7]);
    let expected = Ok(vec![0, 0, 0, 0, 0, 0, 0, 1]);
    mutes(by_pitch, 8) == expected && mutes(by_word, 8) == expected
}

/// The count of repeats (document 02's T-06) over eight erased frames from fresh and sixteen good ones: it rises to 8, stays
/// while no repeat goes out, and falls to 0.
fn count_of_repeats() -> bool {
    let frames = [vec![flipped(&[0, 7]); 8], vec![EXAMPLE_FRAME; 16]].concat();
    let expected = (1..=8).chain([8; 8]).chain((0..=7).rev());
    counts(&frames)
        == Ok(expected
            .map(|count| (u8::from(count == 8), count))
            .collect())
}

/// A wrong count of repeats (document 02's T-06): 4, after 2, 3 and 9.
fn wrong_count() -> bool {
    let record = Record {
        repeat_count: 1,
        ..melp::fresh_record()
    };
    let order = default_order();
    let receive = |bytes: &[u8]| melp::receive(&record, bytes, &order).map(|(_, next)| next);
    receive(&EXAMPLE_FRAME) == Err(Refusal::Record)
        && receive(&EXAMPLE_FRAME[1..]) == Err(Refusal::FrameLength)
        && receive(&[1; 7]) == Err(Refusal::Padding)
        && soft::receive(&record, &EXAMPLE_FRAME, &[], &order) == Err(Refusal::Confidences)
}

/// Burst widths (document 02's T-07): 7 of the default order, 1 of the bits in their own order. In a block of six rows and nine
/// columns, filled by rows and sent by columns, two bits of a word or of the pitch code that are neighbours in a row are six
/// places apart and no two are nearer, so 6. In the default order with its first two entries exchanged, word A has places 1
/// and 7, so 6; with places 0 and 6 exchanged it has 6 and 7, so 1.
fn burst_widths() -> bool {
    let default = default_order();
    melp::burst_width(&default) == Ok(7)
        && melp::burst_width(&identity()) == Ok(1)
        && melp::burst_width(&order_lists::block()) == Ok(6)
        && melp::burst_width(&exchanged(default, 0, 1)) == Ok(6)
        && melp::burst_width(&exchanged(default, 0, 6)) == Ok(1)
        && melp::burst_width(&default[1..]) == Err(Refusal::Order)
}

/// A set packed and received in an order (document 02's T-07): in the bits' own one, example 6's frame is 10110100 010101
/// 0101010 1000110 and 26 zeros; in a thousand random ones both sets return, without and with confidences.
fn own_orders() -> bool {
    let own = [0xB4, 0x55, 0x54, 0x60, 0, 0, 0];
    let mut random = Random::new(7);
    let comes_back = |set: Set, list: &[u8]| {
        let fresh = melp::fresh_record();
        let packed = melp::pack(&set, 1, 7, list);
        packed.is_ok_and(|(frame, _)| {
            let received = melp::receive(&fresh, &frame, list);
            received.is_ok_and(|(result, _)| (result.set, result.sync) == (set, 1))
                && received == soft::receive(&fresh, &frame, &[9; 54], list)
        })
    };
    melp::pack(&EXAMPLE_SET, 0, 7, &identity()) == Ok((own, 1))
        && (0..1000).all(|_| {
            let order = order_lists::permutation(&mut random);
            sets().iter().all(|set| comes_back(*set, &order))
        })
}

/// A list that is no order (document 02's T-07): 10, after 2 and 1, before 3, 9 and 5.
fn no_order() -> bool {
    let fresh = melp::fresh_record();
    let mut list = default_order();
    list[53] = list[0];
    let receive = |bytes: &[u8]| melp::receive(&fresh, bytes, &list).map(|(_, next)| next);
    let wrong_set = Set {
        g1: 8,
        ..EXAMPLE_SET
    };
    receive(&EXAMPLE_FRAME) == Err(Refusal::Order)
        && receive(&EXAMPLE_FRAME[1..]) == Err(Refusal::FrameLength)
        && receive(&[1; 7]) == Err(Refusal::Order)
        && soft::receive(&fresh, &EXAMPLE_FRAME, &[], &list) == Err(Refusal::Order)
        && melp::pack(&wrong_set, 0, 7, &list) == Err(Refusal::Order)
        && melp::pack(&wrong_set, 0, 6, &list) == Err(Refusal::Output)
}

/// An order in a file: numbers with any white space between them, and nothing else.
fn order_file() -> bool {
    let words: Vec<String> = order_lists::block().iter().map(u8::to_string).collect();
    let text = words.join(" \n");
    let is_bad = |text: String| order_file::order_in(text.as_bytes()).is_err();
    order_file::order_in(text.as_bytes()) == Ok(order_lists::block())
        && is_bad(words[1..].join(" "))
        && is_bad(text.replace("17", "18"))
        && is_bad(text.replace("17", "+17"))
        && is_bad(text.replace("17", "17,"))
        && is_bad(text.replace("53", "54"))
        && is_bad(text + " 54")
}

/// The first example that fails, if any does.
pub fn first_failure() -> Option<&'static str> {
    let examples: [(&str, fn() -> bool); 18] = [
        ("1", example_1),
        ("2", example_2),
        ("3", example_3),
        ("4", example_4),
        ("5", example_5),
        ("6", example_6),
        ("7", example_7),
        ("9", example_9),
        ("of T-02", spare_syndrome),
        ("of T-05, words", chosen_words),
        ("of T-05, a frame", confident_frame),
        ("of T-06, a count of repeats", count_of_repeats),
        ("of T-06, a wrong count", wrong_count),
        ("of T-06, old records", old_record::lists_keep_step),
        ("of T-07, burst widths", burst_widths),
        ("of T-07, orders", own_orders),
        ("of T-07, a list that is none", no_order),
        ("of T-07, a file", order_file),
    ];
    examples
        .iter()
        .find(|(_, holds)| !holds())
        .map(|(name, _)| *name)
}
