//! Vectors of packing, the pitch code, the words, the 54 bits of a frame, sets, and what a frame is read as.

use crate::frames::{self, random_received, random_set};
use crate::layout::{bits_of_word, put, put_answer, vector_of, word_of, Vector};
use crate::melp::{self, Content, PitchClass, Set, WordReading};
use crate::order_lists::List;
use crate::random::Random;
use crate::set_bytes::bytes_of;
use crate::set_vectors::sets;

/// What each byte of an output holds before a call.
pub const HELD: u8 = 165;

/// Put one field of a set out of its range.
pub fn spoil(random: &mut Random, set: &mut Set) {
    let fields = if set.voicing.is_some() { 9 } else { 6 };
    let field = random.below(fields);
    match (field, &mut set.voicing) {
        (0, _) => set.lsf[0] = random.outside(127),
        (1..=3, _) => set.lsf[field as usize] = random.outside(63),
        (4, _) => set.g2 = random.outside(31),
        (5, _) => set.g1 = random.outside(7),
        (6, Some(v)) => v.pitch = random.outside(98),
        (7, Some(v)) => v.bandpass = random.outside(15),
        (_, Some(v)) => v.aperiodic = random.outside(1),
        (_, None) => unreachable!("an unvoiced set has six fields"),
    }
}

/// A set, once in so many times with a field out of its range.
pub fn any_set(random: &mut Random, once_in: u64) -> Set {
    let mut set = random_set(random);
    if random.once_in(once_in) {
        spoil(random, &mut set);
    }
    set
}

// ---- Kind 1: pack ----

/// Length of the output, often around the seven bytes needed.
fn random_output_length(random: &mut Random) -> u8 {
    match random.below(8) {
        0 => random.pick(&[0, 5, 6]),
        1 => random.between(0, 16) as u8,
        _ => random.pick(&[7, 7, 8, 16]),
    }
}

/// The vector of packing a set into an output of some length.
pub fn pack_vector(set: &Set, sync: u8, room: u8, list: &List) -> Vector {
    let mut vector = vector_of(1);
    put(&mut vector, 1, &bytes_of(set));
    put(&mut vector, 12, &[sync, room]);
    put(&mut vector, 16, &[HELD; 16]);
    list.put(&mut vector);
    let packed = melp::pack(set, sync, usize::from(room), list.given());
    put_answer(&mut vector, 14, packed, |(frame, next)| {
        [&[*next][..], frame].concat()
    });
    vector
}

/// A vector of packing.
pub fn pack(random: &mut Random, list: &List) -> Vector {
    let set = any_set(random, 4);
    let sync = random.inside(1);
    pack_vector(&set, sync, random_output_length(random), list)
}

// ---- Kinds 2 and 3: pitch ----

/// A vector of the class of a pitch code.
pub fn class(random: &mut Random) -> Vector {
    let code = random.around(127);
    let mut vector = vector_of(2);
    vector[1] = code;
    put_answer(
        &mut vector,
        2,
        melp::pitch_class(code),
        |class| match class {
            PitchClass::Unvoiced => vec![0],
            PitchClass::Erased => vec![1],
            PitchClass::Voiced(index) => vec![2, *index],
        },
    );
    vector
}

/// A vector of the code of a pitch index.
pub fn code(random: &mut Random) -> Vector {
    let index = random.around(98);
    let mut vector = vector_of(3);
    vector[1] = index;
    put_answer(&mut vector, 2, melp::pitch_code(index), |code| vec![*code]);
    vector
}

// ---- Kinds 4 and 5: words ----

/// A number whose lowest bits are asked for; often it has others.
fn random_bits(random: &mut Random, bits: usize) -> u8 {
    let mut number = random.inside(255);
    if random.once_in(2) {
        number &= ((1u32 << bits) - 1) as u8;
    }
    number
}

/// The vector of reading the word in the lowest bits of a number.
fn word_vector(length: usize, number: u8) -> Vector {
    let word = melp::bits_of(number, length as u32);
    let mut vector = vector_of(4);
    put(&mut vector, 1, &[length as u8, number]);
    match melp::decode_word(length, &word) {
        WordReading::Erased => vector[3] = 1,
        WordReading::Data { data, repaired } => {
            put(&mut vector, 4, &[melp::number_of(&data), repaired]);
        }
    }
    vector
}

/// A vector of reading a word.
pub fn word(random: &mut Random) -> Vector {
    let length: usize = random.pick(&[6, 7, 8]);
    word_vector(length, random_bits(random, length))
}

/// A vector of the parity of a word.
pub fn parity(random: &mut Random) -> Vector {
    let length: usize = random.pick(&[6, 7, 8]);
    let data_bits = melp::data_count(length);
    let number = random_bits(random, data_bits);
    let data = melp::bits_of(number, data_bits as u32);
    let parity = melp::number_of(&melp::parity(length, &data));
    let mut vector = vector_of(5);
    put(&mut vector, 1, &[length as u8, number, parity]);
    vector
}

// ---- Kinds 10 and 11: the order of the bits ----

/// A number with some frame's bits, often with others above them.
fn random_word(random: &mut Random) -> u64 {
    let set = random_set(random);
    let sync = random.inside(1);
    let damage = random.pick(&[frames::Damage::Any, frames::Damage::OneInEach]);
    let order = melp::default_order();
    let frame = frames::damaged(random, &set, sync, damage, &order);
    let logical = melp::bits_of_frame(&frame, &order).expect("a frame");
    let above = random.next() << 54;
    match random.below(4) {
        0 => random.next(),
        1 => word_of(&logical) | above,
        2 => 1 << random.below(64),
        _ => word_of(&logical),
    }
}

/// The vector of the frame of the bits in a number.
pub fn frame_vector(word: u64, list: &List) -> Vector {
    let mut vector = vector_of(10);
    put(&mut vector, 1, &word.to_be_bytes());
    list.put(&mut vector);
    match melp::frame_of_bits(&bits_of_word(word), list.given()) {
        Err(refusal) => vector[16] = refusal.number(),
        Ok(frame) => put(&mut vector, 9, &frame),
    }
    vector
}

/// A vector of the frame of 54 bits.
pub fn frame_of_bits(random: &mut Random, list: &List) -> Vector {
    frame_vector(random_word(random), list)
}

/// The vector of the 54 bits of a frame.
pub fn bits_vector(received: &[u8], list: &List) -> Vector {
    let mut vector = vector_of(11);
    vector[1] = received.len() as u8;
    put(&mut vector, 2, received);
    list.put(&mut vector);
    let logical = melp::bits_of_frame(received, list.given());
    put_answer(&mut vector, 11, logical, |logical| {
        word_of(logical).to_be_bytes().to_vec()
    });
    vector
}

/// A vector of the 54 bits of a frame.
pub fn bits_of_frame(random: &mut Random, list: &List) -> Vector {
    bits_vector(&random_received(random, &list.order), list)
}

// ---- Kind 12: sets ----

/// A vector of a set's ranges and indices.
pub fn ranges(random: &mut Random) -> Vector {
    let set = any_set(random, 2);
    let mut vector = vector_of(12);
    put(&mut vector, 1, &bytes_of(&set));
    vector[12] = u8::from(melp::set_in_range(&set));
    vector[13] = u8::from(melp::sender_takes(&set));
    put(&mut vector, 14, &set.lsf);
    put(&mut vector, 18, &[set.g2, set.g1]);
    vector
}

// ---- Kind 13: reading ----

/// The vector of what the bits in a number are read as.
fn reading_vector(word: u64) -> Vector {
    let mut vector = vector_of(13);
    put(&mut vector, 1, &word.to_be_bytes());
    match melp::read_bits(&bits_of_word(word)).expect("a pitch code of seven bits") {
        Content::Erased => vector[9] = 1,
        Content::Accepted { set, repaired } => {
            put(&mut vector, 10, &bytes_of(&set));
            vector[21] = repaired;
        }
    }
    vector
}

/// A vector of what 54 bits are read as.
pub fn reading(random: &mut Random) -> Vector {
    reading_vector(random_word(random))
}

// ---- The spare's syndrome ----

/// Every word of six and of seven bits whose three parity bits are all wrong: in word B the spare's syndrome, in C and D
/// that of u3.
fn spare_words() -> Vec<Vector> {
    let mut vectors = Vec::new();
    for length in [6, 7] {
        let data_bits = melp::data_count(length);
        for data in 0..1u8 << data_bits {
            let sent = melp::encode_word(length, &melp::bits_of(data, data_bits as u32));
            vectors.push(word_vector(length, melp::number_of(&sent) ^ 0b111));
        }
    }
    vectors
}

/// The frame of a set with some logical bits flipped, as a number.
fn flipped_word(set: &Set, flips: &[usize]) -> u64 {
    let order = melp::default_order();
    let frame = melp::frame_of(set, 0, &order).expect("a set in range");
    let logical = melp::bits_of_frame(&frame, &order).expect("a frame");
    let flip = |word, j: &usize| word ^ 1 << (53 - j);
    flips.iter().fold(word_of(&logical), flip)
}

/// Frames of an unvoiced and of a voiced set with the spare's syndrome in each way; word A without a flip, with one, with two.
fn spare_frames() -> Vec<Vector> {
    let mut vectors = Vec::new();
    for set in sets() {
        for in_a in [&[][..], &[0], &[0, 1]] {
            let word = |in_b| flipped_word(&set, &[in_a, in_b].concat());
            vectors.extend(frames::SPARE_FLIPS.map(|in_b| reading_vector(word(in_b))));
        }
    }
    vectors
}

/// Words and frames with the spare's syndrome, and words of seven bits with the same one.
pub fn conditions() -> Vec<Vector> {
    [spare_words(), spare_frames()].concat()
}
