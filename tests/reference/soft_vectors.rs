//! Vectors of receiving with confidences: choosing a word, reading 54 bits, receiving, and the bits of a frame with theirs.

use crate::frames::{self, flipped, frame_with, places_of, Damage};
use crate::layout::{bits_of_word, put, vector_of, word_of, Vector};
use crate::melp::{self, Content, Order, Record, Set, WordReading};
use crate::order_lists::List;
use crate::random::Random;
use crate::receiver_vectors::{counted, miscounted, receiving};
use crate::record_vectors::{any_record, record_with};
use crate::set_bytes::bytes_of;
use crate::set_vectors::sets;
use crate::soft::{self, CONFIDENCES};

// ---- The vector of a call ----

/// Most confidences that a vector has.
pub const MOST: usize = 56;

/// Confidences of a call, by place, and how many of these bytes it gets.
#[derive(Clone, Copy)]
pub struct Confidences {
    bytes: [u8; MOST],
    count: usize,
}

impl Confidences {
    /// One for each place.
    fn of(bytes: [u8; MOST]) -> Confidences {
        Confidences {
            bytes,
            count: CONFIDENCES,
        }
    }

    /// The same confidence at each place.
    pub fn even(value: u8) -> Confidences {
        Confidences::of([value; MOST])
    }

    /// Another confidence at each place, 1, 5, 9 and so on.
    pub fn rising() -> Confidences {
        Confidences::of(std::array::from_fn(|place| 4 * place as u8 + 1))
    }

    /// With another confidence at the places of some logical bits.
    pub fn with(mut self, bits: &[usize], value: u8, order: &Order) -> Confidences {
        for place in places_of(bits, order) {
            self.bytes[place] = value;
        }
        self
    }

    /// Those that a reader has to get to see at each place, so that it finds these by logical number.
    pub fn as_if_by_number(&self, order: &Order) -> Confidences {
        let mut moved = *self;
        for (place, bit) in order.iter().enumerate() {
            moved.bytes[place] = self.bytes[usize::from(*bit)];
        }
        moved
    }

    /// With another number of them.
    pub fn sized(self, count: usize) -> Confidences {
        Confidences { count, ..self }
    }

    /// Those that the call gets.
    fn given(&self) -> &[u8] {
        &self.bytes[..self.count]
    }

    /// Put them into a vector, their number first.
    pub fn put(&self, vector: &mut Vector, at: usize) {
        vector[at] = self.count as u8;
        put(vector, at + 1, &self.bytes);
    }
}

/// The vector of choosing the word in the lowest bits of a number.
fn word_vector(length: usize, number: u8, confidences: &[u8; 8]) -> Vector {
    let came = melp::bits_of(number, length as u32);
    let mut vector = vector_of(30);
    put(&mut vector, 1, &[length as u8, number]);
    put(&mut vector, 3, confidences);
    match soft::choose_word(&came, &confidences[..length]) {
        WordReading::Erased => vector[11] = 1,
        WordReading::Data { data, repaired } => {
            put(&mut vector, 12, &[melp::number_of(&data), repaired]);
        }
    }
    vector
}

/// The vector of what the bits in a number are read as with their confidences, by logical number.
fn reading_vector(word: u64, confidences: &[u8; 54]) -> Vector {
    let mut vector = vector_of(31);
    put(&mut vector, 1, &word.to_be_bytes());
    put(&mut vector, 10, confidences);
    match soft::read_bits(&bits_of_word(word), confidences).expect("a pitch code of seven bits") {
        Content::Erased => vector[67] = 1,
        Content::Accepted { set, repaired } => {
            put(&mut vector, 68, &bytes_of(&set));
            vector[79] = repaired;
        }
    }
    vector
}

/// The vector of receiving, by value (kind 32) or in place (kind 33).
pub fn receive_vector(
    kind: u8,
    record: &Record,
    bytes: &[u8],
    confidences: &Confidences,
    list: &List,
) -> Vector {
    let answer = soft::receive(record, bytes, confidences.given(), list.given());
    let mut vector = receiving(kind, record, bytes, list, answer);
    confidences.put(&mut vector, 61);
    vector
}

/// The vector of taking the bits of a frame with their confidences.
pub fn taking_vector(bytes: &[u8], confidences: &Confidences, list: &List) -> Vector {
    let mut vector = vector_of(35);
    vector[16] = bytes.len() as u8;
    put(&mut vector, 17, bytes);
    confidences.put(&mut vector, 61);
    list.put(&mut vector);
    match soft::bits_of_frame(bytes, confidences.given(), list.given()) {
        Err(refusal) => vector[26] = refusal.number(),
        Ok((logical, by_bit)) => {
            put(&mut vector, 27, &word_of(&logical).to_be_bytes());
            put(&mut vector, 118, &by_bit);
        }
    }
    vector
}

// ---- Confidences at random ----

/// Few values, so that sums are often equal, or equal in their low byte.
const FEW: [&[u8]; 6] = [
    &[0, 1],
    &[0, 1, 2],
    &[0, 255],
    &[1, 255],
    &[64, 128],
    &[254, 255],
];

/// High confidences, mostly low ones at the places that the channel changed, and now and then elsewhere.
fn fitting<const N: usize>(random: &mut Random, changed: &[usize]) -> [u8; N] {
    std::array::from_fn(|place| {
        let is_high = if changed.contains(&place) {
            random.once_in(4)
        } else {
            !random.once_in(8)
        };
        let (low, high) = if is_high { (100, 255) } else { (0, 20) };
        random.between(low, high) as u8
    })
}

/// Confidences of so many places, some of which the channel changed.
fn random_confidences<const N: usize>(random: &mut Random, changed: &[usize]) -> [u8; N] {
    let few = random.pick(&FEW);
    match random.below(16) {
        0 => [0; N],
        1 | 2 => [random.between(1, 255) as u8; N],
        3..=5 => std::array::from_fn(|_| random.between(0, 255) as u8),
        6..=10 => std::array::from_fn(|_| random.pick(few)),
        _ => fitting(random, changed),
    }
}

/// Confidences of a frame; often word A has some of its own, so that ties in the other words show.
fn frame_confidences(random: &mut Random, changed: &[usize], order: &Order) -> Confidences {
    let mut bytes = random_confidences(random, changed);
    if random.once_in(2) {
        (0..8).for_each(|j| bytes[melp::place_of(j, order)] = random.between(1, 255) as u8);
    }
    Confidences::of(bytes)
}

/// The same, once in so many times too few or too many; often the bytes past those that the call gets are 0.
fn cut(random: &mut Random, confidences: Confidences, once_in: u64) -> Confidences {
    let count = if random.once_in(once_in) {
        random.pick(&[0, 1, 53, 53, 55, 55, MOST])
    } else {
        CONFIDENCES
    };
    let mut cut = confidences.sized(count);
    if random.once_in(2) {
        cut.bytes[count..].fill(0);
    }
    cut
}

// ---- Kind 30: choosing a word ----

/// A vector of choosing a word: a code word with up to four bits changed, and often bits above it.
pub fn word(random: &mut Random) -> Vector {
    let length: usize = random.pick(&[6, 7, 8]);
    let data: Vec<u8> = (0..melp::data_count(length))
        .map(|_| random.inside(1))
        .collect();
    let mut came = melp::encode_word(length, &data);
    let count = random.below(5) as usize;
    let changed = random.some_of(&(0..length).collect::<Vec<usize>>(), count);
    changed.iter().for_each(|p| came[*p] = 1 - came[*p]);
    let above = random.inside(255) & !(((1u32 << length) - 1) as u8);
    let confidences = random_confidences(random, &changed);
    word_vector(length, melp::number_of(&came) | above, &confidences)
}

// ---- Kind 31: reading ----

/// Places that the channel changes in an unvoiced frame: mostly up to eight of the words', and sometimes one of the pitch
/// code.
fn word_places(random: &mut Random, order: &Order) -> Vec<usize> {
    let most = random.pick(&[2, 4, 8, 8, 28]);
    let count = random.between(0, most) as usize;
    let mut bits = random.some_of(&(0..28).collect::<Vec<usize>>(), count);
    if random.once_in(3) {
        bits.push(random.between(28, 34) as usize);
    }
    places_of(&bits, order)
}

/// A set, mostly an unvoiced one, and the places that the channel changes in its frame.
fn random_sending(random: &mut Random, order: &Order) -> (Set, Vec<usize>) {
    let set = frames::random_set(random);
    let unvoiced = Set {
        voicing: None,
        ..set
    };
    match random.below(8) {
        0 => (set, frames::flips(random, Damage::Any, 3, order)),
        1 => (unvoiced, frames::flips(random, Damage::Any, 6, order)),
        2 => (unvoiced, frames::flips(random, Damage::SpareOfB, 0, order)),
        _ => (unvoiced, word_places(random, order)),
    }
}

/// A frame after the channel, and the places that are changed in it; sometimes any 54 bits.
fn random_frame(random: &mut Random, order: &Order) -> ([u8; 7], Vec<usize>) {
    if random.once_in(16) {
        return (frames::random_bits(random), Vec::new());
    }
    let (set, changed) = random_sending(random, order);
    let sent = melp::frame_of(&set, random.inside(1), order).expect("a set in range");
    (flipped(sent, &changed), changed)
}

/// The vector of what a frame is read as, with some bits above its own.
fn frame_reading(frame: &[u8; 7], confidences: &Confidences, order: &Order, above: u64) -> Vector {
    let taken = soft::bits_of_frame(frame, confidences.given(), order);
    let (logical, by_bit) = taken.expect("a frame and its confidences");
    reading_vector(word_of(&logical) | above, &by_bit)
}

/// A vector of what 54 bits are read as, often with others above them.
pub fn reading(random: &mut Random) -> Vector {
    let order = melp::default_order();
    let (frame, changed) = random_frame(random, &order);
    let above = if random.once_in(2) {
        random.next() << 54
    } else {
        0
    };
    let confidences = frame_confidences(random, &changed, &order);
    frame_reading(&frame, &confidences, &order, above)
}

// ---- Kinds 32, 33 and 35: receiving, and taking the bits ----

/// The bytes received and their confidences; once in so many times of another length or with padding bits, and with more or
/// fewer confidences.
fn random_received(random: &mut Random, order: &Order, once_in: u64) -> (Vec<u8>, Confidences) {
    let (mut frame, changed) = random_frame(random, order);
    if random.once_in(once_in) {
        frames::set_padding(random, &mut frame);
    }
    let mut bytes = frame.to_vec();
    if random.once_in(once_in) {
        frames::change_length(random, &mut bytes);
    }
    let confidences = frame_confidences(random, &changed, order);
    (bytes, cut(random, confidences, once_in))
}

/// Once in how many times each reason to be refused is there: mostly seldom, sometimes so often that there are several.
fn random_rarity(random: &mut Random) -> u64 {
    random.pick(&[2, 24, 24, 24, 24])
}

/// A vector of receiving, sometimes with several reasons to be refused.
fn random_receive(random: &mut Random, kind: u8, list: &List) -> Vector {
    let once_in = random_rarity(random);
    let record = any_record(random, once_in);
    let (bytes, confidences) = random_received(random, &list.order, once_in);
    receive_vector(kind, &record, &bytes, &confidences, list)
}

/// A vector of receiving one frame with confidences.
pub fn receive(random: &mut Random, list: &List) -> Vector {
    random_receive(random, 32, list)
}

/// A vector of receiving one frame with confidences into a record in place.
pub fn receive_in_place(random: &mut Random, list: &List) -> Vector {
    random_receive(random, 33, list)
}

/// A vector of taking the bits of a frame with their confidences, sometimes with several reasons to be refused.
pub fn taking(random: &mut Random, list: &List) -> Vector {
    let once_in = random_rarity(random);
    let (bytes, confidences) = random_received(random, &list.order, once_in);
    taking_vector(&bytes, &confidences, list)
}

// ---- All conditions in turn ----

/// Words with their confidences: length, word, confidences.
const WORDS: [(usize, u8, [u8; 8]); 20] = [
    // A of 1011 as sent: sums of 512 and 1,024; all 0; another code word as cheap.
    (8, 0b1011_0100, [128; 8]),
    (8, 0b1011_0100, [0; 8]),
    (8, 0b1011_0100, [0, 255, 255, 255, 0, 0, 255, 0]),
    // With u0 and u1 changed: four as cheap; two; two but for 1; sums of 300 and 510.
    (8, 0b0111_0100, [9; 8]),
    (8, 0b0111_0100, [3, 1, 2, 50, 50, 50, 50, 2]),
    (8, 0b0111_0100, [3, 1, 2, 50, 50, 50, 50, 3]),
    (8, 0b0111_0100, [200, 100, 255, 255, 255, 255, 255, 255]),
    // With p3 changed and sure: three others are changed.
    (8, 0b1011_0101, [1, 3, 3, 3, 1, 1, 3, 255]),
    // B of 010 as sent: sums of 512; all 0. Bits and confidences that do not count are beside it.
    (6, 0b11_010_101, [128, 128, 128, 128, 128, 128, 0, 0]),
    (6, 0b10_010_101, [0, 0, 0, 0, 0, 0, 255, 255]),
    // With its parity changed, the spare's syndrome: three as cheap; itself the cheapest; itself and one more.
    (6, 0b010_010, [1; 8]),
    (6, 0b010_010, [1, 1, 1, 0, 0, 0, 0, 0]),
    (6, 0b010_010, [2, 9, 9, 1, 1, 1, 9, 9]),
    // C and D as sent: sums of 512; all 0.
    (7, 0b1_1110_000, [128, 128, 128, 128, 128, 128, 128, 0]),
    (7, 0b0_1111_111, [0, 0, 0, 0, 0, 0, 0, 255]),
    // With one place changed, two as cheap: 0110 by one place and 1110 by two; 0110 by two and 1110 by one; 0011 and 0100.
    (7, 0b0_1110_110, [2, 9, 9, 9, 1, 1, 9, 0]),
    (7, 0b1_0110_000, [2, 9, 9, 9, 1, 1, 9, 0]),
    (7, 0b0_0101_100, [9, 1, 2, 1, 9, 9, 2, 0]),
    // The same first two at the highest confidences: 255 against 254 and 1.
    (7, 0b0_1110_110, [255, 255, 255, 255, 254, 1, 255, 0]),
    (7, 0b0_0110_000, [255, 255, 255, 255, 254, 1, 255, 0]),
];

/// Logical bits of two places of each word and of one of the pitch code.
pub const DOUBTED: [usize; 9] = [0, 1, 8, 9, 14, 15, 21, 22, 28];

/// Unvoiced frames: a tie in A as sent; two changed places without confidence in each word; the spare's syndrome among equal
/// confidences; ties in B, C, D and everywhere as sent; most places changed.
fn unvoiced_frames(order: &Order) -> Vec<([u8; 7], Confidences)> {
    let [set, _] = sets();
    let frame = |bits: &[usize]| frame_with(&set, bits, order);
    let sure_but = |bits: &[usize]| Confidences::even(255).with(bits, 0, order);
    let mut cases = vec![
        (frame(&[]), sure_but(&[0, 4, 5, 7])),
        (frame(&DOUBTED), sure_but(&DOUBTED)),
    ];
    cases.extend(frames::SPARE_FLIPS.map(|bits| (frame(bits), Confidences::even(7))));
    for (first, last) in [(8, 13), (14, 20), (21, 27), (0, 53)] {
        let bits: Vec<usize> = (first..=last).collect();
        cases.push((frame(&[]), sure_but(&bits)));
    }
    let zeros = melp::fresh_record().last.set;
    let most = frame_with(&zeros, &(4..=28).collect::<Vec<usize>>(), order);
    cases.push((most, Confidences::even(0).with(&[0, 1, 2, 3], 1, order)));
    cases
}

/// Frames in which no confidence counts: voiced ones, with all 0 and with a word changed; pitch codes with two ones.
fn other_frames(order: &Order) -> Vec<([u8; 7], Confidences)> {
    let [unvoiced, voiced] = sets();
    let doubted = |set: &Set, bits: &[usize]| {
        let confidences = Confidences::even(255).with(bits, 0, order);
        (frame_with(set, bits, order), confidences)
    };
    vec![
        (frame_with(&voiced, &[], order), Confidences::even(0)),
        doubted(&voiced, &[0, 1, 8]),
        doubted(&unvoiced, &[28, 29]),
    ]
}

/// Counts of repeats around mute, each with an accepted frame and a repeat, one by value and one in place; and wrong counts.
fn counts_of_repeats(list: &List) -> Vec<Vector> {
    let right = [32, 33, 33, 32].iter().cycle().zip(counted());
    let wrong = [33, 32].iter().cycle().zip(miscounted());
    right
        .chain(wrong)
        .map(|(kind, (record, frame))| {
            receive_vector(*kind, &record, &frame, &Confidences::even(200), list)
        })
        .collect()
}

/// Words, frames read, and frames received by value and in place in turn; records by their counts of repeats; and numbers of
/// confidences that no frame has.
pub fn conditions() -> Vec<Vector> {
    let default = List::of(melp::default_order());
    let order = &default.order;
    let mut vectors = counts_of_repeats(&default);
    vectors.extend(
        WORDS.map(|(length, number, confidences)| word_vector(length, number, &confidences)),
    );
    let cases = [unvoiced_frames(order), other_frames(order)].concat();
    let record = record_with(0);
    for (kind, (frame, confidences)) in [32, 33].iter().cycle().zip(&cases) {
        vectors.push(frame_reading(frame, confidences, order, 0));
        vectors.push(receive_vector(*kind, &record, frame, confidences, &default));
    }
    for count in [0, 53, 55, MOST] {
        let confidences = Confidences::even(200).sized(count);
        vectors.push(taking_vector(&cases[0].0, &confidences, &default));
    }
    vectors
}

/// Vectors refused by 9 or 2, with one confidence or one byte more than a vector can have.
pub fn bad_vectors() -> Vec<Vector> {
    let default = List::of(melp::default_order());
    let many = Confidences::even(200).sized(MOST);
    let fresh = melp::fresh_record();
    let mut vectors = Vec::new();
    for (bytes, at) in [(&[0; 7][..], 61), (&[0; 9], 16)] {
        let received = [32, 33].map(|kind| receive_vector(kind, &fresh, bytes, &many, &default));
        let taken = taking_vector(bytes, &many, &default);
        for mut vector in [received[0], received[1], taken] {
            vector[at] += 1;
            vectors.push(vector);
        }
    }
    vectors
}
