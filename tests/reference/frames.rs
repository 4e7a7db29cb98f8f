//! Random sets, and frames of sets as a bad channel delivers them.

// Each program uses its part.
#![allow(dead_code)]

use crate::melp::{self, Order, Set, Voicing, FIELDS};
use crate::random::Random;

/// Logical bits of word B that together leave its spare's syndrome, 111: a data bit and a parity bit, or all parity bits.
pub const SPARE_FLIPS: [&[usize]; 4] = [&[8, 13], &[9, 12], &[10, 11], &[11, 12, 13]];

/// What the channel does to a frame.
#[derive(Clone, Copy)]
pub enum Damage {
    /// No flip.
    None,
    /// Flips anywhere.
    Anywhere,
    /// Flips within as many neighbouring places as the order's burst width, so seven in the default one.
    Burst,
    /// At most one flip in each word and in the pitch code.
    OneInEach,
    /// Two flips in word A, which erase an unvoiced frame.
    TwoInWordA,
    /// Flips in word B that leave its spare's syndrome, which erase an unvoiced frame.
    SpareOfB,
    /// Two flips in the pitch code, which erase an unvoiced frame.
    TwoInPitchCode,
    /// Flips in one word or in the pitch code, by its number in `FIELDS`.
    OneField(usize),
    /// One of the others; what one flip or two decide comes up most.
    Any,
}

// ---- Sets ----

/// A voicing in range; B = 1 comes up often.
fn random_voicing(random: &mut Random) -> Voicing {
    Voicing {
        pitch: random.inside(98),
        bandpass: if random.once_in(8) {
            1
        } else {
            random.inside(15)
        },
        fourier: random.inside(255),
        aperiodic: random.inside(1),
    }
}

/// A set in range except for B = 1.
pub fn random_set(random: &mut Random) -> Set {
    Set {
        lsf: [
            random.inside(127),
            random.inside(63),
            random.inside(63),
            random.inside(63),
        ],
        g2: random.inside(31),
        g1: random.inside(7),
        voicing: if random.once_in(2) {
            Some(random_voicing(random))
        } else {
            None
        },
    }
}

// ---- Flips ----

/// Places of some logical bits.
pub fn places_of(bits: &[usize], order: &Order) -> Vec<usize> {
    bits.iter().map(|j| melp::place_of(*j, order)).collect()
}

/// Places of a word or of the pitch code.
fn places_of_field(field: usize, order: &Order) -> Vec<usize> {
    let (first, last) = FIELDS[field];
    places_of(&(first..=last).collect::<Vec<usize>>(), order)
}

/// At most one place of each word and of the pitch code.
fn one_in_each(random: &mut Random, order: &Order) -> Vec<usize> {
    let mut flips = Vec::new();
    for field in 0..FIELDS.len() {
        let count = random.below(2) as usize;
        flips.extend(random.some_of(&places_of_field(field, order), count));
    }
    flips
}

/// One of the kinds of damage, drawn anew.
fn random_damage(random: &mut Random) -> Damage {
    match random.below(10) {
        0 => Damage::None,
        1 => Damage::Anywhere,
        2 => Damage::Burst,
        3 | 4 => Damage::OneInEach,
        5 | 6 => random.pick(&[Damage::TwoInWordA, Damage::SpareOfB, Damage::TwoInPitchCode]),
        _ => Damage::OneField(random.below(FIELDS.len() as u64) as usize),
    }
}

/// Some places of a stretch as long as the burst width of an order.
fn burst(random: &mut Random, count: usize, order: &Order) -> Vec<usize> {
    let width = melp::burst_width(order).expect("an order");
    let start = random.below(55 - width as u64) as usize;
    random.some_of(&(start..start + width).collect::<Vec<usize>>(), count)
}

/// Places that the channel changes, so many where the damage leaves the number open.
pub fn flips(random: &mut Random, damage: Damage, count: usize, order: &Order) -> Vec<usize> {
    match damage {
        Damage::None => Vec::new(),
        Damage::Anywhere => random.some_of(&(0..54).collect::<Vec<usize>>(), count),
        Damage::Burst => burst(random, count, order),
        Damage::OneInEach => one_in_each(random, order),
        Damage::TwoInWordA => random.some_of(&places_of_field(0, order), 2),
        Damage::SpareOfB => places_of(random.pick(&SPARE_FLIPS), order),
        Damage::TwoInPitchCode => random.some_of(&places_of_field(4, order), 2),
        Damage::OneField(field) => random.some_of(&places_of_field(field, order), count),
        Damage::Any => {
            let damage = random_damage(random);
            flips(random, damage, count, order)
        }
    }
}

// ---- Frames ----

/// A frame with some places changed.
pub fn flipped(mut frame: [u8; 7], places: &[usize]) -> [u8; 7] {
    places
        .iter()
        .for_each(|place| melp::flip(&mut frame, *place));
    frame
}

/// The frame of a set with some logical bits changed, its sync bit 1.
pub fn frame_with(set: &Set, bits: &[usize], order: &Order) -> [u8; 7] {
    let frame = melp::frame_of(set, 1, order).expect("a set in range");
    flipped(frame, &places_of(bits, order))
}

/// Any 54 bits.
pub fn random_bits(random: &mut Random) -> [u8; 7] {
    let mut frame = [0; 7];
    frame.copy_from_slice(&random.next().to_be_bytes()[..7]);
    frame[6] &= 0xFC;
    frame
}

/// The frame of a set in range after damage.
pub fn damaged(random: &mut Random, set: &Set, sync: u8, damage: Damage, order: &Order) -> [u8; 7] {
    let frame = melp::frame_of(set, sync, order).expect("a set in range");
    let count = random.pick(&[1, 1, 2, 2, 3, 4, 5, 6]);
    flipped(frame, &flips(random, damage, count, order))
}

/// Set one or both of the last two bits of a frame.
pub fn set_padding(random: &mut Random, frame: &mut [u8; 7]) {
    frame[6] |= random.pick(&[1, 2, 3]);
}

/// The frame of some set with any damage, or any 54 bits; sometimes with its last bits set.
fn random_frame(random: &mut Random, order: &Order) -> [u8; 7] {
    let mut frame = if random.once_in(8) {
        random_bits(random)
    } else {
        let set = random_set(random);
        let sync = random.inside(1);
        damaged(random, &set, sync, Damage::Any, order)
    };
    if random.once_in(12) {
        set_padding(random, &mut frame);
    }
    frame
}

/// Give the bytes of a frame a length from 0 to 9, mostly another one.
pub fn change_length(random: &mut Random, bytes: &mut Vec<u8>) {
    bytes.extend([random.inside(255), random.inside(255)]);
    bytes.truncate(random.between(0, 9) as usize);
}

/// The bytes handed to a receiver: mostly a frame, sometimes of another length.
pub fn random_received(random: &mut Random, order: &Order) -> Vec<u8> {
    let mut bytes = random_frame(random, order).to_vec();
    if random.once_in(12) {
        change_length(random, &mut bytes);
    }
    bytes
}
