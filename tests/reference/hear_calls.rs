//! Calls for the program `hear`: `hear_calls NUMBER SEED` writes the bytes of one call. What has to be printed is not
//! said here: `hear.rs` says it.

mod frames;
mod melp;
mod random;

use frames::Damage;
use random::Random;
use std::io::Write;

/// Lengths in bytes of the first calls: few bytes, then around the 65,534 that are read at most. Later calls have random ones.
const LENGTHS: [usize; 24] = [
    0, 1, 2, 3, 4, 5, 6, 7, 8, 13, 14, 15, 700, 7_000, 65_526, 65_527, 65_528, 65_533, 65_534,
    65_535, 65_540, 65_541, 70_000, 200_000,
];

/// What a stretch of frames is like.
#[derive(Clone, Copy)]
enum Stretch {
    /// Frames of random sets, each with damage of one kind.
    Sent(Damage),
    /// Two ones in each pitch code.
    Erased,
    /// Erased frames among sent and refused ones, so that about half of the latest 16 are repeats.
    Fading,
    /// Any 54 bits.
    AnyBits,
    /// One or both of the last two bits set.
    Refused,
}

/// All kinds of stretches.
const STRETCHES: [Stretch; 12] = [
    Stretch::Sent(Damage::None),
    Stretch::Sent(Damage::Any),
    Stretch::Sent(Damage::Anywhere),
    Stretch::Sent(Damage::Burst),
    Stretch::Sent(Damage::OneInEach),
    Stretch::Sent(Damage::TwoInWordA),
    Stretch::Sent(Damage::SpareOfB),
    Stretch::Sent(Damage::TwoInPitchCode),
    Stretch::Erased,
    Stretch::Fading,
    Stretch::AnyBits,
    Stretch::Refused,
];

/// A sender and the channel behind it.
struct Link {
    random: Random,
    sync: u8,
}

impl Link {
    /// The frame of a random set after damage; the sync bit changes from frame to frame.
    fn sent(&mut self, damage: Damage, may_be_voiced: bool) -> [u8; 7] {
        let mut set = frames::random_set(&mut self.random);
        if !may_be_voiced {
            set.voicing = None;
        }
        let order = melp::default_order();
        let frame = frames::damaged(&mut self.random, &set, self.sync, damage, &order);
        self.sync = 1 - self.sync;
        frame
    }

    /// A frame of a stretch.
    fn frame(&mut self, stretch: Stretch) -> [u8; 7] {
        match stretch {
            Stretch::Sent(damage) => self.sent(damage, true),
            Stretch::Erased => self.sent(Damage::TwoInPitchCode, false),
            Stretch::Fading => {
                let sent = Stretch::Sent(Damage::OneInEach);
                let erased = Stretch::Erased;
                let one = self
                    .random
                    .pick(&[erased, erased, sent, sent, Stretch::Refused]);
                self.frame(one)
            }
            Stretch::AnyBits => frames::random_bits(&mut self.random),
            Stretch::Refused => {
                let mut frame = self.sent(Damage::Any, true);
                frames::set_padding(&mut self.random, &mut frame);
                frame
            }
        }
    }

    /// Stretches of 5 to 40 frames of the given kinds, cut off at a length in bytes.
    fn call(&mut self, kinds: &[Stretch], length: usize) -> Vec<u8> {
        let mut bytes = Vec::new();
        while bytes.len() < length {
            let stretch = self.random.pick(kinds);
            for _ in 0..self.random.between(5, 40) {
                bytes.extend(self.frame(stretch));
            }
        }
        bytes.truncate(length);
        bytes
    }
}

/// Length in bytes of a call: short, any, or around the most that is read.
fn random_length(random: &mut Random) -> usize {
    let length = match random.below(4) {
        0 => random.between(0, 300),
        1 => random.between(0, 70_000),
        _ => random.between(65_527, 65_541),
    };
    length as usize
}

/// Kinds that the stretches of a call have: all of them, or now and then a single one.
fn random_kinds(random: &mut Random) -> Vec<Stretch> {
    if random.once_in(4) {
        vec![random.pick(&STRETCHES)]
    } else {
        STRETCHES.to_vec()
    }
}

/// The bytes of a call.
fn call(number: u32, seed: u32) -> Vec<u8> {
    let mut random = Random::new(u64::from(seed) << 32 | u64::from(number));
    let (kinds, length) = match LENGTHS.get(number as usize) {
        Some(length) => (STRETCHES.to_vec(), *length),
        None => (random_kinds(&mut random), random_length(&mut random)),
    };
    Link { random, sync: 0 }.call(&kinds, length)
}

fn main() {
    let arguments: Vec<String> = std::env::args().skip(1).collect();
    let [number, seed] = arguments.as_slice() else {
        panic!("usage: hear_calls NUMBER SEED");
    };
    let bytes = call(
        number.parse().expect("a number"),
        seed.parse().expect("a number"),
    );
    std::io::stdout().write_all(&bytes).expect("bytes written");
}
