//! Vectors of gain levels and of choosing codes.

use crate::layout::{put, put_answer, vector_of, Vector};
use crate::melp::{self, Refusal};
use crate::random::Random;

// ---- Kinds 6 and 7: levels ----

/// A level in two bytes, the high one first.
fn level_bytes(level: &i32) -> Vec<u8> {
    (*level as u16).to_be_bytes().to_vec()
}

/// A vector of the first level.
pub fn first_level(random: &mut Random) -> Vector {
    let mut arguments = [random.inside(31), random.inside(7), random.inside(31)];
    if random.once_in(4) {
        let field = random.below(3) as usize;
        arguments[field] = random.outside([31, 7, 31][field]);
    }
    let [g2, code, q] = arguments;
    let mut vector = vector_of(6);
    put(&mut vector, 1, &arguments);
    put_answer(&mut vector, 4, melp::first_level(g2, code, q), level_bytes);
    vector
}

/// A vector of the second level.
pub fn second_level(random: &mut Random) -> Vector {
    let g2 = random.around(31);
    let mut vector = vector_of(7);
    vector[1] = g2;
    put_answer(&mut vector, 2, melp::level(g2), level_bytes);
    vector
}

// ---- Kind 8: choosing codes ----

/// A level at or just past an end of the range, or far outside.
fn level_at_ends(random: &mut Random) -> i32 {
    let (low, high) = melp::LEVEL_RANGE;
    random.pick(&[
        low - 1,
        low,
        low + 1,
        high - 1,
        high,
        high + 1,
        i32::MIN,
        i32::MAX,
    ])
}

/// Any level in range.
fn level_anywhere(random: &mut Random) -> i32 {
    let (low, high) = melp::LEVEL_RANGE;
    random.between(i64::from(low), i64::from(high)) as i32
}

/// Half way between two neighbouring levels (rounded down), or a grain beside it.
fn level_near_middle(random: &mut Random, lower: i32, upper: i32) -> i32 {
    (lower + upper).div_euclid(2) + random.pick(&[-1, 0, 0, 0, 1, 1])
}

/// A second level, often near a threshold of G2.
fn random_second_level(random: &mut Random) -> i32 {
    match random.below(10) {
        0 => level_at_ends(random),
        1 => level_anywhere(random),
        _ => {
            let below = 1860 + 402 * random.between(-1, 31) as i32;
            level_near_middle(random, below, below + 402)
        }
    }
}

/// A q, often one or two or three codes from G2, sometimes out of range.
fn random_q(random: &mut Random, g2: u8) -> u8 {
    match random.below(12) {
        0 => random.outside(31),
        1..=3 => random.inside(31),
        _ => (i64::from(g2) + random.between(-3, 3)).clamp(0, 31) as u8,
    }
}

/// A first level near an end of the steady-state span around the mean.
fn level_near_steady_end(random: &mut Random, g2: u8, q: u8) -> Result<i32, Refusal> {
    let end = random.pick(&[-558, 558]);
    Ok(melp::first_level(g2, 0, q)? + end + random.between(-1, 1) as i32)
}

/// A first level near a threshold between two of the seven.
fn level_near_seven(random: &mut Random, g2: u8, q: u8) -> Result<i32, Refusal> {
    let code = random.between(1, 6) as u8;
    let lower = melp::first_level(g2, code, q)?;
    let upper = melp::first_level(g2, code + 1, q)?;
    Ok(level_near_middle(random, lower, upper))
}

/// A first level, often near a threshold that matters for this G2 and q.
fn random_first_level(random: &mut Random, g2: u8, q: u8) -> i32 {
    let chosen = match random.below(12) {
        0 => Ok(level_at_ends(random)),
        1 => Ok(level_anywhere(random)),
        2..=5 => level_near_steady_end(random, g2, q),
        _ => level_near_seven(random, g2, q),
    };
    chosen.unwrap_or(0)
}

/// A vector of choosing both codes.
pub fn choice(random: &mut Random) -> Vector {
    let second = random_second_level(random);
    let g2 = melp::choose(0, second, 0).map_or(0, |codes| codes.0);
    let q = random_q(random, g2);
    let first = random_first_level(random, g2, q);
    let mut vector = vector_of(8);
    put(&mut vector, 1, &first.to_be_bytes());
    put(&mut vector, 5, &second.to_be_bytes());
    vector[9] = q;
    let codes = melp::choose(first, second, q);
    put_answer(&mut vector, 10, codes, |(g2, g1)| vec![*g2, *g1]);
    vector
}
