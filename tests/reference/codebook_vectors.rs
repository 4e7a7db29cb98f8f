//! Vectors of codebooks: rows handed out, and values by them. A codebook is given by a rule.

use crate::codebooks::{self, LSF_LIMITS, LSF_SIZE, MAGNITUDE_LIMITS, MAGNITUDE_SIZE, ROW};
use crate::coder_vectors::any_set;
use crate::layout::{put, vector_of, Vector};
use crate::melp::{Refusal, Set};
use crate::random::Random;
use crate::set_bytes::bytes_of;

/// What each number of an output or a buffer holds before a call.
pub const HELD: i64 = -7;

/// A place that no codebook has.
pub const NOWHERE: u16 = 65535;

/// A codebook: the first number, what each next one is more, what it is more after each tenth, and three numbers at
/// their places instead of those.
#[derive(Clone, Copy)]
pub struct Rule {
    pub size: u16,
    pub start: i64,
    pub step: i64,
    pub jump: i64,
    pub replaced: [(u16, i64); 3],
}

impl Rule {
    /// A rule with nothing replaced.
    pub fn new(size: usize, start: i64, step: i64, jump: i64) -> Rule {
        Rule {
            size: size as u16,
            start,
            step,
            jump,
            replaced: [(NOWHERE, 0); 3],
        }
    }

    /// The numbers.
    pub fn numbers(&self) -> Vec<i64> {
        let mut numbers = Vec::new();
        let mut next = self.start;
        for i in 0..self.size {
            numbers.push(next);
            next = next.wrapping_add(if i % 10 == 9 { self.jump } else { self.step });
        }
        for (place, number) in self.replaced {
            if place < self.size {
                numbers[usize::from(place)] = number;
            }
        }
        numbers
    }

    /// Put the rule into bytes 16 to 71.
    pub fn put(&self, vector: &mut Vector) {
        put(vector, 16, &self.size.to_be_bytes());
        for (i, number) in [self.start, self.step, self.jump].iter().enumerate() {
            put(vector, 18 + 8 * i, &number.to_be_bytes());
        }
        for (i, (place, number)) in self.replaced.iter().enumerate() {
            put(vector, 42 + 10 * i, &place.to_be_bytes());
            put(vector, 44 + 10 * i, &number.to_be_bytes());
        }
    }
}

// ---- Codebooks ----

/// Which codebook a call takes.
#[derive(Clone, Copy, PartialEq)]
pub enum Codebook {
    Lsf,
    Magnitudes,
}

impl Codebook {
    /// How many numbers it has.
    fn size(self) -> usize {
        match self {
            Codebook::Lsf => LSF_SIZE,
            Codebook::Magnitudes => MAGNITUDE_SIZE,
        }
    }

    /// Least and most of an entry.
    fn limits(self) -> (i64, i64) {
        match self {
            Codebook::Lsf => LSF_LIMITS,
            Codebook::Magnitudes => MAGNITUDE_LIMITS,
        }
    }

    /// Values at the limits, past them and far past them.
    fn edges(self) -> [i64; 6] {
        let (least, most) = self.limits();
        [least, least - 1, most, most + 1, i64::MIN, i64::MAX]
    }

    /// A codebook within its limits: rows that rise or fall, or numbers that rise or fall all through.
    fn good(self, random: &mut Random) -> Rule {
        let (steep, flat, first) = match self {
            Codebook::Lsf => (100_000_000, 600_000, 1_000_000_000),
            Codebook::Magnitudes => (100_000, 500, 900_000),
        };
        let step = random.between(-steep, steep);
        let even = random.between(-flat, flat);
        let start = match self {
            Codebook::Lsf => random.between(-first, first),
            Codebook::Magnitudes => random.between(first, 3 * first),
        };
        if random.once_in(2) {
            Rule::new(self.size(), start, step, even / 10 - 9 * step)
        } else {
            Rule::new(self.size(), start, even, even)
        }
    }
}

/// A size that is mostly right.
fn random_size(random: &mut Random, size: usize) -> u16 {
    let wrong = [0, 10, 2559, 2560, 2561, 3199, 3200, 3201];
    if random.once_in(6) {
        random.pick(&wrong)
    } else {
        size as u16
    }
}

/// Places in a row and around it: its first and last number, one between, and those just outside.
fn places_of_row(row: usize) -> [u16; 5] {
    let first = (row * ROW) as u16;
    [
        first,
        first + 9,
        first + 4,
        first.wrapping_sub(1),
        first + 10,
    ]
}

/// A replacement near a row in use, or anywhere, by a number at the limits or within them.
fn random_replacement(random: &mut Random, codebook: Codebook, rows: &[usize]) -> (u16, i64) {
    let place = if rows.is_empty() || random.once_in(6) {
        random.below(codebook.size() as u64) as u16
    } else {
        let row = random.pick(rows);
        random.pick(&places_of_row(row))
    };
    let (least, most) = codebook.limits();
    let number = if random.once_in(3) {
        random.pick(&codebook.edges())
    } else {
        random.between(least, most)
    };
    (place, number)
}

/// A codebook for a call that uses some rows.
fn random_rule(random: &mut Random, codebook: Codebook, rows: &[usize]) -> Rule {
    let mut rule = codebook.good(random);
    rule.size = random_size(random, codebook.size());
    for i in 0..random.below(4) as usize {
        rule.replaced[i] = random_replacement(random, codebook, rows);
    }
    rule
}

// ---- Kinds 16 and 17: rows ----

/// Put the answer to a call for a row.
fn put_row(vector: &mut Vector, answer: Result<&[i64], Refusal>) {
    match answer {
        Err(refusal) => vector[72] = refusal.number(),
        Ok(row) => {
            vector[73] = row.len() as u8;
            put_numbers(vector, row);
        }
    }
}

/// Put numbers from byte 74 on.
fn put_numbers(vector: &mut Vector, numbers: &[i64]) {
    for (i, number) in numbers.iter().enumerate() {
        put(vector, 74 + 8 * i, &number.to_be_bytes());
    }
}

/// The vector of a row of the LSF codebook.
pub fn lsf_row_of(stage: u8, index: u8, rule: &Rule) -> Vector {
    let mut vector = vector_of(16);
    put(&mut vector, 1, &[stage, index]);
    rule.put(&mut vector);
    put_row(
        &mut vector,
        codebooks::lsf_row(&rule.numbers(), stage, index),
    );
    vector
}

/// The vector of a row of the magnitude codebook.
pub fn magnitude_row_of(index: u16, rule: &Rule) -> Vector {
    let mut vector = vector_of(17);
    put(&mut vector, 1, &index.to_be_bytes());
    rule.put(&mut vector);
    put_row(
        &mut vector,
        codebooks::magnitude_row(&rule.numbers(), index),
    );
    vector
}

/// A vector of a row of the LSF codebook.
pub fn lsf_row(random: &mut Random) -> Vector {
    let stage = random.pick(&[1, 1, 2, 2, 3, 3, 4, 4, 0, 5, 255]);
    let index = random.around(if stage == 1 { 127 } else { 63 });
    let rows: Vec<usize> = codebooks::lsf_row_number(stage, index)
        .into_iter()
        .collect();
    let rule = random_rule(random, Codebook::Lsf, &rows);
    lsf_row_of(stage, index, &rule)
}

/// A vector of a row of the magnitude codebook.
pub fn magnitude_row(random: &mut Random) -> Vector {
    let index = if random.once_in(6) {
        random.pick(&[256, 257, 319, 511, 65535])
    } else {
        u16::from(random.inside(255))
    };
    let rows: Vec<usize> = (index < 256)
        .then_some(usize::from(index))
        .into_iter()
        .collect();
    let rule = random_rule(random, Codebook::Magnitudes, &rows);
    magnitude_row_of(index, &rule)
}

// ---- Kinds 18 and 19: values ----

/// Rows that a set in range uses.
fn rows_of(set: &Set, codebook: Codebook) -> Vec<usize> {
    let lsf = |i: usize| codebooks::lsf_row_number(i as u8 + 1, set.lsf[i]);
    match codebook {
        Codebook::Lsf => (0..4).filter_map(lsf).collect(),
        Codebook::Magnitudes => set.voicing.iter().map(|v| usize::from(v.fourier)).collect(),
    }
}

/// The vector of values.
pub fn values_of(codebook: Codebook, set: &Set, room: u8, rule: &Rule) -> Vector {
    let (kind, call): (u8, fn(&Set, &[i64], usize) -> Result<Vec<i64>, Refusal>) = match codebook {
        Codebook::Lsf => (18, codebooks::lsf_values),
        Codebook::Magnitudes => (19, codebooks::magnitudes),
    };
    let mut vector = vector_of(kind);
    put(&mut vector, 1, &bytes_of(set));
    vector[12] = room;
    rule.put(&mut vector);
    put_numbers(&mut vector, &[HELD; 12]);
    match call(set, &rule.numbers(), usize::from(room)) {
        Err(refusal) => vector[72] = refusal.number(),
        Ok(values) => put_numbers(&mut vector, &values),
    }
    vector
}

/// A vector of values by one codebook.
fn values(random: &mut Random, codebook: Codebook) -> Vector {
    let set = any_set(random, 8);
    let room = random.pick(&[10, 10, 10, 11, 12, 12, 9, 0]);
    let rule = random_rule(random, codebook, &rows_of(&set, codebook));
    values_of(codebook, &set, room, &rule)
}

/// A vector of LSF values.
pub fn lsf_values(random: &mut Random) -> Vector {
    values(random, Codebook::Lsf)
}

/// A vector of magnitudes.
pub fn magnitudes(random: &mut Random) -> Vector {
    values(random, Codebook::Magnitudes)
}

// ---- All conditions in turn ----

/// A set whose rows are known.
fn known_set() -> Set {
    Set {
        lsf: [5, 6, 7, 63],
        g2: 11,
        g1: 3,
        voicing: Some(crate::melp::Voicing {
            pitch: 40,
            bandpass: 1,
            fourier: 9,
            aperiodic: 1,
        }),
    }
}

/// The known set with an index out of its range.
fn bad_set() -> Set {
    let mut set = known_set();
    set.lsf[3] = 64;
    set
}

/// Calls of kinds 16 to 19 with a codebook: each is given the rule, and whether its parameter and its output are good.
fn calls(codebook: Codebook, rule: &Rule, parameter: bool, output: bool) -> Vec<Vector> {
    let set = if parameter { known_set() } else { bad_set() };
    let room = if output { 12 } else { 9 };
    let row = match (codebook, parameter) {
        (Codebook::Lsf, true) => lsf_row_of(4, 63, rule),
        (Codebook::Lsf, false) => lsf_row_of(4, 64, rule),
        (Codebook::Magnitudes, true) => magnitude_row_of(9, rule),
        (Codebook::Magnitudes, false) => magnitude_row_of(256, rule),
    };
    vec![row, values_of(codebook, &set, room, rule)]
}

/// A rule that is good for a codebook and shows where a row begins.
fn known_rule(codebook: Codebook) -> Rule {
    match codebook {
        Codebook::Lsf => Rule::new(LSF_SIZE, 10_000_000, 20_000_000, -179_900_000),
        Codebook::Magnitudes => Rule::new(MAGNITUDE_SIZE, 1000, 100_000, -899_000),
    }
}

/// Every length, every limit at the ends of the row in use and just outside it, and every pair of refusals.
pub fn conditions() -> Vec<Vector> {
    let mut vectors = Vec::new();
    for codebook in [Codebook::Lsf, Codebook::Magnitudes] {
        let good = known_rule(codebook);
        let row = if codebook == Codebook::Lsf { 319 } else { 9 };
        for size in [0, 10, 2559, 2560, 2561, 3199, 3200, 3201] {
            vectors.extend(calls(codebook, &Rule { size, ..good }, true, true));
        }
        for place in places_of_row(row) {
            for number in codebook.edges() {
                let mut rule = good;
                rule.replaced[2] = (place, number);
                vectors.extend(calls(codebook, &rule, true, true));
            }
        }
        vectors.extend(refusal_pairs(codebook, row));
        vectors.extend(outputs(codebook));
    }
    vectors.extend(range_ends());
    vectors
}

/// LSF values whose first, ninth and tenth sums lie at the ends of their range, a millionth inside or outside them, or far off.
/// All other sums are 0.
fn range_ends() -> Vec<Vector> {
    let (least, most) = LSF_LIMITS;
    let first = [50_000_000, 3_500_000_000].map(|end| [end - 1, end, end + 1]);
    let ninth = [3_899_999_999, 3_900_000_000, 3_900_000_001];
    let tenth = [3_949_999_999, 3_950_000_000, 3_950_000_001];
    let mut sums: Vec<[i64; 3]> = Vec::new();
    sums.extend(first.concat().iter().map(|x| [*x, 0, 0]));
    sums.extend(ninth.map(|x| [0, x, 0]));
    sums.extend(tenth.map(|x| [0, 0, x]));
    sums.extend(ninth.map(|x| [0, x, most]));
    sums.extend([
        [least; 3],
        [most; 3],
        [most, least, least],
        [least, most, least],
    ]);
    let row = |x: &[i64; 3]| Rule {
        replaced: [(50, x[0]), (58, x[1]), (59, x[2])],
        ..Rule::new(LSF_SIZE, 0, 0, 0)
    };
    sums.iter()
        .map(|x| values_of(Codebook::Lsf, &known_set(), 12, &row(x)))
        .collect()
}

/// Calls with one or more of the conditions 1, 5, 6 and 7.
fn refusal_pairs(codebook: Codebook, row: usize) -> Vec<Vector> {
    let mut vectors = Vec::new();
    for which in 0..16 {
        let mut rule = known_rule(codebook);
        if which & 4 != 0 {
            rule.size -= 1;
        }
        if which & 8 != 0 {
            rule.replaced[0] = ((row * ROW) as u16, codebook.limits().1 + 1);
        }
        vectors.extend(calls(codebook, &rule, which & 2 == 0, which & 1 == 0));
    }
    vectors
}

/// Outputs of every size, for a voiced and an unvoiced set.
fn outputs(codebook: Codebook) -> Vec<Vector> {
    let mut unvoiced = known_set();
    unvoiced.voicing = None;
    let mut vectors = Vec::new();
    for set in [known_set(), unvoiced] {
        for room in [0, 9, 10, 11, 12] {
            vectors.push(values_of(codebook, &set, room, &known_rule(codebook)));
        }
    }
    let short = Rule::new(codebook.size() - 1, 0, 0, 0);
    vectors.push(values_of(codebook, &unvoiced, 10, &short));
    vectors
}
