//! Vectors of the independent implementation: `vectors N SEED`, of receiving with confidences alone: `vectors N SEED soft`,
//! of the calls that take an order alone: `vectors N SEED orders`, all with the one in a file: `vectors N SEED order FILE`,
//! each with a wrong expectation: `vectors N SEED spoilt`, those that are stored for the gate: `vectors gate`, or
//! `vectors selftest`.

mod codebook_vectors;
mod codebooks;
mod coder_vectors;
mod examples;
mod frames;
mod layout;
mod level_vectors;
mod melp;
mod old_record;
mod order_file;
mod order_lists;
mod order_vectors;
mod random;
mod receiver_vectors;
mod record_vectors;
mod session;
mod session_vectors;
mod set_bytes;
mod set_vectors;
mod soft;
mod soft_vectors;
mod text_rule;
mod text_vectors;

use layout::{vector_of, Vector};
use order_lists::List;
use random::Random;
use std::io::Write;
use std::iter::once;
use std::process::ExitCode;

// ---- Kinds ----

/// A maker of vectors of a kind; one with an order gets the list.
#[derive(Clone, Copy)]
enum Maker {
    Plain(fn(&mut Random) -> Vector),
    Ordered(fn(&mut Random, &List) -> Vector),
}

use Maker::{Ordered, Plain};

impl Maker {
    /// A vector, with some list if it has one.
    fn make(self, random: &mut Random) -> Vector {
        match self {
            Plain(make) => make(random),
            Ordered(make) => {
                let list = order_lists::random_list(random);
                make(random, &list)
            }
        }
    }
}

/// A maker of vectors of each kind, from kind 1 on.
const MAKERS: [Maker; 37] = [
    Ordered(coder_vectors::pack),
    Plain(coder_vectors::class),
    Plain(coder_vectors::code),
    Plain(coder_vectors::word),
    Plain(coder_vectors::parity),
    Plain(level_vectors::first_level),
    Plain(level_vectors::second_level),
    Plain(level_vectors::choice),
    Ordered(receiver_vectors::receive),
    Ordered(coder_vectors::frame_of_bits),
    Ordered(coder_vectors::bits_of_frame),
    Plain(coder_vectors::ranges),
    Plain(coder_vectors::reading),
    Plain(record_vectors::record),
    Plain(record_vectors::fresh),
    Plain(codebook_vectors::lsf_row),
    Plain(codebook_vectors::magnitude_row),
    Plain(codebook_vectors::lsf_values),
    Plain(codebook_vectors::magnitudes),
    Plain(text_vectors::lsf_text),
    Plain(text_vectors::magnitude_text),
    Ordered(receiver_vectors::receive_in_place),
    Plain(set_vectors::reading),
    Plain(set_vectors::writing),
    Plain(session_vectors::parse),
    Plain(session_vectors::read),
    Plain(session_vectors::writing),
    Plain(session_vectors::header),
    Plain(session_vectors::line),
    Plain(soft_vectors::word),
    Plain(soft_vectors::reading),
    Ordered(soft_vectors::receive),
    Ordered(soft_vectors::receive_in_place),
    Plain(record_vectors::take_over),
    Ordered(soft_vectors::taking),
    Ordered(order_vectors::order),
    Plain(order_vectors::default),
];

/// Kinds of receiving.
const RECEIVING_KINDS: [usize; 4] = [9, 22, 32, 33];

/// Kinds of receiving with confidences, and of its parts.
const SOFT_KINDS: [usize; 5] = [30, 31, 32, 33, 35];

/// One vector of a random one of some kinds.
fn vector_among(random: &mut Random, kinds: &[usize]) -> Vector {
    let kind = random.pick(kinds);
    MAKERS[kind - 1].make(random)
}

/// One vector of a random kind, a quarter of them of receiving.
fn random_vector(random: &mut Random) -> Vector {
    if random.once_in(4) {
        return vector_among(random, &RECEIVING_KINDS);
    }
    random.pick(&MAKERS).make(random)
}

/// One vector of a random kind of receiving with confidences.
fn soft_vector(random: &mut Random) -> Vector {
    vector_among(random, &SOFT_KINDS)
}

/// One vector of a random kind with an order, with that list.
fn vector_with(random: &mut Random, list: &List) -> Vector {
    let makers = MAKERS.iter().filter_map(|maker| match maker {
        Plain(_) => None,
        Ordered(make) => Some(*make),
    });
    let make = random.pick(&makers.collect::<Vec<fn(&mut Random, &List) -> Vector>>());
    make(random, list)
}

/// One vector of a random kind with an order.
fn order_vector(random: &mut Random) -> Vector {
    let list = order_lists::random_list(random);
    vector_with(random, &list)
}

// ---- Wrong expectations ----

/// The bytes of the numbers that a text leaves, by its vector: the rule, and the replacements that count.
fn compared_numbers(vector: &Vector) -> Vec<usize> {
    let wide = |at: usize| u16::from_be_bytes([vector[at], vector[at + 1]]);
    let size = wide(16);
    let mut bytes = Vec::new();
    if size > 10 {
        bytes.extend(18..42);
    }
    for at in [42, 52, 62] {
        if wide(at) < size {
            bytes.extend(at..at + 10);
        }
    }
    bytes
}

/// The bytes that the proved program must find wrong when their last bit is changed.
fn compared(vector: &Vector) -> Vec<usize> {
    let is_given = |at: usize| vector[at] != 0;
    match vector[0] {
        1 => (14..=31).collect(),
        2 => (2..=4).collect(),
        3 => (2..=3).collect(),
        4 => (3..=5).collect(),
        5 => vec![3],
        6 => (4..=6).collect(),
        7 => (2..=4).collect(),
        8 => (10..=12).collect(),
        9 | 22 | 32 | 33 if is_given(26) => once(26).chain(46..=60).collect(),
        9 | 22 | 32 | 33 => (26..=60).collect(),
        10 => once(16).chain(9..=15).collect(),
        11 => (11..=19).collect(),
        12 => (12..=19).collect(),
        13 if is_given(9) => vec![9],
        13 => (9..=21).collect(),
        14 => (16..=17).collect(),
        15 => (1..=16).collect(),
        16 | 17 if is_given(72) => vec![72, 73],
        16 | 17 => (72..=153).collect(),
        18 | 19 => once(72).chain(74..=169).collect(),
        20 | 21 => once(72).chain(compared_numbers(vector)).collect(),
        23 => (14..=25).collect(),
        24 => (12..=22).collect(),
        25 | 26 => (18..=36).collect(),
        27 if is_given(18) => vec![18, 19, 20, 1, 2],
        27 => vec![18, 19, 20, 1, 2, 5, 6, 7, 8],
        28 => once(18).chain(20..=25).collect(),
        29 => once(18).chain(22..=28).collect(),
        30 => (11..=13).collect(),
        31 if is_given(67) => vec![67],
        31 => (67..=79).collect(),
        34 => (15..=30).collect(),
        35 => (26..=34).chain(118..=171).collect(),
        36 => (1..=3).collect(),
        37 => (1..=54).collect(),
        _ => unreachable!("the makers have 37 kinds"),
    }
}

/// A vector with the last bit of one byte changed.
fn changed(vector: &Vector, at: usize) -> Vector {
    let mut wrong = *vector;
    wrong[at] ^= 1;
    wrong
}

/// A vector with one of the compared bytes changed.
fn spoilt_vector(random: &mut Random) -> Vector {
    let vector = random_vector(random);
    let at = random.pick(&compared(&vector));
    changed(&vector, at)
}

// ---- The vectors of the gate ----

/// Vectors that the proved program must confirm.
fn good_vectors(random: &mut Random) -> Vec<Vector> {
    let mut vectors = Vec::new();
    for maker in MAKERS {
        vectors.extend((0..7).map(|_| maker.make(random)));
    }
    vectors.extend(coder_vectors::conditions());
    vectors.extend(record_vectors::conditions());
    vectors.extend(receiver_vectors::conditions());
    vectors.extend(codebook_vectors::conditions());
    vectors.extend(text_vectors::conditions());
    vectors.extend(set_vectors::conditions());
    vectors.extend(session_vectors::conditions());
    vectors.extend(soft_vectors::conditions());
    vectors.extend(order_vectors::conditions());
    vectors
}

/// Kinds of which all bytes say something after a refusal too, so they are spoilt both times: a record taken over, an order.
const SPOILT_TWICE: [u8; 2] = [34, 36];

/// Of each kind and of each list of compared bytes one vector as often as it has such bytes, wrong in one of them each;
/// and one that is wrong in the first byte, mostly the refusal, where that is 0, and one where it is not.
fn wrong_vectors(random: &mut Random) -> Vec<Vector> {
    let mut vectors = Vec::new();
    for maker in MAKERS {
        let mut seen: Vec<(Vec<usize>, bool)> = Vec::new();
        for _ in 0..200 {
            let vector = maker.make(random);
            let bytes = compared(&vector);
            let refused = vector[bytes[0]] != 0;
            if seen.contains(&(bytes.clone(), refused)) {
                continue;
            }
            let is_new = seen.iter().all(|(others, _)| *others != bytes);
            let is_whole = is_new || SPOILT_TWICE.contains(&vector[0]);
            let count = if is_whole { bytes.len() } else { 1 };
            vectors.extend(bytes[..count].iter().map(|at| changed(&vector, *at)));
            seen.push((bytes, refused));
        }
    }
    vectors
}

/// Kinds whose bytes 1 to 11 are a set.
const SET_KINDS: [usize; 10] = [1, 9, 12, 14, 18, 19, 22, 32, 33, 34];

/// Vectors with a set in a form that no set has: of a voiced one the first byte is 2, of an unvoiced one the flag is 1.
fn vectors_of_no_set(random: &mut Random) -> Vec<Vector> {
    let mut vectors = Vec::new();
    for kind in SET_KINDS {
        for (voiced, at, byte) in [(1, 1, 2), (0, 11, 1)] {
            let mut vector = MAKERS[kind - 1].make(random);
            while vector[1] != voiced {
                vector = MAKERS[kind - 1].make(random);
            }
            vector[at] = byte;
            vectors.push(vector);
        }
    }
    vectors
}

/// Vectors of no kind, or with an argument that no vector has.
fn bad_vectors(random: &mut Random) -> Vec<Vector> {
    let mut vectors = vec![vector_of(0), vector_of(38), vector_of(255)];
    let with = |kind: usize, at: usize, bytes: &[u8], random: &mut Random| {
        let mut vector = MAKERS[kind - 1].make(random);
        layout::put(&mut vector, at, bytes);
        vector
    };
    let size = 3202u16.to_be_bytes();
    vectors.push(with(1, 13, &[17], random));
    vectors.push(with(9, 16, &[10], random));
    vectors.push(with(22, 16, &[10], random));
    vectors.push(with(11, 1, &[10], random));
    vectors.push(with(16, 16, &size, random));
    vectors.push(with(16, 73, &[13], random));
    vectors.push(with(18, 12, &[13], random));
    vectors.push(with(20, 16, &size, random));
    vectors.push(with(23, 1, &[13], random));
    vectors.extend(vectors_of_no_set(random));
    vectors.extend(session_vectors::bad_vectors());
    vectors.extend(soft_vectors::bad_vectors());
    vectors.extend(order_vectors::bad_vectors());
    vectors
}

/// Bytes after the last whole vector of the gate.
const LEFT: usize = 100;

/// The vectors of the gate; what the proved program has to print goes to standard error.
fn write_gate(output: &mut impl Write) -> std::io::Result<()> {
    let mut random = Random::new(1);
    let good = good_vectors(&mut random);
    let wrong = [
        wrong_vectors(&mut random),
        order_vectors::wrong_vectors(),
        bad_vectors(&mut random),
    ]
    .concat();
    for vector in good.iter().chain(&wrong) {
        output.write_all(vector)?;
    }
    output.write_all(&[1; LEFT])?;
    let all = good.len() + wrong.len();
    eprintln!("vectors={all} differences={} left={LEFT}", wrong.len());
    Ok(())
}

// ---- Program ----

/// Print the outcome of the examples.
fn selftest() -> ExitCode {
    match examples::first_failure() {
        None => {
            println!("ok");
            ExitCode::SUCCESS
        }
        Some(name) => {
            println!("example {name} fails");
            ExitCode::FAILURE
        }
    }
}

/// Write so many vectors that follow from the seed.
fn write_vectors(
    output: &mut impl Write,
    count: u64,
    seed: u64,
    maker: impl Fn(&mut Random) -> Vector,
) -> std::io::Result<()> {
    let mut random = Random::new(seed);
    for _ in 0..count {
        output.write_all(&maker(&mut random))?;
    }
    Ok(())
}

/// Write so many vectors with the order in a file.
fn write_in_order(
    output: &mut impl Write,
    count: u64,
    seed: u64,
    file: &str,
) -> std::io::Result<()> {
    let told = |error: String| std::io::Error::other(format!("{file}: {error}"));
    let text = std::fs::read(file).map_err(|error| told(error.to_string()))?;
    let list = List::of(order_file::order_in(&text).map_err(told)?);
    write_vectors(output, count, seed, |random| vector_with(random, &list))
}

/// How the program is called.
const USAGE: &str =
    "usage: vectors N SEED [soft | orders | order FILE | spoilt] | vectors gate | vectors selftest";

fn main() -> ExitCode {
    let arguments: Vec<String> = std::env::args().skip(1).collect();
    let words: Vec<&str> = arguments.iter().map(String::as_str).collect();
    let number = |word: &str| word.parse().expect("a number");
    let mut output = std::io::BufWriter::new(std::io::stdout().lock());
    let mut write = |count, seed, maker: fn(&mut Random) -> Vector| {
        write_vectors(&mut output, number(count), number(seed), maker)
    };
    let written = match words[..] {
        ["selftest"] => return selftest(),
        [count, seed] => write(count, seed, random_vector),
        [count, seed, "soft"] => write(count, seed, soft_vector),
        [count, seed, "orders"] => write(count, seed, order_vector),
        [count, seed, "spoilt"] => write(count, seed, spoilt_vector),
        [count, seed, "order", file] => {
            write_in_order(&mut output, number(count), number(seed), file)
        }
        ["gate"] => write_gate(&mut output),
        _ => panic!("{}", USAGE),
    };
    match written.and_then(|()| output.flush()) {
        Ok(()) => ExitCode::SUCCESS,
        Err(error) => {
            eprintln!("vectors: {error}");
            ExitCode::FAILURE
        }
    }
}
