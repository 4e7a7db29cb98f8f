//! Vectors of codebooks in their text form. A text is given by a rule, and the numbers that it leaves too.

use crate::codebook_vectors::{Rule, HELD};
use crate::codebooks::{self, LSF_SIZE, MAGNITUDE_SIZE};
use crate::layout::{vector_of, Vector};
use crate::melp::Refusal;
use crate::random::Random;
use crate::text_rule::TextRule;

/// So many lines.
fn lines(count: usize) -> TextRule {
    TextRule::plain(5 * count)
}

/// So many lines with another one in the place of line i.
fn with_line(count: usize, i: usize, line: &[u8]) -> TextRule {
    TextRule {
        size: 5 * count - 4 + line.len(),
        at: 5 * i,
        skipped: 4,
        given: line.to_vec(),
    }
}

/// The lines 0000, 0001, 0002 and so on.
fn plain_text() -> Vec<u8> {
    let lines = (0..13_108).map(|i| format!("{:04}\n", i % 10_000));
    lines.collect::<String>().into_bytes()
}

/// The rule of the numbers that a call leaves in a buffer of that size; none where three replacements do not do.
fn left(answer: &Result<Vec<i64>, Refusal>, room: usize) -> Option<Rule> {
    let Ok(numbers) = answer else {
        return Some(Rule::new(room, HELD, 0, 0));
    };
    let mut rule = Rule::new(room, 0, 1, 1);
    let mut replaced = rule.replaced.iter_mut();
    for (i, number) in numbers.iter().enumerate() {
        if *number != i as i64 {
            *replaced.next()? = (i as u16, *number);
        }
    }
    Some(rule)
}

/// The vector of reading a text into a buffer.
fn vector(kind: u8, text: &TextRule, room: usize) -> Option<Vector> {
    let size = if kind == 20 { LSF_SIZE } else { MAGNITUDE_SIZE };
    let answer = if room == size {
        codebooks::from_text(&text.text(&plain_text()), size)
    } else {
        Err(Refusal::Codebook)
    };
    let mut vector = vector_of(kind);
    text.put(&mut vector);
    left(&answer, room)?.put(&mut vector);
    vector[72] = answer.map_or_else(Refusal::number, |_| 0);
    Some(vector)
}

/// Lines in the place of a good one; the first ones are good too.
const LINES: [&[u8]; 37] = [
    b"0",
    b"7",
    b"-1",
    b"000",
    b"0000000000",
    b"0000000005",
    b"9999999999",
    b"-9999999999",
    b"-0000000001",
    b"4000000000",
    b"-4000000001",
    b"",
    b"-",
    b"-0",
    b"-00",
    b"-0000000000",
    b"00000000000",
    b"12345678901",
    b"-12345678901",
    b"99999999999999999999999",
    b"+1",
    b"--5",
    b"5-5",
    b"5-",
    b"5\r",
    b" 5",
    b"5 ",
    b"\t5",
    b"5a",
    b"0x5",
    b"5.0",
    b"1_000",
    b"5\0",
    b"\xB2",
    b"/",
    b":",
    b"5\n6",
];

/// Texts that are wrong as a whole, or right in another way, for a codebook of that size.
fn whole_texts(size: usize) -> Vec<TextRule> {
    let all = 5 * size;
    let shorter = |bytes: usize| TextRule {
        size: all - bytes,
        ..lines(size)
    };
    let ended_by = |given: &[u8]| TextRule {
        size: all + given.len(),
        at: all,
        skipped: 0,
        given: given.to_vec(),
    };
    let split_at_the_end = TextRule {
        size: all - 5 + 3,
        ..with_line(size - 1, size - 2, b"17\n18")
    };
    vec![
        lines(0),
        lines(1),
        lines(size - 1),
        lines(size),
        lines(size + 1),
        lines(if size == LSF_SIZE { 2560 } else { 3200 }),
        lines(2 * size),
        shorter(1),
        shorter(2),
        ended_by(b"\n"),
        ended_by(b"5"),
        ended_by(b"5\n"),
        ended_by(b"\0"),
        ended_by(b" "),
        split_at_the_end,
        with_line(size - 1, 0, b"1\n2"),
    ]
}

/// Sizes of a buffer that are wrong for one of the codebooks at least.
const ROOMS: [usize; 7] = [0, 1, 2559, 2560, 3199, 3200, 3201];

/// Every text of the lists above once, the lines at the start, in the middle and at the end in turn; buffers of every size.
pub fn conditions() -> Vec<Vector> {
    let mut vectors = Vec::new();
    for (kind, size) in [(20, LSF_SIZE), (21, MAGNITUDE_SIZE)] {
        let places = [0, size / 2, size - 1];
        let lines = LINES.iter().enumerate();
        let lines = lines.map(|(i, line)| with_line(size, places[i % 3], line));
        for text in lines.chain(whole_texts(size)) {
            vectors.extend(vector(kind, &text, size));
        }
        for room in ROOMS {
            vectors.extend(vector(kind, &with_line(size, 1, b"-5"), room));
        }
    }
    vectors
}

/// A line of one to twelve bytes that mostly belong into a number.
fn random_line(random: &mut Random) -> Vec<u8> {
    let count = random.between(1, 12);
    let byte = |random: &mut Random| match random.below(40) {
        0 => random.pick(b"-+ \r\n/:a\0"),
        1..=8 => b'0',
        _ => random.between(48, 57) as u8,
    };
    let mut line: Vec<u8> = (0..count).map(|_| byte(random)).collect();
    if random.once_in(4) {
        line[0] = b'-';
    }
    line
}

/// A text for a codebook of that size.
fn random_text(random: &mut Random, size: usize) -> TextRule {
    let place = random.below(size as u64) as usize;
    let place = random.pick(&[place, 0, size - 1]);
    match random.below(6) {
        0 => random
            .pick(&whole_texts(size).iter().collect::<Vec<_>>())
            .clone(),
        1 | 2 => with_line(size, place, random.pick(&LINES)),
        _ => with_line(size, place, &random_line(random)),
    }
}

/// A vector of reading a text.
fn read(random: &mut Random, kind: u8, size: usize) -> Vector {
    loop {
        let text = random_text(random, size);
        let room = if random.once_in(12) {
            random.pick(&ROOMS)
        } else {
            size
        };
        if let Some(vector) = vector(kind, &text, room) {
            return vector;
        }
    }
}

/// A vector of reading the text of an LSF codebook.
pub fn lsf_text(random: &mut Random) -> Vector {
    read(random, 20, LSF_SIZE)
}

/// A vector of reading the text of a magnitude codebook.
pub fn magnitude_text(random: &mut Random) -> Vector {
    read(random, 21, MAGNITUDE_SIZE)
}
