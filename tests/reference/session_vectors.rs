//! Vectors of session files: their lines, a step of reading one, and writing one. Frames and texts are given by a rule.

use crate::codebook_vectors::NOWHERE;
use crate::coder_vectors::HELD;
use crate::layout::{put, put_answer, vector_of, Vector};
use crate::melp::Refusal;
use crate::random::Random;
use crate::session::{self, FRAME, LINE, MOST_FRAMES};
use crate::text_rule::TextRule;

// ---- Frames and texts ----

/// So many bytes of frames without padding bits: each is 11 more than the one before, modulo 256.
fn frame_bytes(start: u8, size: usize) -> Vec<u8> {
    let byte = |j: usize| (11 * j + usize::from(start)) as u8;
    let kept = |j: usize| if j % FRAME == FRAME - 1 { 0xFC } else { 0xFF };
    (0..size).map(|j| byte(j) & kept(j)).collect()
}

/// Bytes of the file of so many frames.
fn file_size(count: usize) -> usize {
    session::header(count).len() + LINE * count
}

/// A text: the number of frames that it tells, their first byte, and what is taken of the lines, which go on without end.
#[derive(Clone)]
struct FileRule {
    count: usize,
    start: u8,
    text: TextRule,
}

impl FileRule {
    /// The file of so many frames, or as much of it as a vector can give.
    fn new(count: usize, start: u8) -> FileRule {
        FileRule {
            count,
            start,
            text: TextRule::plain(file_size(count).min(65_535)),
        }
    }

    /// With another size.
    fn sized(mut self, size: usize) -> FileRule {
        self.text.size = size.min(65_535);
        self
    }

    /// With given bytes in the place of so many from a place on.
    fn with(self, at: usize, skipped: usize, given: &[u8]) -> FileRule {
        let size = self.text.size + given.len() - skipped;
        let text = TextRule {
            size: size.min(65_535),
            at,
            skipped,
            given: given.to_vec(),
        };
        FileRule { text, ..self }
    }

    /// Where the line of frame i starts, counted from 0.
    fn start_of(&self, i: usize) -> usize {
        session::header(self.count).len() + LINE * i
    }

    /// With another line in the place of line i, counted from 0.
    fn with_line(self, i: usize, line: &[u8]) -> FileRule {
        let (at, skipped) = match i {
            0 => (0, 9),
            1 => (10, 11),
            2 => (22, self.start_of(0) - 23),
            _ => (self.start_of(i - 3), LINE - 1),
        };
        self.with(at, skipped, line)
    }

    /// The text.
    fn text(&self) -> Vec<u8> {
        let lines = (self.text.size + self.text.at + self.text.skipped) / LINE + 1;
        let frames = frame_bytes(self.start, FRAME * lines);
        let lines: String = frames.chunks(FRAME).map(session::frame_line).collect();
        let plain = session::header(self.count) + &lines;
        self.text.text(plain.as_bytes())
    }

    /// Put the rule into bytes 1 to 9, and from 74 on.
    fn put(&self, vector: &mut Vector) {
        self.text.put(vector);
        put(vector, 7, &(self.count as u16).to_be_bytes());
        vector[9] = self.start;
    }
}

// ---- Kinds 25 and 26: a step of reading ----

/// The vector of a step at an offset of a text.
fn step_vector(kind: u8, file: &FileRule, at: u64) -> Vector {
    let mut vector = vector_of(kind);
    file.put(&mut vector);
    put(&mut vector, 10, &at.to_be_bytes());
    let mut after = at;
    match session::step(&file.text(), at) {
        Err(bad) => {
            vector[18] = bad.refusal.number();
            put(&mut vector, 20, &(bad.line as u16).to_be_bytes());
        }
        Ok(None) => {}
        Ok(Some((frame, next))) => {
            vector[19] = 1;
            put(&mut vector, 22, &frame);
            after = next;
        }
    }
    put(&mut vector, 29, &after.to_be_bytes());
    vector
}

/// Lines in the place of one of the first three, with its number, counted from 0.
const HEADER_LINES: [(usize, &[u8]); 10] = [
    (0, b""),
    (0, b"file=melp\r"),
    (1, b"order=House"),
    (2, b"frames="),
    (2, b"frames=00"),
    (2, b"frames=03"),
    (2, b"frames=3 "),
    (2, b"frames=+3"),
    (2, b"frames=2001"),
    (2, b"frames=4294967299"),
];

/// Lines in the place of a frame's; the first one is good too.
const FRAME_LINES: [&[u8]; 16] = [
    b"f=80560d40150010",
    b"f=80560d40150011",
    b"f=80560d40150012",
    b"f=ffffffffffffff",
    b"",
    b"f=80560d4015001",
    b"f=80560d401500100",
    b"f=80560D40150010",
    b"f=80560d4015001g",
    b"f=8/560d40150010",
    b"f=8:560d40150010",
    b"f=80560d40150`10",
    b"F=80560d40150010",
    b"f=80560d40150010\r",
    b"f=80560D40150011",
    b"f:80560d40150013",
];

/// A number of frames to tell: few, around those that take a digit more or are too many, or any.
fn random_count(random: &mut Random) -> usize {
    match random.below(8) {
        0 => random.between(0, 2000) as usize,
        1 => random.pick(&[1999, 2000, 2001, 2048, 10_000, 65_535]),
        2 => random.pick(&[9, 10, 99, 100, 999, 1000]),
        _ => random.between(0, 5) as usize,
    }
}

/// The line of a frame, without its end, with one or two bytes replaced that may be as good.
fn random_line(random: &mut Random) -> Vec<u8> {
    let start = random.inside(255);
    let mut line = session::frame_line(&frame_bytes(start, FRAME)).into_bytes();
    line.truncate(LINE - 1);
    if random.once_in(2) {
        line[LINE - 2] = random.pick(b"0123456789abcdef");
    }
    if random.once_in(2) {
        line[random.below(16) as usize] = random.pick(b"09afAFg/:@`=\r\n \0\xFF");
    }
    line
}

/// A text with a change around frame i, in its first lines, or in none.
fn random_file(random: &mut Random, count: usize, i: usize) -> FileRule {
    let file = FileRule::new(count, random.inside(255));
    let near = (file.start_of(i) + random.below(40) as usize).saturating_sub(20);
    match random.below(10) {
        0 | 1 => file,
        2 => file.sized(near),
        3 => {
            let longer = file.text.size + random.between(1, 40) as usize;
            file.sized(longer)
        }
        4 => {
            let (number, line) = random.pick(&HEADER_LINES);
            file.with_line(number, line)
        }
        5 | 6 => file.with_line(i + 3, random.pick(&FRAME_LINES)),
        7 => file.with(near, 1, &[random.inside(255)]),
        _ => file.with_line(i + 3, &random_line(random)),
    }
}

/// An offset: mostly 0 or where a line starts, sometimes beside it, or far off.
fn random_offset(random: &mut Random, line: u64) -> u64 {
    match random.below(16) {
        0 | 1 => 0,
        2 => line + random.below(18),
        3 => line - random.below(18),
        4 => line + 17 * random.below(1 << 40),
        5 => random.pick(&[u64::MAX, u64::MAX - 16, line + (1 << 32), 1 << 63]),
        _ => line,
    }
}

/// A text, mostly changed around frame i or after the last one, and an offset there.
fn random_place(random: &mut Random) -> (FileRule, u64) {
    let count = random_count(random);
    let last = count.min(MOST_FRAMES);
    let any = random.between(0, last as i64) as usize;
    let i = random.pick(&[any, any, any, 0, last, last + 1]);
    let file = random_file(random, count, i);
    let at = random_offset(random, file.start_of(i) as u64);
    (file, at)
}

/// A vector of a step.
fn step(random: &mut Random, kind: u8) -> Vector {
    let (file, at) = random_place(random);
    step_vector(kind, &file, at)
}

/// A vector of parsing a line.
pub fn parse(random: &mut Random) -> Vector {
    step(random, 25)
}

/// A vector of the same step by a reader.
pub fn read(random: &mut Random) -> Vector {
    step(random, 26)
}

// ---- Kinds 28 and 29: lines ----

/// The vector of the three lines before the frames.
fn header_vector(file: &FileRule) -> Vector {
    let mut vector = vector_of(28);
    file.put(&mut vector);
    match session::judge_header(&file.text()) {
        Err(bad) => {
            vector[18] = bad.refusal.number();
            put(&mut vector, 20, &(bad.line as u16).to_be_bytes());
        }
        Ok(count) => {
            let start = session::header(count).len();
            put(&mut vector, 22, &(count as u16).to_be_bytes());
            put(&mut vector, 24, &(start as u16).to_be_bytes());
        }
    }
    vector
}

/// The vector of the line at an offset, where a frame's is due.
fn line_vector(file: &FileRule, at: u64) -> Vector {
    let mut vector = vector_of(29);
    file.put(&mut vector);
    put(&mut vector, 10, &at.to_be_bytes());
    let text = file.text();
    match session::judge_frame(session::line_at(&text, at), 0) {
        Err(bad) => vector[18] = bad.refusal.number(),
        Ok(frame) => put(&mut vector, 22, &frame),
    }
    vector
}

/// A vector of the three lines, half of them with another in the place of one.
pub fn header(random: &mut Random) -> Vector {
    let (file, _) = random_place(random);
    let (number, line) = random.pick(&HEADER_LINES);
    if random.once_in(2) {
        return header_vector(&FileRule::new(file.count, 0).with_line(number, line));
    }
    header_vector(&file)
}

/// A vector of a frame's line.
pub fn line(random: &mut Random) -> Vector {
    let (file, at) = random_place(random);
    line_vector(&file, at)
}

// ---- Kind 27: writing ----

/// Frames, with a byte at a place among them instead of theirs, and the size of the output.
#[derive(Clone, Copy)]
struct Writing {
    start: u8,
    size: usize,
    place: usize,
    byte: u8,
    room: usize,
}

impl Writing {
    /// So many bytes of frames, to an output of that size.
    fn new(size: usize, room: usize) -> Writing {
        Writing {
            start: 17,
            size,
            place: usize::from(NOWHERE),
            byte: 0,
            room,
        }
    }

    /// With another byte at a place.
    fn with(self, place: usize, byte: u8) -> Writing {
        Writing {
            place,
            byte,
            ..self
        }
    }

    /// The frames.
    fn frames(&self) -> Vec<u8> {
        let mut frames = frame_bytes(self.start, self.size);
        if let Some(byte) = frames.get_mut(self.place) {
            *byte = self.byte;
        }
        frames
    }

    /// The text in the output afterwards: none where the frames are refused.
    fn left(&self, answer: &Result<usize, Refusal>) -> FileRule {
        if answer.is_err() {
            return FileRule::new(0, self.start).sized(0);
        }
        let file = FileRule::new(self.size / FRAME, self.start);
        if self.place >= self.size {
            return file;
        }
        let digits = file.start_of(self.place / FRAME) + 2 + 2 * (self.place % FRAME);
        file.with(digits, 2, format!("{:02x}", self.byte).as_bytes())
    }

    /// The vector.
    fn vector(&self) -> Vector {
        let mut output = vec![HELD; self.room];
        let answer = session::write(&self.frames(), &mut output);
        let mut vector = vector_of(27);
        let file = self.left(&answer);
        assert!(output.starts_with(&file.text()));
        file.put(&mut vector);
        put(&mut vector, 10, &(self.size as u16).to_be_bytes());
        put(&mut vector, 12, &(self.place as u16).to_be_bytes());
        vector[14] = self.byte;
        put(&mut vector, 15, &(self.room as u16).to_be_bytes());
        put_answer(&mut vector, 18, answer, |end| {
            (*end as u16).to_be_bytes().to_vec()
        });
        vector
    }
}

/// Bytes of frames and of an output that a vector has at most.
const MOST_LENT: usize = 14_014;
const MOST_ROOM: usize = 34_100;

/// The size of an output for a text of that size: often just enough, just too short, or longer.
fn random_room(random: &mut Random, size: usize) -> usize {
    let beside = random.below(20) as usize;
    let room = match random.below(8) {
        0 => size - 1,
        1 => size.saturating_sub(beside),
        2 => random.below(MOST_ROOM as u64 + 1) as usize,
        3 => MOST_ROOM,
        4 | 5 => size + beside,
        _ => size,
    };
    room.min(MOST_ROOM)
}

/// A vector of writing: some with a byte replaced, often the one with the padding bits, and some of no whole frames.
pub fn writing(random: &mut Random) -> Vector {
    let count = random_count(random).min(MOST_FRAMES + 2);
    let mut size = FRAME * count;
    if random.once_in(6) {
        size = (size + random.between(1, 6) as usize).min(MOST_LENT);
    }
    let room = random_room(random, file_size(count));
    let mut writing = Writing::new(size, room);
    writing.start = random.inside(255);
    if count > 0 && random.once_in(2) {
        let any = random.below(count as u64) as usize;
        let frame = random.pick(&[0, any, count - 1]);
        let place = FRAME * frame + random.pick(&[0, 1, 5, 6, 6, 6]);
        writing = writing.with(place, random.pick(&[0, 1, 2, 3, 7, 8, 0xA4, 0xFC, 0xFF]));
    }
    writing.vector()
}

// ---- All conditions in turn ----

/// Numbers of frames read from offset 0 on.
const COUNTS: [usize; 5] = [0, 1, 2000, 2001, 65_535];

/// Numbers of frames, and that of the frame at whose line a step is; after the last frame the lines end.
const STEPS: [(usize, usize); 10] = [
    (0, 0),
    (1, 0),
    (1, 1),
    (2, 1),
    (2, 2),
    (1000, 999),
    (1999, 1998),
    (2000, 1999),
    (2000, 2000),
    (2000, 2001),
];

/// Offsets in a file of two frames, 65 bytes, at which no line starts.
const BETWEEN: [u64; 8] = [1, 14, 30, 32, 49, 82, 31 + (17 << 59), u64::MAX];

/// Other sizes of a file of two frames, and the offset of a step.
const SIZES: [(usize, u64); 12] = [
    (0, 0),
    (9, 0),
    (10, 0),
    (22, 0),
    (30, 0),
    (31, 0),
    (47, 0),
    (48, 48),
    (64, 48),
    (64, 65),
    (66, 65),
    (66, 0),
];

/// Steps in files of so many frames, and in those of two frames, of the lists above.
fn steps_in_files() -> Vec<(FileRule, u64)> {
    let two = FileRule::new(2, 99);
    let at_frame = |(count, i): &(usize, usize)| {
        let file = FileRule::new(*count, 250);
        let at = file.start_of(*i) as u64;
        (file, at)
    };
    let mut steps = Vec::new();
    steps.extend(COUNTS.iter().map(|count| (FileRule::new(*count, 3), 0)));
    steps.extend(STEPS.iter().map(at_frame));
    steps.extend(BETWEEN.iter().map(|at| (two.clone(), *at)));
    let of_size = |(size, at): &(usize, u64)| (two.clone().sized(*size), *at);
    steps.extend(SIZES.iter().map(of_size));
    steps
}

/// A file of three frames with each line of the lists, those of frames in the first, second and third in turn; and with
/// a bad line after and before the one that is read.
fn steps_with_lines() -> Vec<(FileRule, u64)> {
    let three = FileRule::new(3, 50);
    let mut steps = Vec::new();
    for (i, line) in &HEADER_LINES {
        steps.push((three.clone().with_line(*i, line), 31));
    }
    for (i, line) in FRAME_LINES.iter().enumerate() {
        let at = three.start_of(i % 3) as u64;
        steps.push((three.clone().with_line(i % 3 + 3, line), at));
    }
    steps.push((three.clone().with_line(4, b"f=80560D40150010"), 31));
    steps.push((three.clone().with_line(3, b"f=80560D40150010"), 48));
    steps
}

/// Every number of frames and every size of a list; each refusal alone and with each other one.
fn writings() -> Vec<Writing> {
    let exact = |count: usize| Writing::new(FRAME * count, file_size(count));
    let counts = [0, 1, 2, 1999, 2000].map(exact);
    let sizes = [1, 13, 14_001, 14_007].map(|size| Writing::new(size, MOST_ROOM));
    let rooms = [0, 81, 83].map(|room| Writing::new(21, room));
    let padded = [(6, 1), (20, 2), (34, 3)].map(|(place, byte)| exact(5).with(place, byte));
    let others = [
        Writing::new(14_000, MOST_ROOM),
        Writing::new(21, 100).with(8, 0xEB),
        Writing::new(13, 30),
        Writing::new(15, 100).with(6, 1),
        Writing::new(14, 64).with(13, 3),
        Writing::new(15, 30).with(13, 2),
    ];
    [&counts[..], &sizes, &rooms, &padded, &others].concat()
}

/// All steps, parsed and by a reader in turn; all writings; and the lines of all steps.
pub fn conditions() -> Vec<Vector> {
    let places = [steps_in_files(), steps_with_lines()].concat();
    let steps = places.iter().zip([25, 26].iter().cycle());
    let steps = steps.map(|((file, at), kind)| step_vector(*kind, file, *at));
    let headers = places.iter().map(|(file, _)| header_vector(file));
    let lines = places.iter().map(|(file, at)| line_vector(file, *at));
    steps
        .chain(writings().iter().map(Writing::vector))
        .chain(headers)
        .chain(lines)
        .collect()
}

/// Writings right but for a length that no vector has: of the frames, of the output, and of the text in it.
pub fn bad_vectors() -> Vec<Vector> {
    let mut longer = Writing::new(14, file_size(2)).vector();
    longer[2] += 1;
    vec![
        Writing::new(MOST_LENT + 1, MOST_ROOM).vector(),
        Writing::new(0, MOST_ROOM + 1).vector(),
        longer,
    ]
}
