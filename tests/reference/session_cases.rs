//! Inputs for the programs `from_session` and `to_session`: `session_cases FOLDER spoilt|random SEED` writes them to
//! folders of these names. What has to come out is not said here: `session.rs` says it.

mod frames;
mod melp;
mod random;
mod session;

use random::Random;
use std::fs;
use std::io::Result;
use std::path::PathBuf;

/// Numbers of frames: few, around those that take a digit more, and the most.
const COUNTS: [usize; 17] = [
    0, 1, 2, 3, 9, 10, 11, 99, 100, 101, 256, 999, 1000, 1001, 1998, 1999, 2000,
];

// ---- Good inputs ----

/// So many frames of any bits.
fn some_frames(random: &mut Random, count: usize) -> Vec<u8> {
    (0..count)
        .flat_map(|_| frames::random_bits(random))
        .collect()
}

/// A file of so many frames.
fn file(random: &mut Random, count: usize) -> Vec<u8> {
    session::text_of(&some_frames(random, count))
}

/// A file of each number of frames.
fn good_files(random: &mut Random) -> Vec<Vec<u8>> {
    COUNTS.iter().map(|count| file(random, *count)).collect()
}

// ---- Lines ----

/// A text in lines without their ends; the last one is what follows the last end.
fn lines_of(text: &[u8]) -> Vec<&[u8]> {
    text.split(|byte| *byte == b'\n').collect()
}

/// A text with line i, counted from 0, replaced.
fn with_line(text: &[u8], i: usize, line: &[u8]) -> Vec<u8> {
    let mut lines = lines_of(text);
    lines[i] = line;
    lines.join(&b'\n')
}

/// A text with line i, counted from 0, left out.
fn without_line(text: &[u8], i: usize) -> Vec<u8> {
    let mut lines = lines_of(text);
    lines.remove(i);
    lines.join(&b'\n')
}

/// Lines in the place of the first three, with their number, counted from 0.
const HEADER_LINES: [(usize, &[u8]); 48] = [
    (0, b""),
    (0, b"file"),
    (0, b"file="),
    (0, b"file=mel"),
    (0, b"file=melpp"),
    (0, b"file=melp "),
    (0, b" file=melp"),
    (0, b"file= melp"),
    (0, b"file=melp\r"),
    (0, b"file=melp\0"),
    (0, b"File=melp"),
    (0, b"file=MELP"),
    (0, b"file:melp"),
    (0, b"file=hear"),
    (0, b"\xEF\xBB\xBFfile=melp"),
    (0, b"\nfile=melp"),
    (0, b"order=house"),
    (1, b""),
    (1, b"order=hous"),
    (1, b"order=houses"),
    (1, b"order=House"),
    (1, b"order=default"),
    (1, b"order=house "),
    (1, b"order=house\r"),
    (1, b"file=melp"),
    (1, b"frames=5"),
    (1, b"order=house\norder=house"),
    (2, b""),
    (2, b"frames"),
    (2, b"frames="),
    (2, b"frames=05"),
    (2, b"frames=00"),
    (2, b"frames=0005"),
    (2, b"frames=02000"),
    (2, b"frames=+5"),
    (2, b"frames=-0"),
    (2, b"frames= 5"),
    (2, b"frames=5 "),
    (2, b"frames=5\r"),
    (2, b"frames=5."),
    (2, b"frames=0x5"),
    (2, b"frames=five"),
    (2, b"Frames=5"),
    (2, b"frames=2005"),
    (2, b"frames=65541"),
    (2, b"frames=4294967301"),
    (2, b"frames=18446744073709551621"),
    (2, b"frames=99999999999999999999999999"),
];

/// Lines in the place of a frame's; some are good too.
const FRAME_LINES: [&[u8]; 46] = [
    b"f=80560d40150010",
    b"f=fffffffffffffc",
    b"f=00000000000000",
    b"",
    b"f",
    b"f=",
    b"f=80",
    b"f=80560d4015001",
    b"f=80560d401500100",
    b"f=80560d4015001000",
    b"f=80560D40150010",
    b"f=80560d4015001A",
    b"F=80560d40150010",
    b"f:80560d40150010",
    b"g=80560d40150010",
    b"80560d4015001000",
    b" f=80560d40150010",
    b"f= 80560d4015001",
    b"f=80560d40150010 ",
    b"f=80560d40150010\r",
    b"f=80560d4015001\r",
    b"f=0x560d40150010",
    b"f=+0560d40150010",
    b"f=80560d4015001g",
    b"f=/0560d40150010",
    b"f=:0560d40150010",
    b"f=8@560d40150010",
    b"f=80560d4`150010",
    b"f=80560d401500\010",
    b"f=80560d401500\xB20",
    b"f=80560d4015001\xFF",
    b"f=80560d40150011",
    b"f=80560d40150012",
    b"f=80560d40150013",
    b"f=80560d4015001f",
    b"f=ffffffffffffff",
    b"f=80560D40150011",
    b"F=80560d40150012",
    b"f=80560d40150013\r",
    b"f=80560d401500133",
    b"f=80560d4015013",
    b"f=80560d4\n0150010",
    b"f=80560d40150010\nf=80560d40150010",
    b"f=80560d40150011\nf=",
    b"frames=5",
    b"file=melp",
];

/// Each of these lines in a file of five frames, those of a frame at the start, in the middle and at the end.
fn line_texts(text: &[u8]) -> Vec<Vec<u8>> {
    let header = HEADER_LINES
        .iter()
        .map(|(i, line)| with_line(text, *i, line));
    let frame = FRAME_LINES
        .iter()
        .flat_map(|line| [3, 5, 7].map(|i| with_line(text, i, line)));
    header.chain(frame).collect()
}

// ---- Bytes ----

/// A text cut off at each byte, and with each byte changed, left out and doubled.
fn byte_texts(text: &[u8]) -> Vec<Vec<u8>> {
    let mut texts = Vec::new();
    for at in 0..text.len() {
        let (before, after) = (&text[..at], &text[at + 1..]);
        let with = |bytes: &[u8]| [before, bytes, after].concat();
        let byte = text[at];
        texts.extend([before.to_vec(), with(&[]), with(&[byte, byte])]);
        texts.extend([1, 2, 32].map(|bits| with(&[byte ^ bits])));
    }
    texts
}

// ---- Whole texts ----

/// What stands after a good text.
const ENDINGS: [&[u8]; 10] = [
    b"\n",
    b"\r\n",
    b"\0",
    b" ",
    b"f",
    b"f=80560d40150010",
    b"f=80560d40150010\n",
    b"f=80560d40150013\n",
    b"frames=0\n",
    b"file=melp\norder=house\nframes=0\n",
];

/// Sizes that a text is cut off or filled up to, many of them around the longest file's.
const SIZES: [usize; 8] = [
    34_000, 34_017, 34_032, 34_033, 34_035, 34_036, 65_536, 100_000,
];

/// A text filled up with a byte, or cut off.
fn sized(text: &[u8], size: usize, byte: u8) -> Vec<u8> {
    let mut sized = text.to_vec();
    sized.resize(size, byte);
    sized
}

/// A file of so many frames with more or fewer lines than it tells, with other text after it, and of other sizes.
fn whole_texts(text: &[u8], count: usize) -> Vec<Vec<u8>> {
    let mut texts = Vec::new();
    for told in [0, count.saturating_sub(1), count + 1, count + 2, 2000, 2001] {
        let line = format!("frames={told}");
        texts.push(with_line(text, 2, line.as_bytes()));
    }
    texts.extend((0..lines_of(text).len().min(6)).map(|i| without_line(text, i)));
    texts.extend(ENDINGS.iter().map(|ending| [text, *ending].concat()));
    texts.extend(SIZES.iter().map(|size| sized(text, *size, b'\n')));
    texts.extend(SIZES.iter().map(|size| sized(text, *size, b'0')));
    texts.push(text[..text.len() - 1].to_vec());
    texts.push([text, text].concat());
    texts
}

// ---- Frames ----

/// Lengths in bytes, many of them around the 14,000 of 2,000 frames.
const LENGTHS: [usize; 29] = [
    0, 1, 2, 6, 7, 8, 13, 14, 15, 20, 21, 22, 6_999, 7_000, 7_001, 13_992, 13_993, 13_994, 13_999,
    14_000, 14_001, 14_002, 14_006, 14_007, 14_008, 14_014, 28_000, 65_536, 100_000,
];

/// Set padding bits in the frame of that number.
fn pad(bytes: &mut [u8], frame: usize, bits: u8) {
    bytes[7 * frame + 6] |= bits;
}

/// Frames of each length; with them others that have padding bits in the first, a middle and the last whole frame.
fn frame_inputs(random: &mut Random) -> Vec<Vec<u8>> {
    let mut inputs = Vec::new();
    for length in LENGTHS {
        let mut good = some_frames(random, length / 7 + 1);
        good.truncate(length);
        let whole = length / 7;
        for (bits, frame) in [(1, 0), (2, whole / 2), (3, whole.max(1) - 1)] {
            let mut padded = good.clone();
            if whole > 0 {
                pad(&mut padded, frame, bits);
            }
            inputs.push(padded);
        }
        inputs.push(good);
    }
    inputs
}

// ---- Random inputs ----

/// A number of frames: few, one of the list, or any.
fn random_count(random: &mut Random) -> usize {
    match random.below(8) {
        0 => random.pick(&COUNTS),
        1 => random.between(0, 2000) as usize,
        _ => random.between(0, 12) as usize,
    }
}

/// The number of a line of a text, counted from 0; the first and the last ones often.
fn random_line_number(random: &mut Random, text: &[u8]) -> usize {
    let last = lines_of(text).len() - 1;
    let any = random.below(last as u64 + 1) as usize;
    random
        .pick(&[any, any, any, 2, 3, last.max(1) - 1])
        .min(last)
}

/// A line of the lists.
fn random_line(random: &mut Random) -> Vec<u8> {
    if random.once_in(3) {
        random.pick(&HEADER_LINES).1.to_vec()
    } else {
        random.pick(&FRAME_LINES).to_vec()
    }
}

/// Replace, add or leave out a byte.
fn spoil_byte(random: &mut Random, text: &mut Vec<u8>) {
    let at = random.below(text.len() as u64 + 1) as usize;
    let byte = random.pick(b"0019afAFg=\r\n \0\xFF");
    match random.below(3) {
        0 => text.insert(at, byte),
        _ if at == text.len() => text.push(byte),
        1 => text[at] = byte,
        _ => {
            text.remove(at);
        }
    }
}

/// Replace, double or leave out a line.
fn spoil_line(random: &mut Random, text: &mut Vec<u8>) {
    let i = random_line_number(random, text);
    let line = lines_of(text)[i].to_vec();
    *text = match random.below(5) {
        0 => without_line(text, i),
        1 => with_line(text, i, &[&line[..], &line[..]].join(&b'\n')),
        _ => with_line(text, i, &random_line(random)),
    };
}

/// Set padding bits on the line of a frame, now and then with another fault on it.
fn spoil_padding(random: &mut Random, text: &mut Vec<u8>) {
    let lines = lines_of(text);
    if lines.len() < 5 {
        return;
    }
    let i = random.between(3, lines.len() as i64 - 2) as usize;
    let mut line = lines[i].to_vec();
    line.pop();
    line.push(random.pick(b"123567"));
    if random.once_in(4) {
        spoil_byte(random, &mut line);
    }
    *text = with_line(text, i, &line);
}

/// Cut a text off or put something after it, now and then more than is read.
fn spoil_size(random: &mut Random, text: &mut Vec<u8>) {
    match random.below(6) {
        0 => text.extend(random.pick(&ENDINGS)),
        1 => text.extend(random_line(random)),
        2 => *text = sized(text, random.pick(&SIZES), b'0'),
        3 => text.truncate(text.len().max(1) - 1),
        _ => text.truncate(random.below(text.len() as u64 + 1) as usize),
    }
}

/// Tell another number of frames.
fn spoil_count(random: &mut Random, text: &mut Vec<u8>) {
    let told = random_count(random);
    let zeros = random.pick(&["", "", "", "0", "00"]);
    let line = format!("frames={zeros}{told}");
    if lines_of(text).len() > 2 {
        *text = with_line(text, 2, line.as_bytes());
    }
}

/// A text: of a good file with up to three things spoilt, or frames as they are.
fn random_text(random: &mut Random) -> Vec<u8> {
    let count = random_count(random);
    if random.once_in(40) {
        return some_frames(random, count);
    }
    let mut text = file(random, count);
    for _ in 0..random.pick(&[0, 1, 1, 1, 1, 2, 2, 3]) {
        match random.below(7) {
            0 | 1 => spoil_byte(random, &mut text),
            2 | 3 => spoil_line(random, &mut text),
            4 => spoil_padding(random, &mut text),
            5 => spoil_size(random, &mut text),
            _ => spoil_count(random, &mut text),
        }
    }
    text
}

/// Frames: some with padding bits, some of another length, or the text of frames.
fn random_frames(random: &mut Random) -> Vec<u8> {
    let count = random_count(random);
    let mut bytes = some_frames(random, count);
    if random.once_in(40) {
        return session::text_of(&bytes);
    }
    if count > 0 && random.once_in(3) {
        let any = random.below(count as u64) as usize;
        let frame = random.pick(&[0, any, count - 1]);
        pad(&mut bytes, frame, random.pick(&[1, 2, 3]));
    }
    if random.once_in(4) {
        let length = random.pick(&LENGTHS);
        let near = bytes.len() + random.below(7) as usize;
        bytes.resize(random.pick(&[length, near, near, near]), random.inside(255));
    }
    bytes
}

// ---- Program ----

/// Where inputs are written.
struct Cases {
    folder: PathBuf,
}

impl Cases {
    /// Inputs for a program, by name and number.
    fn add(&self, program: &str, name: &str, inputs: &[Vec<u8>]) -> Result<()> {
        let folder = self.folder.join(program);
        fs::create_dir_all(&folder)?;
        for (i, input) in inputs.iter().enumerate() {
            fs::write(folder.join(format!("{name}-{i:03}")), input)?;
        }
        Ok(())
    }
}

/// Good files and frames, spoilt one thing at a time.
fn spoilt_cases(cases: &Cases, random: &mut Random) -> Result<()> {
    let whole = |count: usize, random: &mut Random| whole_texts(&file(random, count), count);
    cases.add("from_session", "good", &good_files(random))?;
    cases.add("from_session", "line", &line_texts(&file(random, 5)))?;
    cases.add("from_session", "byte", &byte_texts(&file(random, 2)))?;
    for count in [0, 1, 3, 1999, 2000, 2001] {
        let name = format!("whole_{count}");
        cases.add("from_session", &name, &whole(count, random))?;
    }
    cases.add("to_session", "frames", &frame_inputs(random))
}

/// Write the inputs of one kind.
fn write_cases(folder: &str, kind: &str, seed: u64) -> Result<()> {
    let cases = Cases {
        folder: PathBuf::from(folder),
    };
    let mut random = Random::new(seed);
    match kind {
        "spoilt" => spoilt_cases(&cases, &mut random),
        "random" => {
            let texts: Vec<_> = (0..150).map(|_| random_text(&mut random)).collect();
            let frames: Vec<_> = (0..50).map(|_| random_frames(&mut random)).collect();
            cases.add("from_session", "random", &texts)?;
            cases.add("to_session", "random", &frames)
        }
        _ => panic!("a kind is spoilt or random"),
    }
}

fn main() {
    let arguments: Vec<String> = std::env::args().skip(1).collect();
    let [folder, kind, seed] = arguments.as_slice() else {
        panic!("usage: session_cases FOLDER spoilt|random SEED");
    };
    let seed = seed.parse().expect("a number");
    write_cases(folder, kind, seed).expect("inputs written");
}
