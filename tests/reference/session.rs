//! Document 02's T-01, a session file: frames as lines of text. Its writer, its lines judged, one step of its reader, and a
//! whole reading.

// Each program uses its part.
#![allow(dead_code)]

use crate::melp::{self, Refusal};

/// Bytes of a frame, and of its line.
pub const FRAME: usize = 7;
pub const LINE: usize = 17;

/// Frames of a file at most.
pub const MOST_FRAMES: usize = 2000;

/// Bytes of the longest file.
pub const LONGEST: usize = 34_034;

// ---- Text ----

/// The three lines before the frames.
pub fn header(count: usize) -> String {
    format!("file=melp\norder=house\nframes={count}\n")
}

/// The line of a frame.
pub fn frame_line(frame: &[u8]) -> String {
    let digits: String = frame.iter().map(|byte| format!("{byte:02x}")).collect();
    format!("f={digits}\n")
}

/// The text of frames.
pub fn text_of(frames: &[u8]) -> Vec<u8> {
    let lines: String = frames.chunks(FRAME).map(frame_line).collect();
    let text = header(frames.len() / FRAME) + &lines;
    text.into_bytes()
}

// ---- Writer ----

/// Write the text of frames to the front of an output: where it ends. Refused 2, then 1, then 3, with nothing written.
pub fn write(frames: &[u8], output: &mut [u8]) -> Result<usize, Refusal> {
    if frames.len() % FRAME != 0 || frames.len() > FRAME * MOST_FRAMES {
        return Err(Refusal::FrameLength);
    }
    let text = text_of(frames);
    if output.len() < text.len() {
        return Err(Refusal::Output);
    }
    for frame in frames.chunks(FRAME) {
        melp::bits_of_frame(frame, &melp::default_order())?;
    }
    output[..text.len()].copy_from_slice(&text);
    Ok(text.len())
}

// ---- Lines ----

/// Why a reading ends, and the number of the line from 1; 0 where no line starts at the offset.
#[derive(Clone, Copy, Debug, PartialEq, Eq)]
pub struct BadLine {
    pub refusal: Refusal,
    pub line: usize,
}

/// A line that is not of the form.
fn malformed(line: usize) -> BadLine {
    let refusal = Refusal::Line;
    BadLine { refusal, line }
}

/// Lines with their ends; the last one may lack it.
fn lines(text: &[u8]) -> impl Iterator<Item = &[u8]> {
    text.split_inclusive(|byte| *byte == b'\n')
}

/// How many frames the third line tells, found by trying every number.
fn count_of(line: &[u8]) -> Option<usize> {
    (0..=MOST_FRAMES).find(|count| line == format!("frames={count}\n").as_bytes())
}

/// How many frames the first three lines tell; refused at the first bad one.
pub fn judge_header(text: &[u8]) -> Result<usize, BadLine> {
    let mut lines = lines(text);
    if lines.next() != Some(b"file=melp\n") {
        return Err(malformed(1));
    }
    if lines.next() != Some(b"order=house\n") {
        return Err(malformed(2));
    }
    lines.next().and_then(count_of).ok_or(malformed(3))
}

/// The value of a lower-case hexadecimal digit.
fn digit(byte: &u8) -> Option<u8> {
    let place = b"0123456789abcdef".iter().position(|digit| digit == byte)?;
    Some(place as u8)
}

/// The seven bytes on a line with its end.
fn bytes_of(line: &[u8]) -> Option<[u8; FRAME]> {
    let digits = line.strip_prefix(b"f=")?.strip_suffix(b"\n")?;
    let values: Vec<u8> = digits.iter().map(digit).collect::<Option<_>>()?;
    if values.len() != 2 * FRAME {
        return None;
    }
    Some(std::array::from_fn(|i| {
        16 * values[2 * i] + values[2 * i + 1]
    }))
}

/// The first line of a text with its end; nothing where the offset is past the text.
pub fn line_at(text: &[u8], at: u64) -> &[u8] {
    let rest = text.get(at as usize..).unwrap_or_default();
    lines(rest).next().unwrap_or_default()
}

/// The frame on the line of that number: refused 8, then 3.
pub fn judge_frame(text: &[u8], line: usize) -> Result<[u8; FRAME], BadLine> {
    let frame = bytes_of(text).ok_or(malformed(line))?;
    match melp::bits_of_frame(&frame, &melp::default_order()) {
        Ok(_) => Ok(frame),
        Err(refusal) => Err(BadLine { refusal, line }),
    }
}

// ---- Reader ----

/// How many frames stand before an offset at which a line starts or the lines end; offset 0 stands for the first frame's.
fn number_at(count: usize, at: u64) -> Option<usize> {
    let start = header(count).len() as u64;
    let from_start = if at == 0 { 0 } else { at.checked_sub(start)? };
    let number = from_start / LINE as u64;
    (from_start % LINE as u64 == 0 && number <= count as u64).then_some(number as usize)
}

/// One step of a reader: the frame on the line at an offset and the offset after it, or none at the end of the file.
pub fn step(text: &[u8], at: u64) -> Result<Option<([u8; FRAME], u64)>, BadLine> {
    let count = judge_header(text)?;
    let number = number_at(count, at).ok_or(malformed(0))?;
    let start = header(count).len() + LINE * number;
    if number == count && text.len() == start {
        return Ok(None);
    }
    if number == count {
        return Err(malformed(count + 4));
    }
    let line = text.get(start..start + LINE).unwrap_or_default();
    let frame = judge_frame(line, number + 4)?;
    Ok(Some((frame, (start + LINE) as u64)))
}

/// Judge line after line, and add the frames handed on.
fn read_lines(text: &[u8], frames: &mut Vec<u8>) -> Result<(), BadLine> {
    let count = judge_header(text)?;
    let mut lines = lines(text).skip(3);
    for number in 4..count + 4 {
        let line = lines.next().unwrap_or_default();
        frames.extend(judge_frame(line, number)?);
    }
    match lines.next() {
        None => Ok(()),
        Some(_) => Err(malformed(count + 4)),
    }
}

/// The frames that a whole reading hands on, and the line that ended it, if a bad one did.
pub fn read(text: &[u8]) -> (Vec<u8>, Option<BadLine>) {
    let mut frames = Vec::new();
    let bad_line = read_lines(text, &mut frames).err();
    (frames, bad_line)
}
