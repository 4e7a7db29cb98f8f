//! The program that reads a session file: `from_session` takes it on standard input and writes the frames that it hands
//! on, then to standard error the line that is refused, if one is; `from_session selftest` tries worked examples.

mod input;
mod melp;
mod program;
mod session;

use std::io::{self, Write};
use std::process::ExitCode;

/// Bytes that are read at most: one more than the longest file has.
const MOST_BYTES: u64 = 34_035;

/// Read the file, and write its frames and the refusal.
fn run() -> io::Result<()> {
    let (frames, bad_line) = session::read(&input::read_at_most(MOST_BYTES)?);
    io::stdout().write_all(&frames)?;
    match bad_line {
        None => Ok(()),
        Some(bad) => {
            let number = bad.refusal.number();
            writeln!(io::stderr(), "refused={number} line={}", bad.line)
        }
    }
}

// ---- Worked examples ----

/// Texts refused in their first three lines, and the number of the line.
const HEADERS: [(&str, usize); 10] = [
    ("", 1),
    ("\n", 1),
    ("file=melp", 1),
    ("file=melp\r\norder=house\r\nframes=0\r\n", 1),
    ("file=melp\n", 2),
    ("file=melp\norder=House\nframes=01\n", 2),
    ("file=melp\norder=house\nframes=0", 3),
    ("file=melp\norder=house\nframes=00\n", 3),
    ("file=melp\norder=house\nframes=01\n", 3),
    ("file=melp\norder=house\nframes=2001\n", 3),
];

/// Texts after their first two lines, with the number of frames that they hand on, the refusal and its line, 0 and 0 for
/// none. Each frame handed on is that of document 01's example 6.
const FILES: [(&str, usize, u8, usize); 15] = [
    ("frames=0\n", 0, 0, 0),
    ("frames=1\nf=80560d40150010\n", 1, 0, 0),
    ("frames=2\nf=80560d40150010\nf=80560d40150010\n", 2, 0, 0),
    ("frames=0\n\n", 0, 8, 4),
    ("frames=2000\n", 0, 8, 4),
    ("frames=1\nf=80560D40150010\n", 0, 8, 4),
    ("frames=1\nf=8056d40150010\n", 0, 8, 4),
    ("frames=1\nf=80560d40150010\r\n", 0, 8, 4),
    ("frames=1\nf=80560d40150011\n", 0, 3, 4),
    ("frames=1\nf=80560d40150013", 0, 8, 4),
    ("frames=1\nf=80560D40150012\n", 0, 8, 4),
    ("frames=2\nf=80560d40150012\nf=\n", 0, 3, 4),
    ("frames=2\nf=80560d40150010\nf=80560d40150012\n", 1, 3, 5),
    ("frames=1\nf=80560d40150010\nf=80560d40150010\n", 1, 8, 5),
    ("frames=2\nf=80560d40150010\n", 1, 8, 5),
];

/// The frame of document 01's example 6.
const FRAME: [u8; 7] = [0x80, 0x56, 0x0D, 0x40, 0x15, 0x00, 0x10];

/// What the reading of a whole text gives, step by step.
fn read_by_steps(text: &[u8]) -> (Vec<u8>, Option<session::BadLine>) {
    let mut frames = Vec::new();
    let mut at = 0;
    loop {
        match session::step(text, at) {
            Ok(None) => return (frames, None),
            Err(bad_line) => return (frames, Some(bad_line)),
            Ok(Some((frame, next))) => {
                frames.extend(frame);
                at = next;
            }
        }
    }
}

/// Whether a text hands on so many frames and is refused so, read as a whole and step by step.
fn reads_as(text: &str, frames: usize, number: u8, line: usize) -> bool {
    let (handed_on, bad_line) = session::read(text.as_bytes());
    let refused = bad_line.map_or((0, 0), |bad| (bad.refusal.number(), bad.line));
    handed_on == FRAME.repeat(frames)
        && refused == (number, line)
        && read_by_steps(text.as_bytes()) == (handed_on, bad_line)
}

/// The texts above.
fn texts_hold() -> bool {
    let in_full = |rest: &str| "file=melp\norder=house\n".to_string() + rest;
    HEADERS
        .iter()
        .all(|(text, line)| reads_as(text, 0, 8, *line))
        && FILES
            .iter()
            .all(|(rest, frames, number, line)| reads_as(&in_full(rest), *frames, *number, *line))
}

/// Offsets at which no line of the file below starts.
const BETWEEN: [u64; 10] = [1, 14, 30, 32, 47, 49, 66, 82, 1 << 32, u64::MAX];

/// Steps in a file of two frames whose first line is bad: only the line at the offset is judged.
fn steps_hold() -> bool {
    let text = b"file=melp\norder=house\nframes=2\nf=80560D40150010\nf=80560d40150010\n";
    let step = |at| session::step(text, at).map_err(|bad| bad.line);
    step(0) == Err(4)
        && step(31) == Err(4)
        && step(48) == Ok(Some((FRAME, 65)))
        && step(65) == Ok(None)
        && BETWEEN.iter().all(|at| step(*at) == Err(0))
}

fn main() -> ExitCode {
    program::start("from_session", run, || texts_hold() && steps_hold())
}
