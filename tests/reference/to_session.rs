//! The program that makes a session file: `to_session` takes frames on standard input and writes their file, or to
//! standard error why they are refused; `to_session selftest` tries worked examples.

mod input;
mod melp;
mod program;
mod session;

use melp::Refusal;
use std::io::{self, Write};
use std::process::ExitCode;

/// Bytes that are read at most: one more than 2,000 frames have.
const MOST_BYTES: u64 = 14_001;

/// The file of frames.
fn file_of(frames: &[u8]) -> Result<Vec<u8>, Refusal> {
    let mut output = vec![0; session::LONGEST];
    let end = session::write(frames, &mut output)?;
    output.truncate(end);
    Ok(output)
}

/// Read the frames, and write the file or the refusal.
fn run() -> io::Result<()> {
    match file_of(&input::read_at_most(MOST_BYTES)?) {
        Ok(file) => io::stdout().write_all(&file),
        Err(refusal) => writeln!(io::stderr(), "refused={}", refusal.number()),
    }
}

// ---- Worked examples ----

/// Two frames and their file.
const FRAMES: [u8; 14] = [
    0x80, 0x56, 0x0D, 0x40, 0x15, 0x00, 0x10, 0xFF, 0xFF, 0xFF, 0xFF, 0xFF, 0xFF, 0xFC,
];
const FILE: &str = "\
file=melp
order=house
frames=2
f=80560d40150010
f=fffffffffffffc
";

/// What writing frames to an output of that size gives, and the output afterwards.
fn written(frames: &[u8], room: usize) -> (Result<usize, u8>, Vec<u8>) {
    let mut output = vec![165; room];
    let answer = session::write(frames, &mut output);
    (answer.map_err(Refusal::number), output)
}

/// Files of two frames, of none and of the most, and outputs that are longer.
fn files_hold() -> bool {
    let longer = [FILE.as_bytes(), &[165; 3]].concat();
    let none = b"file=melp\norder=house\nframes=0\n";
    let most = file_of(&[0; 14_000]).map(|file| file.len());
    file_of(&FRAMES) == Ok(FILE.as_bytes().to_vec())
        && written(&FRAMES, longer.len()) == (Ok(FILE.len()), longer)
        && file_of(&[]) == Ok(none.to_vec())
        && most == Ok(session::LONGEST)
}

/// Refusals one by one and two at a time: 2, then 1, then 3, and nothing is written.
fn refusals_hold() -> bool {
    let mut padded = FRAMES;
    padded[13] |= 1;
    let short = FILE.len() - 1;
    let cases: [(&[u8], usize, u8); 8] = [
        (&FRAMES[..13], FILE.len(), 2),
        (&[0; 14_001], 40_000, 2),
        (&[0; 14_007], 40_000, 2),
        (&FRAMES[..13], 0, 2),
        (&[255; 15], 100, 2),
        (&FRAMES, short, 1),
        (&padded, short, 1),
        (&padded, FILE.len(), 3),
    ];
    cases
        .iter()
        .all(|(frames, room, number)| written(frames, *room) == (Err(*number), vec![165; *room]))
}

fn main() -> ExitCode {
    program::start("to_session", run, || files_hold() && refusals_hold())
}
