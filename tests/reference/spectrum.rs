//! The program of document 01's section "LSF and magnitude values": `spectrum FOLDER` takes a frame on standard input
//! and the codebooks `lsf.txt` and `mag.txt` of a folder, and prints what the program has to print. `spectrum selftest`
//! tries the document's example 8, and sums that run off the top.

mod codebooks;
mod melp;

use codebooks::{LSF_SIZE, MAGNITUDE_SIZE, ROW};
use melp::Refusal;
use std::io::Read;
use std::path::Path;
use std::process::ExitCode;

/// A codebook of that size from its file; a missing file is 6 as well.
fn codebook(path: &Path, size: usize) -> Result<Vec<i64>, Refusal> {
    let text = std::fs::read(path).map_err(|_| Refusal::Codebook)?;
    codebooks::from_text(&text, size)
}

/// All twenty numbers, or the refusal: the input first, then both files, then the rows in use.
fn spectrum(input: &[u8], folder: &Path) -> Result<Vec<i64>, Refusal> {
    let (result, _) = melp::receive(&melp::fresh_record(), input, &melp::default_order())?;
    let lsf = codebook(&folder.join("lsf.txt"), LSF_SIZE);
    let mag = codebook(&folder.join("mag.txt"), MAGNITUDE_SIZE);
    let (lsf, mag) = (lsf?, mag?);
    let components = codebooks::lsf_values(&result.set, &lsf, ROW)?;
    let magnitudes = codebooks::magnitudes(&result.set, &mag, ROW)?;
    Ok([components, magnitudes].concat())
}

// ---- Program ----

/// Sums in hertz and the values that they become: example 8 of document 01, then two of our own for T-03, sums of which the last
/// four are lowered, and one that carries all others off the top.
const SPACED: [(&str, [i64; ROW], [i64; ROW]); 3] = [
    (
        "8",
        [300, 340, 500, 800, 1100, 1400, 1700, 2000, 2300, 2600],
        [300, 350, 500, 800, 1100, 1400, 1700, 2000, 2300, 2600],
    ),
    (
        "of T-03, crowded",
        [300, 900, 1500, 2100, 2700, 3300, 3880, 3900, 3910, 3990],
        [300, 900, 1500, 2100, 2700, 3300, 3800, 3850, 3900, 3950],
    ),
    (
        "of T-03, off the top",
        [4000, 0, 0, 0, 0, 0, 0, 0, 0, 0],
        [3500, 3550, 3600, 3650, 3700, 3750, 3800, 3850, 3900, 3950],
    ),
];

/// The examples, in millionths.
fn selftest() -> ExitCode {
    let millionths = |hertz: [i64; ROW]| hertz.map(|value| 1_000_000 * value).to_vec();
    for (name, sums, expected) in SPACED {
        if codebooks::spaced(millionths(sums)) != millionths(expected) {
            println!("example {name} fails");
            return ExitCode::FAILURE;
        }
    }
    println!("ok");
    ExitCode::SUCCESS
}

/// Print the values, or the refusal.
fn print(folder: &Path) {
    let mut input = Vec::new();
    std::io::stdin()
        .read_to_end(&mut input)
        .expect("standard input");
    match spectrum(&input, folder) {
        Err(refusal) => println!("refused={}", refusal.number()),
        Ok(values) => values.iter().for_each(|value| println!("{value}")),
    }
}

fn main() -> ExitCode {
    let argument = std::env::args().nth(1);
    let argument = argument.expect("usage: spectrum FOLDER | spectrum selftest");
    if argument == "selftest" {
        return selftest();
    }
    print(Path::new(&argument));
    ExitCode::SUCCESS
}
