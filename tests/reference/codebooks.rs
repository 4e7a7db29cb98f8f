//! Document 01's section "LSF and magnitude values", and document 02's T-03: codebooks as text, their rows, and the values of a
//! set.

// Each program uses its part.
#![allow(dead_code)]

use crate::melp::{self, Refusal, Set};

/// Numbers in a row of either codebook.
pub const ROW: usize = 10;

/// Numbers in the LSF codebook: 128 rows for stage 1, then 64 for each of stages 2 to 4.
pub const LSF_SIZE: usize = 3200;

/// Numbers in the magnitude codebook: 256 rows.
pub const MAGNITUDE_SIZE: usize = 2560;

/// Rows of the four stages of the LSF codebook.
const STAGES: [usize; 4] = [128, 64, 64, 64];

/// Least and most of an LSF entry, and of a magnitude.
pub const LSF_LIMITS: (i64, i64) = (-4_000_000_000, 4_000_000_000);
pub const MAGNITUDE_LIMITS: (i64, i64) = (0, 4_000_000);

/// Millionths of a hertz in 50 Hz, and in 3,950 Hz.
const SPACING: i64 = 50_000_000;
const TOP: i64 = 3_950_000_000;

// ---- The text of a codebook ----

/// The number on a line without its end: a minus where negative, then one to ten digits.
fn number(line: &[u8]) -> Option<i64> {
    let negative = line.first() == Some(&b'-');
    let digits = if negative { &line[1..] } else { line };
    let well_formed = (1..=10).contains(&digits.len()) && digits.iter().all(u8::is_ascii_digit);
    if !well_formed {
        return None;
    }
    let size = digits
        .iter()
        .fold(0, |size, d| 10 * size + i64::from(d - b'0'));
    match (negative, size) {
        (true, 0) => None,
        (true, _) => Some(-size),
        (false, _) => Some(size),
    }
}

/// The numbers of a text whose every line is good and ended.
fn numbers(text: &[u8]) -> Option<Vec<i64>> {
    let mut pieces: Vec<&[u8]> = text.split(|byte| *byte == b'\n').collect();
    // What follows the last line end must be nothing.
    let rest = pieces.pop()?;
    if !rest.is_empty() {
        return None;
    }
    pieces.into_iter().map(number).collect()
}

/// The numbers of a text for a codebook of that size; a bad line or another number of lines is 6.
pub fn from_text(text: &[u8], size: usize) -> Result<Vec<i64>, Refusal> {
    match numbers(text) {
        Some(values) if values.len() == size => Ok(values),
        _ => Err(Refusal::Codebook),
    }
}

// ---- Rows ----

/// A row in use; an entry outside its limits is 7.
fn row(codebook: &[i64], number: usize, (least, most): (i64, i64)) -> Result<&[i64], Refusal> {
    let row = &codebook[number * ROW..(number + 1) * ROW];
    if row.iter().all(|entry| (least..=most).contains(entry)) {
        Ok(row)
    } else {
        Err(Refusal::Row)
    }
}

/// A codebook of another length is 6.
fn check_size(codebook: &[i64], size: usize) -> Result<(), Refusal> {
    if codebook.len() == size {
        Ok(())
    } else {
        Err(Refusal::Codebook)
    }
}

/// The number of a stage's row among all rows; stages count from 1.
pub fn lsf_row_number(stage: u8, index: u8) -> Option<usize> {
    let before = usize::from(stage).checked_sub(1)?;
    let rows = *STAGES.get(before)?;
    let start: usize = STAGES[..before].iter().sum();
    (usize::from(index) < rows).then_some(start + usize::from(index))
}

/// A row of the LSF codebook: refused 5, 6 or 7.
pub fn lsf_row(codebook: &[i64], stage: u8, index: u8) -> Result<&[i64], Refusal> {
    let number = lsf_row_number(stage, index).ok_or(Refusal::Parameter)?;
    check_size(codebook, LSF_SIZE)?;
    row(codebook, number, LSF_LIMITS)
}

/// A row of the magnitude codebook: refused 5, 6 or 7.
pub fn magnitude_row(codebook: &[i64], index: u16) -> Result<&[i64], Refusal> {
    if index > 255 {
        return Err(Refusal::Parameter);
    }
    check_size(codebook, MAGNITUDE_SIZE)?;
    row(codebook, usize::from(index), MAGNITUDE_LIMITS)
}

// ---- Values ----

/// Components raised: the first to 50 Hz, each next to 50 Hz above the one before.
fn raise(components: &mut [i64]) {
    components[0] = components[0].max(SPACING);
    for component in 1..ROW {
        components[component] = components[component].max(components[component - 1] + SPACING);
    }
}

/// Components lowered: the tenth to 3,950 Hz, then from the ninth down each to 50 Hz below the next.
fn lower(components: &mut [i64]) {
    components[ROW - 1] = components[ROW - 1].min(TOP);
    for component in (0..ROW - 1).rev() {
        components[component] = components[component].min(components[component + 1] - SPACING);
    }
}

/// Sums raised, and after that lowered.
pub fn spaced(mut sums: Vec<i64>) -> Vec<i64> {
    raise(&mut sums);
    lower(&mut sums);
    sums
}

/// What is refused before a row is looked at: 1, then 5, then 6.
fn check(set: &Set, codebook: &[i64], size: usize, room: usize) -> Result<(), Refusal> {
    if room < ROW {
        return Err(Refusal::Output);
    }
    if !melp::set_in_range(set) {
        return Err(Refusal::Parameter);
    }
    check_size(codebook, size)
}

/// The four rows of a set added, raised and lowered.
pub fn lsf_values(set: &Set, codebook: &[i64], room: usize) -> Result<Vec<i64>, Refusal> {
    check(set, codebook, LSF_SIZE, room)?;
    let mut sums = vec![0; ROW];
    for stage in 1..=4 {
        let entries = lsf_row(codebook, stage, set.lsf[usize::from(stage) - 1])?;
        for component in 0..ROW {
            sums[component] += entries[component];
        }
    }
    Ok(spaced(sums))
}

/// Row F of a voiced set; an unvoiced one uses no row.
pub fn magnitudes(set: &Set, codebook: &[i64], room: usize) -> Result<Vec<i64>, Refusal> {
    check(set, codebook, MAGNITUDE_SIZE, room)?;
    match set.voicing {
        None => Ok(vec![1_000_000; ROW]),
        Some(v) => magnitude_row(codebook, u16::from(v.fourier)).map(<[i64]>::to_vec),
    }
}
