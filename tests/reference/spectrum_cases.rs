//! Cases for the program `spectrum`: `spectrum_cases FOLDER spoilt|random SEED`. Each case is a folder of its own with
//! `lsf.txt` and `mag.txt` in any state, and one or more inputs `frame-N`. What has to be printed is not said here:
//! `spectrum.rs` says it.

mod frames;
mod melp;
mod random;

use melp::{Set, Voicing};
use random::Random;
use std::fs;
use std::io::Result;
use std::path::PathBuf;

/// Lines of good codebooks.
const LSF_LINES: usize = 3200;
const MAGNITUDE_LINES: usize = 2560;

/// Limits of LSF entries and of magnitudes.
const LSF_LIMIT: i64 = 4_000_000_000;
const MAGNITUDE_LIMIT: i64 = 4_000_000;

// ---- Frames ----

/// The sets whose rows the fixed cases know: L1 to L4 are 5 to 8, F is 9.
fn known_set(voiced: bool) -> Set {
    let voicing = Voicing {
        pitch: 40,
        bandpass: 9,
        fourier: 9,
        aperiodic: 1,
    };
    Set {
        lsf: [5, 6, 7, 8],
        g2: 11,
        g1: 3,
        voicing: voiced.then_some(voicing),
    }
}

/// The frame of a set in range.
fn frame(set: &Set) -> Vec<u8> {
    let frame = melp::frame_of(set, 0, &melp::default_order());
    frame.expect("a set in range").to_vec()
}

/// A frame with two ones in its pitch code.
fn erased() -> Vec<u8> {
    let order = melp::default_order();
    let mut bytes = melp::frame_of(&known_set(false), 0, &order).expect("a set in range");
    melp::flip(&mut bytes, melp::place_of(28, &order));
    melp::flip(&mut bytes, melp::place_of(29, &order));
    bytes.to_vec()
}

/// A voiced, an unvoiced and an erased frame.
fn three_frames() -> Vec<Vec<u8>> {
    vec![frame(&known_set(true)), frame(&known_set(false)), erased()]
}

// ---- Codebooks ----

/// The text of some numbers.
fn text(values: &[i64]) -> Vec<u8> {
    let lines: Vec<String> = values.iter().map(|value| format!("{value}\n")).collect();
    lines.concat().into_bytes()
}

/// Good codebooks with numbers of every size.
fn good_codebooks(random: &mut Random) -> (Vec<i64>, Vec<i64>) {
    let lsf = (0..LSF_LINES)
        .map(|i| random.between(-50_000_000, 50_000_000) + 90_000_000 * (i as i64 % 10))
        .collect();
    let mag = (0..MAGNITUDE_LINES)
        .map(|_| random.between(0, MAGNITUDE_LIMIT))
        .collect();
    (lsf, mag)
}

/// An LSF entry anywhere within its limit, at an end of it, small, or rarely past it.
fn random_lsf_entry(random: &mut Random) -> i64 {
    match random.below(400) {
        0 => random.pick(&[-LSF_LIMIT - 1, LSF_LIMIT + 1, 9_999_999_999]),
        1..=20 => random.pick(&[-LSF_LIMIT, LSF_LIMIT, 0, 1, -1]),
        21..=200 => random.between(-200_000_000, 200_000_000),
        _ => random.between(-LSF_LIMIT, LSF_LIMIT),
    }
}

/// A magnitude anywhere within its limits, at an end of them, or rarely past them.
fn random_magnitude(random: &mut Random) -> i64 {
    match random.below(150) {
        0 => random.pick(&[-1, MAGNITUDE_LIMIT + 1, -9_999_999_999]),
        1..=15 => random.pick(&[0, MAGNITUDE_LIMIT]),
        _ => random.between(0, MAGNITUDE_LIMIT),
    }
}

/// The text of some numbers, a few of them with zeros in front.
fn random_text(random: &mut Random, values: &[i64]) -> Vec<u8> {
    let mut text = String::new();
    for value in values {
        let width = random.pick(&[1, 1, 1, 5, 10]);
        let sign = if *value < 0 { "-" } else { "" };
        text.push_str(&format!("{sign}{:0width$}\n", value.abs()));
    }
    text.into_bytes()
}

// ---- Cases ----

/// Where cases are written.
struct Cases {
    folder: PathBuf,
}

impl Cases {
    /// One case. A codebook that is not given is missing.
    fn add(
        &self,
        name: &str,
        lsf: Option<&[u8]>,
        mag: Option<&[u8]>,
        inputs: &[Vec<u8>],
    ) -> Result<()> {
        let folder = self.folder.join(name);
        fs::create_dir(&folder)?;
        for (file, text) in [("lsf.txt", lsf), ("mag.txt", mag)] {
            if let Some(text) = text {
                fs::write(folder.join(file), text)?;
            }
        }
        for (i, input) in inputs.iter().enumerate() {
            fs::write(folder.join(format!("frame-{i}")), input)?;
        }
        Ok(())
    }

    /// A case in which one of two good texts is replaced.
    fn add_changed(
        &self,
        name: &str,
        codebooks: &Codebooks,
        which: usize,
        changed: &[u8],
    ) -> Result<()> {
        let mut texts = [&codebooks.lsf[..], &codebooks.mag[..]];
        texts[which] = changed;
        let name = format!("{}-{name}", FILES[which]);
        self.add(&name, Some(texts[0]), Some(texts[1]), &three_frames())
    }
}

/// The texts of two good codebooks.
struct Codebooks {
    lsf: Vec<u8>,
    mag: Vec<u8>,
}

/// The codebooks by name.
const FILES: [&str; 2] = ["lsf", "mag"];

/// Lines that take the place of a good one: the last ones are good too.
const LINES: [(&str, &[u8]); 25] = [
    ("empty", b""),
    ("plus", b"+5"),
    ("minus_alone", b"-"),
    ("minus_zero", b"-0"),
    ("minus_zeros", b"-00"),
    ("minus_ten_zeros", b"-0000000000"),
    ("two_minuses", b"--5"),
    ("minus_in_the_middle", b"5-5"),
    ("minus_at_the_end", b"5-"),
    ("carriage_return", b"5\r"),
    ("space_before", b" 5"),
    ("space_after", b"5 "),
    ("tab", b"\t5"),
    ("letter", b"5a"),
    ("hexadecimal", b"0x5"),
    ("point", b"5.0"),
    ("underscore", b"1_000"),
    ("eleven_digits", b"12345678901"),
    ("eleven_zeros", b"00000000000"),
    ("minus_eleven_digits", b"-12345678901"),
    ("nul", b"5\0"),
    ("high_byte", b"\xB2"),
    ("zeros_in_front", b"0000000005"),
    ("only_zeros", b"000"),
    ("ten_zeros", b"0000000000"),
];

/// A text with line i replaced.
fn with_line(text: &[u8], i: usize, line: &[u8]) -> Vec<u8> {
    let mut lines: Vec<&[u8]> = text.split(|byte| *byte == b'\n').collect();
    lines[i] = line;
    lines.join(&b'\n')
}

/// Each of the lines above at the start, in the middle and at the end of either codebook.
fn line_cases(cases: &Cases, codebooks: &Codebooks) -> Result<()> {
    for (which, text) in [&codebooks.lsf, &codebooks.mag].iter().enumerate() {
        let last = text.iter().filter(|byte| **byte == b'\n').count() - 1;
        for (name, line) in LINES {
            for at in [0, last / 2, last] {
                let changed = with_line(text, at, line);
                cases.add_changed(&format!("{name}-{at}"), codebooks, which, &changed)?;
            }
        }
    }
    Ok(())
}

/// A good text spoilt as a whole.
fn spoilt_texts(text: &[u8]) -> Vec<(&'static str, Vec<u8>)> {
    let before_last_end = &text[..text.len() - 1];
    let is_end = |byte: &u8| *byte == b'\n';
    let second_line = text.iter().position(is_end).expect("a line end") + 1;
    let last_line = before_last_end.iter().rposition(is_end).expect("two lines") + 1;
    let followed_by = |more: &[u8]| [text, more].concat();
    let filled_to = |size: usize| followed_by(&b"7".repeat(size - text.len()));
    vec![
        ("first_line_missing", text[second_line..].to_vec()),
        ("last_line_missing", text[..last_line].to_vec()),
        ("last_end_missing", before_last_end.to_vec()),
        ("one_line_more", followed_by(b"5\n")),
        ("one_end_more", followed_by(b"\n")),
        ("text_after", followed_by(b"5")),
        ("nul_after", followed_by(b"\0")),
        ("space_after_all", followed_by(b" ")),
        ("twice", followed_by(text)),
        ("full_buffer", filled_to(65_536)),
        ("past_the_buffer", filled_to(65_537)),
    ]
}

/// Texts of equal lines, few, as many as either codebook has, or too many; ten zeros a line are good.
fn uniform_texts() -> Vec<(&'static str, Vec<u8>)> {
    vec![
        ("empty_file", Vec::new()),
        ("one_line_end", b"\n".to_vec()),
        ("only_line_ends", b"\n".repeat(200_000)),
        ("too_many_lines", b"0000000005\n".repeat(7_000)),
        ("longest_lsf", b"-9999999999\n".repeat(LSF_LINES)),
        ("longest_mag", b"-9999999999\n".repeat(MAGNITUDE_LINES)),
        ("zero_lsf", b"0000000000\n".repeat(LSF_LINES)),
        ("zero_mag", b"0000000000\n".repeat(MAGNITUDE_LINES)),
    ]
}

/// Other texts in the place of either codebook, and each codebook in the other's place.
fn text_cases(cases: &Cases, codebooks: &Codebooks) -> Result<()> {
    let (lsf, mag) = (&codebooks.lsf[..], &codebooks.mag[..]);
    for (which, text) in [lsf, mag].iter().enumerate() {
        for (name, changed) in [spoilt_texts(text), uniform_texts()].concat() {
            cases.add_changed(name, codebooks, which, &changed)?;
        }
    }
    cases.add("swapped", Some(mag), Some(lsf), &three_frames())
}

/// Missing files, and folders in place of files; input that is refused before them.
fn file_cases(cases: &Cases, codebooks: &Codebooks) -> Result<()> {
    let (lsf, mag) = (Some(&codebooks.lsf[..]), Some(&codebooks.mag[..]));
    let mut inputs = three_frames();
    inputs.extend([Vec::new(), vec![3; 7]]);
    cases.add("missing-lsf", None, mag, &inputs)?;
    cases.add("missing-mag", lsf, None, &inputs)?;
    cases.add("missing-both", None, None, &inputs)?;
    cases.add("folder-lsf", None, mag, &inputs)?;
    fs::create_dir(cases.folder.join("folder-lsf/lsf.txt"))?;
    cases.add("folder-mag", lsf, None, &inputs)?;
    fs::create_dir(cases.folder.join("folder-mag/mag.txt"))
}

/// A frame with its last bits set, of other lengths, with both, and as it is.
fn variants(good: &[u8]) -> Vec<Vec<u8>> {
    let changed = |bits: u8, length: usize| {
        let mut input = good.to_vec();
        input[6] |= bits;
        input.resize(length, 0);
        input
    };
    let lengths = [0, 1, 6, 8, 9, 14, 100, 70_000];
    let mut inputs: Vec<Vec<u8>> = (0..=3).map(|bits| changed(bits, 7)).collect();
    inputs.extend(lengths.map(|length| changed(0, length)));
    inputs.push(changed(1, 8));
    inputs
}

/// Inputs of every form, with good and with bad codebooks.
fn input_cases(cases: &Cases, codebooks: &Codebooks) -> Result<()> {
    let forms = three_frames().into_iter().map(|good| variants(&good));
    let inputs: Vec<Vec<u8>> = forms.flatten().collect();
    let (lsf, mag) = (Some(&codebooks.lsf[..]), Some(&codebooks.mag[..]));
    cases.add("input-good_codebooks", lsf, mag, &inputs)?;
    cases.add("input-bad_codebooks", Some(b"x"), Some(b"x"), &inputs)?;
    cases.add("input-no_codebooks", None, None, &inputs)
}

/// A value at a place of an otherwise good codebook.
fn limit_case(
    cases: &Cases,
    codebooks: &Codebooks,
    which: usize,
    row: usize,
    at: usize,
    value: i64,
) -> Result<()> {
    let text = [&codebooks.lsf, &codebooks.mag][which];
    let changed = with_line(text, row * 10 + at, value.to_string().as_bytes());
    let name = format!("limit-row_{row}-entry_{at}-value_{value}");
    cases.add_changed(&name, codebooks, which, &changed)
}

/// Values at the limits of an LSF entry and past them.
const LSF_EDGES: [i64; 6] = [
    -9_999_999_999,
    -LSF_LIMIT - 1,
    -LSF_LIMIT,
    LSF_LIMIT,
    LSF_LIMIT + 1,
    9_999_999_999,
];

/// Values at the limits of a magnitude and past them.
const MAGNITUDE_EDGES: [i64; 6] = [
    -9_999_999_999,
    -1,
    0,
    MAGNITUDE_LIMIT,
    MAGNITUDE_LIMIT + 1,
    9_999_999_999,
];

/// Rows that the known frames use and rows beside them; an erased frame uses row 0 of each stage.
const LSF_ROWS: [usize; 17] = [
    0, 4, 5, 6, 127, 128, 133, 134, 135, 192, 199, 200, 256, 263, 264, 265, 319,
];
const MAGNITUDE_ROWS: [usize; 5] = [0, 8, 9, 10, 255];

/// Each of these values in each of these rows.
fn limit_cases(cases: &Cases, codebooks: &Codebooks) -> Result<()> {
    for row in LSF_ROWS {
        for value in LSF_EDGES {
            limit_case(cases, codebooks, 0, row, row % 10, value)?;
        }
    }
    for row in MAGNITUDE_ROWS {
        for value in MAGNITUDE_EDGES {
            limit_case(cases, codebooks, 1, row, 0, value)?;
            limit_case(cases, codebooks, 1, row, 9, value)?;
        }
    }
    Ok(())
}

/// Sums in hertz at both ends of the range and past them, each with the component that is tried a millionth less and more too.
const END_SUMS: [(&str, usize, [i64; 10]); 12] = [
    ("all_off_the_top", 9, [3990; 10]),
    ("all_off_the_bottom", 0, [-3990; 10]),
    ("first_carries_all", 0, [3990, 0, 0, 0, 0, 0, 0, 0, 0, 0]),
    (
        "fifth_carries_half",
        4,
        [-9, -9, -9, -9, 3990, -9, -9, -9, -9, -9],
    ),
    (
        "falling",
        5,
        [3990, 3600, 3200, 2800, 2400, 2000, 1600, 1200, 800, 400],
    ),
    (
        "rising",
        5,
        [
            -3600, -2800, -2000, -1200, -400, 400, 1200, 2000, 2800, 3600,
        ],
    ),
    ("tenth_at_the_top", 9, [0, 0, 0, 0, 0, 0, 0, 0, 0, 3950]),
    (
        "ninth_below_the_top",
        8,
        [0, 0, 0, 0, 0, 0, 0, 0, 3900, 3990],
    ),
    ("first_of_all_at_the_top", 0, AT_THE_TOP),
    ("last_of_all_at_the_top", 9, AT_THE_TOP),
    (
        "first_at_the_bottom",
        0,
        [50, 600, 900, 900, 900, 900, 900, 900, 900, 900],
    ),
    (
        "second_above_the_first",
        1,
        [300, 350, 900, 900, 900, 900, 900, 900, 900, 900],
    ),
];

/// Ten values 50 Hz apart, the last at the top.
const AT_THE_TOP: [i64; 10] = [3500, 3550, 3600, 3650, 3700, 3750, 3800, 3850, 3900, 3950];

/// Each of these sums in the rows of stage 1 that the known frames use, row 0 that of an erased frame. All other entries are 0, but
/// for the row of stage 2 that a known frame uses, which is also tried at its limits.
fn end_cases(cases: &Cases, codebooks: &Codebooks) -> Result<()> {
    for (name, at, hertz) in END_SUMS {
        for (off, second) in [(-1, 0), (0, 0), (1, 0), (0, LSF_LIMIT), (0, -LSF_LIMIT)] {
            let mut sums = hertz.map(|value| 1_000_000 * value);
            sums[at] += off;
            let mut lsf = vec![0; LSF_LINES];
            lsf[..10].copy_from_slice(&sums);
            lsf[50..60].copy_from_slice(&sums);
            lsf[1340..1350].fill(second);
            let name = format!("end-{name}-{off}-{second}");
            cases.add_changed(&name, codebooks, 0, &text(&lsf))?;
        }
    }
    Ok(())
}

/// So many random pairs of codebooks, five inputs each.
fn random_cases(cases: &Cases, random: &mut Random, count: usize) -> Result<()> {
    for i in 0..count {
        let lsf: Vec<i64> = (0..LSF_LINES).map(|_| random_lsf_entry(random)).collect();
        let mag: Vec<i64> = (0..MAGNITUDE_LINES)
            .map(|_| random_magnitude(random))
            .collect();
        let lsf = random_text(random, &lsf);
        let mag = random_text(random, &mag);
        let order = melp::default_order();
        let inputs: Vec<Vec<u8>> = (0..5)
            .map(|_| frames::random_received(random, &order))
            .collect();
        cases.add(&format!("random-{i}"), Some(&lsf), Some(&mag), &inputs)?;
    }
    Ok(())
}

/// A good LSF codebook: entries around 0, or rows of stage 1 that rise to around the top, from any start, and small ones after it.
fn good_lsf(random: &mut Random) -> Vec<i64> {
    let spread = random.pick(&[1, 1_000, 60_000_000, 900_000_000, LSF_LIMIT]);
    if random.once_in(2) {
        return (0..LSF_LINES)
            .map(|_| random.between(-spread, spread))
            .collect();
    }
    let start = random.between(-500_000_000, 3_900_000_000);
    let step = (random.between(3_600_000_000, 4_200_000_000) - start) / 9;
    let near = spread.min(60_000_000);
    let entry = |i: usize| {
        if i < 1280 {
            start + step * (i as i64 % 10)
        } else {
            0
        }
    };
    (0..LSF_LINES)
        .map(|i| (entry(i) + random.between(-near, near)).clamp(-LSF_LIMIT, LSF_LIMIT))
        .collect()
}

/// Frames with random codebooks that are good, so that no refusal hides a value.
fn good_random_cases(cases: &Cases, random: &mut Random, count: usize) -> Result<()> {
    for i in 0..count {
        let lsf = good_lsf(random);
        let (_, mag) = good_codebooks(random);
        let inputs: Vec<Vec<u8>> = (0..5).map(|_| frame(&frames::random_set(random))).collect();
        cases.add(
            &format!("good-{i}"),
            Some(&text(&lsf)),
            Some(&text(&mag)),
            &inputs,
        )?;
    }
    Ok(())
}

// ---- Program ----

/// Good codebooks and frames, spoilt one thing at a time.
fn spoilt_cases(cases: &Cases, random: &mut Random) -> Result<()> {
    let (lsf, mag) = good_codebooks(random);
    let codebooks = Codebooks {
        lsf: text(&lsf),
        mag: text(&mag),
    };
    line_cases(cases, &codebooks)?;
    text_cases(cases, &codebooks)?;
    file_cases(cases, &codebooks)?;
    input_cases(cases, &codebooks)?;
    limit_cases(cases, &codebooks)?;
    end_cases(cases, &codebooks)
}

/// Write the cases of one kind.
fn write_cases(folder: &str, kind: &str, seed: u64) -> Result<()> {
    let cases = Cases {
        folder: PathBuf::from(folder),
    };
    let mut random = Random::new(seed);
    match kind {
        "spoilt" => spoilt_cases(&cases, &mut random),
        "random" => {
            random_cases(&cases, &mut random, 100)?;
            good_random_cases(&cases, &mut random, 60)
        }
        _ => panic!("a kind is spoilt or random"),
    }
}

fn main() {
    let arguments: Vec<String> = std::env::args().skip(1).collect();
    let [folder, kind, seed] = arguments.as_slice() else {
        panic!("usage: spectrum_cases FOLDER spoilt|random SEED");
    };
    let seed = seed.parse().expect("a number");
    write_cases(folder, kind, seed).expect("cases written");
}
