//! The program of document 01's section "Program hear": `hear` takes frames on standard input, and prints what the
//! program has to print; `hear selftest` tries the document's example.

mod input;
mod melp;
mod program;

use melp::{FrameResult, Kind, Set, Voicing};
use std::io::{Result, Write};
use std::process::ExitCode;

/// Bytes of a frame.
const FRAME: usize = 7;

/// Bytes that are read at most.
const MOST_BYTES: u64 = 65_534;

/// A field that only a voiced set has.
fn shown(set: &Set, field: fn(&Voicing) -> u8) -> String {
    match &set.voicing {
        None => "-".to_string(),
        Some(voicing) => field(voicing).to_string(),
    }
}

/// The part of a line that shows the set.
fn set_text(set: &Set) -> String {
    let [l1, l2, l3, l4] = set.lsf;
    let pitch = shown(set, |v| v.pitch);
    let bandpass = shown(set, |v| v.bandpass);
    let fourier = shown(set, |v| v.fourier);
    let aperiodic = shown(set, |v| v.aperiodic);
    format!("pitch={pitch} lsf={l1},{l2},{l3},{l4} bp={bandpass} fm={fourier} ap={aperiodic}")
}

/// The part of a line that shows the result.
fn result_text(result: &FrameResult) -> String {
    let kind = match result.kind {
        Kind::Unvoiced => "U",
        Kind::Voiced => "V",
        Kind::Repeat => "R",
    };
    let set = set_text(&result.set);
    let levels = format!("g1={} g2={}", result.first_level, result.second_level);
    let (sync, fixed, mute) = (result.sync, result.repaired, result.mute);
    format!("kind={kind} {set} {levels} sync={sync} fixed={fixed} mute={mute}")
}

/// All that is printed for the bytes read.
fn hear(input: &[u8]) -> String {
    let mut text = "grain=186 order=house\n".to_string();
    let order = melp::default_order();
    let mut record = melp::fresh_record();
    let (mut frames, mut repeats) = (0, 0);
    for frame in input.chunks_exact(FRAME) {
        let answer = match melp::receive(&record, frame, &order) {
            Err(refusal) => format!("refused={}", refusal.number()),
            Ok((result, next)) => {
                record = next;
                repeats += u32::from(result.kind == Kind::Repeat);
                result_text(&result)
            }
        };
        text += &format!("frame={frames} {answer}\n");
        frames += 1;
    }
    let left = input.len() % FRAME;
    text + &format!("frames={frames} repeats={repeats} left={left}\n")
}

/// Read the input and print.
fn run() -> Result<()> {
    let input = input::read_at_most(MOST_BYTES)?;
    std::io::stdout().write_all(hear(&input).as_bytes())
}

/// The document's example.
fn example_holds() -> bool {
    let expected = "\
grain=186 order=house
frame=0 kind=U pitch=- lsf=90,0,0,0 bp=- fm=- ap=- g1=4071 g2=6282 sync=0 fixed=0 mute=0
frames=1 repeats=0 left=0
";
    hear(&[0x80, 0x56, 0x0D, 0x40, 0x15, 0x00, 0x10]) == expected
}

fn main() -> ExitCode {
    program::start("hear", run, example_holds)
}
