//! `difference EXPECTED PRINTED`: status 0 and no word where two files hold the same bytes. Otherwise status 1 and three
//! lines: the number of the first line that differs, counted from 0, and that line of either file.

use std::process::ExitCode;

/// Lines with their ends; the last one may lack it.
fn lines(text: &[u8]) -> Vec<&[u8]> {
    text.split_inclusive(|byte| *byte == b'\n').collect()
}

/// A line in letters that a terminal can show, whatever its bytes are.
fn shown(line: Option<&&[u8]>) -> String {
    let Some(line) = line else {
        return "(nothing)".to_string();
    };
    let (text, remark) = match line.strip_suffix(b"\n") {
        Some(text) => (text, ""),
        None => (*line, " (no line end)"),
    };
    let letters: String = text.escape_ascii().take(300).map(char::from).collect();
    letters + remark
}

fn main() -> ExitCode {
    let argument = |n| std::env::args().nth(n);
    let file = |n| argument(n).expect("usage: difference EXPECTED PRINTED");
    let [expected, printed] = [1, 2].map(|n| std::fs::read(file(n)).expect("a file"));
    let (expected, printed) = (lines(&expected), lines(&printed));
    if expected == printed {
        return ExitCode::SUCCESS;
    }
    let differs = |n: &usize| expected.get(*n) != printed.get(*n);
    let number = (0..).find(differs).expect("a line that differs");
    println!("{number}");
    println!("{}", shown(expected.get(number)));
    println!("{}", shown(printed.get(number)));
    ExitCode::FAILURE
}
