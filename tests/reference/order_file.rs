//! An order as a contractor writes it: 54 numbers in decimal, separated by white space.

use crate::melp::{self, Order};

/// The number that a word spells.
fn number(word: &str) -> Result<u8, String> {
    let is_decimal = word.bytes().all(|byte| byte.is_ascii_digit());
    match word.parse() {
        Ok(number) if is_decimal && number < 54 => Ok(number),
        _ => Err(format!("\"{word}\" is no number from 0 to 53")),
    }
}

/// The order in a text, or what is wrong with it.
pub fn order_in(text: &[u8]) -> Result<Order, String> {
    let text = String::from_utf8_lossy(text);
    let list: Vec<u8> = text
        .split_ascii_whitespace()
        .map(number)
        .collect::<Result<_, String>>()?;
    if list.len() != 54 {
        return Err(format!("{} numbers, not 54", list.len()));
    }
    let missing = (0..54).find(|j| !list.contains(j));
    match missing {
        Some(j) => Err(format!("{j} is missing")),
        None => Ok(melp::order_of(&list).expect("54 numbers, and each of them")),
    }
}
