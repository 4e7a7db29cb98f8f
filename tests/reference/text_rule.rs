//! A text as a vector gives it: so many bytes of a plain text with one change in it.

use crate::layout::{put, Vector};

/// So many bytes, with a change: from a place on, some bytes go out and the given ones come in.
#[derive(Clone)]
pub struct TextRule {
    pub size: usize,
    pub at: usize,
    pub skipped: usize,
    pub given: Vec<u8>,
}

impl TextRule {
    /// So many bytes as they are.
    pub fn plain(size: usize) -> TextRule {
        TextRule {
            size,
            at: 0,
            skipped: 0,
            given: Vec::new(),
        }
    }

    /// The text, from a plain one that is long enough.
    pub fn text(&self, plain: &[u8]) -> Vec<u8> {
        let rest = &plain[self.at + self.skipped..];
        let mut text = [&plain[..self.at], &self.given, rest].concat();
        text.truncate(self.size);
        text
    }

    /// Put the rule into bytes 1 to 6, and from 74 on.
    pub fn put(&self, vector: &mut Vector) {
        put(vector, 1, &(self.size as u16).to_be_bytes());
        put(vector, 3, &(self.at as u16).to_be_bytes());
        put(vector, 5, &[self.skipped as u8, self.given.len() as u8]);
        put(vector, 74, &self.given);
    }
}
