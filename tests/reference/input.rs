//! Standard input, as programs read it that leave what follows to others.

use std::fs::File;
use std::io::{Read, Result};
use std::os::fd::AsFd;

/// At most so many bytes, unbuffered so that no byte past them is taken.
pub fn read_at_most(count: u64) -> Result<Vec<u8>> {
    let standard_input = File::from(std::io::stdin().as_fd().try_clone_to_owned()?);
    let mut input = Vec::new();
    standard_input.take(count).read_to_end(&mut input)?;
    Ok(input)
}
