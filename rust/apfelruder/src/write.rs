//! Write, with its room taken for the caller.
use crate::{raw, Refusal, MAX_BLOCK_BYTES};
use alloc::vec::Vec;

/// The block of a list. One list has one block.
///
/// ```
/// assert_eq!(apfelruder::write(&[1, 2, 5, 6]), Ok(vec![0x10, 0x60, 0x04, 0x2a, 0xe0]));
/// ```
///
/// # Errors
///
/// [`Refusal::TooMany`] for more than 1,024 terms, else [`Refusal::Order`] for a term that is not above the one before it.
#[must_use = "the block is in the answer and nowhere else"]
pub fn write(terms: &[u64]) -> Result<Vec<u8>, Refusal> {
    let mut out = [0; MAX_BLOCK_BYTES];
    let count = raw::write(terms, &mut out).result()?;
    Ok(out[..count].to_vec())
}
