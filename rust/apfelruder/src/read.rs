//! Read, with its room taken for the caller.
use crate::{raw, Refusal, MAX_TERMS};
use alloc::vec::Vec;

/// The list that a block holds. The bytes are exactly one block.
///
/// ```
/// use apfelruder::{read, Refusal};
///
/// assert_eq!(read(&[0x10, 0x60, 0x04, 0x2a, 0xe0]), Ok(vec![1, 2, 5, 6]));
/// assert_eq!(read(&[0x10, 0x60, 0x04, 0x2a]), Err(Refusal::Short { operand: 1 }));
/// ```
///
/// # Errors
///
/// In this order: [`Refusal::Short`] for under 3 bytes, [`Refusal::Form`] for a form number other than 1,
/// [`Refusal::Wide`] for n above 64, [`Refusal::TooMany`] for t above 1,024, [`Refusal::Short`] if the bytes end before the
/// block does, [`Refusal::Extra`] if they go on behind it, [`Refusal::Order`] for a term that is not above the one before it,
/// [`Refusal::Misfit`] for a larger n than the list has, [`Refusal::Pad`] for a padding bit that is set.
#[must_use = "the list is in the answer and nowhere else"]
pub fn read(bytes: &[u8]) -> Result<Vec<u64>, Refusal> {
    let mut out = [0; MAX_TERMS];
    let count = raw::read(bytes, &mut out).result()?;
    Ok(out[..count].to_vec())
}
