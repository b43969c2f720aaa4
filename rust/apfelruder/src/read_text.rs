//! Read text, with its room taken for the caller.
use crate::{raw, Refusal, MAX_TERMS};
use alloc::vec::Vec;

/// The list that a text holds. The bytes are exactly one equation, with its line feed.
///
/// ```
/// use apfelruder::{read_text, Refusal};
///
/// assert_eq!(read_text(b"x0*x3+x2+1\n"), Ok(vec![0, 4, 9]));
/// // equal terms cancel, in whatever order they are typed
/// assert_eq!(read_text(b"x1*x0+1+x0*x1\n"), Ok(vec![0]));
/// // there is no x64; the line feed is missing
/// assert_eq!(read_text(b"x1+x64\n"), Err(Refusal::Sign { place: 5 }));
/// assert_eq!(read_text(b"x1+x6"), Err(Refusal::Sign { place: 5 }));
/// assert_eq!(read_text(b"x1*x1\n"), Err(Refusal::Twice { place: 5 }));
/// ```
///
/// # Errors
///
/// First of all [`Refusal::TooMany`] for more than 65,536 bytes. Then what the first byte shows that shows something:
/// [`Refusal::Sign`] if no equation goes on with it, or if the text ends too early, [`Refusal::Twice`] for the `+`, `*` or line feed
/// behind a variable that its term has already, [`Refusal::TooMany`] for the `x` or `1` that begins a 1,025th term. Terms are
/// counted as they are written, before any cancel.
#[must_use = "the list is in the answer and nowhere else"]
pub fn read_text(text: &[u8]) -> Result<Vec<u64>, Refusal> {
    let mut out = [0; MAX_TERMS];
    let count = raw::read_text(text, &mut out).result()?;
    Ok(out[..count].to_vec())
}
