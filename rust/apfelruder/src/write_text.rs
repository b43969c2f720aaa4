//! Write text, with its room taken for the caller.
use crate::{raw, Refusal, MAX_TERMS, MAX_TEXT_BYTES};
use alloc::{string::String, vec};

/// The text of a list, with a line feed at its end: the terms ascending, in each the variables ascending.
///
/// ```
/// assert_eq!(apfelruder::write_text(&[0, 4, 9]).as_deref(), Ok("1+x2+x0*x3\n"));
/// assert_eq!(apfelruder::write_text(&[]).as_deref(), Ok("0\n"));
/// ```
///
/// # Errors
///
/// In this order: [`Refusal::TooMany`] for more than 1,024 terms, [`Refusal::Order`] for a term that is not above the one
/// before it, [`Refusal::TooLarge`] if the text would have more than 65,536 bytes.
#[must_use = "the text is in the answer and nowhere else"]
pub fn write_text(terms: &[u64]) -> Result<String, Refusal> {
    let mut out = vec![0; room(terms.len())];
    let count = raw::write_text(terms, &mut out).result()?;
    // all of it is ASCII, so nothing is lost
    Ok(String::from_utf8_lossy(&out[..count]).into_owned())
}

/// Bytes that the text of so many terms never exceeds. None if there are too many: that is refused before any room is asked
/// for.
fn room(t: usize) -> usize {
    /// The term of all variables, and the sign behind it.
    const LONGEST_TERM: usize = 246;
    match t {
        0 => 2,
        1..=MAX_TERMS => MAX_TEXT_BYTES.min(LONGEST_TERM * t),
        _ => 0,
    }
}

#[cfg(test)]
mod tests {
    use super::room;

    #[test]
    fn room_is_enough_or_nothing() {
        assert_eq!(room(0), 2);
        assert_eq!(room(1), 246);
        assert_eq!(room(266), 65436);
        assert_eq!(room(267), 65536);
        assert_eq!(room(1024), 65536);
        assert_eq!(room(1025), 0);
        assert_eq!(room(usize::MAX), 0);
    }
}
