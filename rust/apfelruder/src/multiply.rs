//! Multiply, with its room taken for the caller.
use crate::{raw, Refusal, MAX_TERMS};
use alloc::{vec, vec::Vec};

/// The product of two lists that have no common variable, ascending. Zero times anything is zero, the empty list.
///
/// ```
/// use apfelruder::{multiply, Refusal};
///
/// // (1 + x0)(1 + x1) = 1 + x0 + x1 + x0 x1
/// assert_eq!(multiply(&[0, 1], &[0, 2]), Ok(vec![0, 1, 2, 3]));
/// assert_eq!(multiply(&[0, 1], &[1]), Err(Refusal::Shared));
/// ```
///
/// # Errors
///
/// In this order: [`Refusal::TooMany`] if a, then if b has more than 1,024 terms, [`Refusal::Order`] if a term of a, then
/// of b is not above the one before it, [`Refusal::Shared`] if a variable is in both, [`Refusal::TooLarge`] if the product
/// would have more than 1,024 terms.
#[must_use = "the product is in the answer and nowhere else"]
pub fn multiply(a: &[u64], b: &[u64]) -> Result<Vec<u64>, Refusal> {
    let mut out = vec![0; room(a.len(), b.len())];
    // accepted, the product fills its room exactly
    raw::multiply(a, b, &mut out).result()?;
    Ok(out)
}

/// The words that the product needs. None if it is too large: that is refused before any room is asked for.
fn room(a: usize, b: usize) -> usize {
    match a.checked_mul(b) {
        Some(words) if words <= MAX_TERMS => words,
        _ => 0,
    }
}

#[cfg(test)]
mod tests {
    use super::room;

    #[test]
    fn room_is_the_product_or_nothing() {
        assert_eq!(room(32, 32), 1024);
        assert_eq!(room(1, 1024), 1024);
        assert_eq!(room(0, usize::MAX), 0);
        assert_eq!(room(25, 41), 0);
        assert_eq!(room(1, 1025), 0);
    }

    #[test]
    fn lengths_may_overflow() {
        // wrapped around, these products would be 0, 1 and 32
        let half = 1 << (usize::BITS / 2);
        assert_eq!(room(half, half), 0);
        assert_eq!(room(usize::MAX, usize::MAX), 0);
        assert_eq!(room(usize::MAX, usize::MAX - 31), 0);
    }
}
