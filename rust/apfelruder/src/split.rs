//! Split, with its room taken for the caller.
use crate::{raw, Refusal, MAX_TERMS, MAX_VARS};
use alloc::{vec, vec::Vec};

/// The parts of a list, in ascending order of their lowest variable, each ascending.
///
/// The list of the single term 0, which is one, has no parts. A variable that all terms hold is a part, alone.
///
/// ```
/// use apfelruder::{split, Refusal};
///
/// // x1 x2 + x0 x1 x2 + x2 x3 + x0 x2 x3 = (1 + x0)(x1 + x3) x2
/// assert_eq!(split(&[6, 7, 12, 13]), Ok(vec![vec![0, 1], vec![2, 8], vec![4]]));
/// assert_eq!(split(&[2, 1]), Err(Refusal::Order { operand: 1, place: 1 }));
/// ```
///
/// # Errors
///
/// In this order: [`Refusal::TooMany`] for more than 1,024 terms, [`Refusal::Zero`] for the empty list,
/// [`Refusal::Order`] for a term that is not above the one before it.
#[must_use = "the parts are in the answer and nowhere else"]
pub fn split(terms: &[u64]) -> Result<Vec<Vec<u64>>, Refusal> {
    // A list that is too long is refused before any room is asked for.
    let t = if terms.len() > MAX_TERMS { 0 } else { terms.len() };
    let mut part_terms = vec![0; raw::part_terms_words(t)];
    let mut lengths = [0; MAX_VARS];
    let mut work = vec![0; raw::work_words(t)];
    let count = raw::split(terms, &mut part_terms, &mut lengths, &mut work).result()?;
    let mut parts = Vec::with_capacity(count);
    parts.extend(raw::parts(&part_terms, &lengths, count).map(<[u64]>::to_vec));
    Ok(parts)
}
