//! Audit, with its room taken for the caller.
use crate::{lent::Lent, raw, Refusal, MAX_TERMS, MAX_VARS};
use alloc::{vec, vec::Vec};

/// What an audit answers.
#[derive(Clone, Debug, PartialEq, Eq)]
pub struct Audit {
    /// Whether the given parts are exactly the parts of the approved list, in their order.
    pub yes: bool,
    /// The parts of the approved list, right or wrong as the given ones may be.
    pub parts: Vec<Vec<u64>>,
}

/// Whether the given lists are exactly the parts of the approved list, in ascending order of their lowest variable; and
/// what the parts are.
///
/// A given list may be empty: zero is no part, so the answer is no. The list of the single term 0, which is one, has no
/// parts, so nothing given is right for it.
///
/// ```
/// use apfelruder::{audit, Refusal};
///
/// // x0 x2 + x1 x2 + x0 + x1 = (x0 + x1)(1 + x2)
/// let approved = [1, 2, 5, 6];
/// let told = audit(&approved, &[[1, 2], [0, 4]])?;
/// assert!(told.yes);
/// // the constant term is lost
/// let told = audit(&approved, &[&[1, 2][..], &[4]])?;
/// assert!(!told.yes);
/// assert_eq!(told.parts, [[1, 2], [0, 4]]);
/// // the first given part is operand 2
/// assert_eq!(audit(&approved, &[[2, 1]]), Err(Refusal::Order { operand: 2, place: 1 }));
/// # Ok::<(), Refusal>(())
/// ```
///
/// # Errors
///
/// In this order: [`Refusal::TooMany`] with operand 0 for more than 64 given lists; [`Refusal::TooMany`] for more than 1,024
/// terms in the approved list, then in a given one; [`Refusal::Zero`] if the approved list is empty; [`Refusal::Order`] for a
/// term that is not above the one before it, in the approved list, then in a given one. The approved list is operand 1, the
/// given ones are operands 2 to 65 in turn.
#[must_use = "nothing is changed; the answer is all there is"]
pub fn audit<P: AsRef<[u64]>>(approved: &[u64], given: &[P]) -> Result<Audit, Refusal> {
    // A list that is too long is refused before any room is asked for.
    let t = if approved.len() > MAX_TERMS { 0 } else { approved.len() };
    let lent = Lent::of(given);
    let mut part_terms = vec![0; raw::part_terms_words(t)];
    let mut lengths = [0; MAX_VARS];
    let mut work = vec![0; raw::work_words(t)];
    let yes =
        raw::audit(approved, &lent.terms, lent.lengths(), &mut part_terms, &mut lengths, &mut work).result()? == 1;
    // the answer does not count the parts; none has length 0, and what is behind the last is unchanged
    let count = lengths.iter().take_while(|&&length| length != 0).count();
    let mut parts = Vec::with_capacity(count);
    parts.extend(raw::parts(&part_terms, &lengths, count).map(<[u64]>::to_vec));
    Ok(Audit { yes, parts })
}
