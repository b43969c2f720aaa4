//! Deploy, with its room taken for the caller.
use crate::{lent::Lent, raw, Refusal, MAX_BOARDS, MAX_TERMS};
use alloc::{vec, vec::Vec};

/// What a deployment answers of one board: its parts, as a split of it alone gives them, or why it is refused.
pub type Board = Result<Vec<Vec<u64>>, Refusal>;

/// The parts of every board of a deployment, at most 64 lists, in the order of the boards.
///
/// Each board is answered as a split of it alone is. One that is refused does not stop the others.
///
/// ```
/// use apfelruder::{deploy, Refusal};
///
/// // (x0 + x1)(1 + x2), then a list out of order, then x0 x1
/// let boards = deploy(&[&[1, 2, 5, 6][..], &[2, 1], &[3]])?;
/// assert_eq!(boards[0], Ok(vec![vec![1, 2], vec![0, 4]]));
/// assert_eq!(boards[1], Err(Refusal::Order { operand: 1, place: 1 }));
/// assert_eq!(boards[2], Ok(vec![vec![1], vec![2]]));
/// // more than 64 boards
/// assert_eq!(deploy(&[[1]; 65]), Err(Refusal::TooMany { operand: 0 }));
/// # Ok::<(), Refusal>(())
/// ```
///
/// # Errors
///
/// [`Refusal::TooMany`] with operand 0 for more than 64 boards: then none is split. Of a single board, with operand 1 and in
/// this order: [`Refusal::TooMany`] for more than 1,024 terms, [`Refusal::Zero`] for the empty list, [`Refusal::Order`] for a
/// term that is not above the one before it; the place is an index in that board's own list. Printed, such a refusal speaks of
/// the first list, which is that board's: say beside it which board it was.
#[must_use = "the parts are in the answer and nowhere else"]
pub fn deploy<L: AsRef<[u64]>>(boards: &[L]) -> Result<Vec<Board>, Refusal> {
    // More boards than 64 are refused before any room is asked for; one of too many terms needs no work area.
    let lists = if boards.len() > MAX_BOARDS { &[] } else { boards };
    let longest = lists.iter().map(|list| list.as_ref().len()).filter(|&t| t <= MAX_TERMS).max().unwrap_or(0);
    let lent = Lent::of(boards);
    let mut answers = vec![0; raw::deploy_answers_words(lists.len())];
    let mut part_terms = vec![0; raw::deploy_part_terms_words(lent.terms.len(), lists.len())];
    let mut part_lengths = vec![0; raw::deploy_part_lengths_words(lists.len())];
    let mut work = vec![0; raw::work_words(longest)];
    raw::deploy(&lent.terms, lent.lengths(), &mut answers, &mut part_terms, &mut part_lengths, &mut work).result()?;
    // the parts of the accepted boards lie one behind the other: what is left of them for the boards to come
    let (mut terms, mut lengths) = (&part_terms[..], &part_lengths[..]);
    let mut told = Vec::with_capacity(lists.len());
    told.extend(raw::answers(&answers).map(|answer| {
        let count = answer.result()?;
        let mut parts = Vec::with_capacity(count);
        parts.extend(raw::parts(terms, lengths, count).map(<[u64]>::to_vec));
        terms = &terms[parts.iter().map(Vec::len).sum()..];
        lengths = &lengths[parts.len()..];
        Ok(parts)
    }));
    Ok(told)
}
