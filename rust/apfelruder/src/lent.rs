//! Several lists one behind the other, as audit and deploy take them.
use crate::MAX_TERMS;
use alloc::vec::Vec;

/// The most lists that such a call takes: the given parts of an audit, the boards of a deployment.
const MOST: usize = 64;

/// The given lists one behind the other, with no more of them than the call looks at.
pub struct Lent {
    /// The terms of all lists.
    pub terms: Vec<u64>,
    lengths: [u64; MOST + 1],
    many: usize,
}

impl Lent {
    /// More than 64 lists are refused whatever they are, so nothing of them is copied. A list of more than 1,024 terms is
    /// refused for its length, so of each no more than 1,025 terms are.
    pub fn of<L: AsRef<[u64]>>(given: &[L]) -> Lent {
        let many = given.len().min(MOST + 1);
        let copied = if many > MOST { &[] } else { given };
        let mut lengths = [0; MOST + 1];
        let mut terms = Vec::with_capacity(copied.iter().map(|list| clipped(list.as_ref()).len()).sum());
        for (list, length) in copied.iter().zip(&mut lengths) {
            let list = clipped(list.as_ref());
            terms.extend_from_slice(list);
            *length = list.len() as u64;
        }
        Lent { terms, lengths, many }
    }

    /// A number for each list.
    pub fn lengths(&self) -> &[u64] {
        &self.lengths[..self.many]
    }
}

/// A list, or as much of it as shows that it is too long.
fn clipped(list: &[u64]) -> &[u64] {
    &list[..list.len().min(MAX_TERMS + 1)]
}
