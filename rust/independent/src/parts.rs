//! Split by the papers' rule (RULES 8): y lies in another part than x exactly if AD = BC.
use crate::answer::{check_lists, Answer};
use crate::products::{agree, product};
use std::collections::BTreeSet;

pub fn split(terms: &[u64], part_terms: &mut [u64], part_lengths: &mut [u64], work: &mut [u64]) -> Answer {
    if terms.len() > crate::TERMS {
        return Answer::refused(2, 1);
    }
    if terms.is_empty() {
        return Answer::refused(1, 1);
    }
    if let Err(refusal) = check_lists(&[terms]) {
        return refusal;
    }
    if part_terms.len() < terms.len() + 64 || part_lengths.len() < 64 {
        return Answer::refused(6, 1);
    }
    if work.len() < 4 * terms.len() {
        return Answer::refused(7, 1);
    }
    let parts = parts_of(terms);
    let mut at = 0;
    for (i, part) in parts.iter().enumerate() {
        part_terms[at..at + part.len()].copy_from_slice(part);
        part_lengths[i] = part.len() as u64;
        at += part.len();
    }
    work.fill(0);
    Answer::accepted(parts.len())
}

/// The projection onto a set of variables (RULES 2.2).
pub(crate) fn projection(list: &[u64], onto: u64) -> Vec<u64> {
    list.iter().map(|t| t & onto).collect::<BTreeSet<u64>>().into_iter().collect()
}

/// The derivative by a variable (RULES 8.1).
fn derivative(list: &[u64], x: u32) -> Vec<u64> {
    list.iter().filter(|&t| t >> x & 1 == 1).map(|t| t ^ 1 << x).collect()
}

/// The list at zero of a variable (RULES 8.1).
fn at_zero(list: &[u64], x: u32) -> Vec<u64> {
    list.iter().copied().filter(|t| t >> x & 1 == 0).collect()
}

fn holds(set: u64, x: u32) -> bool {
    set >> x & 1 == 1
}

/// The parts of a list that is not empty. Panics if what the rule says does not multiply to the list.
pub fn parts_of(list: &[u64]) -> Vec<Vec<u64>> {
    let mut parts = Vec::new();
    let mut rest = list.to_vec();
    loop {
        let left = rest.iter().fold(0, |v, t| v | t);
        if left == 0 {
            break;
        }
        let x = left.trailing_zeros();
        let a = derivative(&rest, x);
        let b = at_zero(&rest, x);
        let together = (0..64)
            .filter(|&y| holds(left, y))
            .filter(|&y| y == x || !agree(&a, &derivative(&b, y), &b, &derivative(&a, y)));
        let part = together.fold(0, |set, y| set | 1 << y);
        parts.push(projection(&rest, part));
        rest = projection(&rest, left & !part);
    }
    let again = parts.iter().fold(vec![0], |whole, part| product(&whole, part));
    assert_eq!(again, list, "the parts found do not multiply to the list");
    parts
}

/// The parts by their definition alone (RULES 2.5): the smallest set of variables with the lowest one along which the list
/// is the product of its projections, found by trying all sets. For lists of few variables.
pub fn parts_by_counting(list: &[u64]) -> Vec<Vec<u64>> {
    let all = list.iter().fold(0, |v, t| v | t);
    if all == 0 {
        return Vec::new();
    }
    let lowest = all & all.wrapping_neg();
    let others = all ^ lowest;
    let mut best = all;
    let mut set = others;
    loop {
        let with = set | lowest;
        if with.count_ones() < best.count_ones()
            && product(&projection(list, with), &projection(list, all & !with)) == list
        {
            best = with;
        }
        if set == 0 {
            break;
        }
        set = (set - 1) & others;
    }
    let mut parts = vec![projection(list, best)];
    parts.extend(parts_by_counting(&projection(list, all & !best)));
    parts
}
