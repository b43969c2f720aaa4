//! Audit by the definition of parts (RULES 2.5): the given lists are held to it word by word, and never to a split.
use crate::answer::{check_lists, Answer};
use crate::parts::{projection, split};
use crate::products::variables;
use std::cmp::Ordering;
use std::collections::BTreeSet;

/// At most so many given lists.
const GIVEN: usize = 64;

pub fn audit(
    terms: &[u64],
    given_terms: &[u64],
    given_lengths: &[u64],
    part_terms: &mut [u64],
    part_lengths: &mut [u64],
    work: &mut [u64],
) -> Answer {
    let given = match lists_in(terms, given_terms, given_lengths) {
        Ok(given) => given,
        Err(refusal) => return refusal,
    };
    let room = split(terms, part_terms, part_lengths, work);
    if room.code != 0 {
        return room;
    }
    Answer::accepted(are_parts(&given, terms) as usize)
}

/// The given lists, unless something is refused before any room is asked for.
fn lists_in<'a>(terms: &[u64], given_terms: &'a [u64], given_lengths: &[u64]) -> Result<Vec<&'a [u64]>, Answer> {
    if given_lengths.len() > GIVEN {
        return Err(Answer::refused(2, 0));
    }
    let sum: u128 = given_lengths.iter().map(|&length| length as u128).sum();
    match sum.cmp(&(given_terms.len() as u128)) {
        Ordering::Greater => return Err(Answer::refused(10, 0)),
        Ordering::Less => return Err(Answer::refused(12, 0)),
        Ordering::Equal => {}
    }
    let mut given = Vec::new();
    let mut rest = given_terms;
    for &length in given_lengths {
        let (list, behind) = rest.split_at(length as usize);
        given.push(list);
        rest = behind;
    }
    let all: Vec<&[u64]> = [&[terms], &given[..]].concat();
    // zero stands between the two checks that are made of all lists
    if let Some(i) = all.iter().position(|list| list.len() > crate::TERMS) {
        return Err(Answer::refused(2, i as u64 + 1));
    }
    if terms.is_empty() {
        return Err(Answer::refused(1, 1));
    }
    check_lists(&all)?;
    Ok(given)
}

/// Lists with variables, none of which is in two; by their lowest variables in order; their product is the list; none splits.
fn are_parts(given: &[&[u64]], list: &[u64]) -> bool {
    let held: Vec<u64> = given.iter().map(|part| variables(part)).collect();
    let apart = (0..held.len()).all(|i| held[..i].iter().all(|other| other & held[i] == 0));
    let lowest = |of: u64| of & of.wrapping_neg();
    let in_order = held.windows(2).all(|two| lowest(two[0]) < lowest(two[1]));
    held.iter().all(|&of| of != 0)
        && apart
        && in_order
        && multiplied(given).is_some_and(|whole| whole.iter().eq(list))
        && given.iter().all(|part| parts_by_halves(part).len() == 1)
}

/// The product of lists with no common variable, unless it has more terms than a list can have.
fn multiplied(given: &[&[u64]]) -> Option<BTreeSet<u64>> {
    let mut whole = BTreeSet::from([0]);
    for part in given {
        // the unions are all different
        if whole.len() * part.len() > crate::TERMS {
            return None;
        }
        whole = whole.iter().flat_map(|s| part.iter().map(move |t| s | t)).collect();
    }
    Some(whole)
}

/// The parts of a list that is not empty, in any order, by its halves: F = x G + H for its highest variable x. A list without x
/// divides F exactly if it divides G and H, so the parts that G and H have in common are parts of F, and what is left of F is
/// the one that holds x. Where H is zero everything divides it.
pub fn parts_by_halves(list: &[u64]) -> Vec<Vec<u64>> {
    let all = variables(list);
    if all == 0 {
        return Vec::new();
    }
    let x = 1 << (63 - all.leading_zeros());
    let (with, without): (Vec<u64>, Vec<u64>) = list.iter().partition(|&term| term & x != 0);
    let mut parts = parts_by_halves(&with.iter().map(|term| term ^ x).collect::<Vec<u64>>());
    if !without.is_empty() {
        let others = parts_by_halves(&without);
        parts.retain(|part| others.contains(part));
    }
    let left = parts.iter().fold(all, |left, part| left & !variables(part));
    parts.push(projection(list, left));
    parts
}
