//! What is wrong with given parts: the words behind a no. The no itself is the library's.
use crate::audit::{Fault, Part, SHOWN};
use crate::equation::inputs;
use apfelruder::{multiply, split, Refusal};

/// What is wrong with parts that the library said no to. That is at least one thing, so a no is never left without words:
///
/// if no part is constant, no two share an input, their product is the approved equation term for term, and none of them
/// splits, then they are irreducible lists with no common input whose product is that equation. But for their order there is
/// one choice of these (RULES 2.5). So they are the right parts in another order, and that is the fault which is named then.
pub fn faults(approved: &[u64], given: &[Part]) -> Vec<Fault> {
    let lists: Vec<&[u64]> = given.iter().map(|part| part.terms.as_slice()).collect();
    let mut faults = constants(&lists);
    let shared = shared(&lists);
    if shared.is_empty() {
        faults.extend(differences(approved, &lists));
    } else {
        faults.extend(shared);
        faults.push(Fault::NotCompared);
    }
    faults.extend(splits(&lists));
    if faults.is_empty() {
        faults.push(Fault::Order);
    }
    faults
}

fn constants(lists: &[&[u64]]) -> Vec<Fault> {
    let constant = |(_, list): &(usize, &&[u64])| inputs(list) == 0;
    let fault = |(part, list): (usize, &&[u64])| Fault::Constant { part, one: !list.is_empty() };
    lists.iter().enumerate().filter(constant).map(fault).collect()
}

fn shared(lists: &[&[u64]]) -> Vec<Fault> {
    let inputs: Vec<u64> = lists.iter().map(|list| inputs(list)).collect();
    let pairs = (0..lists.len()).flat_map(|first| (first + 1..lists.len()).map(move |second| (first, second)));
    pairs
        .map(|(first, second)| Fault::Shared { first, second, inputs: inputs[first] & inputs[second] })
        .filter(|fault| !matches!(fault, Fault::Shared { inputs: 0, .. }))
        .collect()
}

/// Zero is refused and 1 has no parts: they are named as constant.
fn splits(lists: &[&[u64]]) -> Vec<Fault> {
    let into = |list: &[u64]| split(list).ok().filter(|parts| parts.len() > 1);
    lists.iter().enumerate().filter_map(|(part, list)| Some(Fault::Splits { part, into: into(list)? })).collect()
}

/// The terms in which the product of lists that share no input differs from the approved list.
fn differences(approved: &[u64], lists: &[&[u64]]) -> Vec<Fault> {
    let product = lists.iter().try_fold(vec![0], |product, list| multiply(&product, list));
    let (missing, more_missing, many, more_many) = match product {
        Ok(product) => {
            let (missing, more_missing) = cut(without(approved, &product));
            let (many, more_many) = cut(without(&product, approved));
            (missing, more_missing, many, Some(more_many))
        }
        Err(refusal) => {
            debug_assert_eq!(refusal, Refusal::TooLarge { operand: 0 });
            let (held, lacked): (Vec<u64>, Vec<u64>) = approved.iter().partition(|&&term| holds(lists, term));
            let (missing, more_missing) = cut(lacked);
            let many = cut(without(&lowest(lists, approved.len() + SHOWN), approved)).0;
            let all = count(lists).map(|all| all - held.len() as u128);
            let more_many = all.map(|all| all - many.len() as u128);
            (missing, more_missing, many, more_many)
        }
    };
    let mut faults = Vec::new();
    if !missing.is_empty() {
        faults.push(Fault::Missing { shown: missing, more: more_missing });
    }
    if !many.is_empty() {
        faults.push(Fault::TooMany { shown: many, more: more_many });
    }
    faults
}

/// The terms of the one list, ascending, that the other, ascending, does not have.
fn without(list: &[u64], other: &[u64]) -> Vec<u64> {
    list.iter().copied().filter(|term| other.binary_search(term).is_err()).collect()
}

/// The first of them, and the number of the others.
fn cut(mut list: Vec<u64>) -> (Vec<u64>, u128) {
    let more = list.len().saturating_sub(SHOWN) as u128;
    list.truncate(SHOWN);
    (list, more)
}

/// Whether the product of lists that share no input holds the term: it has no input but theirs, and what it has of each
/// list's inputs is a term of that list (RULES 2.1).
fn holds(lists: &[&[u64]], term: u64) -> bool {
    let all = lists.iter().fold(0, |all, list| all | inputs(list));
    term & !all == 0 && lists.iter().all(|list| list.binary_search(&(term & inputs(list))).is_ok())
}

/// The number of terms of the product of lists that share no input. It always fits: the terms are different, and over 64
/// inputs there are 2^64.
fn count(lists: &[&[u64]]) -> Option<u128> {
    lists.iter().try_fold(1u128, |count, list| count.checked_mul(list.len() as u128))
}

/// The lowest terms, so many, of the product of lists that share no input, ascending. They are made of the lowest of one list
/// and of the lowest of the product of the others: one factor higher up has so many below it, each of which makes a lower term.
fn lowest(lists: &[&[u64]], many: usize) -> Vec<u64> {
    let mut product = vec![0];
    for list in lists {
        let mut longer: Vec<u64> = product.iter().flat_map(|term| list.iter().map(move |other| term | other)).collect();
        if longer.len() > many {
            longer.select_nth_unstable(many);
            longer.truncate(many);
        }
        longer.sort_unstable();
        product = longer;
    }
    product
}

#[cfg(test)]
mod tests {
    use super::{count, faults, lowest};
    use crate::audit::{Fault, Part, SHOWN};
    use crate::random::Random;
    use std::collections::BTreeSet;

    fn given(lists: &[Vec<u64>]) -> Vec<Part> {
        lists.iter().map(|terms| Part { name: String::new(), terms: terms.clone() }).collect()
    }

    /// The product of lists that share no input, by forming all of it.
    fn product(lists: &[Vec<u64>]) -> Vec<u64> {
        let mut terms = BTreeSet::from([0]);
        for list in lists {
            terms = terms.iter().flat_map(|term| list.iter().map(move |other| term | other)).collect();
        }
        terms.into_iter().collect()
    }

    /// Right parts, in order, whose inputs begin at random ones: each of these six forms is irreducible.
    fn board(random: &mut Random) -> Vec<Vec<u64>> {
        let mut parts = Vec::new();
        let mut input = random.below(10);
        for _ in 0..2 + random.below(3) {
            let [x, y, z] = [1u64 << input, 2 << input, 4 << input];
            let forms = [vec![x], vec![0, x], vec![x, y], vec![0, x, y], vec![0, x | y], vec![0, x, x | y | z]];
            parts.push(random.pick(&forms).clone());
            input += 3 + random.below(3);
        }
        parts
    }

    /// What is missing and what is too many, by comparing all terms.
    fn compared(approved: &[u64], lists: &[Vec<u64>]) -> Vec<Fault> {
        let [approved, loaded]: [BTreeSet<u64>; 2] =
            [approved, &product(lists)].map(|list| list.iter().copied().collect());
        let cut =
            |list: Vec<u64>| (list.iter().copied().take(SHOWN).collect(), list.len().saturating_sub(SHOWN) as u128);
        let (missing, more_missing) = cut(approved.difference(&loaded).copied().collect());
        let (many, more_many) = cut(loaded.difference(&approved).copied().collect());
        let mut faults = Vec::new();
        if !Vec::is_empty(&missing) {
            faults.push(Fault::Missing { shown: missing, more: more_missing });
        }
        if !Vec::is_empty(&many) {
            faults.push(Fault::TooMany { shown: many, more: Some(more_many) });
        }
        faults
    }

    #[test]
    fn a_term_that_is_lost_or_added() {
        let mut random = Random(11);
        for _ in 0..2_000 {
            let parts = board(&mut random);
            let at = random.below(parts.len());
            let mut loaded = parts.clone();
            let term = *random.pick(&parts[at]);
            let high = parts[at].iter().fold(0, |all, term| all | term);
            if parts[at].len() > 1 && random.below(2) == 0 {
                loaded[at].retain(|&other| other != term);
            } else {
                loaded[at] = [&parts[at][..], &[high | 1 << 60]].concat();
            }
            let told = faults(&product(&parts), &given(&loaded));
            let told: Vec<_> = told
                .into_iter()
                .filter(|fault| !matches!(fault, Fault::Constant { .. } | Fault::Splits { .. }))
                .collect();
            assert_eq!(told, compared(&product(&parts), &loaded));
            assert!(!told.is_empty());
        }
    }

    #[test]
    fn parts_that_are_lost_joined_doubled_swapped_or_constant() {
        let mut random = Random(12);
        for _ in 0..500 {
            let parts = board(&mut random);
            let approved = product(&parts);
            let last = parts.len() - 1;
            let inputs = parts[0].iter().fold(0, |all, term| all | term);

            assert_eq!(faults(&approved, &given(&parts[1..])), compared(&approved, &parts[1..]));

            let joined = [&[product(&parts[..2])], &parts[2..]].concat();
            assert_eq!(faults(&approved, &given(&joined)), [Fault::Splits { part: 0, into: parts[..2].to_vec() }]);

            let doubled = [&parts[..], &parts[..1]].concat();
            let shared = Fault::Shared { first: 0, second: last + 1, inputs };
            assert_eq!(faults(&approved, &given(&doubled)), [shared, Fault::NotCompared]);

            let mut swapped = parts.clone();
            swapped.swap(0, last);
            assert_eq!(faults(&approved, &given(&swapped)), [Fault::Order]);

            let one = [&parts[..], &[vec![0]]].concat();
            assert_eq!(faults(&approved, &given(&one)), [Fault::Constant { part: last + 1, one: true }]);

            let zero = [&[vec![]], &parts[..]].concat();
            let missing = compared(&approved, &zero);
            assert_eq!(
                faults(&approved, &given(&zero)),
                [&[Fault::Constant { part: 0, one: false }], &missing[..]].concat()
            );
        }
    }

    /// 1 + x0 to 1 + x9 are right; as many more as are asked for are not.
    fn powers(many: usize) -> Vec<Vec<u64>> {
        (0..many).map(|input| vec![0, 1 << input]).collect()
    }

    #[test]
    fn products_over_1024_terms() {
        let approved: Vec<u64> = (0..1024).collect();
        let told = faults(&approved, &given(&powers(11)));
        assert_eq!(told, [Fault::TooMany { shown: (1024..1044).collect(), more: Some(1004) }]);
        let told = faults(&approved, &given(&powers(64)));
        assert_eq!(told, [Fault::TooMany { shown: (1024..1044).collect(), more: Some((1 << 64) - 1044) }]);
        // the constant of 1 + x0 is lost: of the product all terms hold x0
        let mut lost = powers(12);
        lost[0] = vec![1];
        let missing = Fault::Missing { shown: (0..40).step_by(2).collect(), more: 492 };
        let many = Fault::TooMany { shown: (1025..1065).step_by(2).collect(), more: Some(2048 - 512 - 20) };
        assert_eq!(faults(&approved, &given(&lost)), [missing, many]);
        // zero times anything
        let zero = [&powers(11)[..], &[vec![]]].concat();
        let missing = Fault::Missing { shown: (0..20).collect(), more: 1004 };
        assert_eq!(faults(&approved, &given(&zero)), [Fault::Constant { part: 11, one: false }, missing]);
    }

    #[test]
    fn large_products_are_compared_as_if_they_were_formed() {
        let mut random = Random(13);
        for _ in 0..60 {
            // sets of terms over 5 inputs each
            let lists: Vec<Vec<u64>> = (0..3)
                .map(|at| (0..32u64).filter(|_| random.below(3) > 0).map(|term| term << (5 * at)).collect())
                .collect();
            let all = product(&lists);
            if all.len() <= 1024 {
                continue;
            }
            let approved: Vec<u64> = (0..1 << 15).filter(|_| random.below(64) == 0).take(1024).collect();
            let told: Vec<_> = faults(&approved, &given(&lists))
                .into_iter()
                .filter(|fault| !matches!(fault, Fault::Splits { .. }))
                .collect();
            assert_eq!(told, compared(&approved, &lists));
            let lists: Vec<&[u64]> = lists.iter().map(Vec::as_slice).collect();
            assert_eq!(lowest(&lists, 500), all[..500]);
            assert_eq!(count(&lists), Some(all.len() as u128));
        }
    }
}
