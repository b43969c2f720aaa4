//! Audits of lists whose parts are known: with the right parts, with one damage of each kind, and with lists that only look like
//! parts. Yes is expected exactly if what is given are the parts, in their order.
use super::damages::DAMAGES;
use super::expected::refusal;
use super::lists::{factors, long_factors};
use super::{audit_request, audit_room, in_order, joined, product};
use crate::call::{Call, Expected, Request};
use crate::run::{Oracle, Run};

const LONG: &str = "audit: 1,000 terms and more";

pub fn all(run: &mut Run) {
    if !run.has(Call::Audit) {
        return;
    }
    run.family("audit: examples of the rules");
    examples(run);
    run.family("audit: all over 2 variables, to 3 parts");
    two_variables(run);
    run.family("audit: all over 3 variables, one part");
    three_variables(run);
    run.family("audit: every bit and every length changed");
    every_word(run);
    run.family("audit: known shapes, right and damaged");
    for round in 0..3 {
        for parts in shapes() {
            // the parts of a long list take the independent program a while
            let long = whole(&parts).len() > 100;
            damaged(run, &parts, [1, [60, NEVER][round.min(1)]][long as usize]);
        }
    }
}

pub fn random(run: &mut Run, how_many: usize) {
    if !run.has(Call::Audit) {
        return;
    }
    run.family("audit: known factors, to 64 terms");
    boards(run, how_many, 64, 5);
    run.family("audit: known factors, to 1,024 terms");
    boards(run, how_many / 20, 1024, 300);
    run.family("audit: parts of another list");
    others(run, how_many / 2);
    run.family("audit: lists that share a variable");
    shared(run, how_many / 2);
}

pub fn long(run: &mut Run, how_many: usize) {
    if !run.has(Call::Audit) {
        return;
    }
    run.family(LONG);
    for _ in 0..how_many {
        let (left, right) = long_factors(&mut run.random);
        let mut parts = run.asked("the parts", &left, independent::parts_of);
        parts.extend(run.asked("the parts", &right, independent::parts_of));
        damaged(run, &in_order(parts), NEVER);
    }
}

/// A cube of 1,024 terms, whose parts the independent program finds quickly, with so many of its edges as one part.
pub fn cube(run: &mut Run) {
    if !run.has(Call::Audit) {
        return;
    }
    run.family(LONG);
    let parts: Vec<Vec<u64>> = (0..10).map(|i| vec![0, 1 << i]).collect();
    for joined in 1..=10 {
        for from in [0, 10 - joined] {
            let mut given = parts.clone();
            given.splice(from..from + joined, [whole(&parts[from..from + joined])]);
            told(run, &whole(&parts), &parts, &given, true);
        }
    }
}

/// An audit of a list with these parts. What is given is right if it is the same, and else wrong, unless a check refuses it.
fn told(run: &mut Run, list: &[u64], parts: &[Vec<u64>], given: &[Vec<u64>], both: bool) {
    let more = run.random.below(3);
    let request = audit_request(&mut run.random, list, given, more);
    asked(run, request, given == parts, parts, both);
}

fn asked(run: &mut Run, request: Request, yes: bool, parts: &[Vec<u64>], both: bool) {
    let expected = match refusal(&request) {
        Some(refused) => Expected::Refused(refused),
        None => Expected::Audited(yes, parts.to_vec()),
    };
    run.check(request, if both { Oracle::Both(expected) } else { Oracle::Known(expected) });
}

pub(super) fn whole(parts: &[Vec<u64>]) -> Vec<u64> {
    parts.iter().fold(vec![0], |whole, part| product(&whole, part))
}

/// No board of this many is asked of the independent program.
const NEVER: usize = usize::MAX;

/// A board of these parts, right and with each damage; one in so many is also asked of the independent program.
fn damaged(run: &mut Run, parts: &[Vec<u64>], one_in: usize) {
    let list = whole(parts);
    told(run, &list, parts, parts, one_in < NEVER);
    for damage in DAMAGES {
        let given = damage(&mut run.random, parts.to_vec()).filter(|given| given != parts);
        if let Some(given) = given {
            let both = run.random.chance(one_in);
            told(run, &list, parts, &given, both);
        }
    }
}

/// The lists of RULES 7.1 with the parts that stand there, damaged in the ways that an auditor fears most.
fn examples(run: &mut Run) {
    let boards: [&[&[u64]]; 10] = [
        &[],
        &[&[1]],
        &[&[0, 1]],
        &[&[1], &[2]],
        &[&[0, 3]],
        &[&[0, 1, 2]],
        &[&[1, 2], &[0, 4]],
        &[&[0, 1], &[2, 8], &[4]],
        &[&[0, 3], &[4, 12, 16]],
        &[&[1, 2], &[0, 4], &[8], &[0, 16]],
    ];
    for board in boards {
        let parts: Vec<Vec<u64>> = board.iter().map(|part| part.to_vec()).collect();
        let list = whole(&parts);
        told(run, &list, &parts, &parts, true);
        // the whole as one part; the constant terms lost, one at a time; nothing
        told(run, &list, &parts, std::slice::from_ref(&list), true);
        for (i, part) in parts.iter().enumerate().filter(|(_, part)| part[0] == 0) {
            let mut given = parts.clone();
            given[i] = part[1..].to_vec();
            told(run, &list, &parts, &given, true);
        }
        told(run, &list, &parts, &[], true);
    }
}

/// All lists over so many variables, zero the first.
pub(super) fn lists_over(variables: u32) -> Vec<Vec<u64>> {
    let terms = 1u64 << variables;
    (0..1u64 << terms).map(|chosen| (0..terms).filter(|t| chosen >> t & 1 == 1).collect()).collect()
}

/// Each list with up to three given ones, held to the definition by trying all sets.
fn two_variables(run: &mut Run) {
    let lists = lists_over(2);
    for list in &lists[1..] {
        let parts = run.asked("the parts by counting", list, independent::parts_by_counting);
        for given in 0..=3 {
            for choice in 0..16usize.pow(given) {
                let given: Vec<Vec<u64>> = (0..given).map(|i| lists[choice / 16usize.pow(i) % 16].clone()).collect();
                told(run, list, &parts, &given, true);
            }
        }
    }
}

fn three_variables(run: &mut Run) {
    let lists = lists_over(3);
    for list in &lists[1..] {
        let parts = run.asked("the parts by counting", list, independent::parts_by_counting);
        for given in &lists {
            told(run, list, &parts, std::slice::from_ref(given), true);
        }
        told(run, list, &parts, &parts, true);
    }
}

/// Parts that are known not to split, of many forms and sizes.
pub(super) fn shapes() -> Vec<Vec<Vec<u64>>> {
    let singles: Vec<Vec<u64>> = (0..64).map(|i| vec![1 << i]).collect();
    let edges = |from: usize| (from..from + 10).map(|i| vec![0, 1 << i]).collect::<Vec<_>>();
    let all: Vec<u64> = [0].into_iter().chain((0..64).map(|i| 1 << i)).collect();
    let punctured: Vec<u64> = (0..1023).collect();
    let mut shapes = vec![
        singles.clone(),
        singles[1..].to_vec(),
        edges(0),
        edges(54),
        [edges(0), singles[10..].to_vec()].concat(),
        [singles[..54].to_vec(), edges(54)].concat(),
        (0..10).map(|i| vec![1 << i, 1 << (i + 20)]).collect(),
        (0..6).map(|i| vec![0, 1 << i, 1 << (i + 10)]).collect(),
        vec![vec![0, u64::MAX]],
        vec![all.clone()],
        vec![all[1..].to_vec()],
        vec![punctured.clone()],
        vec![punctured[1..].to_vec()],
        [vec![punctured.clone()], singles[10..].to_vec()].concat(),
        // 31 terms and 33 terms: 1,023 in the product
        vec![(0..31).collect(), [0].into_iter().chain((5..37).map(|i| 1 << i)).collect()],
    ];
    shapes.extend((0..64).map(|i| vec![vec![0, 1 << i]]));
    shapes.extend((1..64).map(|i| vec![vec![1, 1 << i]]));
    shapes
}

/// Each bit of each given term turned, each length one more and one less, alone and with another that makes up for it.
fn every_word(run: &mut Run) {
    let boards: [Vec<Vec<u64>>; 5] = [
        vec![vec![1, 2], vec![0, 4]],
        vec![vec![0, 1], vec![2, 8], vec![4]],
        (0..64).map(|i| vec![1 << i]).collect(),
        (0..10).map(|i| vec![0, 1 << (6 * i)]).collect(),
        vec![(0..63).collect(), (0..16).map(|i| 1 << (i + 40)).collect()],
    ];
    for parts in boards {
        let list = whole(&parts);
        let (terms, lengths) = joined(&parts);
        let mut ask = |terms: &[u64], lengths: &[u64]| {
            let lent = audit_room(list.len()).map(|words| run.random.words(words));
            let request = Request::audit(&list, terms, lengths, lent);
            let one_in = if list.len() > 100 { 100 } else { 4 };
            let both = run.random.chance(one_in);
            asked(run, request, false, &parts, both);
        };
        for at in 0..terms.len() {
            for bit in 0..64 {
                let mut turned = terms.clone();
                turned[at] ^= 1 << bit;
                ask(&turned, &lengths);
            }
        }
        for at in 0..lengths.len() {
            for change in [1, u64::MAX] {
                let mut other = lengths.clone();
                other[at] = other[at].wrapping_add(change);
                ask(&terms, &other);
                for makes_up in (0..lengths.len()).filter(|&i| i != at) {
                    let mut other = other.clone();
                    other[makes_up] = other[makes_up].wrapping_sub(change);
                    ask(&terms, &other);
                }
            }
        }
    }
}

/// Products of factors whose own parts the independent program finds.
fn boards(run: &mut Run, how_many: usize, most_terms: usize, one_in: usize) {
    for _ in 0..how_many {
        let mut parts = Vec::new();
        for factor in factors(&mut run.random, most_terms) {
            parts.extend(run.asked("the parts", &factor, independent::parts_of));
        }
        damaged(run, &in_order(parts), one_in);
    }
}

/// The parts of a list, held against the list with one term changed, lost or added.
fn others(run: &mut Run, how_many: usize) {
    for _ in 0..how_many {
        let mut given = Vec::new();
        for factor in factors(&mut run.random, 40) {
            given.extend(run.asked("the parts", &factor, independent::parts_of));
        }
        let given = in_order(given);
        let mut list = whole(&given);
        let at = run.random.below(list.len());
        match run.random.below(4) {
            0 => list[at] ^= 1 << run.random.below(64),
            1 if list.len() > 1 => drop(list.remove(at)),
            2 => list.push(run.random.word() & list[at]),
            _ => list.push(run.random.word() | list[at]),
        }
        list.sort_unstable();
        list.dedup();
        let parts = run.asked("the parts", &list, independent::parts_of);
        told(run, &list, &parts, &given, true);
    }
}

/// Two lists with a common variable, held against the unions of their terms: no part is what it is taken for.
fn shared(run: &mut Run, how_many: usize) {
    for _ in 0..how_many {
        let all = run.random.subset(u64::MAX, 5);
        let lists = [(); 2].map(|()| {
            let size = run.random.between(2, 4);
            let on = run.random.subset(all, size);
            let terms = run.random.between(2, 4);
            run.random.list(on, terms, 0)
        });
        let mut list = product(&lists[0], &lists[1]);
        list.dedup();
        let parts = run.asked("the parts", &list, independent::parts_of);
        told(run, &list, &parts, &in_order(lists.to_vec()), true);
    }
}
