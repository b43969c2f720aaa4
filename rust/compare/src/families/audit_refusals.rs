//! Audits that are refused: every fault alone, with others, for every operand; lengths that add to more or to fewer words than
//! are lent, also above 64 bits; room one short and more; inputs that share memory.
use super::expected::held;
use super::kinds::kinds;
use super::lengths::lengths;
use super::refusals::{any_list, any_room, spoiled};
use super::sums::sums;
use super::{audit_request, audit_room, joined, steps};
use crate::call::{Call, Expected, Request};
use crate::run::{Oracle, Run};
use std::ops::Range;

/// Every refusal.
pub fn refusals(run: &mut Run) {
    if !run.has(Call::Audit) {
        return;
    }
    run.family("audit: refusals and their order");
    for faults in 0..1 << FAULTS {
        several(run, faults);
    }
    run.family("audit: every operand");
    operands(run);
}

pub fn all(run: &mut Run) {
    if !run.has(Call::Audit) {
        return;
    }
    refusals(run);
    run.family("audit: order, every place");
    places(run);
    run.family("audit: lengths that do or do not add up");
    adding_up(run);
    run.family("audit: every kind of operand, every room");
    every_kind(run);
    run.family("audit: beyond 16 bits");
    long(run);
}

/// Any audit with any faults; and with its inputs in one piece of memory.
pub fn random(run: &mut Run, how_many: usize) {
    if !run.has(Call::Audit) {
        return;
    }
    run.family("audit: refusals by chance");
    for _ in 0..how_many {
        by_chance(run);
    }
    run.family("audit: inputs that share memory");
    for _ in 0..how_many {
        sharing(run);
    }
}

fn refused(run: &mut Run, request: Request, refusal: [u64; 3]) {
    run.check(request, Oracle::Both(Expected::Refused(refusal)));
}

/// Lent buffers of so many words.
fn lent(run: &mut Run, words: [usize; 3]) -> [Vec<u64>; 3] {
    words.map(|n| run.random.words(n))
}

const FAULTS: u32 = 11;

/// A set of faults that can come together: the check that comes first must win.
fn several(run: &mut Run, faults: u32) {
    let has = |i: u32| faults >> i & 1 == 1;
    let [many, short, extra, long, long_given, zero, order, order_given] = [0, 1, 2, 3, 4, 5, 6, 7].map(has);
    if short && extra || zero && (long || order) {
        return;
    }
    let t = if zero { 0 } else { [7, 1025][long as usize] };
    let terms = if order { spoiled(steps(t), 5, faults % 8 < 4) } else { steps(t) };
    let mut given = vec![vec![1, 2], vec![], steps([9, 1025][long_given as usize]), vec![0, 4]];
    if order_given {
        given[2] = spoiled(given[2].clone(), 4, faults % 4 < 2);
    }
    given.resize(if many { 65 } else { given.len() }, vec![1]);
    let (mut words, counts) = joined(&given);
    if short {
        words.pop();
    }
    if extra {
        words.push(0);
    }
    let less = |words: usize, fault: u32| words.saturating_sub(has(fault) as usize);
    let [p, l, w] = audit_room(t);
    let buffers = lent(run, [less(p, 8), less(l, 9), less(w, 10)]);
    let request = Request::audit(&terms, &words, &counts, buffers);
    let refusal = [
        many.then_some([2, 0, 0]),
        short.then_some([10, 0, 0]),
        extra.then_some([12, 0, 0]),
        long.then_some([2, 1, 0]),
        long_given.then_some([2, 4, 0]),
        zero.then_some([1, 1, 0]),
        order.then_some([3, 1, 5]),
        order_given.then_some([3, 4, 4]),
        (has(8) || has(9)).then_some([6, 1, 0]),
        (has(10) && t > 0).then_some([7, 1, 0]),
    ];
    match refusal.into_iter().flatten().next() {
        Some(first) => refused(run, request, first),
        None => run.check(request, Oracle::Independent),
    }
}

/// For each of the 65 operands: too long, out of order, both; and with a second one that is.
fn operands(run: &mut Run) {
    let long = steps(1025);
    for one in 0..65usize {
        let mut ask = |faulty: &[(usize, &[u64])], refusal: [u64; 3]| {
            let mut lists = vec![vec![0, 1]; 65];
            for &(operand, list) in faulty {
                lists[operand] = list.to_vec();
            }
            let request = audit_request(&mut run.random, &lists[0], &lists[1..], 0);
            refused(run, request, refusal);
        };
        let operand = one as u64 + 1;
        ask(&[(one, &[3, 9, 9, 2])], [3, operand, 2]);
        ask(&[(one, &long)], [2, operand, 0]);
        ask(&[(one, &[5; 1025])], [2, operand, 0]);
        for other in one + 1..65 {
            ask(&[(one, &[4, 4]), (other, &[3, 9, 2])], [3, operand, 1]);
            // too long comes first, though of a later list
            if other % 8 == one % 8 {
                ask(&[(one, &[4, 4]), (other, &long)], [2, other as u64 + 1, 0]);
                ask(&[(one, &long), (other, &long)], [2, operand, 0]);
            }
        }
    }
}

/// Order at each place of lists of several lengths, with a second fault behind it, in the approved list and in given ones.
fn places(run: &mut Run) {
    for t in [2usize, 3, 17, 64, 65, 1023, 1024] {
        for place in (1..t).step_by(if t > 100 { 37 } else { 1 }).chain([t - 1]) {
            let mut list = spoiled(steps(t), place, place % 2 == 0);
            if place + 3 < t {
                list[place + 3] = 0;
            }
            for which in [0, 1, 2, 5] {
                let mut lists = [vec![1], vec![0, 4], vec![], steps(3), vec![2], vec![7]];
                lists[which] = list.clone();
                let request = audit_request(&mut run.random, &lists[0], &lists[1..], 0);
                refused(run, request, [3, which as u64 + 1, place as u64]);
            }
        }
    }
}

/// Lengths that add to the words, and lengths that do not.
fn adding_up(run: &mut Run) {
    sums(|words, lengths| {
        let buffers = lent(run, audit_room(4));
        held(run, Request::audit(&[1, 2, 5, 6], words, lengths, buffers));
    });
}

/// Each kind of list as the approved one and as given ones; then each kind with all rooms, and with some given lists.
fn every_kind(run: &mut Run) {
    for approved in kinds() {
        for one in kinds() {
            for other in kinds() {
                let request = audit_request(&mut run.random, &approved, &[one.clone(), other], 1);
                held(run, request);
            }
        }
        let need = audit_room(approved.len());
        for i in 0..64 {
            let room = |which: usize, choice: usize| {
                [0, need[which].saturating_sub(1), need[which], need[which] + 9][choice % 4]
            };
            let buffers = lent(run, [room(0, i), room(1, i / 4), room(2, i / 16)]);
            let given: &[u64] = [&[][..], &[0, 1], &[1, 2, 0, 4], &approved][(i + i / 16) % 4];
            held(run, Request::audit(&approved, given, &[given.len() as u64], buffers));
        }
    }
}

/// Lists, numbers of lengths and buffers far beyond the limits, near powers of two.
fn long(run: &mut Run) {
    let approved = [1, 2, 5, 6];
    for length in lengths() {
        let ascending = steps(length);
        let mut unordered = ascending.clone();
        unordered[1] = 0;
        for list in [&ascending, &unordered] {
            for room in [[0; 3], audit_room(length % 2048)] {
                let buffers = lent(run, room);
                held(run, Request::audit(list, &[0, 1], &[2], buffers));
            }
            for which in [0, 1, 63] {
                let mut given = vec![vec![0, 1]; 64];
                given[which] = list.clone();
                let request = audit_request(&mut run.random, &approved, &given, 0);
                held(run, request);
            }
            // zero comes behind it
            let buffers = lent(run, audit_room(4));
            held(run, Request::audit(&[], list, &[length as u64], buffers));
            // one word too few and too many
            for words in [length - 1, length, length + 1] {
                let buffers = lent(run, audit_room(4));
                let words: Vec<u64> = list.iter().copied().chain([u64::MAX]).take(words).collect();
                held(run, Request::audit(&approved, &words, &[length as u64], buffers));
            }
        }
        let buffers = lent(run, audit_room(4));
        held(run, Request::audit(&approved, &[], &vec![0; length], buffers));
        for which in 0..4 {
            let long = |i: usize, need: usize| if which == i || which == 3 { length } else { need };
            let [p, l, w] = audit_room(4);
            let buffers = lent(run, [long(0, p), long(1, l), long(2, w)]);
            let parts = vec![vec![1, 2], vec![0, 4]];
            let expected = Expected::Audited(true, parts.clone());
            let (terms, counts) = joined(&parts);
            run.check(Request::audit(&approved, &terms, &counts, buffers), Oracle::Both(expected));
        }
    }
}

/// A few given lists, any of them with any fault, in any room; the lengths now and then as they are not.
fn by_chance(run: &mut Run) {
    let approved = any_list(&mut run.random);
    let many = match run.random.below(20) {
        0 => run.random.between(60, 70),
        _ => run.random.below(5),
    };
    let given: Vec<Vec<u64>> = (0..many).map(|_| any_list(&mut run.random)).collect();
    let (mut words, mut counts) = joined(&given);
    if run.random.chance(12) {
        words.truncate(run.random.below(words.len() + 1));
    }
    if run.random.chance(12) {
        words.push(run.random.word());
    }
    if many > 0 && run.random.chance(12) {
        let which = run.random.below(many);
        counts[which] = match run.random.below(3) {
            0 => run.random.word(),
            1 => counts[which].wrapping_sub(1),
            _ => run.random.below(12) as u64,
        };
    }
    let room = audit_room(approved.len()).map(|need| any_room(&mut run.random, need));
    let buffers = lent(run, room);
    held(run, Request::audit(&approved, &words, &counts, buffers));
}

/// The given terms are the approved list, or a part of it; the lengths are terms too.
fn sharing(run: &mut Run) {
    let vars = run.random.subset(u64::MAX, 4);
    let terms = run.random.between(1, 9);
    let list = run.random.list(vars, terms, 0);
    let t = list.len();
    let half = run.random.below(t + 1);
    let memory = [&[half as u64, (t - half) as u64, t as u64], &list[..]].concat();
    let whole = 3..3 + t;
    let within: [[Range<usize>; 3]; 6] = [
        [whole.clone(), whole.clone(), 2..3],
        [whole.clone(), whole.clone(), 0..2],
        [whole.clone(), 3..3 + half, 0..1],
        [3..3 + half, whole.clone(), 2..3],
        [whole.clone(), 0..3 + t, 0..3],
        [2..3 + t, 2..3, 2..3],
    ];
    for parts in within {
        let buffers = lent(run, audit_room(t + 1));
        held(run, Request::audit_within(&memory, parts, buffers));
    }
}
