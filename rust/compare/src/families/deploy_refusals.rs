//! Deployments that are refused as a whole, and boards that are refused for every reason in every place: lengths that add to more or
//! to fewer words than are lent, also above 64 bits; too many boards; answers one short; inputs that share memory.
use super::deployments::{enough, small, told, unfit, Board};
use super::expected::deployed;
use super::lengths::lengths;
use super::refusals::{any_list, any_room, spoiled};
use super::sums::sums;
use super::{deploy_room, in_order, joined, steps};
use crate::call::{Call, Expected, Request};
use crate::run::{Oracle, Run};
use std::ops::Range;

/// Every refusal.
pub fn refusals(run: &mut Run) {
    if !run.has(Call::Deploy) {
        return;
    }
    run.family("deploy: refusals and their order");
    for faults in 0..1 << FAULTS {
        several(run, faults);
    }
    run.family("deploy: each of 64 boards");
    each(run);
}

pub fn all(run: &mut Run) {
    if !run.has(Call::Deploy) {
        return;
    }
    refusals(run);
    run.family("deploy: order, every place");
    places(run);
    run.family("deploy: lengths that do or do not add up");
    adding_up(run);
    run.family("deploy: beyond 16 bits");
    long(run);
}

/// Any deployment with any faults; and with its inputs in one piece of memory.
pub fn random(run: &mut Run, how_many: usize) {
    if !run.has(Call::Deploy) {
        return;
    }
    run.family("deploy: refusals by chance");
    for _ in 0..how_many {
        by_chance(run);
    }
    run.family("deploy: inputs that share memory");
    for _ in 0..how_many / 4 {
        sharing(run);
    }
}

/// Lent buffers of so many words.
fn lent(run: &mut Run, words: [usize; 4]) -> [Vec<u64>; 4] {
    words.map(|n| run.random.words(n))
}

/// Holds a deployment to the order of checks, to the independent program, and its boards' parts to another method.
fn held(run: &mut Run, request: Request) {
    let expected = deployed(&request, |_, list| in_order(run.asked("the parts", list, independent::parts_by_halves)));
    run.check(request, Oracle::Both(expected));
}

const FAULTS: u32 = 9;

/// A set of faults that can come together: the check that comes first must win, for the whole and then for the third board.
fn several(run: &mut Run, faults: u32) {
    let has = |i: u32| faults >> i & 1 == 1;
    let [many, short, extra, room, long, zero, order] = [0, 1, 2, 3, 4, 5, 6].map(has);
    if short && extra || zero && (long || order) {
        return;
    }
    let list = steps(if zero { 0 } else { [9, 1025][long as usize] });
    let list = if order { spoiled(list, 4, faults % 4 < 2) } else { list };
    let mut boards = vec![vec![1, 2], vec![0], list, vec![0, 4]];
    boards.resize(if many { 65 } else { boards.len() }, vec![1]);
    let (mut words, counts) = joined(&boards);
    if short {
        words.pop();
    }
    if extra {
        words.push(0);
    }
    let need = deploy_room(&boards);
    // room for the first board alone, and a work area for the short ones
    let part_terms = if has(7) { 66 } else { need[1] };
    let work = if has(8) { 8 } else { need[3] };
    let buffers = lent(run, [need[0] - room as usize, part_terms, need[2], work]);
    let request = Request::deploy(&words, &counts, buffers);
    let whole = [
        many.then_some([2, 0, 0]),
        short.then_some([10, 0, 0]),
        extra.then_some([12, 0, 0]),
        room.then_some([6, 0, 0]),
    ];
    if let Some(refusal) = whole.into_iter().flatten().next() {
        return run.check(request, Oracle::Both(Expected::Refused(refusal)));
    }
    let third = [
        long.then_some([2, 1, 0]),
        zero.then_some([1, 1, 0]),
        order.then_some([3, 1, 4]),
        has(7).then_some([6, 1, 0]),
        has(8).then_some([7, 1, 0]),
    ];
    // what is left of 66 words behind the first board are 64, too few even for one term
    let other = |parts: &[Vec<u64>]| if has(7) { Err([6, 1, 0]) } else { Ok(parts.to_vec()) };
    let third = match third.into_iter().flatten().next() {
        Some(refusal) => Err(refusal),
        None => Ok(in_order(independent::parts_by_halves(&boards[2]))),
    };
    let told = vec![Ok(vec![vec![1, 2]]), other(&[]), third, other(&[vec![0, 4]])];
    run.check(request, Oracle::Both(Expected::Deployed(told)));
}

/// For each of 64 boards: refused for every reason, alone, and together with another one.
fn each(run: &mut Run) {
    let [two, sum] = [2, 4].map(|i: usize| small()[i].clone());
    for place in 0..64 {
        let mut row = vec![two.clone(); 64];
        for refused in unfit() {
            row[place] = refused.clone();
            told(run, &row, enough(&row), true);
            let other = run.random.below(64);
            let kept = row[other].clone();
            row[other] = unfit()[run.random.below(6)].clone();
            told(run, &row, enough(&row), true);
            row[other] = kept;
        }
        // a longer one: the room of part terms ends before it, the work area is too short for it alone
        row[place] = sum.clone();
        let [answers, _, l, w] = enough(&row);
        for less in [1, 2, 4] {
            told(run, &row, [answers, 4 * place + sum.list.len() + 64 - less, l, w], true);
        }
        for work in [4 * sum.list.len() - 1, 4 * two.list.len()] {
            told(run, &row, [answers, enough(&row)[1], l, work], true);
        }
        // the room of part lengths ends there, and behind it every board is refused
        told(run, &row, [answers, enough(&row)[1], 2 * place + 63, w], true);
        told(run, &row, [answers, enough(&row)[1], 2 * place + 64, w], true);
    }
}

/// Order at each place of boards of several lengths, with a second fault behind it, as the first, a later and the last one.
fn places(run: &mut Run) {
    for t in [2usize, 3, 17, 64, 65, 1023, 1024] {
        for place in (1..t).step_by(if t > 100 { 37 } else { 1 }).chain([t - 1]) {
            let mut list = spoiled(steps(t), place, place % 2 == 0);
            if place + 3 < t {
                list[place + 3] = 0;
            }
            for which in [0, 2, 4] {
                let mut row: Vec<Board> = small()[..5].to_vec();
                row[which] = Board::unfit(list.clone());
                told(run, &row, enough(&row), true);
            }
        }
    }
}

/// Lengths that add to the words, and lengths that do not. There is no room for parts, so that no long list is split.
fn adding_up(run: &mut Run) {
    let mut ask = |words: &[u64], lengths: &[u64]| {
        let most = run.random.between(4 * lengths.len().min(65), 270);
        let buffers = lent(run, [most, 64, 64, 8]);
        held(run, Request::deploy(words, lengths, buffers));
    };
    sums(&mut ask);
    // right in 64 bits, with the wrap in the middle and right lengths around it
    for words in [0usize, 1, 4, 5, 255, 256, 1024] {
        for half in [1 << 63, u64::MAX - 7, u64::MAX] {
            ask(&steps(words), &[1, half, (words as u64).wrapping_sub(half).wrapping_sub(2), 1]);
        }
    }
}

/// Boards, numbers of boards and buffers far beyond the limits, near powers of two.
fn long(run: &mut Run) {
    let [two, sum] = [2, 4].map(|i: usize| small()[i].clone());
    for length in lengths() {
        let ascending = steps(length);
        let mut unordered = ascending.clone();
        unordered[1] = 0;
        for list in [&ascending, &unordered] {
            for which in [0, 1, 63] {
                let mut row = vec![two.clone(); 64];
                row[which] = Board::unfit(list.clone());
                told(run, &row, enough(&row), true);
            }
            // one word too few and too many
            for words in [length - 1, length, length + 1] {
                let buffers = lent(run, [8, 200, 128, 16]);
                let words: Vec<u64> = list.iter().copied().chain([u64::MAX]).take(words).collect();
                held(run, Request::deploy(&words, &[length as u64], buffers));
            }
        }
        let buffers = lent(run, [4 * (length % 2048), 64, 64, 4]);
        held(run, Request::deploy(&[], &vec![0; length], buffers));
        for which in 0..5 {
            let row = [two.clone(), sum.clone(), two.clone()];
            let need = enough(&row);
            let room = [0, 1, 2, 3].map(|i: usize| if which == i || which == 4 { length } else { need[i] });
            told(run, &row, room, true);
        }
    }
}

/// A few boards, any of them with any fault, in any room; the lengths now and then as they are not.
fn by_chance(run: &mut Run) {
    let many = match run.random.below(20) {
        0 => run.random.between(60, 70),
        _ => run.random.below(5),
    };
    let boards: Vec<Vec<u64>> = (0..many).map(|_| any_list(&mut run.random)).collect();
    let (mut words, mut counts) = joined(&boards);
    if run.random.chance(12) {
        words.truncate(run.random.below(words.len() + 1));
    }
    if run.random.chance(12) {
        words.push(run.random.word());
    }
    if many > 0 && run.random.chance(12) {
        let which = run.random.below(many);
        counts[which] = match run.random.below(3) {
            0 => run.random.word(),
            1 => counts[which].wrapping_sub(1),
            _ => run.random.below(12) as u64,
        };
    }
    let mut room = deploy_room(&boards).map(|need| any_room(&mut run.random, need));
    // the parts of a long list take the independent program a while
    if boards.iter().any(|board| board.len() == 1024) {
        room[3] = room[3].min(4095);
    }
    let buffers = lent(run, room);
    held(run, Request::deploy(&words, &counts, buffers));
}

/// The words and the lengths overlap: the lengths are terms too.
fn sharing(run: &mut Run) {
    let vars = run.random.subset(u64::MAX, 4);
    let terms = run.random.between(1, 9);
    let list = run.random.list(vars, terms, 0);
    let t = list.len();
    let half = run.random.below(t + 1);
    let memory = [&[half as u64, (t - half) as u64, t as u64], &list[..]].concat();
    let within: [[Range<usize>; 2]; 6] =
        [[3..3 + t, 0..2], [3..3 + t, 2..3], [2..2 + t, 2..3], [1..1 + t, 0..2], [0..3, 0..3], [3..3 + half, 0..1]];
    for parts in within {
        let buffers = lent(run, [12, 3 * 64 + 2 * t, 192, 4 * t]);
        held(run, Request::deploy_within(&memory, parts, buffers));
    }
}
