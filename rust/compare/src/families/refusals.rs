//! Every refusal, and every set of faults that can come together: the check that comes first in RULES 5.3 must win.
use super::expected::held;
use super::{block_bytes, block_of, multiply_request, split_request, steps, Bits};
use crate::call::{Expected, Request};
use crate::random::Random;
use crate::run::{Oracle, Run};

pub fn all(run: &mut Run) {
    run.family("refusals and their order");
    split(run);
    multiply(run);
    multiply_limits(run);
    same_products(run);
    read(run);
    write(run);
    run.family("order: every place");
    places(run);
}

fn has(faults: u32, i: u32) -> bool {
    faults >> i & 1 == 1
}

/// The list with the term at this place set back to the one before it or below it.
pub fn spoiled(mut list: Vec<u64>, place: usize, equal: bool) -> Vec<u64> {
    list[place] = list[place - 1] - !equal as u64;
    list
}

fn check(run: &mut Run, request: Request, refusal: Option<[u64; 3]>) {
    match refusal {
        Some([code, operand, place]) => {
            let expected = Expected::Refused([code, operand, place]);
            run.check(request, Oracle::Both(expected));
        }
        None => run.check(request, Oracle::Independent),
    }
}

fn split(run: &mut Run) {
    for faults in 0..64 {
        let (many, zero, order) = (has(faults, 0), has(faults, 1), has(faults, 2));
        if zero && (many || order) {
            continue;
        }
        let t = if many {
            1025
        } else if zero {
            0
        } else {
            7
        };
        for equal in [true, false] {
            let terms = if order { spoiled(steps(t), 5, equal) } else { steps(t) };
            for short in [1, 7] {
                let less =
                    |words: usize, fault: u32| if has(faults, fault) { words.saturating_sub(short) } else { words };
                let request = Request::split(
                    &terms,
                    run.random.words(less(t + 64, 3)),
                    run.random.words(less(64, 4)),
                    run.random.words(less(4 * t, 5)),
                );
                let refusal = [
                    many.then_some([2, 1, 0]),
                    zero.then_some([1, 1, 0]),
                    order.then_some([3, 1, 5]),
                    (has(faults, 3) || has(faults, 4)).then_some([6, 1, 0]),
                    has(faults, 5).then_some([7, 1, 0]),
                ];
                check(run, request, refusal.into_iter().flatten().next());
            }
        }
    }
}

fn multiply(run: &mut Run) {
    for faults in 0..128 {
        let large = has(faults, 5);
        let count = |many: bool| {
            if many {
                1025
            } else if large {
                40
            } else {
                6
            }
        };
        let (an, bn) = (count(has(faults, 0)), count(has(faults, 1)));
        let mut a = steps(an);
        let mut b: Vec<u64> = steps(bn).iter().map(|t| t << 20 | has(faults, 4) as u64).collect();
        if has(faults, 2) {
            a = spoiled(a, 4, faults % 3 == 0);
        }
        if has(faults, 3) {
            b = spoiled(b, 2, faults % 3 != 0);
        }
        let need = (an * bn).min(1024);
        let out = run.random.words(need - has(faults, 6) as usize);
        let request = Request::multiply(&a, &b, out);
        let refusal = [
            has(faults, 0).then_some([2, 1, 0]),
            has(faults, 1).then_some([2, 2, 0]),
            has(faults, 2).then_some([3, 1, 4]),
            has(faults, 3).then_some([3, 2, 2]),
            has(faults, 4).then_some([4, 0, 0]),
            large.then_some([5, 0, 0]),
            has(faults, 6).then_some([6, 0, 0]),
        ];
        check(run, request, refusal.into_iter().flatten().next());
    }
}

/// Each variable as the one that is shared; each length with the longest other one that fits, and one more; room.
fn multiply_limits(run: &mut Run) {
    for x in 0..64 {
        let a = vec![0, 1 << x];
        for y in 0..64 {
            let b = vec![1 << y];
            let request = multiply_request(&mut run.random, &a, &b, 1);
            check(run, request, (x == y).then_some([4, 0, 0]));
        }
        let all_others = vec![0, !(1 << x)];
        let request = multiply_request(&mut run.random, &a, &all_others, 1);
        check(run, request, None);
    }
    for an in 1..=1024usize {
        let a = steps(an);
        for bn in [1024 / an, 1024 / an + 1] {
            if bn > 1024 {
                continue;
            }
            let b: Vec<u64> = (0..bn as u64).map(|i| i << 12).collect();
            let large = an * bn > 1024;
            if an % 16 == 1 || an < 20 || large || an * bn == 1024 {
                let request = multiply_request(&mut run.random, &a, &b, 0);
                check(run, request, large.then_some([5, 0, 0]));
                let request = Request::multiply(&a, &b, run.random.words((an * bn).min(1024) - 1));
                check(run, request, Some(if large { [5, 0, 0] } else { [6, 0, 0] }));
            }
        }
    }
    for n in [0, 1, 1024, 1025] {
        let list = steps(n);
        for (a, b) in [(&list[..], &[][..]), (&[][..], &list[..])] {
            let operand = if a.is_empty() { 2 } else { 1 };
            let request = Request::multiply(a, b, vec![]);
            check(run, request, (n > 1024).then_some([2, operand, 0]));
        }
    }
}

fn same_products(run: &mut Run) {
    for faults in 0..256 {
        let mut lists = Vec::new();
        for i in 0..4 {
            let list = steps(if has(faults, i) { 1025 } else { 6 });
            lists.push(if has(faults, 4 + i) { spoiled(list, 1 + i as usize, faults % 3 == 0) } else { list });
        }
        let request = Request::same_products([&lists[0], &lists[1], &lists[2], &lists[3]]);
        let many = (0..4).find(|&i| has(faults, i)).map(|i| [2, i as u64 + 1, 0]);
        let order = (0..4).find(|&i| has(faults, 4 + i)).map(|i| [3, i as u64 + 1, 1 + i as u64]);
        check(run, request, many.or(order));
    }
}

fn read(run: &mut Run) {
    for length in 0..3 {
        for first in 0..=255 {
            let bytes = [first, 0xff, 0xff];
            let request = Request::read(&bytes[..length], run.random.words(2));
            check(run, request, Some([10, 1, 0]));
        }
    }
    for faults in 0..512 {
        for variant in 0..4 {
            read_with(run, faults, variant);
        }
    }
}

/// A block with these faults in it, Room excepted, and the number of terms that its header names.
fn faulty_block(faults: u32, variant: usize) -> (Vec<u8>, usize) {
    let (form, wide, many, short, extra) =
        (has(faults, 0), has(faults, 1), has(faults, 2), has(faults, 3), has(faults, 4));
    let (order, misfit, pad) = (has(faults, 6), has(faults, 7), has(faults, 8));
    let n = if wide { [65, 66, 70, 127][variant] } else { [10, 11, 13, 9][variant] };
    let t = if many { [1025, 1026, 1030, 1025][variant] } else { 7 };
    let mut bits = Bits::header(if form { [0, 2, 9, 15][variant] } else { 1 }, n, t);
    let narrow = n.min(64) as usize - misfit as usize;
    let mut terms: Vec<u64> = (0..t).map(|i| 5 * i).collect();
    *terms.last_mut().unwrap() = 1u64 << (narrow - 1) | 0xff;
    if order {
        terms[3] = terms[2] - (variant as u64 & 1);
    }
    for term in terms {
        bits.put(0, n as usize - n.min(64) as usize);
        bits.put(term, n.min(64) as usize);
    }
    let missing = (8 - bits.0.len() % 8) % 8;
    bits.put(pad as u64, missing);
    let mut bytes = bits.bytes();
    if short {
        bytes.truncate(bytes.len() - 1 - variant);
    }
    if extra {
        bytes.extend(vec![variant as u8; 1 + variant]);
    }
    (bytes, t as usize)
}

fn read_with(run: &mut Run, faults: u32, variant: usize) {
    if has(faults, 3) && has(faults, 4) {
        return;
    }
    let (bytes, t) = faulty_block(faults, variant);
    let request = Request::read(&bytes, run.random.words(t - has(faults, 5) as usize));
    let in_order = [8, 9, 2, 10, 12, 6, 3, 11, 13];
    let first = (0..9u32).find(|&i| has(faults, i)).map(|i| in_order[i as usize]);
    check(run, request, first.map(|code| [code, 1, if code == 3 { 3 } else { 0 }]));
}

fn write(run: &mut Run) {
    for faults in 0..8 {
        let t = if has(faults, 0) { 1025 } else { 9 };
        let terms = if has(faults, 1) { spoiled(steps(t), 6, faults % 3 == 0) } else { steps(t) };
        let room = block_bytes(&steps(t)) - has(faults, 2) as usize;
        let request = Request::write(&terms, run.random.bytes(room));
        let refusal = [
            has(faults, 0).then_some([2, 1, 0]),
            has(faults, 1).then_some([3, 1, 6]),
            has(faults, 2).then_some([6, 1, 0]),
        ];
        check(run, request, refusal.into_iter().flatten().next());
    }
}

/// Order at each place of lists of several lengths, alone and with a second fault behind it, for each operand.
fn places(run: &mut Run) {
    for t in [2usize, 3, 17, 64, 65, 1023, 1024] {
        let step = if t > 100 { 37 } else { 1 };
        let mut at: Vec<usize> = (1..t).step_by(step).collect();
        at.push(t - 1);
        for place in at {
            let mut terms = spoiled(steps(t), place, place % 2 == 0);
            if place + 3 < t {
                terms[place + 3] = 0;
            }
            let p = place as u64;
            let request = split_request(&mut run.random, &terms, 0);
            check(run, request, Some([3, 1, p]));
            let request = Request::write(&terms, run.random.bytes(9000));
            check(run, request, Some([3, 1, p]));
            let request = Request::multiply(&terms, &[0], run.random.words(1024));
            check(run, request, Some([3, 1, p]));
            let request = Request::multiply(&[0], &terms, run.random.words(1024));
            check(run, request, Some([3, 2, p]));
            for operand in 0..4 {
                let mut lists: [&[u64]; 4] = [&[0, 1], &[2], &[], &[0, 5]];
                lists[operand] = &terms;
                let request = Request::same_products(lists);
                check(run, request, Some([3, operand as u64 + 1, p]));
            }
        }
    }
}

/// Any call with any faults, each of its operands and buffers by chance.
pub fn random(run: &mut Run, how_many: usize) {
    run.family("refusals by chance");
    for _ in 0..how_many {
        let [a, b, c, d] = [(); 4].map(|()| any_list(&mut run.random));
        match run.random.below(5) {
            0 => {
                let rooms = [a.len() + 64, 64, 4 * a.len()].map(|need| any_room(&mut run.random, need));
                let [p, l, w] = rooms.map(|n| run.random.words(n));
                held(run, Request::split(&a, p, l, w));
            }
            1 => {
                let b: Vec<u64> = if run.random.chance(4) { b } else { b.iter().map(|t| t << 40).collect() };
                let room = any_room(&mut run.random, (a.len() * b.len()).min(1100));
                let out = run.random.words(room);
                held(run, Request::multiply(&a, &b, out));
            }
            2 => held(run, Request::same_products([&a, &b, &c, &d])),
            3 => {
                let room = any_room(&mut run.random, block_bytes(&a));
                let out = run.random.bytes(room);
                held(run, Request::write(&a, out));
            }
            _ => any_block(run, &a),
        }
    }
}

/// Mostly short and in order; else out of order, too long, or both.
pub fn any_list(random: &mut Random) -> Vec<u64> {
    let few = random.between(0, 12);
    let t = match random.below(40) {
        0 => 0,
        1 => 1024,
        2 => random.between(1025, 1100),
        3 if random.chance(8) => (1 << random.between(11, 16)) + random.below(1026),
        _ => few,
    };
    let mut list = steps(t);
    if t > 1 && random.chance(5) {
        let place = random.between(1, t - 1);
        list[place] = list[random.below(place)];
    }
    list
}

/// What is needed, a little more, or too little.
pub fn any_room(random: &mut Random, need: usize) -> usize {
    match random.below(8) {
        0 => random.below(need + 1),
        1 => need.saturating_sub(1),
        2 => need + random.below(9),
        _ => need,
    }
}

/// The block of the list as it is, terms out of order too, or with faults.
fn any_block(run: &mut Run, list: &[u64]) {
    let (faults, variant) = (run.random.below(512) & run.random.below(512), run.random.below(4));
    read_with(run, faults as u32, variant);
    if list.len() > 1024 {
        return;
    }
    let mut bytes = block_of(list);
    if run.random.chance(4) {
        let at = run.random.below(bytes.len());
        bytes[at] ^= 1 << run.random.below(8);
    }
    let room = any_room(&mut run.random, list.len());
    let request = Request::read(&bytes, run.random.words(room));
    run.check(request, Oracle::Independent);
}
