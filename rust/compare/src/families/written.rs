//! Lists that are written as texts: of every kind, out of order, too long, with texts around the limit; and what was written is
//! read again.
use super::expected::held;
use super::kinds::kinds;
use super::lengths::lengths;
use super::refusals::{any_list, any_room, spoiled};
use super::texts::of_bytes;
use super::{steps, text_bytes, text_of};
use crate::call::{Expected, Request};
use crate::random::Random;
use crate::run::{Oracle, Run};

/// Every refusal.
pub fn refusals(run: &mut Run) {
    run.family("texts: lists of every kind, written");
    every_kind(run);
    run.family("texts: lists near 65,536 bytes, written");
    near_the_limit(run);
}

pub fn all(run: &mut Run) {
    refusals(run);
    run.family("texts: order, every place");
    places(run);
    run.family("texts: one and two variables, written");
    few_variables(run);
    run.family("texts: sizes, room exact, one short and more");
    sizes(run);
    run.family("texts: lists beyond 16 bits, written");
    long(run);
}

fn write(run: &mut Run, terms: &[u64], room: usize) {
    let out = run.random.bytes(room);
    held(run, Request::write_text(terms, out));
}

/// Written with exact room or more, and what was written is read again.
fn round(run: &mut Run, terms: &[u64]) {
    let text = text_of(terms);
    let more = run.random.below(3);
    let request = Request::write_text(terms, run.random.bytes(text.len() + more));
    run.check(request, Oracle::Both(Expected::Bytes(text.clone())));
    let request = Request::read_text(&text, run.random.words(terms.len() + more));
    run.check(request, Oracle::Both(Expected::Words(terms.to_vec())));
}

/// Random lists, written and read; then lists with any fault in any room.
pub fn random(run: &mut Run, how_many: usize) {
    run.family("texts: random lists, written and read");
    for _ in 0..how_many {
        let wide = run.random.between(0, 64);
        let vars = run.random.subset(u64::MAX, wide);
        let most = run.random.between(0, if wide < 10 { 1 << wide } else { 40 });
        let weight = run.random.between(0, 4) as i32 - 2;
        let terms = run.random.list(vars, most, weight);
        round(run, &terms);
        let list = any_list(&mut run.random);
        let room = any_room(&mut run.random, text_bytes(&list));
        write(run, &list, room);
    }
}

fn every_kind(run: &mut Run) {
    const VALUES: [u64; 5] = [0, 1, 2, u64::MAX - 1, u64::MAX];
    let mut lists = kinds();
    for length in 1..=4u32 {
        lists.extend((0..5usize.pow(length)).map(|c| (0..length).map(|i| VALUES[c / 5usize.pow(i) % 5]).collect()));
    }
    for terms in lists {
        let need = text_bytes(&terms);
        for room in (0..5).chain([need - 1, need, need + 1]) {
            write(run, &terms, room);
        }
    }
}

/// Order at each place of lists of several lengths, also of one whose text is too large, with a second fault behind it.
fn places(run: &mut Run) {
    for t in [2usize, 3, 17, 65, 1023, 1024] {
        let large: Vec<u64> = (0..t as u64).map(|i| u64::MAX - 2048 + 2 * i).collect();
        for list in [steps(t), large] {
            for place in (1..t).step_by(if t > 100 { 37 } else { 1 }).chain([t - 1]) {
                let mut terms = spoiled(list.clone(), place, place % 2 == 0);
                if place + 3 < t {
                    terms[place + 3] = 0;
                }
                let request = Request::write_text(&terms, run.random.bytes(place % 64));
                run.check(request, Oracle::Both(Expected::Refused([3, 1, place as u64])));
            }
        }
    }
}

fn few_variables(run: &mut Run) {
    for i in 0..64 {
        for j in i..64 {
            round(run, &[1 << i | 1 << j]);
        }
        round(run, &[0, 1 << i]);
        round(run, &[u64::MAX ^ 1 << i, u64::MAX]);
        round(run, &[u64::MAX >> (63 - i)]);
    }
}

fn sizes(run: &mut Run) {
    for t in [0, 1, 2, 63, 64, 65, 255, 266, 267, 1023, 1024, 1025usize] {
        let shapes = [
            (0..t as u64).collect::<Vec<u64>>(),
            (0..t as u64).map(|i| i << 54 | 1).collect(),
            run.random.exact_list(u64::MAX, t),
            run.random.exact_list(0x0000_1111_2222_4488, t),
            // as many variables as can be
            (0..t as u64).map(|i| u64::MAX - t as u64 + i).collect(),
        ];
        for terms in shapes {
            let need = text_bytes(&terms);
            for room in [need - 1, need, need + 1, need + 100] {
                write(run, &terms, room);
            }
            if need <= 65536 && t <= 1024 {
                round(run, &terms);
            }
        }
    }
}

/// Texts of just under, just and just over 65,536 bytes, of 1,024 terms and of fewer that are longer.
fn near_the_limit(run: &mut Run) {
    let mut lists: Vec<Vec<u64>> = (65533..=65539).map(of_bytes).collect();
    lists.extend((65520..65560).map(|bytes| about(&mut run.random, bytes)));
    // far above it, where 16 or 17 bits of the length would not show that
    lists.extend([131_070, 131_080, 150_000, 196_600].map(|bytes| about(&mut run.random, bytes)));
    for terms in lists {
        let need = text_bytes(&terms);
        for room in [0, need - 1, need, need + 1, 65535, 65536, 65537, 70000] {
            write(run, &terms, room);
        }
        if need <= 65536 {
            round(run, &terms);
        }
    }
}

/// A random list whose text has so many bytes, or up to three more or less: variables from x20 on, which take four, come to its
/// terms or leave them. By the others the terms still differ.
fn about(random: &mut Random, bytes: usize) -> Vec<u64> {
    let t = if bytes < 100_000 { random.between(400, 700) } else { 1000 };
    let mut list = random.exact_list(0xfffff, t);
    for term in &mut list {
        *term |= random.word() << 20;
    }
    let mut missing = bytes as i64 - text_bytes(&list) as i64;
    for term in &mut list {
        for x in 20..64 {
            if missing.abs() >= 4 && (*term >> x & 1 == 0) == (missing > 0) {
                *term ^= 1 << x;
                missing -= 4 * missing.signum();
            }
        }
    }
    list.sort_unstable();
    assert!(text_bytes(&list).abs_diff(bytes) < 4);
    list
}

/// Lists and outputs far beyond the limits.
fn long(run: &mut Run) {
    for length in lengths() {
        let ascending = steps(length);
        let mut unordered = ascending.clone();
        unordered[1] = 0;
        for terms in [&ascending, &unordered] {
            for room in [0, 2, 65536] {
                write(run, terms, room);
            }
        }
        for terms in [&[][..], &[0, 4, 9], &[0, u64::MAX]] {
            write(run, terms, length);
        }
        write(run, &of_bytes(65536), length);
        write(run, &of_bytes(65535), length);
    }
}
