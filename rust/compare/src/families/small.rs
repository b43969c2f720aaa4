//! All short lists over a few values, in and out of order, as every operand; all small blocks; headers of all kinds.
use super::expected::held;
use super::{multiply_request, split_request};
use crate::call::Request;
use crate::run::{Oracle, Run};

pub fn all(run: &mut Run) {
    run.family("all short lists over 5 values, any order");
    lists(run);
    run.family("all blocks of few bits");
    blocks(run);
    run.family("headers");
    headers(run);
}

/// Up to four terms out of the lowest and the highest.
fn lists(run: &mut Run) {
    const VALUES: [u64; 5] = [0, 1, 2, u64::MAX - 1, u64::MAX];
    for length in 1..=4u32 {
        for choice in 0..5usize.pow(length) {
            let list: Vec<u64> = (0..length).map(|i| VALUES[choice / 5usize.pow(i) % 5]).collect();
            as_every_operand(run, &list);
        }
    }
}

fn as_every_operand(run: &mut Run, list: &[u64]) {
    let request = split_request(&mut run.random, list, 1);
    held(run, request);
    let out = run.random.bytes(40);
    held(run, Request::write(list, out));
    for other in [&[][..], &[0], &[4], &[1 << 63]] {
        let request = multiply_request(&mut run.random, list, other, 1);
        held(run, request);
        let request = multiply_request(&mut run.random, other, list, 1);
        held(run, request);
        for operand in 0..4 {
            let mut lists = [other; 4];
            lists[operand] = list;
            held(run, Request::same_products(lists));
        }
    }
}

/// All contents of n times t bits up to 10, then with one bit more set in the padding.
fn blocks(run: &mut Run) {
    for n in 0..=10usize {
        for t in 0..=6usize {
            let bits = n * t;
            if bits > 10 {
                continue;
            }
            let padding = bits.div_ceil(8) * 8 - bits;
            for content in 0..1u32 << bits {
                for pad in (0..=padding).map(|i| (1 << i) >> 1) {
                    let body = content << padding | pad;
                    let mut bytes = header(1, n, t).to_vec();
                    bytes.extend((0..bits.div_ceil(8)).rev().map(|i| (body >> (8 * i)) as u8));
                    let request = Request::read(&bytes, run.random.words(t + content as usize % 2));
                    run.check(request, Oracle::Independent);
                }
            }
        }
    }
}

fn header(form: usize, n: usize, t: usize) -> [u8; 3] {
    let all = form << 20 | n << 13 | t;
    [(all >> 16) as u8, (all >> 8) as u8, all as u8]
}

/// Each form number, each n, and many t: alone, and with zero bytes behind, one too few, just enough and one too many.
fn headers(run: &mut Run) {
    let mut counts: Vec<usize> =
        (0..20).chain([63, 64, 65, 1023, 1024, 1025, 1026, 2047, 2048, 4095, 4096, 8191]).collect();
    counts.extend([1024 + 4096, 1025 + 4096, 2048 + 4096]);
    for n in 0..128 {
        for &t in &counts {
            let need = (n * t).div_ceil(8);
            for length in [0, need.saturating_sub(1), need, need + 1] {
                if length > 600 && t % 8 < 7 {
                    continue;
                }
                let mut bytes = header(1, n, t).to_vec();
                bytes.resize(3 + length, 0);
                let request = Request::read(&bytes, run.random.words(6));
                run.check(request, Oracle::Independent);
            }
        }
    }
    for form in 0..16 {
        for (n, t) in [(0, 0), (0, 1), (127, 8191), (64, 1024), (65, 1), (1, 1025), (3, 4)] {
            let bytes = header(form, n, t);
            let request = Request::read(&bytes, run.random.words(1));
            run.check(request, Oracle::Independent);
        }
    }
}
