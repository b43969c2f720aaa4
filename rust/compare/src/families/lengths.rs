//! Lengths far beyond the limits, near powers of two: a test that looks at some bits of a length only would take them
//! for short ones. Every operand and every buffer has them in turn.
use super::expected::held;
use super::{block_of, steps};
use crate::call::{Expected, Request};
use crate::run::{Oracle, Run};

/// What is left of these lengths in 11 to 17 bits is 0, 1, 2, .. or just within a limit.
pub fn lengths() -> Vec<usize> {
    let mut lengths = vec![1026, 1100, 2047, 2049, 3 << 10, 70_000];
    for bits in 11..=17 {
        lengths.extend([0, 1, 2, 3, 64, 1023, 1024].map(|more| (1 << bits) + more));
    }
    lengths
}

pub fn all(run: &mut Run) {
    run.family("lengths beyond 16 bits");
    for length in lengths() {
        long_lists(run, length);
        long_buffers(run, length);
        long_blocks(run, length);
    }
}

/// A list of so many terms, ascending or not, as each operand. Room is short for split, so that a split that takes the
/// list for a short one is not left to search for its parts.
fn long_lists(run: &mut Run, length: usize) {
    let ascending = steps(length);
    let mut unordered = ascending.clone();
    unordered[1] = 0;
    for list in [&ascending, &unordered] {
        for room in [0, 63, 64 + length % 2048] {
            let [part_terms, part_lengths, work] = [room, room, room].map(|n| run.random.words(n));
            held(run, Request::split(list, part_terms, part_lengths, work));
        }
        for other in [&[][..], &[0], &[0, 0], &[1 << 60, 1 << 61]] {
            let (one, two) = (run.random.words(8), run.random.words(8));
            held(run, Request::multiply(list, other, one));
            held(run, Request::multiply(other, list, two));
            for operand in 0..4 {
                let mut lists = [other; 4];
                lists[operand] = list;
                held(run, Request::same_products(lists));
            }
        }
        for room in [0, 3, 8195] {
            let out = run.random.bytes(room);
            held(run, Request::write(list, out));
        }
    }
}

/// So much room for each output in turn.
fn long_buffers(run: &mut Run, length: usize) {
    let terms = [0, 1, 2, 3, 8, 9, 10, 11];
    for which in 0..4 {
        let long = |i: usize, need: usize| if which == i || which == 3 { length } else { need };
        let part_terms = run.random.words(long(0, 72));
        let part_lengths = run.random.words(long(1, 64));
        let work = run.random.words(long(2, 32));
        held(run, Request::split(&terms, part_terms, part_lengths, work));
    }
    let out = run.random.words(length);
    held(run, Request::multiply(&terms, &[16, 32], out));
    let out = run.random.words(length);
    run.check(Request::read(&block_of(&terms), out), Oracle::Independent);
    let out = run.random.bytes(length);
    held(run, Request::write(&terms, out));
}

/// A block with so many bytes behind it, or so many in all: always Extra.
fn long_blocks(run: &mut Run, length: usize) {
    for terms in [&[][..], &[0], &[1, 2, 5, 6], &[0, u64::MAX]] {
        let block = block_of(terms);
        for size in [length, length + block.len() - 1, length + block.len(), length + block.len() + 1] {
            let mut bytes = block.clone();
            bytes.resize(size, 0);
            let request = Request::read(&bytes, run.random.words(5));
            let expected = Expected::Refused([12, 1, 0]);
            run.check(request, Oracle::Both(expected));
        }
    }
}
