//! Inputs that share memory: the same slice for several operands, slices that overlap, hold one another or touch.
use super::expected::held;
use super::steps;
use crate::call::{Call, Request};
use crate::random::Random;
use crate::run::Run;
use std::ops::Range;

pub fn all(run: &mut Run, how_many: usize) {
    run.family("inputs that share memory");
    for _ in 0..how_many {
        let pool = pool(&mut run.random);
        let parts = [(); 2].map(|()| part(&mut run.random, pool.len()));
        let room = run.random.below(30);
        let out = run.random.words(room);
        held(run, Request::multiply_within(&pool, parts, out));
        four(run, &pool);
    }
    limits(run);
}

/// A short list, sometimes with a term out of order; or two lists with no common variable, one behind the other.
fn pool(random: &mut Random) -> Vec<u64> {
    let vars = random.subset(u64::MAX, 4);
    let terms = random.between(1, 12);
    let mut pool = random.list(vars, terms, 0);
    if random.chance(2) {
        let others = random.subset(!vars, 3);
        pool.extend(random.list(others, 6, 0));
    }
    if random.chance(8) {
        let at = random.below(pool.len());
        pool[at] = random.word();
    }
    pool
}

fn part(random: &mut Random, length: usize) -> Range<usize> {
    let one = random.between(0, length);
    let other = random.between(0, length);
    one.min(other)..one.max(other)
}

/// Four parts, of which some are the same: AD = BC then often holds.
fn four(run: &mut Run, pool: &[u64]) {
    if !run.has(Call::SameProducts) {
        return;
    }
    let parts = [(); 4].map(|()| part(&mut run.random, pool.len()));
    let [one, other] = [parts[0].clone(), parts[1].clone()];
    let same = [one.clone(), one.clone(), one.clone(), one.clone()];
    let crossed = [one.clone(), other.clone(), other.clone(), one.clone()];
    let nested = [0..pool.len(), one.clone(), other, one];
    for parts in [parts, same, crossed, nested] {
        held(run, Request::same_products_within(pool, parts));
    }
}

/// The same long list for all operands, whole and in parts; too long, and out of order.
fn limits(run: &mut Run) {
    let long = steps(1030);
    let mut unordered = steps(1030);
    unordered[700] = unordered[699];
    for pool in [&long, &unordered] {
        for end in [1024, 1025, 1030] {
            for (start, stop) in [(0, end), (end - 1024, end), (1, end), (650, 720)] {
                let out = run.random.words(40);
                held(run, Request::multiply_within(pool, [start..stop, 0..end], out));
                let out = run.random.words(40);
                held(run, Request::multiply_within(pool, [0..0, start..stop], out));
                let few = start..start + 1;
                held(run, Request::same_products_within(pool, [start..stop, few.clone(), start..stop, few]));
                held(run, Request::same_products_within(pool, [0..9, 5..8, start..stop, start..stop]));
            }
        }
    }
}
