//! Same products: four lists that agree by the way they were made, nearly agree, or are any lists at all.
use super::product;
use crate::call::{Call, Expected, Request};
use crate::run::{Oracle, Run};

fn ask(run: &mut Run, lists: [&[u64]; 4], known: Option<bool>, both: bool) {
    let request = Request::same_products(lists);
    let oracle = match known {
        Some(yes) => {
            let expected = Expected::Said(yes);
            if both {
                Oracle::Both(expected)
            } else {
                Oracle::Known(expected)
            }
        }
        None => Oracle::Independent,
    };
    run.check(request, oracle);
}

/// All quadruples of the sixteen lists over two variables.
pub fn exhaustive(run: &mut Run) {
    run.family("same: all quadruples over 2 variables");
    if !run.has(Call::SameProducts) {
        return;
    }
    let lists: Vec<Vec<u64>> = (0..16u64).map(|chosen| (0..4).filter(|i| chosen >> i & 1 == 1).collect()).collect();
    for i in 0..1 << 16 {
        let [a, d, b, c] = [0, 4, 8, 12].map(|shift| &lists[i >> shift & 15][..]);
        ask(run, [a, d, b, c], None, false);
    }
}

/// A = PQ, D = RS, B = PR, C = QS; P and S may share variables, and Q and R.
fn refined(run: &mut Run, wide: usize, terms: usize) -> [Vec<u64>; 4] {
    let all = run.random.subset(u64::MAX, wide);
    let some = run.random.subset(all, wide / 2);
    let others = all & !some;
    let mut pick = |vars: u64| {
        let size = run.random.between(1, vars.count_ones() as usize);
        let on = run.random.subset(vars, size);
        let count = run.random.between(1, terms);
        let weight = run.random.between(0, 2) as i32 - 1;
        run.random.list(on, count, weight)
    };
    let (p, s, q, r) = (pick(some), pick(some), pick(others), pick(others));
    [product(&p, &q), product(&r, &s), product(&p, &r), product(&q, &s)]
}

pub fn equal(run: &mut Run, how_many: usize, wide: usize, terms: usize, both: bool) {
    for _ in 0..how_many {
        let [a, d, b, c] = refined(run, wide, terms);
        ask(run, [&a, &d, &b, &c], Some(true), both);
        ask(run, [&d, &a, &c, &b], Some(true), both);
    }
}

/// One term of one list is changed, so the products differ: with three lists as they were and none of them zero,
/// another fourth list gives another product.
pub fn nearly_equal(run: &mut Run, how_many: usize, wide: usize, terms: usize, both: bool) {
    for _ in 0..how_many {
        let mut lists = refined(run, wide, terms);
        let which = run.random.below(4);
        let list = &mut lists[which];
        let at = run.random.below(list.len());
        let old = list.clone();
        if run.random.chance(2) && list.len() > 1 {
            list.remove(at);
        } else {
            list[at] ^= 1 << run.random.below(64);
            list.sort_unstable();
            list.dedup();
        }
        let known = (*list != old).then_some(false);
        let [a, d, b, c] = &lists;
        ask(run, [a, d, b, c], known, both);
    }
}

pub fn random(run: &mut Run, how_many: usize, wide: usize, terms: usize) {
    for _ in 0..how_many {
        let vars = run.random.subset(u64::MAX, wide);
        let [a, d, b, c] = [(); 4].map(|()| {
            let count = run.random.below(terms + 1);
            run.random.list(vars, count, 0)
        });
        ask(run, [&a, &d, &b, &c], None, false);
    }
}

/// Long lists: staircases and their mirrors, equal and with one term changed; long products.
pub fn long(run: &mut Run) {
    run.family("same: 1,000 terms a list and more");
    if !run.has(Call::SameProducts) {
        return;
    }
    let stairs = |mirror: u64| {
        let mut list: Vec<u64> = (0..32u32)
            .flat_map(|i| (0..32u32).map(move |j| (1u64 << (2 * i)) + if j == 0 { 0 } else { 1u64 << (2 * j + 1) }))
            .map(|t| t ^ mirror)
            .collect();
        list.sort_unstable();
        list
    };
    for list in [stairs(0), stairs(u64::MAX)] {
        ask(run, [&list, &list, &list, &list], Some(true), true);
        for at in [0, 500, 1023] {
            let mut other = list.clone();
            other.remove(at);
            ask(run, [&list, &list, &list, &other], Some(false), true);
            ask(run, [&list, &other, &other, &list], Some(true), true);
        }
    }
    for round in 0..12 {
        let [a, d, b, c] = refined(run, 40, 32);
        ask(run, [&a, &d, &b, &c], Some(true), round < 3);
        let any = run.random.exact_list(u64::MAX, 1024);
        ask(run, [&any, &a, &any, &a], Some(true), false);
        let other = run.random.exact_list(u64::MAX, 1024);
        ask(run, [&any, &a, &other, &a], Some(false), false);
    }
}
