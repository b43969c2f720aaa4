//! Split and multiply: products with known factors, near-products, irreducible lists, dense and sparse.
use super::{in_order, multiply_request, product, split_request};
use crate::call::{Call, Expected};
use crate::random::Random;
use crate::run::{Oracle, Run};

/// Factors with no common variable, at most so many terms in the product.
pub(super) fn factors(random: &mut Random, most_terms: usize) -> Vec<Vec<u64>> {
    let wide = [4, 8, 12, 20, 64][random.below(5)];
    let mut free = random.subset(u64::MAX, wide);
    let mut left = most_terms;
    let mut found = Vec::new();
    for _ in 0..random.between(1, 6) {
        if free == 0 {
            break;
        }
        let size = random.between(1, free.count_ones().min(9) as usize);
        let vars = random.subset(free, size);
        free &= !vars;
        let longest = if random.chance(3) { 40 } else { 5 };
        let terms = random.between(1, left.min(longest));
        let weight = random.between(0, 4) as i32 - 2;
        let list = random.list(vars, terms, weight);
        left /= list.len();
        found.push(list);
    }
    found
}

/// Products of factors whose own parts the independent program finds: the parts of the product are theirs. One in so many
/// is also split by the independent program.
pub fn products(run: &mut Run, how_many: usize, most_terms: usize, one_in: usize) {
    for round in 0..how_many {
        let factors = factors(&mut run.random, most_terms);
        let mut parts = Vec::new();
        let mut whole = vec![0];
        for factor in &factors {
            let next = product(&whole, factor);
            let more = run.random.below(3);
            let request = multiply_request(&mut run.random, &whole, factor, more);
            let expected = Expected::Words(next.to_vec());
            run.check(request, Oracle::Both(expected));
            whole = next;
            if run.has(Call::Split) {
                parts.extend(run.asked("the parts", factor, independent::parts_of));
            }
        }
        if !run.has(Call::Split) {
            continue;
        }
        let more = run.random.below(3);
        let request = split_request(&mut run.random, &whole, more);
        let expected = Expected::Parts(in_order(parts));
        run.check(request, if round % one_in == 0 { Oracle::Both(expected) } else { Oracle::Known(expected) });
    }
}

/// A product in which one term is changed, lost or added.
pub fn near_products(run: &mut Run, how_many: usize, most_terms: usize) {
    if !run.has(Call::Split) {
        return;
    }
    for _ in 0..how_many {
        let found = factors(&mut run.random, most_terms);
        let mut list = found.iter().fold(vec![0], |whole, factor| product(&whole, factor));
        let at = run.random.below(list.len());
        match run.random.below(3) {
            0 => list[at] ^= 1 << run.random.below(64),
            1 if list.len() > 1 => {
                list.remove(at);
            }
            _ => {
                let other = list[run.random.below(list.len())];
                let on = run.random.word();
                let mixed = list[at] & on | other & !on | 1 << run.random.below(64);
                list.push(mixed);
            }
        }
        list.sort_unstable();
        list.dedup();
        list.truncate(1024);
        let request = split_request(&mut run.random, &list, 0);
        run.check(request, Oracle::Independent);
    }
}

/// Any lists: few or many variables, few or many of them in a term.
pub fn random(run: &mut Run, how_many: usize, most_terms: usize, widths: &[usize]) {
    if !run.has(Call::Split) {
        return;
    }
    for _ in 0..how_many {
        let wide = widths[run.random.below(widths.len())];
        let vars = run.random.subset(u64::MAX, wide);
        let terms = run.random.between(1, most_terms);
        let weight = run.random.between(0, 6) as i32 - 3;
        let list = run.random.list(vars, terms, weight);
        let request = split_request(&mut run.random, &list, 0);
        run.check(request, Oracle::Independent);
    }
}

/// Cubes of 2 to 8 variables with some terms left out.
pub fn dense(run: &mut Run, how_many: usize) {
    if !run.has(Call::Split) {
        return;
    }
    for _ in 0..how_many {
        let wide = run.random.between(2, 8);
        let mut list: Vec<u64> = (0..1 << wide).collect();
        for _ in 0..run.random.below(4) {
            let at = run.random.below(list.len());
            list.remove(at);
        }
        let request = split_request(&mut run.random, &list, 0);
        run.check(request, Oracle::Independent);
    }
}

/// All lists over four variables, held to the definition (RULES 2.5) by trying all sets of variables.
pub fn exhaustive(run: &mut Run) {
    run.family("all lists over 4 variables");
    if !run.has(Call::Split) {
        return;
    }
    for chosen in 1u64..1 << 16 {
        let list: Vec<u64> = (0..16).filter(|i| chosen >> i & 1 == 1).collect();
        let request = split_request(&mut run.random, &list, 0);
        let parts = run.asked("the parts by counting", &list, independent::parts_by_counting);
        let expected = Expected::Parts(parts);
        run.check(request, Oracle::Both(expected));
    }
}

/// Long lists that are known to be irreducible, and long ones with known parts; of those by chance a share.
pub fn long(run: &mut Run, share: usize) {
    if !run.has(Call::Split) {
        return;
    }
    run.family("lists of 1,000 terms and more, known parts");
    let all: Vec<u64> = std::iter::once(0).chain((0..64).map(|i| 1 << i)).collect();
    known(run, all.clone(), vec![all], true);
    let punctured: Vec<u64> = (0..1023).collect();
    known(run, punctured.clone(), vec![punctured], true);
    for missing in [0, 1, 511, 512, 700, 1022] {
        let punctured: Vec<u64> = (0..1024).filter(|&t| t != missing).collect();
        known(run, punctured.clone(), vec![punctured], true);
    }
    let pairs: Vec<Vec<u64>> = (0..10).map(|i| vec![1 << i, 1 << (i + 20)]).collect();
    known(run, pairs.iter().fold(vec![0], |w, p| product(&w, p)), pairs, true);
    let triples: Vec<Vec<u64>> = (0..6).map(|i| vec![0, 1 << i, 1 << (i + 10)]).collect();
    known(run, triples.iter().fold(vec![0], |w, p| product(&w, p)), triples, true);
    many_parts(run);
    for round in 0..400 / share {
        let (left, right) = long_factors(&mut run.random);
        let mut parts = run.asked("the parts", &left, independent::parts_of);
        parts.extend(run.asked("the parts", &right, independent::parts_of));
        known(run, product(&left, &right), in_order(parts), round % 100 == 0);
    }
    run.family("near-products of 1,000 terms and more");
    for _ in 0..16 / share {
        let (left, right) = long_factors(&mut run.random);
        let mut list = product(&left, &right);
        let at = run.random.below(list.len());
        if run.random.chance(2) {
            list[at] ^= 1 << run.random.below(64);
            list.sort_unstable();
            list.dedup();
        } else {
            list.remove(at);
        }
        let request = split_request(&mut run.random, &list, 0);
        run.check(request, Oracle::Independent);
    }
}

/// Two random lists on the two halves of the variables, with about 1,024 terms in the product.
pub(super) fn long_factors(random: &mut Random) -> (Vec<u64>, Vec<u64>) {
    let some = random.subset(u64::MAX, 32);
    let (a, b) = [(10, 102), (32, 32), (4, 256), (25, 40)][random.below(4)];
    (random.exact_list(some, a), random.exact_list(!some, b))
}

/// As many parts as there can be, and as much room for them as they can need: variables in every term, below, above and
/// between the variables of ten sums of two terms, or of one list that does not split.
fn many_parts(run: &mut Run) {
    for shift in [0, 27, 54] {
        let others = !(1023 << shift);
        let singles: Vec<Vec<u64>> = (0..64).filter(|i| others >> i & 1 == 1).map(|i| vec![1 << i]).collect();
        let sums: Vec<Vec<u64>> = (0..10).map(|i| vec![0, 1 << (i + shift)]).collect();
        let cube: Vec<u64> = (0..1024).map(|t| t << shift | others).collect();
        known(run, cube, in_order([singles.clone(), sums].concat()), true);
        let whole: Vec<u64> = (0..1023).map(|t| t << shift).collect();
        let punctured = whole.iter().map(|t| t | others).collect();
        known(run, punctured, in_order([singles, vec![whole]].concat()), true);
    }
}

fn known(run: &mut Run, list: Vec<u64>, parts: Vec<Vec<u64>>, both: bool) {
    let request = split_request(&mut run.random, &list, 2);
    let expected = Expected::Parts(parts);
    run.check(request, if both { Oracle::Both(expected) } else { Oracle::Known(expected) });
}
