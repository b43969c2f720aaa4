//! Every kind of operand together with every kind of the others: what one operand is must not spare another its checks.
use super::expected::held;
use super::steps;
use crate::call::{Call, Request};
use crate::run::Run;

/// Lists in order: zero, one, a variable, some, many.
fn fit() -> Vec<Vec<u64>> {
    vec![vec![], vec![0], vec![1 << 40], vec![0, 1], steps(40), (0..1024).collect()]
}

/// Lists that are refused: out of order at the first place and later, too long, both.
fn unfit() -> Vec<Vec<u64>> {
    let mut late = steps(40);
    late[39] = late[38];
    let mut both = steps(1030);
    both[1] = 0;
    vec![vec![0, 0], vec![7, 7], vec![2, 1], vec![0, 1, 2, 0], late, (0..1025).collect(), both, vec![0; 1025]]
}

pub fn kinds() -> Vec<Vec<u64>> {
    [fit(), unfit()].concat()
}

pub fn all(run: &mut Run) {
    run.family("every kind of operand with every other");
    split(run);
    multiply(run);
    same_products(run);
    write(run);
}

fn split(run: &mut Run) {
    if !run.has(Call::Split) {
        return;
    }
    for terms in kinds() {
        let t = terms.len();
        for i in 0..64 {
            let room = |need: usize, choice: usize| [0, need.saturating_sub(1), need, need + 9][choice % 4];
            let (terms_room, lengths_room, work_room) = (room(t + 64, i), room(64, i / 4), room(4 * t, i / 16));
            let out = run.random.words(terms_room);
            let lengths = run.random.words(lengths_room);
            let work = run.random.words(work_room);
            held(run, Request::split(&terms, out, lengths, work));
        }
    }
}

fn multiply(run: &mut Run) {
    for a in kinds() {
        for b in kinds() {
            // Apart from the first list's variables, and as it is.
            for apart in [true, false] {
                let b: Vec<u64> = if apart { b.iter().map(|t| t << 50).collect() } else { b.clone() };
                let need = (a.len() * b.len()).min(1025);
                for room in [0, need.saturating_sub(1), need, need + 3] {
                    let out = run.random.words(room);
                    held(run, Request::multiply(&a, &b, out));
                }
            }
        }
    }
}

fn same_products(run: &mut Run) {
    if !run.has(Call::SameProducts) {
        return;
    }
    let kinds = kinds();
    let n = kinds.len();
    // A thousand terms against a thousand, multiplied out, take their time: of such quadruples only those of two squares.
    let long = |i: usize| kinds[i].len() == 1024;
    for i in 0..n.pow(4) {
        let [a, d, b, c] = [i % n, i / n % n, i / n / n % n, i / n / n / n];
        if [a, d, b, c].into_iter().filter(|&k| long(k)).count() < 2 || a == d && b == c {
            held(run, Request::same_products([&kinds[a], &kinds[d], &kinds[b], &kinds[c]]));
        }
    }
}

fn write(run: &mut Run) {
    for terms in kinds() {
        let need = super::block_bytes(&terms);
        for room in (0..5).chain([need - 1, need, need + 1]) {
            let out = run.random.bytes(room);
            held(run, Request::write(&terms, out));
        }
    }
}
