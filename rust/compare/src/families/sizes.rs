//! Lists of 0, 1, 2, 63, 64, 65, 1,023, 1,024 and 1,025 terms in several shapes, with room exact, one short and more.
use super::{block_bytes, block_of};
use crate::call::{Call, Expected, Request};
use crate::run::{Oracle, Run};

const SIZES: [usize; 9] = [0, 1, 2, 63, 64, 65, 1023, 1024, 1025];

pub fn all(run: &mut Run) {
    run.family("sizes, room exact, one short and more");
    for t in SIZES {
        let shapes = [
            (0..t as u64).collect::<Vec<u64>>(),
            (1..=t as u64).collect(),
            (0..t as u64).map(|i| i << 54 | 1).collect(),
            run.random.exact_list(u64::MAX, t),
            run.random.exact_list(0x0000_1111_2222_4488, t),
            // The highest variable in the last term only.
            (1..t as u64).chain((t > 0).then_some(1 << 40)).collect(),
        ];
        for terms in shapes {
            split(run, &terms);
            blocks(run, &terms);
            products(run, &terms);
        }
    }
}

fn split(run: &mut Run, terms: &[u64]) {
    if !run.has(Call::Split) {
        return;
    }
    let t = terms.len();
    let parts = if (1..=1024).contains(&t) { Some(run.asked("the parts", terms, independent::parts_of)) } else { None };
    for (i, room) in [(0, 0), (0, 3), (1, 0), (2, 0), (3, 0)] {
        let less = |which: usize| (i == which) as usize;
        let request = Request::split(
            terms,
            run.random.words((t + 64 + room) - less(1)),
            run.random.words((64 + room) - less(2)),
            run.random.words((4 * t + room).saturating_sub(less(3))),
        );
        let known = match (&parts, i) {
            (None, _) => Expected::Refused([if t == 0 { 1 } else { 2 }, 1, 0]),
            (Some(parts), 0) => Expected::Parts(parts.clone()),
            (Some(_), 3) => Expected::Refused([7, 1, 0]),
            (Some(_), _) => Expected::Refused([6, 1, 0]),
        };
        // The parts of a long list with many variables take the independent program a while.
        let quick = i != 0 || t < 100 || terms.last() < Some(&1024);
        run.check(request, if quick { Oracle::Both(known) } else { Oracle::Known(known) });
    }
}

fn blocks(run: &mut Run, terms: &[u64]) {
    let need = block_bytes(terms);
    let block = block_of(terms);
    for room in [need - 1, need, need + 1, need + 100] {
        let request = Request::write(terms, run.random.bytes(room));
        run.check(request, Oracle::Independent);
    }
    for room in [terms.len().saturating_sub(1), terms.len(), terms.len() + 5] {
        let request = Request::read(&block, run.random.words(room));
        run.check(request, Oracle::Independent);
    }
}

fn products(run: &mut Run, terms: &[u64]) {
    for other in [&[][..], &[0], &[0, 1 << 63]] {
        let need = terms.len() * other.len();
        for room in [need.saturating_sub(1), need, need + 4] {
            let request = Request::multiply(terms, other, run.random.words(room));
            run.check(request, Oracle::Independent);
            let request = Request::multiply(other, terms, run.random.words(room));
            run.check(request, Oracle::Independent);
        }
        run.check(Request::same_products([terms, other, other, terms]), Oracle::Independent);
        run.check(Request::same_products([terms, other, terms, other]), Oracle::Independent);
        run.check(Request::same_products([terms, &[0], other, &[0]]), Oracle::Independent);
        run.check(Request::same_products([other, terms, &[0, 1], terms]), Oracle::Independent);
    }
}
