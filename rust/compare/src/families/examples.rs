//! The examples of RULES 7, with the answers that stand there.
use super::{multiply_request, split_request};
use crate::call::{Expected, Request};
use crate::run::{Oracle, Run};

pub fn all(run: &mut Run) {
    run.family("examples of the rules");
    split(run);
    products(run);
    blocks(run);
}

fn split(run: &mut Run) {
    let cube: Vec<u64> = (0..1024).collect();
    let edges: Vec<Vec<u64>> = (0..10).map(|i| vec![0, 1 << i]).collect();
    let bits: Vec<Vec<u64>> = (0..64).map(|i| vec![1 << i]).collect();
    let accepted: Vec<(Vec<u64>, Vec<Vec<u64>>)> = vec![
        (vec![0], vec![]),
        (vec![1], vec![vec![1]]),
        (vec![0, 1], vec![vec![0, 1]]),
        (vec![3], vec![vec![1], vec![2]]),
        (vec![0, 3], vec![vec![0, 3]]),
        (vec![0, 1, 2], vec![vec![0, 1, 2]]),
        (vec![1, 2, 5, 6], vec![vec![1, 2], vec![0, 4]]),
        (vec![6, 7, 12, 13], vec![vec![0, 1], vec![2, 8], vec![4]]),
        (vec![4, 7, 12, 15, 16, 19], vec![vec![0, 3], vec![4, 12, 16]]),
        (vec![u64::MAX], bits),
        (cube, edges),
    ];
    for (terms, parts) in accepted {
        let request = split_request(&mut run.random, &terms, 3);
        let expected = Expected::Parts(parts);
        run.check(request, Oracle::Both(expected));
    }
    let refused: Vec<(Vec<u64>, [u64; 3])> =
        vec![(vec![], [1, 1, 0]), (vec![1, 1], [3, 1, 1]), (vec![2, 1], [3, 1, 1]), ((0..=1024).collect(), [2, 1, 0])];
    for (terms, [code, operand, place]) in refused {
        let request = split_request(&mut run.random, &terms, 0);
        let expected = Expected::Refused([code, operand, place]);
        run.check(request, Oracle::Both(expected));
    }
}

fn products(run: &mut Run) {
    let yes_no: [([&[u64]; 4], bool); 3] = [
        ([&[1], &[1], &[1], &[0]], false),
        ([&[0, 1], &[0, 2], &[0, 1], &[0]], false),
        ([&[0, 1], &[0], &[0], &[0, 1]], true),
    ];
    for (lists, yes) in yes_no {
        let request = Request::same_products(lists);
        let expected = Expected::Said(yes);
        run.check(request, Oracle::Both(expected));
    }
    let low: Vec<u64> = (0..32).collect();
    let high: Vec<u64> = (0..32).map(|j| 32 * j).collect();
    let longer: Vec<u64> = (0..33).map(|j| 32 * j).collect();
    let cube: Vec<u64> = (0..1024).collect();
    let accepted: [(&[u64], &[u64], &[u64]); 3] =
        [(&[0, 1], &[0, 2], &[0, 1, 2, 3]), (&[], &[1], &[]), (&low, &high, &cube)];
    for (a, b, out) in accepted {
        let request = multiply_request(&mut run.random, a, b, 2);
        let expected = Expected::Words(out.to_vec());
        run.check(request, Oracle::Both(expected));
    }
    let refused: [(&[u64], &[u64], u64); 2] = [(&[0, 1], &[1], 4), (&low, &longer, 5)];
    for (a, b, code) in refused {
        let request = multiply_request(&mut run.random, a, b, 0);
        let expected = Expected::Refused([code, 0, 0]);
        run.check(request, Oracle::Both(expected));
    }
}

fn blocks(run: &mut Run) {
    let pairs: [(&[u8], &[u64]); 3] =
        [(&[0x10, 0x00, 0x00], &[]), (&[0x10, 0x00, 0x01], &[0]), (&[0x10, 0x60, 0x04, 0x2a, 0xe0], &[1, 2, 5, 6])];
    for (block, terms) in pairs {
        let request = Request::read(block, run.random.words(terms.len() + 2));
        let expected = Expected::Words(terms.to_vec());
        run.check(request, Oracle::Both(expected));
        let request = Request::write(terms, run.random.bytes(block.len() + 2));
        let expected = Expected::Bytes(block.to_vec());
        run.check(request, Oracle::Both(expected));
    }
    let refused: [(&[u8], u64, u64); 6] = [
        (&[0x10, 0x60, 0x04, 0x2a, 0xe1], 13, 0),
        (&[0x10, 0x60, 0x04, 0x2a], 10, 0),
        (&[0x10, 0x60, 0x04, 0x2a, 0xe0, 0x00], 12, 0),
        (&[0x20, 0x00, 0x01], 8, 0),
        (&[0x10, 0x00, 0x02], 3, 1),
        (&[0x10, 0x20, 0x01, 0x00], 11, 0),
    ];
    for (block, code, place) in refused {
        let request = Request::read(block, run.random.words(4));
        let expected = Expected::Refused([code, 1, place]);
        run.check(request, Oracle::Both(expected));
    }
}
