//! Blocks: written and read again, cut off at every byte, with bytes behind, and with every bit turned.
use super::block_of;
use crate::call::{Expected, Request};
use crate::run::{Oracle, Run};

pub fn random(run: &mut Run, how_many: usize) {
    run.family("blocks: random lists, written and read");
    for _ in 0..how_many {
        let wide = run.random.between(0, 64);
        let vars = if wide == 0 { 0 } else { u64::MAX >> (64 - wide) };
        let most = run.random.between(0, if wide < 10 { 1 << wide } else { 40 });
        let weight = run.random.between(0, 4) as i32 - 2;
        let terms = run.random.list(vars, most, weight);
        round(run, &terms);
    }
}

/// Written with exact room or more, and what was written read again.
fn round(run: &mut Run, terms: &[u64]) {
    let block = block_of(terms);
    let more = run.random.below(3);
    let request = Request::write(terms, run.random.bytes(block.len() + more));
    let expected = Expected::Bytes(block.to_vec());
    run.check(request, Oracle::Both(expected));
    let request = Request::read(&block, run.random.words(terms.len() + more));
    let expected = Expected::Words(terms.to_vec());
    run.check(request, Oracle::Both(expected));
}

/// So many small blocks and, if wanted, long ones: the longest of all has 65,560 bits.
pub fn damaged(run: &mut Run, small: usize, long: bool) {
    run.family("blocks: cut at every byte, longer");
    let mut lists = vec![vec![], vec![0], vec![1, 2, 5, 6], vec![1 << 63], vec![0, u64::MAX]];
    if long {
        lists.push((0..1024).collect());
        lists.push(run.random.exact_list(u64::MAX, 1024));
        lists.push(run.random.exact_list(u64::MAX >> 1, 65));
    }
    for _ in 0..small {
        let wide = run.random.between(1, 64);
        let most = run.random.between(1, 12);
        lists.push(run.random.list(u64::MAX >> (64 - wide), most, 0));
    }
    lists.iter().for_each(|terms| cut(run, terms));
    run.family("blocks: every bit turned");
    lists.iter().for_each(|terms| turned(run, terms));
}

fn cut(run: &mut Run, terms: &[u64]) {
    let block = block_of(terms);
    for length in 0..block.len() {
        let request = Request::read(&block[..length], run.random.words(terms.len()));
        let expected = Expected::Refused([10, 1, 0]);
        let both = block.len() < 200 || length % 16 == 0;
        run.check(request, if both { Oracle::Both(expected) } else { Oracle::Known(expected) });
    }
    for more in 1..=3 {
        let mut longer = block.clone();
        longer.extend(run.random.bytes(more));
        let request = Request::read(&longer, run.random.words(terms.len()));
        let expected = Expected::Refused([12, 1, 0]);
        run.check(request, Oracle::Both(expected));
    }
}

fn turned(run: &mut Run, terms: &[u64]) {
    let block = block_of(terms);
    for bit in 0..8 * block.len() {
        let mut turned = block.clone();
        turned[bit / 8] ^= 0x80 >> (bit % 8);
        let room = terms.len() + run.random.below(3);
        let request = Request::read(&turned, run.random.words(room));
        run.check(request, Oracle::Independent);
    }
}

/// A header that may be right and anything behind it, mostly of the length that the header asks for.
pub fn noise(run: &mut Run, how_many: usize) {
    run.family("blocks: random bytes");
    for _ in 0..how_many {
        let most = run.random.between(0, 7);
        let n = run.random.between(0, 1 << most).min(127);
        let t = run.random.between(0, 5);
        let header = 1 << 20 | n << 13 | t;
        let mut bytes = vec![(header >> 16) as u8, (header >> 8) as u8, header as u8];
        let length = (n * t).div_ceil(8);
        bytes.extend(run.random.bytes(length));
        if run.random.chance(2) && length > 0 {
            *bytes.last_mut().unwrap() &= 0xff << (8 * length - n * t);
        }
        if run.random.chance(8) {
            let at = run.random.below(bytes.len());
            bytes[at] = run.random.word() as u8;
        }
        if run.random.chance(8) {
            bytes.truncate(run.random.below(8));
        }
        let room = run.random.between(3, 8);
        let request = Request::read(&bytes, run.random.words(room));
        run.check(request, Oracle::Independent);
    }
}
