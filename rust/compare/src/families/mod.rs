//! What is compared, one module for each kind of input.
pub mod audit_refusals;
pub mod audits;
pub mod blocks;
pub mod damages;
pub mod deep;
pub mod deploy_refusals;
pub mod deployments;
pub mod examples;
mod expected;
pub mod kinds;
pub mod lengths;
pub mod lists;
pub mod quadruples;
pub mod refusals;
pub mod shared;
pub mod sizes;
pub mod small;
mod sums;
pub mod texts;
pub mod written;

use crate::call::Request;
use crate::random::Random;

/// A split with exactly the room that it needs and so much more, buffers filled with anything.
pub fn split_request(random: &mut Random, terms: &[u64], more: usize) -> Request {
    let t = terms.len();
    Request::split(terms, random.words(t + 64 + more), random.words(64 + more), random.words(4 * t + more))
}

pub fn multiply_request(random: &mut Random, a: &[u64], b: &[u64], more: usize) -> Request {
    Request::multiply(a, b, random.words((a.len() * b.len()).min(1024) + more))
}

/// An audit of these lists with exactly the room that it needs and so much more.
pub fn audit_request(random: &mut Random, approved: &[u64], given: &[Vec<u64>], more: usize) -> Request {
    let (terms, lengths) = joined(given);
    let lent = audit_room(approved.len()).map(|words| random.words(words + more));
    Request::audit(approved, &terms, &lengths, lent)
}

/// The words that an audit of so many terms needs.
pub fn audit_room(t: usize) -> [usize; 3] {
    [t + 64, 64, 4 * t]
}

/// The words with which a deployment of these boards has room for all: answers, part terms, part lengths, work. Boards that are
/// too long need none.
pub fn deploy_room(boards: &[Vec<u64>]) -> [usize; 4] {
    let lengths = || boards.iter().map(Vec::len).filter(|&t| t <= 1024);
    let (words, longest) = (lengths().sum::<usize>(), lengths().max().unwrap_or(0));
    [4 * boards.len(), words + 64 * boards.len(), 64 * boards.len(), 4 * longest]
}

/// Lists one behind the other, and their lengths.
pub fn joined(lists: &[Vec<u64>]) -> (Vec<u64>, Vec<u64>) {
    (lists.concat(), lists.iter().map(|list| list.len() as u64).collect())
}

/// Parts in the order of their lowest variables.
pub fn in_order(mut parts: Vec<Vec<u64>>) -> Vec<Vec<u64>> {
    parts.sort_by_key(|part| part.iter().fold(0, |v, t| v | t).trailing_zeros());
    parts
}

/// All unions, ascending.
pub fn product(a: &[u64], b: &[u64]) -> Vec<u64> {
    let mut all: Vec<u64> = a.iter().flat_map(|s| b.iter().map(move |t| s | t)).collect();
    all.sort_unstable();
    all
}

/// The bytes of a list's block: 3 and n times t bits rounded up.
pub fn block_bytes(terms: &[u64]) -> usize {
    let n = terms.last().map_or(0, |t| 64 - t.leading_zeros() as usize);
    3 + (n * terms.len()).div_ceil(8)
}

/// The block of a list in order, bit by bit.
pub fn block_of(terms: &[u64]) -> Vec<u8> {
    let n = terms.last().map_or(0, |t| 64 - t.leading_zeros() as usize);
    let mut bits = Bits::header(1, n as u64, terms.len() as u64);
    for &term in terms {
        bits.put(term, n);
    }
    bits.bytes()
}

/// The bytes of a list's text: a variable and the sign behind it take 3 or, from x10 on, 4; the constant and its sign 2.
pub fn text_bytes(terms: &[u64]) -> usize {
    let bytes = |term: u64| (term & 1023).count_ones() * 3 + (term >> 10).count_ones() * 4;
    terms.iter().map(|&term| bytes(term).max(2) as usize).sum::<usize>().max(2)
}

/// The text of a list, its terms in the order that they have there.
pub fn text_of(terms: &[u64]) -> Vec<u8> {
    let mut text = String::new();
    for (i, &term) in terms.iter().enumerate() {
        text += if i > 0 { "+" } else { "" };
        text += if term == 0 { "1" } else { "" };
        let mut left = term;
        while left != 0 {
            text += &format!("{}x{}", if left == term { "" } else { "*" }, left.trailing_zeros());
            left &= left - 1;
        }
    }
    text += if terms.is_empty() { "0\n" } else { "\n" };
    text.into_bytes()
}

/// 1,024 terms, ascending, of 16 variables from x10 on: a text of 65,536 bytes.
pub fn full_text() -> Vec<u64> {
    let six = 0x3f << 30;
    (0..1024u64).map(|i| (0..10).fold(six, |term, j| term | 1 << (10 + 2 * j + (i >> j & 1)))).collect()
}

/// Fields most significant bit first.
pub struct Bits(pub Vec<bool>);

impl Bits {
    pub fn header(form: u64, n: u64, t: u64) -> Bits {
        let mut bits = Bits(Vec::new());
        bits.put(form, 4);
        bits.put(n, 7);
        bits.put(t, 13);
        bits
    }

    pub fn put(&mut self, value: u64, width: usize) {
        self.0.extend((0..width).rev().map(|i| value >> i & 1 == 1));
    }

    /// With zero bits to the end of the last byte.
    pub fn bytes(&self) -> Vec<u8> {
        let byte = |bits: &[bool]| (0..8).fold(0, |v, i| v << 1 | bits.get(i).copied().unwrap_or(false) as u8);
        self.0.chunks(8).map(byte).collect()
    }
}

/// 3, 6, 9, ..: so many terms, ascending.
pub fn steps(t: usize) -> Vec<u64> {
    (1..=t as u64).map(|i| 3 * i).collect()
}
