//! Multiply by making all unions, same products by multiplying both sides out.
use crate::answer::{check_lists, Answer};
use std::collections::HashMap;
use std::hash::{BuildHasherDefault, Hasher};

pub(crate) fn variables(list: &[u64]) -> u64 {
    list.iter().fold(0, |v, t| v | t)
}

pub fn multiply(a: &[u64], b: &[u64], out: &mut [u64]) -> Answer {
    if let Err(refusal) = check_lists(&[a, b]) {
        return refusal;
    }
    if variables(a) & variables(b) != 0 {
        return Answer::refused(4, 0);
    }
    if a.len() * b.len() > crate::TERMS {
        return Answer::refused(5, 0);
    }
    let unions = product(a, b);
    if out.len() < unions.len() {
        return Answer::refused(6, 0);
    }
    out[..unions.len()].copy_from_slice(&unions);
    Answer::accepted(unions.len())
}

pub(crate) fn product(a: &[u64], b: &[u64]) -> Vec<u64> {
    let mut unions: Vec<u64> = a.iter().flat_map(|s| b.iter().map(move |t| s | t)).collect();
    unions.sort_unstable();
    unions
}

pub fn same_products(a: &[u64], d: &[u64], b: &[u64], c: &[u64]) -> Answer {
    match check_lists(&[a, d, b, c]) {
        Err(refusal) => refusal,
        Ok(()) => Answer::accepted(agree(a, d, b, c) as usize),
    }
}

/// Exponents of a product of two terms: the variables with exponent 2, and those with exponent 1.
type Exponents = (u64, u64);

/// For each assignment of exponents, the parity of the number of pairs that give it, both sides together: the sides
/// agree exactly if every parity is even.
pub(crate) fn agree(a: &[u64], d: &[u64], b: &[u64], c: &[u64]) -> bool {
    let mut odd: HashMap<Exponents, bool, BuildHasherDefault<Mixer>> = HashMap::default();
    for (one, other) in [(a, d), (b, c)] {
        for s in one {
            for t in other {
                let parity = odd.entry((s & t, s ^ t)).or_insert(false);
                *parity = !*parity;
            }
        }
    }
    odd.values().all(|&parity| !parity)
}

/// A quick hash: the default one takes most of the time of a million pairs.
#[derive(Default)]
struct Mixer(u64);

impl Hasher for Mixer {
    fn write(&mut self, _: &[u8]) {
        unreachable!("only words are hashed")
    }

    fn write_u64(&mut self, word: u64) {
        let mixed = (self.0 ^ word).wrapping_mul(0x9e37_79b9_7f4a_7c15);
        self.0 = mixed ^ mixed >> 29;
    }

    fn finish(&self) -> u64 {
        self.0.wrapping_mul(0xbf58_476d_1ce4_e5b9)
    }
}
