//! The packed block (RULES 4), bit by bit.
use crate::answer::{check_lists, Answer};

fn number(bits: &[bool]) -> u64 {
    bits.iter().fold(0, |v, &b| v * 2 + b as u64)
}

fn push(bits: &mut Vec<bool>, value: u64, width: usize) {
    for i in (0..width).rev() {
        bits.push(value >> i & 1 == 1);
    }
}

/// n of a list (RULES 1.4).
fn width_of(terms: &[u64]) -> usize {
    (0..64).rev().find(|&i| terms.iter().any(|t| t >> i & 1 == 1)).map_or(0, |i| i + 1)
}

pub fn read(bytes: &[u8], out: &mut [u64]) -> Answer {
    match list_in(bytes, out.len()) {
        Ok(terms) => {
            out[..terms.len()].copy_from_slice(&terms);
            Answer::accepted(terms.len())
        }
        Err(refusal) => refusal,
    }
}

fn list_in(bytes: &[u8], room: usize) -> Result<Vec<u64>, Answer> {
    if bytes.len() < 3 {
        return Err(Answer::refused(10, 1));
    }
    let mut bits = Vec::with_capacity(8 * bytes.len());
    for &byte in bytes {
        push(&mut bits, byte as u64, 8);
    }
    if number(&bits[0..4]) != 1 {
        return Err(Answer::refused(8, 1));
    }
    let n = number(&bits[4..11]) as usize;
    if n > 64 {
        return Err(Answer::refused(9, 1));
    }
    let t = number(&bits[11..24]) as usize;
    if t > crate::TERMS {
        return Err(Answer::refused(2, 1));
    }
    let body = &bits[24..];
    if body.len() < n * t {
        return Err(Answer::refused(10, 1));
    }
    let padding = &body[n * t..];
    if padding.len() >= 8 {
        return Err(Answer::refused(12, 1));
    }
    if room < t {
        return Err(Answer::refused(6, 1));
    }
    let terms: Vec<u64> = (0..t).map(|i| number(&body[i * n..(i + 1) * n])).collect();
    check_lists(&[&terms])?;
    if n > width_of(&terms) {
        return Err(Answer::refused(11, 1));
    }
    if padding.contains(&true) {
        return Err(Answer::refused(13, 1));
    }
    Ok(terms)
}

pub fn write(terms: &[u64], out: &mut [u8]) -> Answer {
    if let Err(refusal) = check_lists(&[terms]) {
        return refusal;
    }
    let n = width_of(terms);
    let mut bits = Vec::new();
    push(&mut bits, 1, 4);
    push(&mut bits, n as u64, 7);
    push(&mut bits, terms.len() as u64, 13);
    for &term in terms {
        push(&mut bits, term, n);
    }
    while bits.len() % 8 != 0 {
        bits.push(false);
    }
    let block: Vec<u8> = bits.chunks(8).map(|byte| number(byte) as u8).collect();
    if out.len() < block.len() {
        return Answer::refused(6, 1);
    }
    out[..block.len()].copy_from_slice(&block);
    Answer::accepted(block.len())
}
