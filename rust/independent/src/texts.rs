//! Equations as text (RULES 12), by asking of pieces of the text what they are: a text is cut at its signs, and no state is
//! carried from byte to byte.
use crate::answer::{check_lists, Answer};
use crate::printed::printed_list;
use std::collections::BTreeSet;

/// At most so many bytes.
const TEXT: usize = 65536;

pub fn read_text(text: &[u8], out: &mut [u64]) -> Answer {
    match list_in(text, out.len()) {
        Ok(terms) => {
            out[..terms.len()].copy_from_slice(&terms);
            Answer::accepted(terms.len())
        }
        Err(refusal) => refusal,
    }
}

fn list_in(text: &[u8], room: usize) -> Result<Vec<u64>, Answer> {
    if text.len() > TEXT {
        return Err(Answer::refused(2, 1));
    }
    if let Some((_, refusal)) = first_shown(text) {
        return Err(refusal);
    }
    let mut left = BTreeSet::new();
    for term in terms_of(&text[..text.len() - 1]) {
        // a second one takes the first away
        if !left.remove(&term) {
            left.insert(term);
        }
    }
    if room < left.len() {
        return Err(Answer::refused(6, 1));
    }
    Ok(left.into_iter().collect())
}

/// What is shown first, and where: no two faults are shown by one byte.
fn first_shown(text: &[u8]) -> Option<(usize, Answer)> {
    let sign = first_sign(text);
    // up to there an equation begins, so what stands between signs is what it should be
    let good = &text[..sign.unwrap_or(text.len())];
    let sign = sign.map(|place| (place, Answer::at(14, 1, place)));
    let twice = first_twice(good).map(|place| (place, Answer::at(15, 1, place)));
    let many = first_too_many(good).map(|place| (place, Answer::refused(2, 1)));
    [sign, twice, many].into_iter().flatten().min_by_key(|shown| shown.0)
}

/// The first byte with which no equation goes on, or the length if the text only begins one. Once nothing goes on, nothing
/// does later, so halving finds the place.
fn first_sign(text: &[u8]) -> Option<usize> {
    if is_equation(text) {
        return None;
    }
    let (mut good, mut bad) = (0, text.len() + 1);
    while bad - good > 1 {
        let middle = (good + bad) / 2;
        if begins_equation(&text[..middle]) {
            good = middle;
        } else {
            bad = middle;
        }
    }
    Some(good)
}

/// A lone 0, or terms with + between them; a line feed.
fn is_equation(text: &[u8]) -> bool {
    match text {
        [before @ .., b'\n'] => before == b"0" || pieces(before, b'+').into_iter().all(is_term),
        _ => false,
    }
}

/// Some equation begins with these bytes: all of one, or a 0, or whole terms each with its + and the beginning of a term.
fn begins_equation(bytes: &[u8]) -> bool {
    if is_equation(bytes) || bytes == b"0" {
        return true;
    }
    let (last, whole) = last_of(bytes, b'+');
    whole.into_iter().all(is_term) && begins_term(last)
}

/// 1, or variables with * between them.
fn is_term(bytes: &[u8]) -> bool {
    bytes == b"1" || pieces(bytes, b'*').into_iter().all(is_variable)
}

/// Some term begins with these bytes.
fn begins_term(bytes: &[u8]) -> bool {
    let (last, whole) = last_of(bytes, b'*');
    bytes == b"1" || whole.into_iter().all(is_variable) && begins_variable(last)
}

/// x and a number from 0 to 63 as it is printed.
fn is_variable(bytes: &[u8]) -> bool {
    variable(bytes).is_some()
}

fn variable(bytes: &[u8]) -> Option<u32> {
    let digits = std::str::from_utf8(bytes).ok()?.strip_prefix('x')?;
    let number: u32 = digits.parse().ok()?;
    (number < 64 && digits == number.to_string()).then_some(number)
}

/// Some variable begins with these bytes.
fn begins_variable(bytes: &[u8]) -> bool {
    (0..64).any(|i| format!("x{i}").as_bytes().starts_with(bytes))
}

/// What stands between these signs; the whole if there is none.
fn pieces(bytes: &[u8], sign: u8) -> Vec<&[u8]> {
    bytes.split(|&byte| byte == sign).collect()
}

/// The last piece, and the ones before it.
fn last_of(bytes: &[u8], sign: u8) -> (&[u8], Vec<&[u8]>) {
    let mut all = pieces(bytes, sign);
    let last = all.pop().expect("there is always a piece");
    (last, all)
}

/// The first sign behind a variable that stands in its term before.
fn first_twice(good: &[u8]) -> Option<usize> {
    let is_sign = |&at: &usize| matches!(good[at], b'*' | b'+' | b'\n');
    let mut term_begins = 0;
    for at in (0..good.len()).filter(is_sign) {
        let (last, before) = last_of(&good[term_begins..at], b'*');
        if before.contains(&last) {
            return Some(at);
        }
        if good[at] == b'+' {
            term_begins = at + 1;
        }
    }
    None
}

/// The first byte of the first term that is one too many.
fn first_too_many(good: &[u8]) -> Option<usize> {
    let plus: Vec<usize> = (0..good.len()).filter(|&at| good[at] == b'+').collect();
    let begins = plus.get(crate::TERMS - 1)? + 1;
    (begins < good.len()).then_some(begins)
}

/// The terms of an equation without its line feed, in the order in which they are typed.
fn terms_of(equation: &[u8]) -> Vec<u64> {
    if equation == b"0" {
        return Vec::new();
    }
    pieces(equation, b'+').into_iter().map(term).collect()
}

fn term(bytes: &[u8]) -> u64 {
    pieces(bytes, b'*').into_iter().filter_map(variable).map(|i| 1 << i).sum()
}

pub fn write_text(terms: &[u64], out: &mut [u8]) -> Answer {
    if let Err(refusal) = check_lists(&[terms]) {
        return refusal;
    }
    let line = if terms.is_empty() { "0".to_string() } else { printed_list(terms) };
    let text = line + "\n";
    if text.len() > TEXT {
        return Answer::refused(5, 1);
    }
    if out.len() < text.len() {
        return Answer::refused(6, 1);
    }
    out[..text.len()].copy_from_slice(text.as_bytes());
    Answer::accepted(text.len())
}
