//! The refusal that the order of checks (RULES 5.3, 12.4, 15.3) asks for, read off the slices of a call.
use super::{block_bytes, text_bytes};
use crate::call::{Board, Call, Expected, Request, Slice};
use crate::run::{Oracle, Run};

/// Code, operand, place.
type Refusal = [u64; 3];

/// Holds a call to the order of checks where that refuses it, and to the independent program always.
pub fn held(run: &mut Run, request: Request) {
    match refusal(&request) {
        Some([code, operand, place]) => {
            let expected = Expected::Refused([code, operand, place]);
            run.check(request, Oracle::Both(expected));
        }
        None => run.check(request, Oracle::Independent),
    }
}

/// None for a call that no check refuses, and for read and read text, whose checks stand elsewhere.
pub fn refusal(request: &Request) -> Option<Refusal> {
    use Slice::{Bytes, Words};
    match (request.call, &request.slices[..]) {
        (Call::Split, [Words(t), Words(p), Words(l), Words(w)]) => split(t, [p.len(), l.len(), w.len()]),
        (Call::Multiply, [Words(a), Words(b), Words(out)]) => multiply(a, b, out.len()),
        (Call::SameProducts, [Words(a), Words(d), Words(b), Words(c)]) => unfit(&[a, d, b, c]),
        (Call::Write, [Words(t), Bytes(out)]) => {
            unfit(&[t]).or_else(|| (out.len() < block_bytes(t)).then_some([6, 1, 0]))
        }
        (Call::WriteText, [Words(t), Bytes(out)]) => unfit(&[t])
            .or_else(|| (text_bytes(t) > 65536).then_some([5, 1, 0]))
            .or_else(|| (out.len() < text_bytes(t)).then_some([6, 1, 0])),
        (Call::Audit, [Words(t), Words(g), Words(n), Words(p), Words(l), Words(w)]) => {
            audit(t, g, n, [p.len(), l.len(), w.len()])
        }
        (Call::Deploy, [Words(b), Words(n), Words(a), ..]) => deployment(b, n, a.len()).err(),
        _ => None,
    }
}

/// 2 for each operand, then 3 for each.
fn unfit(lists: &[&[u64]]) -> Option<Refusal> {
    long(lists).or_else(|| unordered(lists))
}

fn long(lists: &[&[u64]]) -> Option<Refusal> {
    let many = lists.iter().zip(1..).find(|(list, _)| list.len() > 1024);
    many.map(|(_, operand)| [2, operand, 0])
}

fn unordered(lists: &[&[u64]]) -> Option<Refusal> {
    lists.iter().zip(1..).find_map(|(list, operand)| Some([3, operand, first_unordered(list)?]))
}

fn first_unordered(list: &[u64]) -> Option<u64> {
    for i in 1..list.len() {
        if list[i - 1] >= list[i] {
            return Some(i as u64);
        }
    }
    None
}

fn split(terms: &[u64], [part_terms, part_lengths, work]: [usize; 3]) -> Option<Refusal> {
    let t = terms.len();
    if t == 0 {
        return Some([1, 1, 0]);
    }
    unfit(&[terms])
        .or_else(|| (part_terms < t + 64 || part_lengths < 64).then_some([6, 1, 0]))
        .or_else(|| (work < 4 * t).then_some([7, 1, 0]))
}

fn multiply(a: &[u64], b: &[u64], room: usize) -> Option<Refusal> {
    let shared = || (0..64).any(|x| [a, b].iter().all(|list| list.iter().any(|t| t >> x & 1 == 1)));
    let need = a.len() * b.len();
    unfit(&[a, b])
        .or_else(|| shared().then_some([4, 0, 0]))
        .or_else(|| (need > 1024).then_some([5, 0, 0]))
        .or_else(|| (room < need).then_some([6, 0, 0]))
}

/// One list after another is taken off what is lent: there is too little left for one, or something is left at the end.
fn cut<'a>(lent: &'a [u64], lengths: &[u64]) -> Result<Vec<&'a [u64]>, Refusal> {
    if lengths.len() > 64 {
        return Err([2, 0, 0]);
    }
    let (mut lists, mut left) = (Vec::new(), lent);
    for &length in lengths {
        if length > left.len() as u64 {
            return Err([10, 0, 0]);
        }
        let (list, behind) = left.split_at(length as usize);
        lists.push(list);
        left = behind;
    }
    if left.is_empty() {
        Ok(lists)
    } else {
        Err([12, 0, 0])
    }
}

fn audit(terms: &[u64], given: &[u64], lengths: &[u64], room: [usize; 3]) -> Option<Refusal> {
    let lists = match cut(given, lengths) {
        Ok(given) => [&[terms], &given[..]].concat(),
        Err(refusal) => return Some(refusal),
    };
    long(&lists)
        .or_else(|| terms.is_empty().then_some([1, 1, 0]))
        .or_else(|| unordered(&lists))
        .or_else(|| split(terms, room))
}

/// The boards of a deployment that is not refused as a whole.
fn deployment<'a>(words: &'a [u64], lengths: &[u64], answers: usize) -> Result<Vec<&'a [u64]>, Refusal> {
    let boards = cut(words, lengths)?;
    if answers < 4 * boards.len() {
        return Err([6, 0, 0]);
    }
    Ok(boards)
}

/// What a deployment must give: of each board the refusal of its split in what is left, or the parts that this says of the board
/// of that index and list.
pub fn deployed(request: &Request, mut parts: impl FnMut(usize, &[u64]) -> Vec<Vec<u64>>) -> Expected {
    let [Slice::Words(words), Slice::Words(lengths), lent @ ..] = &request.slices[..] else { panic!("no deployment") };
    let [answers, mut part_terms, mut part_lengths, work] = [0, 1, 2, 3].map(|i: usize| lent[i].len());
    let boards = match deployment(words, lengths, answers) {
        Ok(boards) => boards,
        Err(refusal) => return Expected::Refused(refusal),
    };
    let mut told: Vec<Board> = Vec::new();
    for (i, board) in boards.into_iter().enumerate() {
        told.push(match split(board, [part_terms, part_lengths, work]) {
            Some(refusal) => Err(refusal),
            None => {
                let parts = parts(i, board);
                part_terms -= parts.iter().map(Vec::len).sum::<usize>();
                part_lengths -= parts.len();
                Ok(parts)
            }
        });
    }
    Expected::Deployed(told)
}
