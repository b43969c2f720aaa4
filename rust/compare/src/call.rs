//! A call with the buffers that it is lent, and what comes back of it.
use std::ops::Range;

#[derive(Clone, Copy, Debug, PartialEq, Eq, PartialOrd, Ord)]
pub enum Call {
    Split,
    Multiply,
    SameProducts,
    Read,
    Write,
    ReadText,
    WriteText,
    Audit,
    Deploy,
}

impl Call {
    pub const ALL: [Call; 9] = [
        Call::Split,
        Call::Multiply,
        Call::SameProducts,
        Call::Read,
        Call::Write,
        Call::ReadText,
        Call::WriteText,
        Call::Audit,
        Call::Deploy,
    ];

    pub fn name(self) -> &'static str {
        let names =
            ["split", "multiply", "same_products", "read", "write", "read_text", "write_text", "audit", "deploy"];
        names[self as usize]
    }
}

/// The content of a lent slice.
#[derive(Clone, Debug, PartialEq, Eq)]
pub enum Slice {
    Words(Vec<u64>),
    Bytes(Vec<u8>),
}

impl Slice {
    pub fn len(&self) -> usize {
        match self {
            Slice::Words(words) => words.len(),
            Slice::Bytes(bytes) => bytes.len(),
        }
    }
}

/// One piece of memory of which the inputs are parts: they may be the same, overlap or touch.
#[derive(Clone, Debug)]
pub struct Pool {
    pub words: Vec<u64>,
    pub parts: Vec<Range<usize>>,
}

/// A call: the slices in the order of the boundary, inputs and outputs alike, and where they lie.
#[derive(Clone, Debug)]
pub struct Request {
    pub call: Call,
    pub slices: Vec<Slice>,
    /// Bytes begin at an address that leaves this remainder by 8; words are always aligned.
    pub skew: usize,
    /// If there is one, the first slices are its parts; the others lie apart.
    pub pool: Option<Pool>,
}

/// What came back: code, operand, place, count, and all slices as they are now.
#[derive(Clone, Debug, PartialEq, Eq)]
pub struct Reply {
    pub answer: [u64; 4],
    pub slices: Vec<Slice>,
}

impl Request {
    fn new(call: Call, slices: Vec<Slice>) -> Request {
        Request { call, slices, skew: 0, pool: None }
    }

    pub fn split(terms: &[u64], part_terms: Vec<u64>, part_lengths: Vec<u64>, work: Vec<u64>) -> Request {
        let slices = vec![
            Slice::Words(terms.to_vec()),
            Slice::Words(part_terms),
            Slice::Words(part_lengths),
            Slice::Words(work),
        ];
        Request::new(Call::Split, slices)
    }

    pub fn multiply(a: &[u64], b: &[u64], out: Vec<u64>) -> Request {
        let slices = vec![Slice::Words(a.to_vec()), Slice::Words(b.to_vec()), Slice::Words(out)];
        Request::new(Call::Multiply, slices)
    }

    pub fn same_products(lists: [&[u64]; 4]) -> Request {
        Request::new(Call::SameProducts, lists.iter().map(|l| Slice::Words(l.to_vec())).collect())
    }

    pub fn read(bytes: &[u8], out: Vec<u64>) -> Request {
        Request::new(Call::Read, vec![Slice::Bytes(bytes.to_vec()), Slice::Words(out)])
    }

    pub fn write(terms: &[u64], out: Vec<u8>) -> Request {
        Request::new(Call::Write, vec![Slice::Words(terms.to_vec()), Slice::Bytes(out)])
    }

    pub fn read_text(text: &[u8], out: Vec<u64>) -> Request {
        Request::new(Call::ReadText, vec![Slice::Bytes(text.to_vec()), Slice::Words(out)])
    }

    pub fn write_text(terms: &[u64], out: Vec<u8>) -> Request {
        Request::new(Call::WriteText, vec![Slice::Words(terms.to_vec()), Slice::Bytes(out)])
    }

    /// Audit: the approved list, the given parts one behind the other, their lengths, and what is lent as for split.
    pub fn audit(approved: &[u64], given: &[u64], lengths: &[u64], lent: [Vec<u64>; 3]) -> Request {
        let inputs = [approved, given, lengths].map(|input| Slice::Words(input.to_vec()));
        Request::new(Call::Audit, inputs.into_iter().chain(lent.map(Slice::Words)).collect())
    }

    /// Deploy: the boards one behind the other, their lengths, and what is lent: answers, and then as for split.
    pub fn deploy(words: &[u64], lengths: &[u64], lent: [Vec<u64>; 4]) -> Request {
        let inputs = [words, lengths].map(|input| Slice::Words(input.to_vec()));
        Request::new(Call::Deploy, inputs.into_iter().chain(lent.map(Slice::Words)).collect())
    }

    /// Multiply of two parts of one piece of memory.
    pub fn multiply_within(words: &[u64], parts: [Range<usize>; 2], out: Vec<u64>) -> Request {
        let mut request = Request::multiply(&words[parts[0].clone()], &words[parts[1].clone()], out);
        request.pool = Some(Pool { words: words.to_vec(), parts: parts.to_vec() });
        request
    }

    /// Same products of four parts of one piece of memory.
    pub fn same_products_within(words: &[u64], parts: [Range<usize>; 4]) -> Request {
        let mut request = Request::same_products([0, 1, 2, 3].map(|i: usize| &words[parts[i].clone()]));
        request.pool = Some(Pool { words: words.to_vec(), parts: parts.to_vec() });
        request
    }

    /// Deploy with its two inputs in one piece of memory.
    pub fn deploy_within(words: &[u64], parts: [Range<usize>; 2], lent: [Vec<u64>; 4]) -> Request {
        let mut request = Request::deploy(&words[parts[0].clone()], &words[parts[1].clone()], lent);
        request.pool = Some(Pool { words: words.to_vec(), parts: parts.to_vec() });
        request
    }

    /// Audit with its three inputs in one piece of memory.
    pub fn audit_within(words: &[u64], parts: [Range<usize>; 3], lent: [Vec<u64>; 3]) -> Request {
        let [approved, given, lengths] = [0, 1, 2].map(|i: usize| &words[parts[i].clone()]);
        let mut request = Request::audit(approved, given, lengths, lent);
        request.pool = Some(Pool { words: words.to_vec(), parts: parts.to_vec() });
        request
    }
}

/// What a deployment says of one board: its parts, or code, operand and place.
pub type Board = Result<Vec<Vec<u64>>, [u64; 3]>;

/// What a call must give by the way in which its input was made, or by the rules' own words.
pub enum Expected {
    /// Code, operand, place; every buffer as it was.
    Refused([u64; 3]),
    /// These words at the start of the last slice.
    Words(Vec<u64>),
    /// These bytes at the start of the last slice.
    Bytes(Vec<u8>),
    /// Same products: yes or no.
    Said(bool),
    /// Split: these parts.
    Parts(Vec<Vec<u64>>),
    /// Audit: yes or no, and these parts.
    Audited(bool, Vec<Vec<u64>>),
    /// Deploy: this of each board, in turn.
    Deployed(Vec<Board>),
}

impl Expected {
    pub fn reply(&self, request: &Request) -> Reply {
        let mut slices = request.slices.clone();
        let accepted = |count: usize| [0, 0, 0, count as u64];
        let answer = match (self, &mut slices[..]) {
            (Expected::Refused([code, operand, place]), _) => [*code, *operand, *place, 0],
            (Expected::Words(words), [.., Slice::Words(out)]) => {
                out[..words.len()].copy_from_slice(words);
                accepted(words.len())
            }
            (Expected::Bytes(bytes), [.., Slice::Bytes(out)]) => {
                out[..bytes.len()].copy_from_slice(bytes);
                accepted(bytes.len())
            }
            (Expected::Said(yes), _) => accepted(*yes as usize),
            (Expected::Parts(parts), [_, Slice::Words(terms), Slice::Words(lengths), Slice::Words(work)]) => {
                lay_out(parts, terms, lengths);
                work.fill(0);
                accepted(parts.len())
            }
            (
                Expected::Audited(yes, parts),
                [_, _, _, Slice::Words(terms), Slice::Words(lengths), Slice::Words(work)],
            ) => {
                lay_out(parts, terms, lengths);
                work.fill(0);
                accepted(*yes as usize)
            }
            (
                Expected::Deployed(boards),
                [_, _, Slice::Words(answers), Slice::Words(terms), Slice::Words(lengths), Slice::Words(work)],
            ) => {
                for (board, four) in boards.iter().zip(answers.chunks_exact_mut(4)) {
                    four.copy_from_slice(&match board {
                        Ok(parts) => accepted(parts.len()),
                        Err([code, operand, place]) => [*code, *operand, *place, 0],
                    });
                }
                let parts: Vec<Vec<u64>> = boards.iter().flatten().flatten().cloned().collect();
                lay_out(&parts, terms, lengths);
                if boards.iter().any(|board| board.is_ok()) {
                    work.fill(0);
                }
                accepted(boards.len())
            }
            _ => panic!("an answer that {} does not give", request.call.name()),
        };
        Reply { answer, slices }
    }
}

/// The parts one after another, and their lengths.
fn lay_out(parts: &[Vec<u64>], terms: &mut [u64], lengths: &mut [u64]) {
    let mut at = 0;
    for (part, length) in parts.iter().zip(lengths) {
        terms[at..at + part.len()].copy_from_slice(part);
        *length = part.len() as u64;
        at += part.len();
    }
}

/// What the independent program makes of a call.
pub fn independently(request: &Request) -> Reply {
    let mut slices = request.slices.clone();
    let answer = match (request.call, &mut slices[..]) {
        (Call::Split, [Slice::Words(t), Slice::Words(p), Slice::Words(l), Slice::Words(w)]) => {
            independent::split(t, p, l, w)
        }
        (Call::Multiply, [Slice::Words(a), Slice::Words(b), Slice::Words(out)]) => independent::multiply(a, b, out),
        (Call::SameProducts, [Slice::Words(a), Slice::Words(d), Slice::Words(b), Slice::Words(c)]) => {
            independent::same_products(a, d, b, c)
        }
        (Call::Read, [Slice::Bytes(bytes), Slice::Words(out)]) => independent::read(bytes, out),
        (Call::Write, [Slice::Words(t), Slice::Bytes(out)]) => independent::write(t, out),
        (Call::ReadText, [Slice::Bytes(text), Slice::Words(out)]) => independent::read_text(text, out),
        (Call::WriteText, [Slice::Words(t), Slice::Bytes(out)]) => independent::write_text(t, out),
        (
            Call::Audit,
            [Slice::Words(t), Slice::Words(g), Slice::Words(n), Slice::Words(p), Slice::Words(l), Slice::Words(w)],
        ) => independent::audit(t, g, n, p, l, w),
        (
            Call::Deploy,
            [Slice::Words(b), Slice::Words(n), Slice::Words(a), Slice::Words(p), Slice::Words(l), Slice::Words(w)],
        ) => independent::deploy(b, n, a, p, l, w),
        _ => panic!("slices that {} does not take", request.call.name()),
    };
    Reply { answer: [answer.code, answer.operand, answer.place, answer.count], slices }
}
