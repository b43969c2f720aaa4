//! Deploy: each board is split in buffers of its own, and what was found is laid out at the end.
use crate::answer::Answer;
use crate::parts::split;

/// At most so many boards, and so many words for the answer of each.
const BOARDS: usize = 64;
const ANSWER: usize = 4;

pub fn deploy(
    words: &[u64],
    lengths: &[u64],
    answers: &mut [u64],
    part_terms: &mut [u64],
    part_lengths: &mut [u64],
    work: &mut [u64],
) -> Answer {
    let boards = match boards_in(words, lengths) {
        Ok(boards) => boards,
        Err(refusal) => return refusal,
    };
    if answers.len() < ANSWER * boards.len() {
        return Answer::refused(6, 0);
    }
    let mut found = Found::default();
    for board in &boards {
        found.add(board, part_terms.len(), part_lengths.len(), work.len());
    }
    answers[..found.answers.len()].copy_from_slice(&found.answers);
    part_terms[..found.terms.len()].copy_from_slice(&found.terms);
    part_lengths[..found.lengths.len()].copy_from_slice(&found.lengths);
    if found.accepted {
        work.fill(0);
    }
    Answer::accepted(boards.len())
}

/// The lists, unless their number is too large or their lengths do not add to the words.
fn boards_in<'a>(words: &'a [u64], lengths: &[u64]) -> Result<Vec<&'a [u64]>, Answer> {
    if lengths.len() > BOARDS {
        return Err(Answer::refused(2, 0));
    }
    // where each list ends, exactly
    let ends = |i: usize| lengths[..i].iter().map(|&length| u128::from(length)).sum::<u128>();
    let all = ends(lengths.len());
    if all > words.len() as u128 {
        return Err(Answer::refused(10, 0));
    }
    if all < words.len() as u128 {
        return Err(Answer::refused(12, 0));
    }
    Ok((0..lengths.len()).map(|i| &words[ends(i) as usize..ends(i + 1) as usize]).collect())
}

/// What the boards so far gave.
#[derive(Default)]
struct Found {
    answers: Vec<u64>,
    terms: Vec<u64>,
    lengths: Vec<u64>,
    accepted: bool,
}

impl Found {
    /// One board more, where so many words are lent in all: it has what the others have left, and the whole work area.
    fn add(&mut self, board: &[u64], part_terms: usize, part_lengths: usize, work: usize) {
        let mut terms = vec![0; part_terms - self.terms.len()];
        let mut lengths = vec![0; part_lengths - self.lengths.len()];
        let told = split(board, &mut terms, &mut lengths, &mut vec![0; work]);
        lengths.truncate(told.count as usize);
        terms.truncate(lengths.iter().sum::<u64>() as usize);
        self.answers.extend([told.code, told.operand, told.place, told.count]);
        self.terms.extend(terms);
        self.lengths.extend(lengths);
        self.accepted |= told.code == 0;
    }
}
