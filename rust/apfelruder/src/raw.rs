//! The calls as the archive exports them: slices in, four numbers out, nothing allocated. What the C header
//! (include/apfelruder.h) asks of a caller, slices that are there and outputs that overlap nothing, Rust's references give.
//!
//! A refused call leaves every buffer as it was. An accepted one leaves what is behind its output unchanged, so a buffer
//! may be longer than needed. A board that deploy refuses changes nothing but its answer.
//!
//! ```
//! # #[cfg(feature = "split")] {
//! use apfelruder::raw;
//!
//! // (x0 + x1)(1 + x2): room for four terms, and no allocator
//! const T: usize = 4;
//! let mut part_terms = [0; raw::part_terms_words(T)];
//! let mut part_lengths = [0; raw::PART_LENGTHS_WORDS];
//! let mut work = [0; raw::work_words(T)];
//! let count = raw::split(&[1, 2, 5, 6], &mut part_terms, &mut part_lengths, &mut work).result()?;
//! let mut parts = raw::parts(&part_terms, &part_lengths, count);
//! assert_eq!(parts.next(), Some(&[1, 2][..]));
//! assert_eq!(parts.next(), Some(&[0, 4][..]));
//! assert_eq!(parts.next(), None);
//! # }
//! # Ok::<(), apfelruder::Refusal>(())
//! ```
#![allow(unsafe_code)] // the boundary to the archive, and the only place
use crate::{Refusal, MAX_VARS};

/// The words that deploy writes for each board: code, operand, place, count.
pub const ANSWER_WORDS: usize = 4;

/// The words that split and audit need for the lengths of the parts.
pub const PART_LENGTHS_WORDS: usize = MAX_VARS;

/// The words that split and audit need for the terms of the parts of a list of t terms.
#[must_use]
pub const fn part_terms_words(t: usize) -> usize {
    t.saturating_add(MAX_VARS)
}

/// The words that split and audit need as work area for a list of t terms, and deploy for boards of t terms at most.
#[must_use]
pub const fn work_words(t: usize) -> usize {
    t.saturating_mul(4)
}

/// The words that deploy needs for the answers of so many boards.
#[must_use]
pub const fn deploy_answers_words(boards: usize) -> usize {
    boards.saturating_mul(ANSWER_WORDS)
}

/// The words with which deploy has room for the terms of the parts of so many boards, whose terms are so many words in all.
#[must_use]
pub const fn deploy_part_terms_words(words: usize, boards: usize) -> usize {
    words.saturating_add(boards.saturating_mul(MAX_VARS))
}

/// The words with which deploy has room for the lengths of the parts of so many boards.
#[must_use]
pub const fn deploy_part_lengths_words(boards: usize) -> usize {
    boards.saturating_mul(PART_LENGTHS_WORDS)
}

/// The four numbers of every answer.
#[repr(C)]
#[derive(Clone, Copy, Debug, PartialEq, Eq, Hash)]
#[must_use = "a refused call has done nothing: look at the code, or take the result"]
pub struct Answer {
    /// 0 if accepted, else the number of the refusal.
    pub code: u64,
    /// Which input was refused, from 1; 0 if none in particular.
    pub operand: u64,
    /// The index of the first term out of order, or of the byte of a text that is wrong; 0 with every code but 3, 14 and 15.
    pub place: u64,
    /// What was found: see each call; 0 if refused.
    pub count: u64,
}

impl Answer {
    /// The count of an accepted answer. No call gives a count above [`MAX_TEXT_BYTES`](crate::MAX_TEXT_BYTES); one that a
    /// `usize` cannot hold would become the largest that it can.
    ///
    /// ```
    /// use apfelruder::{raw::Answer, Refusal};
    ///
    /// assert_eq!(Answer { code: 0, operand: 0, place: 0, count: 2 }.result(), Ok(2));
    /// let refused = Answer { code: 3, operand: 2, place: 7, count: 0 };
    /// assert_eq!(refused.result(), Err(Refusal::Order { operand: 2, place: 7 }));
    /// ```
    ///
    /// # Errors
    ///
    /// The refusal, with its code, operand and place, if the code is not 0. Numbers that the table of refusals does not have
    /// are kept in [`Refusal::Unknown`].
    pub fn result(self) -> Result<usize, Refusal> {
        match self.code {
            0 => Ok(usize::try_from(self.count).unwrap_or(usize::MAX)),
            code => Err(Refusal::of(code, self.operand, self.place)),
        }
    }
}

mod c {
    extern "C" {
        #[cfg(feature = "split")]
        pub fn apfelruder_split(
            terms: *const u64,
            terms_len: usize,
            part_terms: *mut u64,
            part_terms_len: usize,
            part_lengths: *mut u64,
            part_lengths_len: usize,
            work: *mut u64,
            work_len: usize,
        ) -> super::Answer;
        #[cfg(feature = "multiply")]
        pub fn apfelruder_multiply(
            a: *const u64,
            a_len: usize,
            b: *const u64,
            b_len: usize,
            out: *mut u64,
            out_len: usize,
        ) -> super::Answer;
        #[cfg(feature = "same_products")]
        pub fn apfelruder_same_products(
            a: *const u64,
            a_len: usize,
            d: *const u64,
            d_len: usize,
            b: *const u64,
            b_len: usize,
            c: *const u64,
            c_len: usize,
        ) -> super::Answer;
        #[cfg(feature = "read")]
        pub fn apfelruder_read(bytes: *const u8, bytes_len: usize, out: *mut u64, out_len: usize) -> super::Answer;
        #[cfg(feature = "write")]
        pub fn apfelruder_write(terms: *const u64, terms_len: usize, out: *mut u8, out_len: usize) -> super::Answer;
        #[cfg(feature = "read_text")]
        pub fn apfelruder_read_text(text: *const u8, text_len: usize, out: *mut u64, out_len: usize) -> super::Answer;
        #[cfg(feature = "write_text")]
        pub fn apfelruder_write_text(
            terms: *const u64,
            terms_len: usize,
            out: *mut u8,
            out_len: usize,
        ) -> super::Answer;
        #[cfg(feature = "audit")]
        pub fn apfelruder_audit(
            terms: *const u64,
            terms_len: usize,
            given_terms: *const u64,
            given_terms_len: usize,
            given_lengths: *const u64,
            given_lengths_len: usize,
            part_terms: *mut u64,
            part_terms_len: usize,
            part_lengths: *mut u64,
            part_lengths_len: usize,
            work: *mut u64,
            work_len: usize,
        ) -> super::Answer;
        #[cfg(feature = "deploy")]
        pub fn apfelruder_deploy(
            words: *const u64,
            words_len: usize,
            lengths: *const u64,
            lengths_len: usize,
            answers: *mut u64,
            answers_len: usize,
            part_terms: *mut u64,
            part_terms_len: usize,
            part_lengths: *mut u64,
            part_lengths_len: usize,
            work: *mut u64,
            work_len: usize,
        ) -> super::Answer;
    }
}

/// Splits a list of t terms into its parts.
///
/// Needs [`part_terms_words`], [`PART_LENGTHS_WORDS`] and [`work_words`] of t. Count: the number of parts, which lie one
/// after another from the start of `part_terms`, their lengths in `part_lengths`; [`parts`] walks over them. Every word of
/// `work` is 0 then.
///
/// Refuses, in this order and with operand 1: 2 `TooMany`, 1 `Zero`, 3 `Order`, 6 `Room` (part terms, then lengths), 7 `Work`.
#[cfg(feature = "split")]
pub fn split(terms: &[u64], part_terms: &mut [u64], part_lengths: &mut [u64], work: &mut [u64]) -> Answer {
    // SAFETY: each pointer comes with its own length, and &mut slices overlap nothing.
    unsafe {
        c::apfelruder_split(
            terms.as_ptr(),
            terms.len(),
            part_terms.as_mut_ptr(),
            part_terms.len(),
            part_lengths.as_mut_ptr(),
            part_lengths.len(),
            work.as_mut_ptr(),
            work.len(),
        )
    }
}

/// The parts that an accepted split or audit has left in its buffers, `count` of them; from deploy, those of the board whose
/// parts the slices begin with. It never reads outside of the buffers: numbers that no such call gave end the walk early.
#[cfg(any(feature = "split", feature = "audit", feature = "deploy"))]
pub fn parts<'a>(part_terms: &'a [u64], part_lengths: &'a [u64], count: usize) -> impl Iterator<Item = &'a [u64]> + 'a {
    let mut rest = part_terms;
    part_lengths.iter().take(count).map_while(move |&length| {
        let (part, behind) = rest.split_at_checked(usize::try_from(length).ok()?)?;
        rest = behind;
        Some(part)
    })
}

/// Multiplies two lists that have no common variable.
///
/// Needs the product of their lengths, in words. Count: the number of terms, written ascending.
///
/// Refuses, in this order: 2 `TooMany` (operand 1, then 2), 3 `Order` (operand 1, then 2), 4 `Shared`, 5 `TooLarge`, 6
/// `Room` (operand 0 all three).
#[cfg(feature = "multiply")]
pub fn multiply(a: &[u64], b: &[u64], out: &mut [u64]) -> Answer {
    // SAFETY: as for split.
    unsafe { c::apfelruder_multiply(a.as_ptr(), a.len(), b.as_ptr(), b.len(), out.as_mut_ptr(), out.len()) }
}

/// Says whether a times d equals b times c. Note the order.
///
/// Count: 1 for yes, 0 for no. Refuses 2 `TooMany`, then 3 `Order`, each for operands 1 to 4 in turn.
#[cfg(feature = "same_products")]
pub fn same_products(a: &[u64], d: &[u64], b: &[u64], c: &[u64]) -> Answer {
    // SAFETY: as for split; nothing is written.
    unsafe {
        c::apfelruder_same_products(a.as_ptr(), a.len(), d.as_ptr(), d.len(), b.as_ptr(), b.len(), c.as_ptr(), c.len())
    }
}

/// Reads a block.
///
/// Needs one word for each term that the block announces; [`MAX_TERMS`](crate::MAX_TERMS) always suffice. Count: the
/// number of terms, written ascending.
///
/// Refuses, in this order and with operand 1: 10 `Short` (under 3 bytes), 8 `Form`, 9 `Wide`, 2 `TooMany`, 10 `Short`, 12
/// `Extra`, 6 `Room`, 3 `Order`, 11 `Misfit`, 13 `Pad`.
#[cfg(feature = "read")]
pub fn read(bytes: &[u8], out: &mut [u64]) -> Answer {
    // SAFETY: as for split.
    unsafe { c::apfelruder_read(bytes.as_ptr(), bytes.len(), out.as_mut_ptr(), out.len()) }
}

/// Writes a list as a block.
///
/// Needs the bytes of the block; [`MAX_BLOCK_BYTES`](crate::MAX_BLOCK_BYTES) always suffice. Count: the number of bytes
/// written.
///
/// Refuses, in this order and with operand 1: 2 `TooMany`, 3 `Order`, 6 `Room`.
#[cfg(feature = "write")]
pub fn write(terms: &[u64], out: &mut [u8]) -> Answer {
    // SAFETY: as for split.
    unsafe { c::apfelruder_write(terms.as_ptr(), terms.len(), out.as_mut_ptr(), out.len()) }
}

/// Reads a text.
///
/// Needs one word for each term that is left when equal ones have cancelled; [`MAX_TERMS`](crate::MAX_TERMS) always suffice.
/// Count: the number of terms left, written ascending.
///
/// Refuses, with operand 1: 2 `TooMany` (over [`MAX_TEXT_BYTES`](crate::MAX_TEXT_BYTES) bytes) first of all; then what the first
/// byte shows that shows something: 14 `Sign`, 15 `Twice` or 2 `TooMany` (a 1,025th term); then 6 `Room`.
#[cfg(feature = "read_text")]
pub fn read_text(text: &[u8], out: &mut [u64]) -> Answer {
    // SAFETY: as for split.
    unsafe { c::apfelruder_read_text(text.as_ptr(), text.len(), out.as_mut_ptr(), out.len()) }
}

/// Writes a list as a text.
///
/// Needs the bytes of the text, its line feed included; [`MAX_TEXT_BYTES`](crate::MAX_TEXT_BYTES) always suffice. Count: the
/// number of bytes written.
///
/// Refuses, in this order and with operand 1: 2 `TooMany`, 3 `Order`, 5 `TooLarge` (the text is over
/// [`MAX_TEXT_BYTES`](crate::MAX_TEXT_BYTES) bytes), 6 `Room`.
#[cfg(feature = "write_text")]
pub fn write_text(terms: &[u64], out: &mut [u8]) -> Answer {
    // SAFETY: as for split.
    unsafe { c::apfelruder_write_text(terms.as_ptr(), terms.len(), out.as_mut_ptr(), out.len()) }
}

/// Says whether given parts are exactly the parts of an approved list of t terms.
///
/// `given_terms` holds the given parts one behind the other, `given_lengths` their lengths in the same order. Needs
/// [`part_terms_words`], [`PART_LENGTHS_WORDS`] and [`work_words`] of t. Count: 1 for yes, 0 for no. Either way the buffers are
/// left as an accepted split of the approved list leaves them: the parts are there. How many is not said: lend
/// `part_lengths` filled with 0, which is the length of no part.
///
/// Refuses, in this order: 2 `TooMany` (operand 0: more than 64 given lengths), 10 `Short` (operand 0: the lengths add to more
/// words than `given_terms` has; they may add to more than a `u64` holds), 12 `Extra` (operand 0: they add to fewer), 2 `TooMany`
/// (operand 1: the approved list, then operands 2 to 65: the given parts), 1 `Zero`, 3 `Order` (operands as for `TooMany`; the place is an
/// index in that list), 6 `Room` (part terms, then lengths), 7 `Work`. A given part of length 0 is no refusal.
#[cfg(feature = "audit")]
pub fn audit(
    terms: &[u64],
    given_terms: &[u64],
    given_lengths: &[u64],
    part_terms: &mut [u64],
    part_lengths: &mut [u64],
    work: &mut [u64],
) -> Answer {
    // SAFETY: as for split.
    unsafe {
        c::apfelruder_audit(
            terms.as_ptr(),
            terms.len(),
            given_terms.as_ptr(),
            given_terms.len(),
            given_lengths.as_ptr(),
            given_lengths.len(),
            part_terms.as_mut_ptr(),
            part_terms.len(),
            part_lengths.as_mut_ptr(),
            part_lengths.len(),
            work.as_mut_ptr(),
            work.len(),
        )
    }
}

/// Splits the boards of a deployment, up to 64 lists, as single splits made in turn.
///
/// `words` holds the lists one behind the other, `lengths` their lengths in the same order. `answers` takes
/// [`ANSWER_WORDS`] for each list, so [`deploy_answers_words`]; [`answers`] walks over them. Each list is split with the room of
/// `part_terms` and `part_lengths` that the accepted ones before it left, and with the whole work area: the parts of all
/// accepted boards lie one after another. [`deploy_part_terms_words`], [`deploy_part_lengths_words`] and [`work_words`] of the
/// longest list suffice for every board. Count: the number of lists.
///
/// Refuses, in this order and with operand 0: 2 `TooMany` (more than 64 lengths), 10 `Short` (the lengths add to more words than
/// `words` has; they may add to more than a `u64` holds), 12 `Extra` (they add to fewer), 6 `Room` (answers). Else it is accepted,
/// and each list has the answer of a split in `answers`, with operand 1: a board that is refused takes no room, changes
/// nothing else and does not stop the next. Every word of `work` is 0 then if a board is accepted, and as it was if none is.
///
/// ```
/// use apfelruder::raw::{self, Answer};
///
/// // (x0 + x1)(1 + x2), then a list out of order, then x0 x1
/// let (words, lengths) = ([1, 2, 5, 6, 2, 1, 3], [4, 2, 1]);
/// let mut answers = [0; raw::deploy_answers_words(3)];
/// let mut part_terms = [0; raw::deploy_part_terms_words(7, 3)];
/// let mut part_lengths = [0; raw::deploy_part_lengths_words(3)];
/// let mut work = [0; raw::work_words(4)];
/// let told = raw::deploy(&words, &lengths, &mut answers, &mut part_terms, &mut part_lengths, &mut work);
/// assert_eq!(told.result(), Ok(3));
/// let mut boards = raw::answers(&answers);
/// assert_eq!(boards.next(), Some(Answer { code: 0, operand: 0, place: 0, count: 2 }));
/// assert_eq!(boards.next(), Some(Answer { code: 3, operand: 1, place: 1, count: 0 }));
/// assert_eq!(boards.next(), Some(Answer { code: 0, operand: 0, place: 0, count: 2 }));
/// // the parts of the third board lie behind those of the boards before it, of which one has none
/// let before: u64 = raw::answers(&answers).take(2).map(|answer| answer.count).sum();
/// let (filled, lengths) = part_lengths.split_at(before as usize);
/// let terms = &part_terms[filled.iter().sum::<u64>() as usize..];
/// let mut parts = raw::parts(terms, lengths, 2);
/// assert_eq!(parts.next(), Some(&[1][..]));
/// assert_eq!(parts.next(), Some(&[2][..]));
/// ```
#[cfg(feature = "deploy")]
pub fn deploy(
    words: &[u64],
    lengths: &[u64],
    answers: &mut [u64],
    part_terms: &mut [u64],
    part_lengths: &mut [u64],
    work: &mut [u64],
) -> Answer {
    // SAFETY: as for split.
    unsafe {
        c::apfelruder_deploy(
            words.as_ptr(),
            words.len(),
            lengths.as_ptr(),
            lengths.len(),
            answers.as_mut_ptr(),
            answers.len(),
            part_terms.as_mut_ptr(),
            part_terms.len(),
            part_lengths.as_mut_ptr(),
            part_lengths.len(),
            work.as_mut_ptr(),
            work.len(),
        )
    }
}

/// The answers that an accepted deploy has written, four words for each board. Pass the words of the boards alone
/// ([`deploy_answers_words`]), not what is lent behind them; at the end fewer than four words are no answer.
#[cfg(feature = "deploy")]
pub fn answers(words: &[u64]) -> impl Iterator<Item = Answer> + '_ {
    words.chunks_exact(ANSWER_WORDS).map(|four| Answer {
        code: four[0],
        operand: four[1],
        place: four[2],
        count: four[3],
    })
}
