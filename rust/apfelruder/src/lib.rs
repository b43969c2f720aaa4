//! The nine calls of Apfelruder for Rust programs: a sum modulo 2 of products of variables is split into parts that
//! share no variable.
//!
//! ```
//! # #[cfg(all(feature = "split", feature = "alloc"))] {
//! // x0 x2 + x1 x2 + x0 + x1 = (x0 + x1)(1 + x2)
//! assert_eq!(apfelruder::split(&[1, 2, 5, 6]), Ok(vec![vec![1, 2], vec![0, 4]]));
//! # }
//! ```
//!
//! The work is done by a proved library, an archive that is linked in. This crate hands it slices and turns its four
//! numbers into a `Result`; it decides nothing itself.
//!
//! # Words
//!
//! - **Variable**: one of x0 to x63 ([`MAX_VARS`]).
//! - **Term**: a product of different variables, as a `u64`. Bit i stands for the variable xi: x0 x2 is 5. The number 0
//!   is the constant term 1, a term like any other.
//! - **List**: a polynomial, as its terms in strictly ascending order, at most 1,024 of them ([`MAX_TERMS`]); its sum is
//!   modulo 2. The empty list is zero, the list of the single term 0 is one. **t** is the number of terms.
//! - **Part**: an irreducible factor, again a list. The parts of a list share no variable, their product is the list, and
//!   none of them is such a product itself. Each list but zero has exactly one set of parts; one has none.
//! - **Block**: a list packed into bytes, at most [`MAX_BLOCK_BYTES`]. The first three are one number of 24 bits, high byte
//!   first: its upper 4 bits are the form number 1, the next 7 are n, the lower 13 are t. Behind them stand the terms, the
//!   lowest first, each as a binary number of n digits; what is left of the last byte is 0 (the padding).
//! - **Text**: a list as a designer types it, `x0*x3+x2+1` and a line feed, at most [`MAX_TEXT_BYTES`]. Terms with `+` between
//!   them, in each its variables with `*` between them, both in any order; `1` is the constant term, a lone `0` is zero. No
//!   spaces and no leading zeros. Two equal terms cancel. A list has one text that is written: all ascending.
//! - **Board**: one of the lists of a deployment, which has at most 64 ([`MAX_BOARDS`]). Deploy splits each as split does alone.
//! - **n**: how many binary digits the largest term of a list takes: 3 if that holds x2 and no higher variable, 0 if no
//!   variable occurs.
//! - **Answer**: the four numbers that every call gives: code, operand, place, count ([`raw::Answer`]).
//! - **Code**: 0 if the call is accepted, else why it is refused ([`Refusal`]). A refused call has changed no buffer.
//! - **Operand**: which input is refused, counted from 1 in the order of the call; 0 if no single one is.
//! - **Place**: the index, from 0, of the first term that is not above the one before it, or of the first byte of a text that
//!   is wrong; 0 with every other refusal.
//! - **Count**: what an accepted call found: parts, terms, bytes, or 1 for yes and 0 for no; 0 if refused.
//!
//! # Two ways to call
//!
//! The functions of the crate itself answer with a `Result`, and take the room that they need: half a kilobyte at most for
//! a list that is too long, some 50 kilobytes at most else, and 128 to write a text; audit besides copies the given parts, at
//! most 1,025 terms of each. Deploy copies the boards in the same way and takes room for the parts of all: some 1.8 megabytes at
//! most. Those of [`raw`] work in the caller's buffers and allocate nothing; [`raw::Answer::result`] makes a `Result` of their
//! answer.
//!
//! A list whose terms are not ascending is refused, not sorted. To make one of any terms, sort them and drop equal ones in
//! pairs: modulo 2 they cancel.
//!
//! # Features
//!
//! | feature | what it is for |
//! |---|---|
//! | `split`, `multiply`, `same_products`, `read`, `write`, `read_text`, `write_text`, `audit`, `deploy` | the call of that name, and its raw call; what is off is not asked of the archive |
//! | `alloc` | the functions that answer with a `Vec` or a `String`, that is all but `same_products` |
//!
//! All are on by default. The crate is `no_std` and has no dependency; with `default-features = false` and some calls it
//! needs no allocator either. The archive asks for two functions from outside: `memcpy` and `memset`.
//!
//! # What to know
//!
//! - The calls keep no state, so they may run on many threads at once. They take their room from the stack:
//!   include/apfelruder.h says how much to leave them.
//! - No call panics, for any input.
//! - The archive is libapfelruder.a, for x86-64, as `scripts/static-archive` writes it. The build script looks for it in
//!   target/staticlib of the repository, or in the folder that the environment variable `APFELRUDER_LIB_DIR` names (an
//!   absolute path). Checking and documenting work without it.
#![no_std]

#[cfg(feature = "alloc")]
extern crate alloc;

pub mod raw;
mod refusal;

#[cfg(all(feature = "audit", feature = "alloc"))]
mod audit;
#[cfg(all(feature = "deploy", feature = "alloc"))]
mod deploy;
#[cfg(all(any(feature = "audit", feature = "deploy"), feature = "alloc"))]
mod lent;
#[cfg(all(feature = "multiply", feature = "alloc"))]
mod multiply;
#[cfg(all(feature = "read", feature = "alloc"))]
mod read;
#[cfg(all(feature = "read_text", feature = "alloc"))]
mod read_text;
#[cfg(feature = "same_products")]
mod same_products;
#[cfg(all(feature = "split", feature = "alloc"))]
mod split;
#[cfg(all(feature = "write", feature = "alloc"))]
mod write;
#[cfg(all(feature = "write_text", feature = "alloc"))]
mod write_text;

#[cfg(all(feature = "audit", feature = "alloc"))]
pub use audit::{audit, Audit};
#[cfg(all(feature = "deploy", feature = "alloc"))]
pub use deploy::{deploy, Board};
#[cfg(all(feature = "multiply", feature = "alloc"))]
pub use multiply::multiply;
#[cfg(all(feature = "read", feature = "alloc"))]
pub use read::read;
#[cfg(all(feature = "read_text", feature = "alloc"))]
pub use read_text::read_text;
pub use refusal::Refusal;
#[cfg(feature = "same_products")]
pub use same_products::same_products;
#[cfg(all(feature = "split", feature = "alloc"))]
pub use split::split;
#[cfg(all(feature = "write", feature = "alloc"))]
pub use write::write;
#[cfg(all(feature = "write_text", feature = "alloc"))]
pub use write_text::write_text;

/// The most terms that a list has.
pub const MAX_TERMS: usize = 1024;
/// The number of variables.
pub const MAX_VARS: usize = 64;
/// The most boards that a deployment has.
pub const MAX_BOARDS: usize = 64;
/// The length of the longest block: 3 bytes, and 1,024 terms of 64 bits.
pub const MAX_BLOCK_BYTES: usize = 8195;
/// The length of the longest text that is read or written, its line feed included.
pub const MAX_TEXT_BYTES: usize = 65536;
