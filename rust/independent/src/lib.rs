//! A second implementation of docs/RULES.md, for comparison only: by other methods than the proved library, with no code
//! of it. Plain rather than fast.
//!
//! - split puts y apart from x where the two products of the papers' rule (RULES 8), multiplied out, agree, and checks
//!   what it found by multiplying the parts again;
//! - same products multiplies both sides out;
//! - multiply makes all unions and sorts them;
//! - blocks are taken apart and put together bit by bit;
//! - texts are cut at their signs, and the place of a fault is found by asking of beginnings of the text whether an equation
//!   begins so;
//! - audit holds the given parts to the definition of parts, multiplies them as sets, and asks of each whether it splits by the
//!   parts that its two halves have in common;
//! - deploy splits each board in buffers of its own, of the sizes that are left, and lays out at the end what was found.

mod answer;
mod audit;
mod blocks;
mod deploy;
mod parts;
mod printed;
mod products;
mod texts;

pub use answer::Answer;
pub use audit::{audit, parts_by_halves};
pub use blocks::{read, write};
pub use deploy::deploy;
pub use parts::{parts_by_counting, parts_of, split};
pub use printed::printed_split;
pub use products::{multiply, same_products};
pub use texts::{read_text, write_text};

/// At most so many terms.
pub const TERMS: usize = 1024;
