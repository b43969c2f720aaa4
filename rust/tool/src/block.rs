//! Refusals of blocks, in words.
use crate::input::EQUATION_BYTES;
use apfelruder::Refusal;

/// What is wrong with a block, and what to do about it.
pub fn words(bytes: &[u8], refusal: Refusal) -> String {
    let first = bytes.first().copied().unwrap_or_default();
    let (n, t) = header(bytes);
    let size = 3 + (n * t).div_ceil(8);
    let here = if bytes.len() < EQUATION_BYTES { bytes.len().to_string() } else { "more".to_string() };
    match refusal {
        Refusal::Form => {
            format!("it begins with the byte hex {first:02X}; a text begins with x, 1 or 0, and a block with hex 1")
        }
        Refusal::Wide => format!("the block says n = {n}, and n is at most 64: the inputs are x0 to x63"),
        Refusal::TooMany { .. } => format!("the block says that it has {t} terms, and 1,024 is the most"),
        Refusal::Short { .. } if bytes.len() < 3 => {
            format!("cut short: a block has at least 3 bytes, and {here} came; copy it again")
        }
        Refusal::Short { .. } => {
            format!("cut short: the block says that it has {size} bytes, and {here} came; copy it again")
        }
        Refusal::Extra { .. } => {
            format!("the block says that it has {size} bytes, and {here} came; nothing may stand behind it")
        }
        Refusal::Order { place, .. } => {
            format!("the term at place {place}, counted from 0, is not above the one before it; {ANEW}")
        }
        Refusal::Misfit => format!("the block says n = {n}, and its highest input asks for less; {ANEW}"),
        Refusal::Pad => format!("a bit behind the last term is 1, and must be 0; {ANEW}"),
        other => other.to_string(),
    }
}

/// For bytes that no writer of blocks makes.
const ANEW: &str = "the block is damaged: make it anew";

/// The n and the t that the first bytes of a block say (RULES 4.1).
fn header(bytes: &[u8]) -> (usize, usize) {
    let byte = |at: usize| usize::from(bytes.get(at).copied().unwrap_or_default());
    ((byte(0) & 15) << 3 | byte(1) >> 5, (byte(1) & 31) << 8 | byte(2))
}

#[cfg(test)]
mod tests {
    use super::{header, words};
    use apfelruder::{read, write};

    #[test]
    fn the_header_is_what_was_written() {
        let long: Vec<u64> = (0..1023).chain([1 << 63]).collect();
        for (list, n, t) in [(&[][..], 0, 0), (&[0], 0, 1), (&[1, 2, 5, 6], 3, 4), (&long, 64, 1024)] {
            assert_eq!(header(&write(list).expect("a list")), (n, t));
        }
    }

    #[test]
    fn each_refusal_says_what_was_found() {
        let long = [&[0x10, 0, 1][..], &[0; 65534]].concat();
        let cases: [(&[u8], &str); 11] = [
            (&[0, 0, 0], "it begins with the byte hex 00; a text begins with x, 1 or 0, and a block with hex 1"),
            (&[0x1f, 0xff, 0xff], "the block says n = 127, and n is at most 64"),
            (&[0x10, 0x04, 0x01], "the block says that it has 1025 terms, and 1,024 is the most"),
            (&[0x10], "cut short: a block has at least 3 bytes, and 1 came"),
            (&[0x10, 0x60, 4, 0x2a], "cut short: the block says that it has 5 bytes, and 4 came"),
            (&[0x10, 0x60, 4, 0x2a, 0xe0, 0], "the block says that it has 5 bytes, and 6 came"),
            (&long, "the block says that it has 3 bytes, and more came"),
            (&[0x10, 0, 2], "the term at place 1, counted from 0, is not above the one before it"),
            (&[0x10, 0x20, 1, 0], "the block says n = 1, and its highest input asks for less"),
            (&[0x10, 0x20, 0], "the block says n = 1, and its highest input asks for less"),
            (&[0x10, 0x60, 4, 0x2a, 0xe1], "a bit behind the last term is 1, and must be 0"),
        ];
        for (bytes, begin) in cases {
            let told = words(bytes, read(bytes).expect_err("refused"));
            assert!(told.starts_with(begin), "{told}");
        }
    }
}
