//! What stands at a place where no equation goes on so, in words.
use crate::expected::{expected, last_input};

/// What stands at a place where no equation goes on so.
pub fn found(text: &[u8], at: usize) -> String {
    let (before, behind) = text.split_at(at);
    match (before, behind) {
        ([.., b'\n'], _) => "something stands behind the end of the equation".to_string(),
        (_, []) if expected(before).bytes.contains(&b'\n') => {
            "the text ends without the line feed (the Enter key) that ends an equation".to_string()
        }
        (_, []) => "the text ends in the middle of the equation".to_string(),
        ([], [0xef, 0xbb, 0xbf, ..]) => "a byte order mark; save the file as plain ASCII text, without one".to_string(),
        ([], [0xff, 0xfe, ..] | [0xfe, 0xff, ..]) => {
            "this is UTF-16 text; save the file as plain ASCII text".to_string()
        }
        ([], [b'\n', ..]) => "the line is empty".to_string(),
        (_, [b'\n', ..]) => "the line ends in the middle of the equation".to_string(),
        (_, [b'\r', ..]) => "a carriage return; save the file with Unix line ends, a line feed alone".to_string(),
        (_, [b' ', ..]) => "a space; an equation has none".to_string(),
        (_, [b'\t', ..]) => "a tab; an equation has none".to_string(),
        (_, [b'0'..=b'9', ..]) => found_digit(before, behind),
        (_, [b'X', ..]) if expected(before).bytes.contains(&b'x') => "X; inputs are written with a small x".to_string(),
        (_, [byte @ b'!'..=b'~', ..]) => format!("{} cannot stand here", char::from(*byte)),
        (_, [byte @ 0x80..=0xff, ..]) => format!("a sign that is not ASCII (byte hex {byte:02X})"),
        (_, [byte, ..]) => format!("a control byte (hex {byte:02X})"),
    }
}

/// A digit that makes the number of an input too large or begins with 0, or that is no term.
fn found_digit(before: &[u8], behind: &[u8]) -> String {
    let digits = behind.iter().take_while(|byte| byte.is_ascii_digit()).count();
    let dots = if digits > LONGEST { ".." } else { "" };
    let digits = String::from_utf8_lossy(&behind[..digits.min(LONGEST)]);
    match last_input(before) {
        Some("x0") => format!("x0{digits}{dots} has a leading zero; the inputs are x0 to x63"),
        Some(input) => format!("there is no input {input}{digits}{dots}; the inputs are x0 to x63"),
        None => format!("{digits}{dots} cannot stand here"),
    }
}

/// So many digits of a number are shown.
const LONGEST: usize = 8;

#[cfg(test)]
mod tests {
    use super::found;
    use apfelruder::{read_text, Refusal};

    /// What is said of the place where the library refuses the text.
    fn said(text: &[u8]) -> String {
        match read_text(text) {
            Err(Refusal::Sign { place }) => found(text, usize::try_from(place).expect("a place")),
            other => panic!("{other:?}"),
        }
    }

    #[test]
    fn what_people_type() {
        let cases: [(&[u8], &str); 20] = [
            (b"x0 + x1\n", "a space; an equation has none"),
            (b"\tx0\n", "a tab; an equation has none"),
            (b"x0\r\n", "a carriage return; save the file with Unix line ends, a line feed alone"),
            (b"\xef\xbb\xbfx0\n", "a byte order mark; save the file as plain ASCII text, without one"),
            (b"\xff\xfex\0", "this is UTF-16 text; save the file as plain ASCII text"),
            (b"\xfe\xff\0x", "this is UTF-16 text; save the file as plain ASCII text"),
            (b"x0\xe2\x8a\x95x1\n", "a sign that is not ASCII (byte hex E2)"),
            (b"x0+\x1b1\n", "a control byte (hex 1B)"),
            (b"x0&x1\n", "& cannot stand here"),
            (b"X0\n", "X; inputs are written with a small x"),
            (b"x64\n", "there is no input x64; the inputs are x0 to x63"),
            (b"x1000+1\n", "there is no input x1000; the inputs are x0 to x63"),
            (b"x123456789012\n", "there is no input x1234567890..; the inputs are x0 to x63"),
            (b"x007\n", "x007 has a leading zero; the inputs are x0 to x63"),
            (b"x0*1\n", "1 cannot stand here"),
            (b"x0+x1", "the text ends without the line feed (the Enter key) that ends an equation"),
            (b"x0+", "the text ends in the middle of the equation"),
            (b"x0+\n", "the line ends in the middle of the equation"),
            (b"\n", "the line is empty"),
            (b"x0\nx1\n", "something stands behind the end of the equation"),
        ];
        for (text, words) in cases {
            assert_eq!(said(text), words);
        }
    }
}
