//! The line of a text with a caret under one of its bytes.

/// At most so many bytes of a line are shown.
const WIDTH: usize = 70;

/// Where a byte stands, and what is shown of its line.
#[derive(Debug, PartialEq, Eq)]
pub struct Caret {
    /// The number of its line, from 1.
    pub line: usize,
    /// Its number in the line, from 1.
    pub column: usize,
    /// The line, cut around the byte where it is long, with `?` for what is not printable ASCII.
    pub text: String,
    /// Spaces, and the caret under the byte.
    pub caret: String,
}

/// Points at a byte, or at what is behind the last one. The line feed stands behind the last sign of its line.
pub fn point(text: &[u8], place: usize) -> Caret {
    let place = place.min(text.len());
    let (before, behind) = text.split_at(place);
    let begin = before.iter().rposition(|&byte| byte == b'\n').map_or(0, |at| at + 1);
    let end = behind.iter().position(|&byte| byte == b'\n').map_or(text.len(), |at| place + at);
    let (left, right) = window(begin, end, place);
    let dots = |cut: bool| if cut { ".." } else { "" };
    let signs: String = text[left..right].iter().map(|&byte| sign(byte)).collect();
    let indent = dots(left > begin).len() + (place - left);
    Caret {
        line: 1 + before.iter().filter(|&&byte| byte == b'\n').count(),
        column: place - begin + 1,
        text: format!("{}{signs}{}", dots(left > begin), dots(right < end)),
        caret: format!("{:indent$}^", ""),
    }
}

/// What is shown of the line from `begin` to `end`: all, or `WIDTH` bytes with the place among or right behind them.
fn window(begin: usize, end: usize, place: usize) -> (usize, usize) {
    if end - begin <= WIDTH {
        return (begin, end);
    }
    let left = begin.max(place.saturating_sub(WIDTH / 2)).min(end - WIDTH);
    (left, left + WIDTH)
}

/// A byte as it is shown.
fn sign(byte: u8) -> char {
    match byte {
        b' '..=b'~' => char::from(byte),
        _ => '?',
    }
}

#[cfg(test)]
mod tests {
    use super::{point, WIDTH};
    use crate::random::Random;

    #[test]
    fn a_short_line_is_shown_whole() {
        let told = point(b"x1+x64\n", 5);
        assert_eq!((told.line, told.column), (1, 6));
        assert_eq!((told.text.as_str(), told.caret.as_str()), ("x1+x64", "     ^"));
    }

    #[test]
    fn the_line_feed_and_the_end_stand_behind_the_line() {
        for text in [&b"x1+\n"[..], b"x1+"] {
            let told = point(text, 3);
            assert_eq!((told.text.as_str(), told.caret.as_str(), told.column), ("x1+", "   ^", 4));
        }
        assert_eq!(point(b"", 0).caret, "^");
    }

    #[test]
    fn lines_are_counted() {
        let told = point(b"x1\n\nx2\xff\r\n", 6);
        assert_eq!((told.line, told.column, told.text.as_str()), (3, 3, "x2??"));
        let empty = point(b"x1\n\n", 3);
        assert_eq!((empty.line, empty.column, empty.text.as_str()), (2, 1, ""));
    }

    /// Whatever the line: the sign over the caret is the byte, and what is shown is a piece of the line.
    #[test]
    fn the_caret_is_under_the_byte() {
        let mut random = Random(7);
        for _ in 0..5_000 {
            let line: Vec<u8> = (0..random.below(4 * WIDTH)).map(|_| *random.pick(b"x0123456789*+ ")).collect();
            let text = [b"first\n", &line[..], b"\nlast\n"].concat();
            let at = random.below(line.len() + 1);
            let told = point(&text, 6 + at);
            assert_eq!((told.line, told.column), (2, at + 1));
            let shown = told.text.trim_start_matches("..").trim_end_matches("..").as_bytes();
            assert!(shown.len() <= WIDTH && shown.len() == line.len().min(WIDTH));
            assert!(line.is_empty() || line.windows(shown.len()).any(|piece| piece == shown));
            let over = told.text.as_bytes().get(told.caret.len() - 1).copied();
            assert_eq!(over, line.get(at).copied(), "{told:?}");
        }
    }
}
