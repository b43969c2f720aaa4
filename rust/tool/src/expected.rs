//! What may stand at a place of an equation, told by what stands before it (RULES 12.1).

/// What may come next.
#[derive(Debug, PartialEq, Eq)]
pub struct Expected {
    /// The bytes with which an equation goes on.
    pub bytes: &'static [u8],
    /// The same in words.
    pub words: &'static str,
}

/// What may come behind bytes with which an equation begins. Of them only the last few matter.
pub fn expected(before: &[u8]) -> Expected {
    match before {
        [] => of(b"x10", "an input (x0 to x63), 1, or 0 alone"),
        [.., b'+'] => of(b"x1", "an input (x0 to x63) or 1"),
        [.., b'*'] => of(b"x", "an input (x0 to x63)"),
        [.., b'x'] => of(b"0123456789", "the number of an input, 0 to 63"),
        [.., b'\n'] => of(b"", "the end of the file: it holds one equation, in one line"),
        [.., b'x', b'1'..=b'5'] => of(b"0123456789*+\n", "a digit, *, + or the end of the line"),
        [.., b'x', b'6'] => of(b"0123*+\n", "a digit from 0 to 3, *, + or the end of the line"),
        [.., b'x', b'0'..=b'9'] | [.., b'x', _, b'0'..=b'9'] => of(b"*+\n", "*, + or the end of the line"),
        [.., b'1'] => of(b"+\n", "+ or the end of the line"),
        _ => of(b"\n", "the end of the line: 0 stands alone"),
    }
}

fn of(bytes: &'static [u8], words: &'static str) -> Expected {
    Expected { bytes, words }
}

/// The input whose name ends these bytes, as it is written: `x64`.
pub fn last_input(bytes: &[u8]) -> Option<&str> {
    let digits = bytes.iter().rev().take_while(|byte| byte.is_ascii_digit()).count();
    let begin = bytes.len() - digits;
    let named = digits > 0 && begin > 0 && bytes[begin - 1] == b'x';
    named.then(|| std::str::from_utf8(&bytes[begin - 1..]).ok()).flatten()
}

#[cfg(test)]
mod tests {
    use super::{expected, last_input};
    use crate::random::{equation, Random};
    use apfelruder::{read_text, Refusal};

    /// Changes, drops or adds a byte, or cuts the text.
    fn damage(text: &mut Vec<u8>, random: &mut Random) {
        let at = random.below(text.len());
        let byte = match random.below(3) {
            0 => b"x0123456789*+\n"[random.below(14)],
            1 => b" \t\rXy-&^(){}7"[random.below(13)],
            _ => u8::try_from(random.below(256)).expect("below 256"),
        };
        match random.below(4) {
            0 => text[at] = byte,
            1 => text.insert(at, byte),
            2 => drop(text.remove(at)),
            _ => text.truncate(at),
        }
    }

    /// How far the library reads: to the place where it refuses, or to the end.
    fn read_to(text: &[u8]) -> usize {
        match read_text(text) {
            Ok(_) => text.len(),
            Err(refusal) => usize::try_from(refusal.place()).expect("a place"),
        }
    }

    #[test]
    fn expected_bytes_and_no_others_move_the_refusal_on() {
        let mut random = Random(0x9e37_79b9_7f4a_7c15);
        let mut signs = 0;
        for _ in 0..3_000 {
            let mut text = equation(&mut random);
            assert!(read_text(&text).is_ok());
            damage(&mut text, &mut random);
            let Err(Refusal::Sign { place }) = read_text(&text) else { continue };
            signs += 1;
            let place = usize::try_from(place).expect("a place");
            let next = expected(&text[..place]);
            assert!(text.get(place).map_or(true, |byte| !next.bytes.contains(byte)), "{text:?} {place}");
            for byte in 0..=255 {
                let longer = [&text[..place], &[byte]].concat();
                let moves = match read_text(&longer) {
                    Err(Refusal::Twice { .. }) => true, // an input again, but the byte may stand there
                    _ => read_to(&longer) > place,
                };
                assert_eq!(moves, next.bytes.contains(&byte), "{longer:?}");
            }
        }
        assert!(signs > 1_500, "{signs}");
    }

    #[test]
    fn the_words_at_each_kind_of_place() {
        let words = |before: &[u8]| expected(before).words;
        assert_eq!(words(b""), "an input (x0 to x63), 1, or 0 alone");
        assert_eq!(words(b"x0+"), "an input (x0 to x63) or 1");
        assert_eq!(words(b"x0*"), "an input (x0 to x63)");
        assert_eq!(words(b"1+x"), "the number of an input, 0 to 63");
        assert_eq!(words(b"x6"), "a digit from 0 to 3, *, + or the end of the line");
        assert_eq!(words(b"x5"), "a digit, *, + or the end of the line");
        assert_eq!(words(b"x0"), "*, + or the end of the line");
        assert_eq!(words(b"x7*x11"), "*, + or the end of the line");
        assert_eq!(words(b"x0+1"), "+ or the end of the line");
        assert_eq!(words(b"0"), "the end of the line: 0 stands alone");
        assert_eq!(words(b"1\n"), "the end of the file: it holds one equation, in one line");
    }

    #[test]
    fn the_last_input_is_found() {
        assert_eq!(last_input(b"x1*x64"), Some("x64"));
        assert_eq!(last_input(b"x007"), Some("x007"));
        assert_eq!(last_input(b"x1+1"), None);
        assert_eq!(last_input(b"x"), None);
        assert_eq!(last_input(b""), None);
    }
}
