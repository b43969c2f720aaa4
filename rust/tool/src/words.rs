//! Refusals in words, for whoever holds the file.
use crate::block;
use crate::caret::point;
use crate::expected::{expected, last_input};
use crate::found::found;
use crate::input::Source;
use crate::stop::{Refused, Stop};
use apfelruder::{Refusal, MAX_TEXT_BYTES};

/// Which equation is refused.
pub enum Where<'a> {
    /// All of a file or of standard input.
    File(&'a Source),
    /// A part, counted from 1.
    Part {
        /// What holds it.
        source: &'a Source,
        /// Its number.
        part: usize,
        /// Its line there, from 1; nothing for a block.
        line: Option<usize>,
    },
}

impl Where<'_> {
    fn name(&self) -> String {
        match self {
            Where::File(source) | Where::Part { source, .. } => source.name(),
        }
    }

    /// Which part it is, and where.
    fn part(&self) -> String {
        match self {
            Where::File(_) => String::new(),
            Where::Part { part, line: None, .. } => format!("part {part}"),
            Where::Part { source, part, line: Some(line) } => format!("part {part}, line {line} of {}", source.name()),
        }
    }

    /// What stands before the words.
    fn begin(&self) -> String {
        match self {
            Where::File(_) => String::new(),
            Where::Part { .. } => self.part() + ": ",
        }
    }

    /// The same with a place in the text: a part's text is one line.
    fn begin_at(&self, line: usize, column: usize) -> String {
        match self {
            Where::File(_) => format!("line {line}, column {column}: "),
            Where::Part { .. } => format!("{}, column {column}: ", self.part()),
        }
    }
}

/// A refusal by a call, in these words.
pub fn refused(name: &str, refusal: Refusal, words: &str) -> Stop {
    let line = format!("{name}: {} ({}): {words}", numbers(refusal), called(refusal.code()));
    Stop::Refused(Refused { refusal: Some(refusal), lines: vec![line] })
}

/// A refusal in the library's numbers (RULES 6.3).
pub fn numbers(refusal: Refusal) -> String {
    format!("refused {} {} {}", refusal.code(), refusal.operand(), refusal.place())
}

/// A refusal by the tool, of a file of parts.
pub fn refused_file(source: &Source, words: &str) -> Stop {
    Stop::Refused(Refused { refusal: None, lines: vec![format!("{}: refused: {words}", source.name())] })
}

/// The name of a code (RULES 5.2).
fn called(code: u64) -> &'static str {
    const NAMES: [&str; 16] = [
        "Accepted", "Zero", "TooMany", "Order", "Shared", "TooLarge", "Room", "Work", "Form", "Wide", "Short",
        "Misfit", "Extra", "Pad", "Sign", "Twice",
    ];
    usize::try_from(code).ok().and_then(|code| NAMES.get(code)).unwrap_or(&"Unknown")
}

/// A text that was refused: for Sign and Twice with its line, a caret and what was expected.
pub fn text(place: &Where, text: &[u8], refusal: Refusal) -> Stop {
    match refusal {
        Refusal::Sign { place: at } => {
            let at = usize::try_from(at).unwrap_or(usize::MAX).min(text.len());
            pointed(place, text, at, refusal, &found(text, at), expected(&text[..at]).words)
        }
        Refusal::Twice { place: at } => {
            let at = usize::try_from(at).unwrap_or(usize::MAX).min(text.len());
            let input = last_input(&text[..at]).unwrap_or("the input");
            let words = format!("{input} stands twice in its term; write it once");
            pointed(place, text, at, refusal, &words, &format!("another input than {input} in front of this place"))
        }
        Refusal::TooMany { .. } if text.len() > MAX_TEXT_BYTES => refused(
            &place.name(),
            refusal,
            &(place.begin() + "the text has more than 65,536 bytes, and that is the most"),
        ),
        Refusal::TooMany { .. } => {
            let words =
                "the equation has more than 1,024 terms, and that is the most; terms that cancel are counted too";
            refused(&place.name(), refusal, &(place.begin() + words))
        }
        other => refused(&place.name(), other, &(place.begin() + &other.to_string())),
    }
}

fn pointed(place: &Where, text: &[u8], at: usize, refusal: Refusal, words: &str, expected: &str) -> Stop {
    let shown = point(text, at);
    let words = place.begin_at(shown.line, shown.column) + words;
    let mut stop = refused(&place.name(), refusal, &words);
    if let Stop::Refused(refused) = &mut stop {
        refused.lines.extend([shown.text, shown.caret, format!("expected: {expected}")]);
    }
    stop
}

/// A block that was refused, or no bytes at all.
pub fn block(place: &Where, bytes: &[u8], refusal: Refusal) -> Stop {
    let words = match (place, bytes) {
        (Where::File(Source::Standard) | Where::Part { source: Source::Standard, .. }, []) => {
            "it is empty; an equation or a block must come in".to_string()
        }
        (_, []) => "the file is empty".to_string(),
        _ => block::words(bytes, refusal),
    };
    refused(&place.name(), refusal, &(place.begin() + &words))
}

#[cfg(test)]
mod tests {
    use super::{block, called, text, Where};
    use crate::input::Source;
    use crate::stop::Stop;
    use apfelruder::{read, read_text};

    fn file() -> Source {
        Source::File("a b.txt".into())
    }

    fn lines(stop: Stop) -> Vec<String> {
        match stop {
            Stop::Refused(refused) => refused.lines,
            Stop::Trouble(words) => panic!("{words}"),
        }
    }

    fn of_text(place: &Where, bytes: &[u8]) -> Vec<String> {
        lines(text(place, bytes, read_text(bytes).expect_err("refused")))
    }

    fn of_block(place: &Where, bytes: &[u8]) -> Vec<String> {
        lines(block(place, bytes, read(bytes).expect_err("refused")))
    }

    #[test]
    fn a_sign_has_its_line_a_caret_and_what_was_expected() {
        let told = of_text(&Where::File(&file()), b"x1+x64\n");
        let expected = [
            "a b.txt: refused 14 1 5 (Sign): line 1, column 6: there is no input x64; the inputs are x0 to x63",
            "x1+x64",
            "     ^",
            "expected: a digit from 0 to 3, *, + or the end of the line",
        ];
        assert_eq!(told, expected);
    }

    #[test]
    fn twice_names_the_input() {
        let told = of_text(&Where::File(&Source::Standard), b"1+x7*x10*x7*x2\n");
        let expected = [
            "standard input: refused 15 1 11 (Twice): line 1, column 12: x7 stands twice in its term; write it once",
            "1+x7*x10*x7*x2",
            "           ^",
            "expected: another input than x7 in front of this place",
        ];
        assert_eq!(told, expected);
    }

    #[test]
    fn a_part_is_named_with_its_line() {
        let source = file();
        let place = Where::Part { source: &source, part: 3, line: Some(4) };
        let told = of_text(&place, b"x0+x1");
        assert!(
            told[0].starts_with("a b.txt: refused 14 1 5 (Sign): part 3, line 4 of a b.txt, column 6: "),
            "{told:?}"
        );
        assert_eq!(told[1..3], ["x0+x1", "     ^"]);
        let told = of_text(&place, "1+".repeat(1025).as_bytes());
        assert!(told[0].starts_with("a b.txt: refused 2 1 0 (TooMany): part 3, line 4 of a b.txt: the equation has "));
        let told = of_block(&Where::Part { source: &source, part: 2, line: None }, &[0x10, 0, 2]);
        assert!(told[0].starts_with("a b.txt: refused 3 1 1 (Order): part 2: the term at place 1"), "{told:?}");
    }

    #[test]
    fn too_many_bytes_or_terms() {
        let place = Where::File(&Source::Standard);
        let bytes = of_text(&place, &[b'x'; 65537]);
        let terms = of_text(&place, "1+".repeat(1025).as_bytes());
        assert!(bytes.len() == 1 && bytes[0].contains("refused 2 1 0 (TooMany): the text has more than 65,536 bytes"));
        assert!(
            terms.len() == 1 && terms[0].contains("refused 2 1 0 (TooMany): the equation has more than 1,024 terms")
        );
    }

    #[test]
    fn nothing_is_empty() {
        assert_eq!(of_block(&Where::File(&file()), b""), ["a b.txt: refused 10 1 0 (Short): the file is empty"]);
        let told = of_block(&Where::File(&Source::Standard), b"");
        assert!(told[0].starts_with("standard input: refused 10 1 0 (Short): it is empty"));
    }

    #[test]
    fn codes_have_the_names_of_the_rules() {
        let rules = include_str!("../../../docs/RULES.md");
        for code in 1..=15 {
            assert!(rules.contains(&format!("\n| {code} | {} | ", called(code))), "{code}");
        }
        assert_eq!(called(16), "Unknown");
    }
}
