//! The given parts of an audit, as files hold them: a block, a text of one equation, or a text with a line for each part.
use crate::audit::Part;
use crate::input::{kind, Kind, Source, EQUATION_BYTES};
use crate::stop::Stop;
use crate::words::{self, Where};
use apfelruder::{Refusal, MAX_TEXT_BYTES, MAX_VARS};

/// The line that the printed split of 64 parts begins with.
const LONGEST_FIRST_LINE: usize = "parts 64\n".len();

/// So much of a file of parts can be right: that line, and 64 of the longest texts.
const PARTS_BYTES: usize = LONGEST_FIRST_LINE + MAX_VARS * MAX_TEXT_BYTES;

/// The parts in these files, in order. Reading ends with one part more than an equation can have: the library refuses so
/// many, whatever the others are.
pub fn given(sources: &[Source]) -> Result<Vec<Part>, Stop> {
    let mut given = Vec::new();
    for source in sources {
        let bytes = source.bytes(PARTS_BYTES + 1)?;
        match kind(&bytes) {
            Kind::Block => given.push(block(source, &bytes, given.len() + 1)?),
            Kind::Text => lines(source, &bytes, &mut given)?,
        }
        if given.len() > MAX_VARS {
            break;
        }
    }
    Ok(given)
}

fn block(source: &Source, bytes: &[u8], part: usize) -> Result<Part, Stop> {
    // no more is needed, as for the other commands
    let bytes = &bytes[..bytes.len().min(EQUATION_BYTES)];
    let place = Where::Part { source, part, line: None };
    let terms = apfelruder::read(bytes).map_err(|refusal| words::block(&place, bytes, refusal))?;
    Ok(Part { name: source.name(), terms })
}

fn lines(source: &Source, bytes: &[u8], given: &mut Vec<Part>) -> Result<(), Stop> {
    if bytes.len() > PARTS_BYTES {
        let words = "it has more than 4,194,313 bytes, and 64 parts, the most that an equation has, take no more";
        return Err(words::refused(&source.name(), Refusal::TooMany { operand: 0 }, words));
    }
    let lines: Vec<&[u8]> = bytes.split_inclusive(|&byte| byte == b'\n').collect();
    let passed = usize::from(first_line(&lines).map_err(|words| words::refused_file(source, &words))?);
    for (at, text) in lines.iter().enumerate().skip(passed) {
        if given.len() > MAX_VARS {
            break;
        }
        let line = at + 1;
        let place = Where::Part { source, part: given.len() + 1, line: Some(line) };
        let terms = apfelruder::read_text(text).map_err(|refusal| words::text(&place, text, refusal))?;
        let name = if lines.len() == 1 { source.name() } else { format!("{}, line {line}", source.name()) };
        given.push(Part { name, terms });
    }
    Ok(())
}

/// Whether the first line is that of a printed split, `parts N`, and no part itself. It must fit what follows.
fn first_line(lines: &[&[u8]]) -> Result<bool, String> {
    let Some((first, rest)) = lines.split_first() else { return Ok(false) };
    if names_a_board(first) {
        return Err("its first line names a board: this is what split prints of several; give the parts of one alone"
            .to_string());
    }
    if first.starts_with(b"refused") {
        return Err("its first line says refused: what made it had no parts to give".to_string());
    }
    let Some(number) = first.strip_prefix(b"parts") else { return Ok(false) };
    let Some(number) = number.strip_prefix(b" ").and_then(|number| number.strip_suffix(b"\n")) else {
        return Err(
            "its first line begins with parts, and is not that word, a space, a number and a line feed".to_string()
        );
    };
    if number.ends_with(b"\r") {
        return Err("its first line ends with a carriage return; save the file with Unix line ends, a line feed alone"
            .to_string());
    }
    let here = rest.len();
    if number == here.to_string().as_bytes() {
        return Ok(true);
    }
    let number: String =
        number.iter().take(20).map(|&byte| if byte.is_ascii_graphic() { char::from(byte) } else { '?' }).collect();
    let (stand, lines) = if here == 1 { ("stands", "line") } else { ("stand", "lines") };
    Err(format!("its first line says parts {number}, and {here} {lines} {stand} behind it"))
}

/// Whether it is a line `NAME: parts K` or `NAME: refused ..`, as split prints them of several boards. No equation has such
/// a line, whatever the name.
fn names_a_board(line: &[u8]) -> bool {
    let line = String::from_utf8_lossy(line);
    let behind = line.rsplit_once(": ").map_or("", |(_, behind)| behind);
    behind.starts_with("parts ") || behind.starts_with("refused ")
}

#[cfg(test)]
mod tests {
    use super::{first_line, lines, PARTS_BYTES};
    use crate::audit::Part;
    use crate::input::Source;
    use crate::stop::Stop;

    fn read(text: &[u8]) -> Result<Vec<Part>, Vec<String>> {
        let mut given = vec![Part { name: "before".into(), terms: vec![0] }];
        match lines(&Source::File("p.txt".into()), text, &mut given) {
            Ok(()) => Ok(given.split_off(1)),
            Err(Stop::Refused(refused)) => Err(refused.lines),
            Err(Stop::Trouble(words)) => panic!("{words}"),
        }
    }

    fn part(name: &str, terms: &[u64]) -> Part {
        Part { name: name.into(), terms: terms.into() }
    }

    #[test]
    fn one_part_or_a_line_for_each() {
        assert_eq!(read(b"1+x2\n"), Ok(vec![part("p.txt", &[0, 4])]));
        let two = [part("p.txt, line 1", &[1, 2]), part("p.txt, line 2", &[0, 4])];
        assert_eq!(read(b"x0+x1\n1+x2\n"), Ok(two.to_vec()));
        let two = [part("p.txt, line 2", &[1, 2]), part("p.txt, line 3", &[0, 4])];
        assert_eq!(read(b"parts 2\nx0+x1\n1+x2\n"), Ok(two.to_vec()));
        assert_eq!(read(b"parts 0\n"), Ok(vec![]));
        assert_eq!(read(b"0\n"), Ok(vec![part("p.txt", &[])]));
    }

    #[test]
    fn a_wrong_line_is_named() {
        let told = read(b"parts 2\nx0+x1\n1+x2").expect_err("no line feed");
        assert!(told[0].starts_with("p.txt: refused 14 1 4 (Sign): part 3, line 3 of p.txt, column 5: "), "{told:?}");
        assert_eq!(told[1..3], ["1+x2", "    ^"]);
        let told = read(b"x0\n\nx1\n").expect_err("an empty line");
        assert!(told[0].starts_with("p.txt: refused 14 1 0 (Sign): part 3, line 2 of p.txt, column 1: "), "{told:?}");
    }

    #[test]
    fn the_first_line_must_fit() {
        let told = |text: &[u8]| first_line(&text.split_inclusive(|&byte| byte == b'\n').collect::<Vec<_>>());
        assert_eq!(told(b"x0\n"), Ok(false));
        assert_eq!(told(b"parts 1\nx0\n"), Ok(true));
        assert_eq!(told(b"parts 1\nx0"), Ok(true));
        let cases: [(&[u8], &str); 12] = [
            (b"parts 2\nx0\n", "its first line says parts 2, and 1 line stands behind it"),
            (b"parts 1\n", "its first line says parts 1, and 0 lines stand behind it"),
            (b"parts 01\nx0\n", "its first line says parts 01, and 1 line stands behind it"),
            (b"parts \x1b[31m\nx0\n", "its first line says parts ?[31m, and 1 line stands behind it"),
            (b"parts 0", "its first line begins with parts, and is not"),
            (b"parts2\nx0\nx1\n", "its first line begins with parts, and is not"),
            (b"parts 1\r\nx0\r\n", "its first line ends with a carriage return"),
            (b"refused 1 1 0\n", "its first line says refused"),
            (b"a.txt: parts 1\nx0\n", "its first line names a board"),
            (b"x0: refused 1 1 0\nb: parts 1\nx0\n", "its first line names a board"),
            (b"parts 2: parts 1\nx0\nb: parts 0\n", "its first line names a board"),
            (b"refused: parts 0\n", "its first line names a board"),
        ];
        for (text, words) in cases {
            assert!(told(text).expect_err("refused").starts_with(words), "{:?}", told(text));
        }
    }

    #[test]
    fn reading_ends_with_one_part_more_than_there_can_be() {
        assert_eq!(read("x0\n".repeat(63).as_bytes()).expect("64 with the one before").len(), 63);
        assert_eq!(read([&b"x0\n".repeat(64)[..], b"wrong\n"].concat().as_slice()).expect("no more is read").len(), 64);
    }

    #[test]
    fn a_file_of_parts_has_a_longest() {
        let longest = [b"parts 64\n", &[&[b'x'; 65535][..], b"\n"].concat().repeat(64)[..]].concat();
        assert_eq!((longest.len(), PARTS_BYTES), (4_194_313, 4_194_313));
        assert!(read(&longest).expect_err("no equation")[0].contains("refused 14 1 1 (Sign): part 2, line 2"));
        let told = read(&[&longest[..], b"1"].concat()).expect_err("too long");
        assert!(
            told.len() == 1 && told[0].starts_with("p.txt: refused 2 0 0 (TooMany): it has more than 4,194,313 bytes")
        );
    }
}
