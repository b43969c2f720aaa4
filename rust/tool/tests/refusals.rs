//! Refusals: the numbers of RULES 5.2 and 12.2, the name of the file, the code's word, and for a text the line, a caret under
//! the byte and what was expected there. Room and Work are never given: the tool lends enough.
mod common;

use common::poly::{block, poly, text};
use common::{Ended, Room};

/// Every command that takes one file, on these bytes: the same refusal by name and by standard input; split prints the
/// numbers on standard output besides.
#[track_caller]
fn refused(content: &[u8], numbers: &str, word: &str) -> Ended {
    let room = Room::new();
    room.file("file", content);
    for command in ["pack", "unpack", "split"] {
        let by_name = room.run(&[command, "file"]);
        by_name.refused_in_words("file", numbers, word);
        let by_input = room.run_on(&[command], content);
        by_input.refused_in_words("standard input", numbers, word);
        let printed = if command == "split" { format!("refused {numbers}\n") } else { String::new() };
        assert_eq!((by_name.text(), by_input.text()), (printed.as_str(), printed.as_str()), "{command}");
    }
    room.run(&["pack", "file"])
}

/// A block that is refused, in one line.
#[track_caller]
fn block_refused(content: &[u8], numbers: &str, word: &str) {
    refused(content, numbers, word).refused("file", numbers, word);
}

#[test]
fn blocks_that_are_refused() {
    block_refused(&[0x10, 0x60, 0x04, 0x2a], "10 1 0", "Short");
    block_refused(&[0x10], "10 1 0", "Short");
    block_refused(&[0x1f, 0xff], "10 1 0", "Short");
    block_refused(&[0x18, 0x20, 0x01], "9 1 0", "Wide");
    block_refused(&[0x10, 0x04, 0x01], "2 1 0", "TooMany");
    block_refused(&[0x10, 0x60, 0x04, 0x2a, 0xe0, 0x00], "12 1 0", "Extra");
    block_refused(&[0x10, 0x00, 0x02], "3 1 1", "Order");
    block_refused(&[0x10, 0x20, 0x02, 0xc0], "3 1 1", "Order"); // {1,1}
    block_refused(&[0x10, 0x40, 0x02, 0x90], "3 1 1", "Order"); // {2,1}
    block_refused(&[0x10, 0x40, 0x04, 0x19], "3 1 3", "Order"); // {0,1,2,1}
    block_refused(&[0x10, 0x20, 0x01, 0x00], "11 1 0", "Misfit");
    block_refused(&[0x10, 0x60, 0x04, 0x2a, 0xe1], "13 1 0", "Pad");
}

/// The first byte tells a text from a block: these are none of a text.
#[test]
fn first_bytes_of_other_forms() {
    for first in [0x00, 0x01, 0x08, 0x0b, 0x0c, 0x0e, 0x0f, 0x7f] {
        block_refused(&[first, 0x00, 0x01], "8 1 0", "Form");
        block_refused(&[first], "10 1 0", "Short");
    }
}

/// And these are, though no equation begins so: the caret stands under the first byte.
#[test]
fn first_bytes_of_texts() {
    for first in [b' ', b'\t', b'+', b'*', b'2', b'9', b'X', b'y', b'p', b'r', b'~', 0x80, 0xc3, 0xff] {
        let shown = if (b' '..=b'~').contains(&first) { char::from(first) } else { '?' };
        let ended = refused(&[first, b'\n'], "14 1 0", "Sign");
        assert!(["x0 to x63", "1", "0"].iter().all(|word| ended.caret(&shown.to_string(), 0).contains(word)));
    }
    for first in [b'\n', b'\r'] {
        let ended = refused(&[first, b'x', b'1', b'\n'], "14 1 0", "Sign");
        assert!(ended.err.contains("line 1") && ended.err.contains("column 1"), "{}", ended.err);
    }
}

#[test]
fn no_bytes_at_all() {
    let room = Room::with(&[("empty", "")]);
    for command in ["pack", "unpack"] {
        assert_eq!(room.run(&[command, "empty"]).refused("empty", "10 1 0", "Short"), "the file is empty");
        room.run(&[command]).refused("standard input", "10 1 0", "Short");
    }
    let split = room.run(&["split", "empty"]);
    split.refused_in_words("empty", "10 1 0", "Short");
    assert_eq!((split.text(), split.err.lines().count()), ("refused 10 1 0\n", 1));
}

/// A text that is refused at a byte: its numbers, line and column, the caret. Gives what was expected there.
#[track_caller]
fn sign(content: &str, place: usize, (line, column): (usize, usize)) -> String {
    let ended = refused(content.as_bytes(), &format!("14 1 {place}"), "Sign");
    let first = ended.err.lines().next().unwrap_or("");
    for word in [format!("line {line}"), format!("column {column}")] {
        assert!(
            first.split([',', ':', ';', '.', '(', ')']).any(|part| part.trim().ends_with(&word)),
            "no {word}: {first}"
        );
    }
    let shown = content.split('\n').nth(line - 1).unwrap_or("");
    ended.caret(shown, column - 1).to_string()
}

/// RULES 12.1: what may come next, by what stands before.
#[test]
fn what_was_expected() {
    let input = "x0 to x63";
    let cases: [(&str, usize, &[&str], &[&str]); 22] = [
        ("+x0\n", 0, &[input, "1", " 0"], &["*"]),
        ("x0+\n", 3, &[input, "1"], &["*", " 0"]),
        ("x0++x1\n", 3, &[input, "1"], &["*", " 0"]),
        ("1+0\n", 2, &[input, "1"], &["*", " 0"]),
        ("x0+ x1\n", 3, &[input, "1"], &["*", " 0"]),
        ("x0+", 3, &[input, "1"], &["*", " 0"]),
        ("x0*\n", 3, &[input], &["+", " 1"]),
        ("x0*1\n", 3, &[input], &["+", " 1"]),
        ("x0**x1\n", 3, &[input], &["+", " 1"]),
        ("x\n", 1, &["63"], &["+", "*"]),
        ("x0+xa\n", 4, &["63"], &["+", "*"]),
        ("x64\n", 2, &["+", "*"], &[]),
        ("x00\n", 2, &["+", "*"], &[]),
        ("x123\n", 3, &["+", "*"], &[]),
        ("x1", 2, &["+", "*"], &[]),
        ("x0 + x1\n", 2, &["+", "*"], &[]),
        ("x0x1\n", 2, &["+", "*"], &[]),
        ("x1*x1", 5, &["+", "*"], &[]),
        ("x1*x1y\n", 5, &["+", "*"], &[]),
        ("1*x0\n", 1, &["+"], &["*"]),
        ("10\n", 1, &["+"], &["*"]),
        ("0+1\n", 1, &["line"], &["+", "*"]),
    ];
    for (content, place, with, without) in cases {
        let expected = sign(content, place, (1, place + 1));
        for word in with {
            assert!(expected.contains(word), "{content:?}: no {word:?} in: {expected}");
        }
        for word in without {
            assert!(!expected.contains(word), "{content:?}: {word:?} in: {expected}");
        }
    }
}

#[test]
fn lines_behind_the_first() {
    sign("x0\nx1\n", 3, (2, 1));
    sign("1\n\n", 2, (2, 1));
    sign("x0+x1\n\n\nx2\n", 6, (2, 1));
    sign("x0+x1\n ", 6, (2, 1));
}

/// The text has a name for it: a line that ends as on Windows, and a mark that some editors put in front.
#[test]
fn carriage_returns_and_byte_order_marks() {
    let ended = refused(b"x0+x1\r\n", "14 1 5", "Sign");
    assert!(ended.err.lines().next().is_some_and(|line| line.contains("carriage return")), "{}", ended.err);
    assert_eq!(ended.err.lines().nth(1).map(str::trim), Some("x0+x1?"), "{}", ended.err);
    let ended = refused(b"\xef\xbb\xbfx0+x1\n", "14 1 0", "Sign");
    assert!(ended.err.lines().next().is_some_and(|line| line.contains("byte order mark")), "{}", ended.err);
    assert!(ended.err.lines().nth(1).is_some_and(|line| line.ends_with("???x0+x1")), "{}", ended.err);
}

#[test]
fn inputs_twice_in_a_term() {
    for (content, place) in [("x1*x1+1\n", 5), ("x1*x1\n", 5), ("x7+x1*x2*x1*x3\n", 11), ("x63*x0*x63*x0\n", 10)] {
        let ended = refused(content.as_bytes(), &format!("15 1 {place}"), "Twice");
        ended.caret(content.trim_end(), place);
        let words = ended.err.lines().next().unwrap_or("");
        assert!(words.contains("line 1") && words.contains(&format!("column {}", place + 1)), "{words}");
    }
    let ended = refused(b"x5+x12*x3*x12\n", "15 1 13", "Twice");
    assert!(ended.err.contains("x12"), "the input is named: {}", ended.err);
}

/// Bytes that cannot be printed are shown as question marks, one for each.
#[test]
fn bytes_that_cannot_be_printed() {
    let ended = refused(b"x0+\x1b[31mx1\x07\x80\n", "14 1 3", "Sign");
    ended.caret("x0+?[31mx1??", 3);
    assert!(ended.err.bytes().all(|byte| byte == b'\n' || (b' '..=b'~').contains(&byte)), "{:?}", ended.err);
    refused("x0·x1\n".as_bytes(), "14 1 2", "Sign").caret("x0??x1", 2);
}

/// Of a long line as much is shown as fits, around the byte, with .. where it goes on.
#[test]
fn long_lines_are_cut() {
    let equation: Vec<String> = (0..200).map(|i| format!("x{}", i % 64)).collect();
    let right = equation.join("+");
    for (place, front, back) in [(6, false, true), (400, true, true), (right.len() - 1, true, false)] {
        let mut line = right.clone().into_bytes();
        line[place] = b'!';
        let ended = refused(&[&line[..], b"\n"].concat(), &format!("14 1 {place}"), "Sign");
        let lines: Vec<&str> = ended.err.lines().collect();
        let (shown, under) = (lines[1].trim(), lines[2].find('^').expect("a caret"));
        assert!((40..=80).contains(&shown.len()), "about 70 bytes: {shown}");
        assert_eq!(lines[1].as_bytes()[under], b'!', "the caret is under the byte: {}", ended.err);
        assert_eq!((shown.starts_with(".."), shown.ends_with("..")), (front, back), "{shown}");
        let part = shown.trim_start_matches("..").trim_end_matches("..");
        assert!(String::from_utf8_lossy(&line).contains(part), "not a part of the line: {part}");
    }
}

#[test]
fn texts_that_are_too_long() {
    let room = Room::new();
    let many = vec!["x1"; 1025].join("+") + "\n";
    refused(many.as_bytes(), "2 1 0", "TooMany");
    for length in [65_537, 65_538, 200_000] {
        room.file("long", vec![b'x'; length]);
        room.run(&["pack", "long"]).refused("long", "2 1 0", "TooMany");
        room.run_on(&["pack"], vec![b'x'; length]).refused("standard input", "2 1 0", "TooMany");
    }
    refused(&[b'x'; 65_536], "14 1 1", "Sign");
}

#[test]
fn zero_has_no_parts() {
    let room = Room::new();
    for content in [&b"0\n"[..], b"1+1\n", b"x3*x2+x2*x3\n", &[0x10, 0, 0]] {
        room.file("zero", content);
        let ended = room.run(&["split", "zero"]);
        ended.refused_in_words("zero", "1 1 0", "Zero");
        assert_eq!((ended.text(), ended.err.lines().count()), ("refused 1 1 0\n", 1));
    }
}

/// Which file is meant, where there are several; the first that is refused is told.
#[test]
fn one_of_several_files() {
    let room = Room::with(&[("a", "x0\n"), ("b", "x1\n"), ("bad", "x1*x1\n"), ("empty", "")]);
    room.file("short", [0x10, 0x60, 0x04, 0x2a]);
    room.run(&["multiply", "a", "b", "bad"]).refused_in_words("bad", "15 1 5", "Twice");
    room.run(&["multiply", "a", "short", "bad"]).refused("short", "10 1 0", "Short");
    room.run(&["multiply", "empty", "short"]).refused("empty", "10 1 0", "Short");
    room.run(&["same", "a", "b", "a", "short"]).refused("short", "10 1 0", "Short");
    room.run_on(&["same", "a", "-", "a", "short"], "x\n").refused_in_words("standard input", "14 1 1", "Sign");
    assert_eq!(room.run(&["same", "a", "b", "bad", "short"]).text(), "");
}

/// The two that share are named, and the lowest input that they share.
#[test]
fn products_that_are_refused() {
    let room = Room::with(&[("a", "x0+x1\n"), ("b", "x7+x12+x33\n"), ("c", "x40+x33+x12\n"), ("d", "x2\n")]);
    let shared = room.run(&["multiply", "b", "c"]);
    shared.is_refused_with("refused 4 0 0 (Shared): ");
    assert_eq!(shared.err.lines().count(), 1);
    let named = |err: &str, word: &str| err.split([' ', ',', ':', ';', '.', '\n']).any(|found| found == word);
    assert!(["b", "c", "x12"].iter().all(|word| named(&shared.err, word)), "{}", shared.err);
    assert!(!named(&shared.err, "x33") && !named(&shared.err, "x40"), "{}", shared.err);
    let later = room.run(&["multiply", "a", "b", "d", "c"]);
    later.is_refused_with("refused 4 0 0 (Shared): ");
    let first = later.err.contains("the product so far") || named(&later.err, "b");
    assert!(first && named(&later.err, "c") && named(&later.err, "x12"), "{}", later.err);

    room.file("low", text(&(0..32).collect()) + "\n");
    room.file("high", text(&(0..33).map(|i| i * 32).collect()) + "\n");
    let large = room.run(&["multiply", "low", "high"]);
    large.is_refused_with("refused 5 0 0 (TooLarge): ");
    // 1,024 terms that each have 54 inputs more: too long for a text, though not for a list
    room.file("most", block(&poly(&[!0 << 10])));
    room.file("all", text(&(0..1024).collect()) + "\n");
    room.run(&["multiply", "all", "most"]).is_refused_with("refused 5 1 0 (TooLarge): ");
    room.file("out", "old");
    room.run(&["multiply", "-o", "out", "all", "most"]).is_refused_with("refused 5 1 0 (TooLarge): ");
    assert_eq!(room.text("out"), "old");
    assert_eq!(room.names(), ["a", "all", "b", "c", "d", "high", "low", "most", "out"]);
}

/// With -o a refusal leaves the file as it was, or leaves none.
#[test]
fn nothing_is_written_on_a_refusal() {
    let room = Room::with(&[("bad", "x0*1\n"), ("old", "old")]);
    for command in ["pack", "unpack"] {
        for out in ["old", "new"] {
            let ended = room.run(&[command, "bad", "-o", out]);
            ended.refused_in_words("bad", "14 1 3", "Sign");
            assert_eq!(ended.text(), "");
        }
    }
    assert_eq!(room.text("old"), "old");
    assert_eq!(room.names(), ["bad", "old"]);
}
