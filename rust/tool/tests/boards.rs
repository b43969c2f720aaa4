//! split of several files, each a board: what is printed of each behind its name, the refusals in their places, and their reasons
//! on standard error (RULES 14.5). The parts are worked out by hand, were chosen beforehand, or are found by trying everything.
mod common;

use common::board::{Board, Random};
use common::poly::{block, parts, poly, text, typed, Poly};
use common::Room;

/// What is printed of a board with these parts.
fn accepted(name: &str, parts: &[Poly]) -> String {
    let lines: String = parts.iter().map(|part| text(part) + "\n").collect();
    format!("{name}: parts {}\n{lines}", parts.len())
}

/// What is printed of this equation, by trying everything.
fn tried(name: &str, equation: &Poly) -> String {
    if equation.is_empty() {
        format!("{name}: refused 1 1 0\n")
    } else {
        accepted(name, &parts(equation))
    }
}

/// The words that split these files.
fn split<S: AsRef<str>>(names: &[S]) -> Vec<String> {
    ["split"].into_iter().chain(names.iter().map(AsRef::as_ref)).map(str::to_string).collect()
}

/// Writes the equation as a text in order, as one that is typed, or as a block.
fn file(random: &mut Random, room: &Room, name: &str, equation: &Poly) {
    match random.below(3) {
        0 => room.file(name, text(equation) + "\n"),
        1 => room.file(name, typed(random, equation)),
        _ => room.file(name, block(equation)),
    }
}

#[test]
fn two_boards() {
    let room = Room::with(&[("bow.txt", "x0*x2+x1*x2+x0+x1\n"), ("stern.txt", "x5*x3\n"), ("one", "1\n")]);
    let (bow, stern) = ("parts 2\nx0+x1\n1+x2\n", "parts 2\nx3\nx5\n");
    room.run(&["split", "bow.txt", "stern.txt"]).gave(format!("bow.txt: {bow}stern.txt: {stern}"));
    room.run(&["split", "stern.txt", "bow.txt"]).gave(format!("stern.txt: {stern}bow.txt: {bow}"));
    room.run(&["split", "bow.txt", "one", "./stern.txt"])
        .gave(format!("bow.txt: {bow}one: parts 0\n./stern.txt: {stern}"));
    room.run(&["split", "one", "one"]).gave("one: parts 0\none: parts 0\n");
    // one file has no name before its parts, and neither has standard input
    room.run(&["split", "bow.txt"]).gave(bow);
    room.run_on(&["split", "-"], "x3*x5\n").gave(stern);
    room.run_on(&["split"], "x3*x5\n").gave(stern);
}

/// The answer is what stands behind the last `: ` of a line, whatever the name is.
#[test]
fn names_like_answers() {
    let room =
        Room::with(&[("a: refused 1 1 0", "1+x7\n"), ("b: parts 2", "x8*x7\n"), (": ", "0\n"), ("parts 1", "1\n")]);
    let ended = room.run(&["split", "a: refused 1 1 0", ": ", "b: parts 2", "parts 1"]);
    let printed = "a: refused 1 1 0: parts 1\n1+x7\n: : refused 1 1 0\nb: parts 2: parts 2\nx7\nx8\nparts 1: parts 0\n";
    assert_eq!(ended.text(), printed);
    ended.refused_in_words(": ", "1 1 0", "Zero");
}

#[test]
fn texts_and_blocks_mixed() {
    let room = Room::with(&[("text", "x3*x2+x2+x0*x2*x3+x2*x0\n")]);
    room.file("block", block(&poly(&[1, 2, 5, 6])));
    room.file("one", [0x10, 0x00, 0x01]);
    let (of_text, of_block) = ("text: parts 3\n1+x0\nx2\n1+x3\n", "block: parts 2\nx0+x1\n1+x2\n");
    room.run(&["split", "text", "block"]).gave(format!("{of_text}{of_block}"));
    room.run(&["split", "block", "one", "text"]).gave(format!("{of_block}one: parts 0\n{of_text}"));
}

#[test]
fn the_same_file_again() {
    let room = Room::with(&[("a", "x1*x0+x0\n"), ("bad", "x0*x0\n")]);
    room.file("b", block(&poly(&[3])));
    let (a, b) = ("a: parts 2\nx0\n1+x1\n", "b: parts 2\nx0\nx1\n");
    room.run(&["split", "a", "a"]).gave(a.repeat(2));
    room.run(&["split", "a", "b", "a", "b", "b"]).gave(format!("{a}{b}{a}{b}{b}"));
    room.run(&split(&["a"; 64])).gave(a.repeat(64));
    let twice = room.run(&["split", "bad", "a", "bad"]);
    assert_eq!(
        (twice.status, twice.text()),
        (Some(1), format!("bad: refused 15 1 5\n{a}bad: refused 15 1 5\n").as_str())
    );
    assert_eq!(
        twice.err.lines().filter(|line| line.starts_with("apfelruder: bad: refused 15 1 5 (Twice): ")).count(),
        2
    );
}

/// A board that is refused, by whatever call, stands in its place among the others and does not change them.
#[test]
fn a_refused_board_among_others() {
    let many = vec!["x1"; 1025].join("+") + "\n";
    let blocks = [block(&(0..1025).collect()), block(&(0..5000).collect())];
    let refused: [(&[u8], &str, &str); 20] = [
        (b"0\n", "1 1 0", "Zero"),
        (b"x3*x2+x2*x3\n", "1 1 0", "Zero"),
        (&[0x10, 0x00, 0x00], "1 1 0", "Zero"),
        (&[0x10, 0x04, 0x01], "2 1 0", "TooMany"),
        (&blocks[0], "2 1 0", "TooMany"),
        (&blocks[1], "2 1 0", "TooMany"),
        (many.as_bytes(), "2 1 0", "TooMany"),
        (&[b'x'; 65_537], "2 1 0", "TooMany"),
        (&[0x10, 0x00, 0x02], "3 1 1", "Order"),
        (&[0x10, 0x40, 0x04, 0x19], "3 1 3", "Order"),
        (&[0x00, 0x00, 0x01], "8 1 0", "Form"),
        (&[0x18, 0x20, 0x01], "9 1 0", "Wide"),
        (&[0x10, 0x60, 0x04, 0x2a], "10 1 0", "Short"),
        (b"", "10 1 0", "Short"),
        (&[0x10, 0x20, 0x01, 0x00], "11 1 0", "Misfit"),
        (&[0x10, 0x60, 0x04, 0x2a, 0xe0, 0x00], "12 1 0", "Extra"),
        (&[0x10, 0x60, 0x04, 0x2a, 0xe1], "13 1 0", "Pad"),
        (b"x0+x1", "14 1 5", "Sign"),
        (b"bow: parts 1\nx0\n", "14 1 0", "Sign"),
        (b"x7+x1*x2*x1*x3\n", "15 1 11", "Twice"),
    ];
    let room = Room::with(&[("bow", "x0*x2+x1*x2+x0+x1\n")]);
    room.file("stern", block(&poly(&[6, 7, 12, 13])));
    let (bow, stern) = ("bow: parts 2\nx0+x1\n1+x2\n", "stern: parts 3\n1+x0\nx1+x3\nx2\n");
    for (content, numbers, word) in refused {
        room.file("bad", content);
        let bad = format!("bad: refused {numbers}\n");
        let orders = [
            (["bow", "bad", "stern"], [bow, &bad, stern]),
            (["bad", "stern", "bow"], [&bad, stern, bow]),
            (["stern", "bow", "bad"], [stern, bow, &bad]),
        ];
        for (names, printed) in orders {
            let ended = room.run(&split(&names));
            ended.refused_in_words("bad", numbers, word);
            assert_eq!(ended.text(), printed.concat(), "{names:?}");
            let lines = if ["Sign", "Twice"].contains(&word) { 4 } else { 1 };
            assert_eq!(ended.err.lines().count(), lines, "{}", ended.err);
        }
    }
    room.file("bad", "x7+x1*x2*x1*x3\n");
    room.run(&["split", "bow", "bad", "stern"]).caret("x7+x1*x2*x1*x3", 11);
}

/// Each reason is told as for one file, in the order of the files.
#[test]
fn several_refused_boards() {
    let room = Room::with(&[("sign", "x0 + x1\n"), ("zero", "1+1\n"), ("a", "x9\n"), ("twice", "x4*x4\n")]);
    room.file("short", [0x10, 0x60, 0x04, 0x2a]);
    let zero = "apfelruder: zero: refused 1 1 0 (Zero): the equation is constantly 0, and has no parts\n";
    let short =
        "apfelruder: short: refused 10 1 0 (Short): cut short: the block says that it has 5 bytes, and 4 came; copy \
                 it again\n";
    let twice =
        "apfelruder: twice: refused 15 1 5 (Twice): line 1, column 6: x4 stands twice in its term; write it once\n\
                 x4*x4\n     ^\nexpected: another input than x4 in front of this place\n";
    let printed = "zero: refused 1 1 0\na: parts 1\nx9\nshort: refused 10 1 0\ntwice: refused 15 1 5\n";
    room.run(&["split", "zero", "a", "short", "twice"]).is(1, printed.as_bytes(), &format!("{zero}{short}{twice}"));
    let printed = "twice: refused 15 1 5\nzero: refused 1 1 0\n";
    room.run(&["split", "twice", "zero"]).is(1, printed.as_bytes(), &format!("{twice}{zero}"));
    room.run(&["split", "zero", "zero"]).is(1, "zero: refused 1 1 0\n".repeat(2).as_bytes(), &zero.repeat(2));
    let ended = room.run(&["split", "sign", "twice"]);
    assert_eq!((ended.status, ended.text()), (Some(1), "sign: refused 14 1 2\ntwice: refused 15 1 5\n"));
    let lines: Vec<&str> = ended.err.lines().collect();
    assert_eq!(lines.len(), 8, "{}", ended.err);
    assert!(lines[0].starts_with("apfelruder: sign: refused 14 1 2 (Sign): line 1, column 3: "), "{}", ended.err);
    assert_eq!((lines[1], lines[2], lines[4..].join("\n") + "\n"), ("x0 + x1", "  ^", twice.into()));
}

#[test]
fn standard_input_is_one_of_the_boards() {
    let room = Room::with(&[("a", "x0\n"), ("b", "x1*x2\n")]);
    let (a, b) = ("a: parts 1\nx0\n", "b: parts 2\nx1\nx2\n");
    let came = "standard input: parts 2\nx0+x1\n1+x2\n";
    for input in [&b"x0*x2+x1*x2+x0+x1\n"[..], &[0x10, 0x60, 0x04, 0x2a, 0xe0]] {
        room.run_on(&["split", "-", "a", "b"], input).gave(format!("{came}{a}{b}"));
        room.run_on(&["split", "a", "-", "b"], input).gave(format!("{a}{came}{b}"));
        room.run_on(&["split", "a", "b", "-"], input).gave(format!("{a}{b}{came}"));
        room.run_on(&["split", "a", "--", "-"], input).gave(format!("{a}{came}"));
    }
    let empty = room.run(&["split", "a", "-", "b"]);
    empty.refused_in_words("standard input", "10 1 0", "Short");
    assert_eq!(empty.text(), format!("{a}standard input: refused 10 1 0\n{b}"));
    let wrong = room.run_on(&["split", "-", "b"], "x1+x64\n");
    wrong.refused_in_words("standard input", "14 1 5", "Sign");
    wrong.caret("x1+x64", 5);
    assert_eq!(wrong.text(), format!("standard input: refused 14 1 5\n{b}"));
    // it is not read where it is not named
    room.run_on(&["split", "a", "b"], "wrong").gave(format!("{a}{b}"));
}

/// A whole ship, whose parts were chosen; with one board more nothing is split.
#[test]
fn sixty_four_boards_and_one_more() {
    let random = &mut Random::new(64);
    for _ in 0..4 {
        let room = Room::new();
        let names: Vec<String> = (0..64).map(|k| format!("board {k}.txt")).collect();
        let boards: Vec<Board> = names.iter().map(|_| Board::new(random)).collect();
        for (name, board) in names.iter().zip(&boards) {
            file(random, &room, name, &board.approved);
        }
        let printed: Vec<String> =
            names.iter().zip(&boards).map(|(name, board)| accepted(name, &board.parts)).collect();
        room.run(&split(&names)).gave(printed.concat());
        room.run(&split(&names[..63])).gave(printed[..63].concat());
        let mut words = split(&names);
        words.push(names[0].clone());
        room.run(&words).wrong_usage(&["split takes 64 files at most", "65 are named"]);
        // one through standard input, and one that is refused
        let (input, bad) = (random.below(32), 32 + random.below(32));
        let (mut words, mut printed) = (split(&names), printed);
        words[1 + input] = "-".into();
        printed[input] = accepted("standard input", &boards[input].parts);
        room.file(&names[bad], "x0*\n");
        printed[bad] = format!("{}: refused 14 1 3\n", names[bad]);
        let ended = room.run_on(&words, text(&boards[input].approved) + "\n");
        ended.refused_in_words(&names[bad], "14 1 3", "Sign");
        assert_eq!(ended.text(), printed.concat());
    }
}

/// 64 boards of 1,024 terms each, the most that there can be: ten parts 1+xi each, beginning with another input. And a part
/// whose text is longer than a text may be, among others.
#[test]
fn the_longest_boards() {
    let room = Room::new();
    let names: Vec<String> = (0..64).map(|k| k.to_string()).collect();
    let mut printed = String::new();
    for (name, k) in names.iter().zip(0..) {
        let low = k % 55;
        room.file(name, block(&(0..1024).map(|term| term << low).collect()));
        let ten: Vec<Poly> = (low..low + 10).map(|i| poly(&[0, 1 << i])).collect();
        printed += &accepted(name, &ten);
    }
    room.run(&split(&names)).gave(printed);
    let long: Poly = (1..=1020).map(|low| low | !0 << 10).chain([0]).collect();
    room.file("long", block(&long));
    let line = text(&long);
    assert!(line.len() > 200_000);
    let zero = "0: parts 10\n1+x0\n1+x1\n1+x2\n1+x3\n1+x4\n1+x5\n1+x6\n1+x7\n1+x8\n1+x9\n";
    room.run(&["split", "long", "0", "long"]).gave(format!("long: parts 1\n{line}\n{zero}long: parts 1\n{line}\n"));
    // all 64 inputs are parts, of each of 64 boards
    room.file("all", block(&poly(&[u64::MAX])));
    let all: Vec<Poly> = (0..64).map(|i| poly(&[1 << i])).collect();
    room.run(&split(&["all"; 64])).gave(accepted("all", &all).repeat(64));
}

/// Ships of every size, with equations over a few inputs, some of them constantly 0: each board as trying everything says.
#[test]
fn every_board_by_trying_everything() {
    let random = &mut Random::new(2);
    let room = Room::new();
    let mut refused = 0;
    for size in 2..=64 {
        let names: Vec<String> = (0..size).map(|k| format!("{k}")).collect();
        let over = random.one(&[0x7, 0x8000_0000_0000_0005, 0x1f, 0x3300_0300]);
        let some = |random: &mut Random| (0..random.below(5)).map(|_| random.word() & over).collect::<Poly>();
        let boards: Vec<Poly> = names.iter().map(|_| some(random)).collect();
        for (name, board) in names.iter().zip(&boards) {
            file(random, &room, name, board);
        }
        let printed: String = names.iter().zip(&boards).map(|(name, board)| tried(name, board)).collect();
        let ended = room.run(&split(&names));
        assert_eq!(ended.text(), printed);
        let zeros = boards.iter().filter(|board| board.is_empty()).count();
        assert_eq!((ended.status, ended.err.lines().count()), (Some(i32::from(zeros > 0)), zeros), "{}", ended.err);
        refused += zeros;
    }
    assert!(refused > 100, "only {refused} boards were constantly 0");
}
