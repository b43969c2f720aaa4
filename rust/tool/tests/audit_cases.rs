//! Audits worked out by hand: the story of the lost constant, the limits, and what is no file of parts.
mod common;

use common::expect::yes;
use common::Room;

const NO: &str = "no: the given parts are not the parts of the approved equation\n";
const ARE: &str = "the parts of the approved equation are:\n";
const STORY: (&str, &str) = ("approved.txt", "x0*x2+x1*x2+x0+x1\n");

/// A line for each input of the range, with the words before it.
fn inputs(before: &str, range: std::ops::Range<u32>) -> String {
    range.map(|i| format!("{before}x{i}\n")).collect()
}

/// The audit of a file of parts against an approved equation, both as they are typed.
fn audit(approved: &str, parts: &str) -> common::Ended {
    Room::with(&[("approved.txt", approved), ("parts.txt", parts)]).run(&["audit", "approved.txt", "parts.txt"])
}

#[test]
fn the_story() {
    let room = Room::with(&[STORY, ("a.txt", "x0+x1\n"), ("b.txt", "x2\n"), ("c.txt", "1+x2\n")]);
    room.run(&["audit", "approved.txt", "a.txt", "c.txt"]).gave(yes(4));
    let lost = format!("{NO}the term x0 is missing\nthe term x1 is missing\n{ARE}x0+x1\n1+x2\n");
    room.run(&["audit", "approved.txt", "a.txt", "b.txt"]).said_no(&lost);
    let order = "the parts stand in another order: that of their lowest inputs is needed\n";
    room.run(&["audit", "approved.txt", "c.txt", "a.txt"]).said_no(&format!("{NO}{order}{ARE}x0+x1\n1+x2\n"));
    let again = "part 1 can be split again: into x0+x1 and 1+x2\n";
    room.run(&["audit", "approved.txt", "approved.txt"]).said_no(&format!("{NO}{again}{ARE}x0+x1\n1+x2\n"));
}

#[test]
fn the_lost_constant_by_name() {
    let lost = "the constant term 1 is missing\n";
    audit("x1+1+x0\n", "x0+x1\n").said_no(&format!("{NO}{lost}{ARE}1+x0+x1\n"));
    audit("1+x0+x1+x0*x1\n", "1+x0\nx1\n").said_no(&format!("{NO}{lost}the term x0 is missing\n{ARE}1+x0\n1+x1\n"));
    // (1 + x0)(x1 + x2) against x0 (1 + x1 + x2): x1 and x2 are missing, x0 is too many
    let other = "the term x1 is missing\nthe term x2 is missing\nthe term x0 is too many\n";
    audit("x1+x2+x0*x1+x0*x2\n", "x0\n1+x1+x2\n").said_no(&format!("{NO}{other}{ARE}1+x0\nx1+x2\n"));
    let found = "the constant term 1 is too many\n";
    audit("x0+x1\n", "1+x0+x1\n").said_no(&format!("{NO}{found}{ARE}x0+x1\n"));
}

#[test]
fn what_split_prints_is_audited() {
    let room = Room::with(&[STORY]);
    let split = room.run(&["split", "approved.txt"]);
    split.gave("parts 2\nx0+x1\n1+x2\n");
    room.run_on(&["audit", "approved.txt", "-"], &split.out).gave(yes(4));
    room.file("split.txt", &split.out);
    room.run(&["audit", "approved.txt", "split.txt"]).gave(yes(4));
    room.run_on(&["audit", "-", "split.txt"], STORY.1).gave(yes(4));
    room.run_on(&["audit", "-", "split.txt"], [0x10, 0x60, 0x04, 0x2a, 0xe0]).gave(yes(4));
}

#[test]
fn the_constant_one_has_no_parts() {
    let none = format!("{ARE}none: it is the constant 1\n");
    audit("1\n", "parts 0\n").gave(
        "yes: the given parts are the parts of the approved equation\n\
         1. The product of no parts is the constant 1, the approved equation.\n\
         2. None of them can be split again.\n",
    );
    audit("1\n", "1\n").said_no(&format!("{NO}part 1 is constant: 1\n{none}"));
    audit("1\n", "1\n1\n").said_no(&format!("{NO}part 1 is constant: 1\npart 2 is constant: 1\n{none}"));
    audit("1\n", "0\n").said_no(&format!("{NO}part 1 is constant: 0\nthe constant term 1 is missing\n{none}"));
    audit("1\n", "x0\n").said_no(&format!("{NO}the constant term 1 is missing\nthe term x0 is too many\n{none}"));
    audit("x0\n", "parts 0\n")
        .said_no(&format!("{NO}the term x0 is missing\nthe constant term 1 is too many\n{ARE}x0\n"));
}

#[test]
fn parts_that_share_inputs() {
    let not = "the product is not compared: parts share an input\n";
    let three = format!(
        "{NO}parts 1 and 2 share the input x4\nparts 1 and 3 share the inputs x4 and x7\n\
         parts 2 and 3 share the inputs x4, x9 and x11\n{not}{ARE}x4\n"
    );
    audit("x4\n", "x4+x7\nx4+x9+x11\nx4+x7+x9+x11\n").said_no(&three);
    // the same part twice, and one that is constant, and one that can be split: each is said, in this order
    let all = format!(
        "{NO}part 2 is constant: 1\nparts 1 and 4 share the input x0\n{not}\
         part 3 can be split again: into 1+x1, x2 and x3+x4\n{ARE}x0\n"
    );
    audit("x0\n", "x0\n1\nx2*x3+x1*x2*x3+x2*x4+x1*x2*x4\nx0\n").said_no(&all);
}

#[test]
fn twenty_terms_are_named_and_the_others_counted() {
    for (terms, more) in [(20, ""), (21, "1 more term is missing\n"), (64, "44 more terms are missing\n")] {
        let sum: Vec<String> = (0..terms).map(|i| format!("x{i}")).collect();
        let lines: String = (0..20).map(|i| format!("the term x{i} is missing\n")).collect();
        audit(&(sum.join("+") + "\n"), "0\n")
            .said_no(&format!("{NO}part 1 is constant: 0\n{lines}{more}{ARE}{}\n", sum.join("+")));
    }
    for (terms, more) in [(20, ""), (21, "1 more term is too many\n"), (23, "3 more terms are too many\n")] {
        let sum: Vec<String> = (1..=terms).map(|i| format!("x{i}")).collect();
        let lines: String = (1..=20).map(|i| format!("the term x{i} is too many\n")).collect();
        audit("x0\n", &(sum.join("+") + "\n")).said_no(&format!("{NO}the term x0 is missing\n{lines}{more}{ARE}x0\n"));
    }
}

#[test]
fn sixty_four_parts_and_one_more() {
    let all: Vec<String> = (0..64).map(|i| format!("x{i}")).collect();
    let approved = all.join("*") + "\n";
    let parts = inputs("", 0..64);
    let many = |parts: &str| format!("parts 64\n{parts}");
    audit(&approved, &many(&parts)).gave(yes(1));
    audit(&approved, &inputs("", 0..63)).said_no(&format!(
        "{NO}the term {} is missing\nthe term {} is too many\n{ARE}{parts}",
        all.join("*"),
        all[..63].join("*")
    ));
    let room = Room::with(&[("approved.txt", &approved), ("parts.txt", &parts), ("one.txt", "1\n")]);
    for words in [["approved.txt", "parts.txt", "one.txt"], ["approved.txt", "one.txt", "parts.txt"]] {
        let ended = room.run(&["audit", words[0], words[1], words[2]]);
        let line = ended.err.lines().next().unwrap_or("");
        assert!(line.starts_with("apfelruder: ") && line.contains("refused 2 0 0 (TooMany): "), "{}", ended.err);
        ended.is(1, b"", &format!("{line}\n"));
    }
    audit(&approved, &(parts + "1\n")).is_refused_with("refused 2 0 0 (TooMany): ");
}

/// All 64 parts 1+xi: their product has every term that there is, 2 to the power 64.
#[test]
fn a_product_of_all_terms() {
    let parts = inputs("1+", 0..64);
    let term = |term: u32| {
        let set: Vec<String> = (0..5).filter(|i| term >> i & 1 == 1).map(|i| format!("x{i}")).collect();
        format!("the term {} is too many\n", set.join("*"))
    };
    let shown: String = (2..22).map(term).collect();
    audit("x0+1\n", &parts).said_no(&format!("{NO}{shown}18446744073709551594 more terms are too many\n{ARE}1+x0\n"));
    // with a part 0 in the place of the last it is zero
    let zero = format!("{}0\n", inputs("1+", 0..63));
    let lost = "part 64 is constant: 0\nthe constant term 1 is missing\nthe term x0 is missing\n";
    audit("x0+1\n", &zero).said_no(&format!("{NO}{lost}{ARE}1+x0\n"));
    // and with one that shares an input nothing is compared
    let shared = "parts 1 and 64 share the input x0\nthe product is not compared: parts share an input\n";
    audit("x0+1\n", &format!("{}x0\n", inputs("1+", 0..63))).said_no(&format!("{NO}{shared}{ARE}1+x0\n"));
}

/// A product of 2,048 terms against terms with an input that no part has: what they have of the parts' inputs is in it, they
/// are not.
#[test]
fn inputs_that_no_part_has() {
    let term = |term: u32| {
        let set: Vec<String> = (0..11).filter(|i| term >> i & 1 == 1).map(|i| format!("x{i}")).collect();
        format!("the term {} is too many\n", set.join("*"))
    };
    let lost = "the term x12 is missing\nthe term x0*x12 is missing\nthe constant term 1 is too many\n";
    let shown: String = (1..20).map(term).collect();
    audit("x0*x12+x12\n", &inputs("1+", 0..11))
        .said_no(&format!("{NO}{lost}{shown}2028 more terms are too many\n{ARE}1+x0\nx12\n"));
}

#[test]
fn what_is_refused() {
    audit("0\n", "x0\n").refused("approved.txt", "1 1 0", "Zero");
    audit("x1+x1\n", "parts 0\n").refused("approved.txt", "1 1 0", "Zero");
    assert_eq!(audit("", "x0\n").refused("approved.txt", "10 1 0", "Short"), "the file is empty");
    audit("x0\n", "").refused("parts.txt", "10 1 0", "Short");
    audit("x0 + 1\n", "x0\n").refused_in_words("approved.txt", "14 1 2", "Sign");
    let room = Room::with(&[STORY, ("a.txt", "x0+x1\n")]);
    room.file("b.block", [0x10, 0x60, 0x04, 0x2a, 0xe1]);
    room.run(&["audit", "approved.txt", "a.txt", "b.block"]).refused("b.block", "13 1 0", "Pad");
}

/// A line of a file of parts that is no equation: which part, which line of which file, and the caret under the byte.
#[test]
fn lines_that_are_no_equation() {
    let wrong = [
        ("x0+x1\n1+x2", "14 1 4 (Sign)", "part 3, line 2 of b.txt", "1+x2", 4),
        ("parts 2\nx0+x1\n1+x2", "14 1 4 (Sign)", "part 3, line 3 of b.txt", "1+x2", 4),
        ("x0\n\nx1\n", "14 1 0 (Sign)", "part 3, line 2 of b.txt", "", 0),
        ("x0\nx1+x64\n", "14 1 5 (Sign)", "part 3, line 2 of b.txt", "x1+x64", 5),
        ("x2*x2\n", "15 1 5 (Twice)", "part 2, line 1 of b.txt", "x2*x2", 5),
        ("parts 1\nx2+x1*x1+1\n", "15 1 8 (Twice)", "part 2, line 2 of b.txt", "x2+x1*x1+1", 8),
    ];
    for (content, numbers, which, shown, at) in wrong {
        let room = Room::with(&[STORY, ("a.txt", "x5\n"), ("b.txt", content)]);
        let ended = room.run(&["audit", "approved.txt", "a.txt", "b.txt"]);
        ended.is_refused_with(&format!("refused {numbers}: "));
        assert!(ended.err.lines().next().is_some_and(|line| line.contains(which)), "no {which}: {}", ended.err);
        ended.caret(shown, at);
    }
}

/// What split prints has a first line that must fit; a refusal that it printed is no file of parts.
#[test]
fn first_lines_that_do_not_fit() {
    for content in ["parts 3\nx0+x1\n1+x2\n", "parts 1\nx0+x1\n1+x2\n", "parts 1\n", "parts 0\nx0\n", "refused 1 1 0\n"]
    {
        let ended = audit(STORY.1, content);
        assert_eq!(ended.status, Some(1), "{content:?}: {}", ended.err);
        assert_eq!(ended.text(), "", "{content:?}");
        assert!(ended.err.starts_with("apfelruder: parts.txt: ") && ended.err.ends_with('\n'), "{}", ended.err);
        assert_eq!(ended.err.lines().count(), 1, "{}", ended.err);
    }
}

/// What split prints of several boards is no file of parts, also not of the first or of a board that was refused, and whatever
/// the names are.
#[test]
fn several_boards_are_no_file_of_parts() {
    let printed = [
        "approved.txt: parts 2\nx0+x1\n1+x2\nb.txt: parts 1\nx3\n",
        "b.txt: refused 1 1 0\napproved.txt: parts 2\nx0+x1\n1+x2\n",
        "x0+x1: parts 2\nx0+x1\n1+x2\nb.txt: parts 0\n",
        "parts.txt: parts 2\nx0+x1\n1+x2\n1: parts 0\n",
        "parts 4: parts 2\nx0+x1\n1+x2\nb.txt: parts 0\n",
        "refused: parts 2\nx0+x1\n1+x2\nb.txt: parts 0\n",
        "standard input: parts 2\nx0+x1\n1+x2\nb.txt: parts 0\n",
        "$'\\377': parts 2\nx0+x1\n1+x2\nGr\u{fc}n: parts 0\n",
    ];
    for content in printed {
        let words = "its first line names a board: this is what split prints of several; give the parts of one alone";
        audit(STORY.1, content).is(1, b"", &format!("apfelruder: parts.txt: refused: {words}\n"));
    }
    // further down the caret stands under what no equation has
    let ended = audit(STORY.1, "x0+x1\n1+x2\nb.txt: parts 1\nx3\n");
    ended.is_refused_with("refused 14 1 0 (Sign): part 3, line 3 of parts.txt, column 1: ");
    ended.caret("b.txt: parts 1", 0);
    let ended = audit(STORY.1, "parts 4\nx0+x1\n1+x2\nx3: parts 1\nx3\n");
    ended.is_refused_with("refused 14 1 2 (Sign): part 3, line 4 of parts.txt, column 3: ");
    ended.caret("x3: parts 1", 2);
    // the same as the tool prints it, and without the line that names the board
    let room = Room::with(&[STORY, ("b.txt", "x3\n")]);
    let split = room.run(&["split", "approved.txt", "b.txt"]);
    split.gave(printed[0]);
    let ended = room.run_on(&["audit", "approved.txt", "-"], &split.out);
    ended.is_refused_with("standard input: refused: its first line names a board: ");
    room.run_on(&["audit", "approved.txt", "-"], "x0+x1\n1+x2\n").gave(yes(4));
    room.file("both.txt", &split.out);
    room.run(&["audit", "both.txt", "b.txt"]).refused_in_words("both.txt", "14 1 0", "Sign");
}
