//! The page that `audit --report` writes: one whole file that needs nothing else, with the verdict, what is wrong in the words
//! of the audit, the theorems, the versions and how to check again. How it looks is for eyes; this holds it to what it says.
mod common;

use common::board::{damage, Board, Random, DAMAGES};
use common::expect::expected;
use common::poly::{inputs, numbers, text};
use common::{ended, Ended, Room};

const STORY: (&str, &str) = ("approved.txt", "x0*x2+x1*x2+x0+x1\n");

/// Runs an audit with and without a page; both must say the same. Gives the page.
fn page(room: &Room, words: &[&str]) -> (Ended, String) {
    let plain = room.run(&[&["audit"], words].concat());
    let told = room.run(&[&["audit"], words, &["--report", "page.html"]].concat());
    told.is(plain.status.expect("a status"), &plain.out, &plain.err);
    let page = room.text("page.html");
    whole(&page);
    (told, page)
}

/// One tag of a page: its name in small letters, whether it closes, and whether it is closed at once.
struct Tag {
    name: String,
    closes: bool,
    alone: bool,
}

/// The page cut into its tags and the text before each. Style sheets and comments are taken out first.
fn tags(page: &str) -> Vec<(String, Tag)> {
    let bare = without(without(page.to_string(), "<style", "</style>"), "<!--", "-->");
    let mut found = Vec::new();
    let mut rest = bare.as_str();
    while let Some((text, more)) = rest.split_once('<') {
        let (inside, after) = more.split_once('>').expect("a tag that ends");
        assert!(!inside.contains('<') && !text.contains('>'), "a stray bracket near: {text}<{inside}>");
        let closes = inside.starts_with('/');
        let name = inside.trim_start_matches(['/', '!']).split([' ', '\n', '/']).next().unwrap_or("").to_lowercase();
        found.push((text.to_string(), Tag { name, closes, alone: inside.ends_with('/') }));
        rest = after;
    }
    assert_eq!(rest.trim(), "", "something behind the last tag");
    found
}

/// The text without all that stands from one word to the other.
fn without(mut text: String, from: &str, to: &str) -> String {
    while let Some(start) = text.find(from) {
        let end = text[start..].find(to).expect("what begins also ends") + start + to.len();
        text.replace_range(start..end, "");
    }
    text
}

/// It begins and ends as a page does, and every element that is opened is closed, in order.
#[track_caller]
fn whole(page: &str) {
    assert!(page.to_lowercase().starts_with("<!doctype html>"), "{}", &page[..page.len().min(100)]);
    assert!(page.ends_with("</html>\n"), "{}", &page[page.len().saturating_sub(100)..]);
    let void = ["doctype", "meta", "br", "hr", "col", "wbr", "img", "input", "link"];
    let mut open: Vec<String> = Vec::new();
    for (_, tag) in tags(page) {
        if tag.closes {
            assert_eq!(open.pop().as_deref(), Some(tag.name.as_str()), "closed and not the last that was opened");
        } else if !tag.alone && !void.contains(&tag.name.as_str()) {
            open.push(tag.name);
        }
    }
    assert!(open.is_empty(), "never closed: {open:?}");
}

/// What a reader sees, with single spaces: elements that stand inside a line leave no gap.
fn visible(page: &str) -> String {
    let inside =
        ["b", "i", "em", "strong", "span", "mark", "code", "small", "ins", "del", "s", "u", "abbr", "wbr", "tspan"];
    let mut seen = String::new();
    for (text, tag) in tags(page) {
        seen.push_str(&text);
        if !inside.contains(&tag.name.as_str()) {
            seen.push(' ');
        }
    }
    let signs = [("&lt;", "<"), ("&gt;", ">"), ("&quot;", "\""), ("&#34;", "\""), ("&#39;", "'"), ("&amp;", "&")];
    let decoded = signs.iter().fold(seen, |seen, (from, to)| seen.replace(from, to));
    decoded.split_whitespace().collect::<Vec<_>>().join(" ")
}

/// Whether the word stands in the text by itself: x1 is no word of x12.
fn says(seen: &str, word: &str) -> bool {
    seen.split(|c: char| !c.is_ascii_alphanumeric()).any(|found| found.eq_ignore_ascii_case(word))
}

/// The title tells the verdict, and not the other.
#[track_caller]
fn verdict(page: &str, yes: bool) {
    let title = tags(page).into_iter().find(|(_, tag)| tag.name == "title" && tag.closes).expect("a title").0;
    assert_eq!((says(&title, "yes"), says(&title, "no")), (yes, !yes), "the verdict of the title {title:?}");
}

#[track_caller]
fn shows(seen: &str, words: &[&str]) {
    for word in words {
        assert!(seen.contains(word), "no {word:?} on the page: {seen}");
    }
}

#[test]
fn the_page_of_a_yes() {
    let room = Room::with(&[STORY, ("parts.txt", "x0+x1\n1+x2\n")]);
    let (ended, page) = page(&room, &["approved.txt", "parts.txt"]);
    assert_eq!(ended.status, Some(0));
    let seen = visible(&page);
    verdict(&page, true);
    assert!(!["is missing", "is too many", "split again: into"].iter().any(|word| seen.contains(word)), "{seen}");
    shows(&seen, &["x0+x1+x0*x2+x1*x2", "1+x2", "x0+x1"]);
    stands_behind(&seen);
    shows(&seen, &["apfelruder audit approved.txt parts.txt", "bash .ci/run", "docs/READING.md"]);
    shows(&seen, &["approved.txt", "parts.txt"]);
    shows(&seen, &[env!("CARGO_PKG_VERSION"), "include/apfelruder.h"]);
}

/// The theorems by name, on every page.
#[track_caller]
fn stands_behind(seen: &str) {
    shows(
        seen,
        &[
            "audit_says_yes_exactly_for_the_parts",
            "audited_parts_multiply_back",
            "audited_parts_cannot_be_split",
            "audited_parts_are_the_factors_over_gf2",
        ],
    );
}

#[test]
fn the_page_of_the_story() {
    let room = Room::with(&[STORY, ("a.txt", "x0+x1\n"), ("b.txt", "x2\n")]);
    let (ended, page) = page(&room, &["approved.txt", "a.txt", "b.txt"]);
    assert_eq!(ended.status, Some(1));
    verdict(&page, false);
    let seen = visible(&page);
    shows(&seen, &["the term x0 is missing", "the term x1 is missing"]);
    shows(&seen, &["x0+x1+x0*x2+x1*x2", "1+x2", "a.txt", "b.txt", "bash .ci/run", "docs/READING.md"]);
    stands_behind(&seen);
}

#[test]
fn the_lost_constant_is_named() {
    let room = Room::with(&[("approved.txt", "1+x0+x1\n"), ("a.txt", "x0+x1\n")]);
    let (_, page) = page(&room, &["approved.txt", "a.txt"]);
    let seen = visible(&page);
    shows(&seen, &["the constant term 1 is missing", "1+x0+x1"]);
}

/// Boards damaged in each way: the page says all that the audit says of it, and shows every part as it should be.
#[test]
fn the_pages_of_damaged_boards() {
    for how in DAMAGES {
        let random = &mut Random::new(90 + how as u64);
        let mut done = 0;
        while done < 5 {
            let board = Board::new(random);
            let mut given = board.given();
            if damage(random, how, &board, &mut given).is_none() || given.is_empty() {
                continue;
            }
            done += 1;
            let loaded: String = given.iter().map(|part| text(&part.terms) + "\n").collect();
            let approved = text(&board.approved) + "\n";
            let room = Room::with(&[("approved.txt", &approved), ("parts.txt", &loaded)]);
            let (ended, page) = page(&room, &["approved.txt", "parts.txt"]);
            let lines = expected(&board, &given).1;
            ended.said_no(&lines);
            verdict(&page, false);
            let seen = visible(&page);
            let told = lines.lines().skip(1).take_while(|line| *line != "the parts of the approved equation are:");
            told.for_each(|line| shows(&seen, &[line]));
            stands_behind(&seen);
            board.parts.iter().for_each(|part| shows(&seen, &[text(part).as_str()]));
            let used = given.iter().fold(inputs(&board.approved), |used, part| used | inputs(&part.terms));
            assert!(
                numbers(used).iter().all(|i| says(&seen, &format!("x{i}"))),
                "{how:?}: an input is not named: {seen}"
            );
        }
    }
}

/// Nothing on the page is run, and nothing is fetched.
#[test]
fn no_script_and_no_network() {
    let room = Room::with(&[STORY, ("a.txt", "x0+x1\n"), ("b.txt", "x2\n"), ("c.txt", "1+x2\n")]);
    for part in ["b.txt", "c.txt"] {
        let (_, page) = page(&room, &["approved.txt", "a.txt", part]);
        let small = page.to_lowercase();
        let names: Vec<String> = tags(&page).into_iter().map(|(_, tag)| tag.name).collect();
        for name in
            ["script", "link", "iframe", "object", "embed", "img", "image", "audio", "video", "base", "form", "use"]
        {
            assert!(!names.iter().any(|tag| tag == name), "an element {name}");
        }
        for word in
            ["javascript:", "url(", "@import", " src=", " srcset=", " onload", " onclick", "http-equiv=\"refresh"]
        {
            assert!(!small.contains(word), "{word} is on the page");
        }
        // the name of a language is no address
        let addresses = small.replace("http://www.w3.org/2000/svg", "");
        assert!(!addresses.contains("http://") && !addresses.contains("https://") && !addresses.contains("\"//"));
        assert!(small.contains("charset=\"utf-8\"") || small.contains("charset=utf-8"), "no word on its letters");
        assert!(small.contains("@media print"), "nothing for print");
    }
}

/// A file's name is shown as it is and is no part of the page.
#[test]
fn names_are_escaped() {
    let name = "a<b>&\"c'&amp;<script>.txt";
    let room = Room::with(&[STORY, (name, "x0+x1\n1+x2\n")]);
    let (_, page) = page(&room, &["approved.txt", name]);
    assert!(!page.contains("a<b>") && !page.to_lowercase().contains("<script"), "the name is part of the page");
    shows(&visible(&page), &[name]);
}

#[test]
fn the_time_that_was_asked_for() {
    let room = Room::with(&[STORY, ("parts.txt", "x0+x1\n1+x2\n")]);
    let words = ["audit", "approved.txt", "parts.txt", "--report=page.html"];
    let mut pages = Vec::new();
    for seconds in ["1794795000", "1794795000", "0"] {
        common::ended(room.tool(&words).env("SOURCE_DATE_EPOCH", seconds));
        pages.push(room.text("page.html"));
    }
    assert_eq!(pages[0], pages[1], "the same audit at the same time is the same page");
    shows(&visible(&pages[0]), &["2026-11-16 02:10 UTC"]);
    shows(&visible(&pages[2]), &["1970-01-01 00:00 UTC"]);
}

/// No parts, 64 parts, 1,024 terms, the highest input.
#[test]
fn the_smallest_and_the_largest() {
    let all: Vec<String> = (0..64).map(|i| format!("x{i}")).collect();
    let most: String = (0..10).map(|i| format!("1+x{}\n", i + 54)).collect();
    let whole = text(&(0..1024).map(|term| term << 54).collect()) + "\n";
    let cases = [
        ("1\n".to_string(), "parts 0\n".to_string(), 0),
        ("x63\n".to_string(), "parts 0\n".to_string(), 1),
        (all.join("*") + "\n", all.join("\n") + "\n", 0),
        (all.join("*") + "\n", "1\n".repeat(64), 1),
        (whole.clone(), most, 0),
        (whole.clone(), whole, 1),
        ("x0\n".to_string(), all.iter().map(|input| format!("1+{input}\n")).collect(), 1),
    ];
    for (approved, parts, status) in cases {
        let room = Room::with(&[("approved.txt", &approved), ("parts.txt", &parts)]);
        let (ended, page) = page(&room, &["approved.txt", "parts.txt"]);
        assert_eq!(ended.status, Some(status));
        verdict(&page, status == 0);
        stands_behind(&visible(&page));
    }
}

#[test]
fn nothing_is_written_on_a_refusal() {
    let room = Room::with(&[STORY, ("zero.txt", "0\n"), ("bad.txt", "x0*1\n"), ("old.html", "old")]);
    room.file("many.txt", "1\n".repeat(65));
    let before = room.names();
    for out in ["old.html", "new.html"] {
        for (approved, part) in
            [("zero.txt", "approved.txt"), ("approved.txt", "bad.txt"), ("approved.txt", "many.txt")]
        {
            let ended = room.run(&["audit", approved, part, "--report", out]);
            ended.is_refused_with("refused ");
        }
    }
    assert_eq!((room.text("old.html"), room.names()), ("old".into(), before));
}

/// An old page is replaced by the new one, whole.
#[test]
fn an_old_page_is_replaced() {
    let room = Room::with(&[STORY, ("parts.txt", "x0+x1\n1+x2\n")]);
    room.file("page.html", "an old page ".repeat(100_000));
    page(&room, &["approved.txt", "parts.txt"]);
    assert_eq!(room.names(), ["approved.txt", "page.html", "parts.txt"]);
}

/// A page in the place of what it speaks of would leave nothing to audit again.
#[test]
fn what_is_audited_is_not_replaced() {
    let room = Room::with(&[STORY, ("parts.txt", "x0+x1\n1+x2\n")]);
    for out in ["approved.txt", "parts.txt", "./parts.txt"] {
        let named = out.trim_start_matches("./");
        room.run(&["audit", "approved.txt", "parts.txt", "--report", out]).trouble(&[named]);
    }
    assert_eq!((room.text("approved.txt").as_str(), room.text("parts.txt").as_str()), (STORY.1, "x0+x1\n1+x2\n"));
    assert_eq!(room.names(), ["approved.txt", "parts.txt"]);
}

/// What comes through a redirection is not replaced either: what is read by the page, what is printed to by anything.
#[test]
fn what_is_redirected_is_not_replaced() {
    let room = Room::with(&[STORY, ("parts.txt", "x0+x1\n1+x2\n"), ("log", "before\n")]);
    let words = |from: &str| format!("exec <{from} >>log");
    let told = |from: &str, line: &[&str]| ended(&mut room.shell(&words(from), line));
    told("approved.txt", &["audit", "-", "parts.txt", "--report", "approved.txt"])
        .troubled(&["standard input", "replace"]);
    told("parts.txt", &["audit", "approved.txt", "-", "--report", "parts.txt"])
        .troubled(&["standard input", "replace"]);
    for out in ["log", "/dev/stdout", "/dev/fd/1"] {
        told("/dev/null", &["audit", "approved.txt", "parts.txt", "--report", out])
            .troubled(&[out, "a file of its own"]);
    }
    assert_eq!(room.text("log"), "before\n");
    assert_eq!((room.text("approved.txt").as_str(), room.text("parts.txt").as_str()), (STORY.1, "x0+x1\n1+x2\n"));
    for (at, out) in ["log", "/dev/stdout", "/dev/fd/1", "-"].into_iter().enumerate() {
        told("/dev/null", &["unpack", "approved.txt", "-o", out]).is(0, b"", "");
        assert_eq!(room.text("log"), format!("before\n{}", "x0+x1+x0*x2+x1*x2\n".repeat(at + 1)));
    }
    assert_eq!(room.names(), ["approved.txt", "log", "parts.txt"]);
}
