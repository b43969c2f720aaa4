//! What the page is made of: tags, nothing from elsewhere, pictures, equations of any length.
use super::cases::*;
use super::{answers, holds, lacks, shown, text};
use crate::audit::Fault;
use crate::equation::equation;

#[test]
fn nothing_is_fetched_and_nothing_runs() {
    for audited in samples() {
        lacks(&shown(&audited), &["<script", "http", "//", "url(", "@import", "src="]);
    }
}

#[test]
fn tags_are_balanced() {
    for audited in samples() {
        balanced(&shown(&audited));
    }
}

/// Each tag is closed in its turn, attributes stand in quotes, no id is there twice, links lead to an id.
pub fn balanced(page: &str) {
    let (head, rest) = page.split_once("<style>").expect("a style");
    let body = rest.split_once("</style>").expect("its end").1;
    let mut open: Vec<&str> = Vec::new();
    let tags = head.split('<').skip(1).chain(body.split('<').skip(1));
    for tag in tags {
        let Some((tag, text)) = tag.split_once('>') else { panic!("a tag without an end: {tag}") };
        assert_eq!(tag.matches('"').count() % 2, 0, "quotes in {tag}");
        assert!(!text.contains('>'), "a bare sign in {text}");
        let name = tag.split([' ', '/']).find(|word| !word.is_empty()).unwrap_or("");
        if tag.starts_with('/') {
            assert_eq!(open.pop(), Some(name), "closed out of turn");
        } else if !tag.ends_with('/') && !["!doctype", "meta", "wbr"].contains(&name) {
            open.push(name);
        }
    }
    assert!(open.is_empty(), "left open: {open:?}");
    for and in page.split('&').skip(1) {
        let known = ["amp;", "lt;", "gt;", "quot;", "#39;", "nbsp;"];
        assert!(known.iter().any(|name| and.starts_with(name)), "a bare & before {and}");
    }
    let values = |what: &str| -> Vec<String> {
        page.split(what).skip(1).map(|rest| rest.split('"').next().unwrap_or("").to_string()).collect()
    };
    let ids = values(" id=\"");
    assert!(ids.iter().all(|id| ids.iter().filter(|other| *other == id).count() == 1), "{ids:?}");
    assert!(values("href=\"#").iter().all(|link| ids.contains(link)), "{ids:?}");
}

/// A picture of a page.
struct Picture {
    width: usize,
    height: usize,
    /// What it is said to show.
    told: String,
    /// The cells that are full, and those that are crossed.
    cells: (usize, usize),
}

fn pictures(page: &str) -> Vec<Picture> {
    let svgs = page.split("<svg class=\"grid\"").skip(1).map(|svg| svg.split("</svg>").next().unwrap_or(""));
    svgs.map(|svg| Picture {
        width: between(svg, " width=\"", "\"").parse().expect("a number"),
        height: between(svg, " height=\"", "\"").parse().expect("a number"),
        told: between(svg, "<desc>", "</desc>").to_string(),
        cells: (cells(svg, "held"), cells(svg, "shared")),
    })
    .collect()
}

fn between<'a>(all: &'a str, before: &str, behind: &str) -> &'a str {
    all.split_once(before).and_then(|(_, rest)| rest.split_once(behind)).expect("both are there").0
}

fn cells(svg: &str, class: &str) -> usize {
    let begins = format!("<path class=\"{class}\" d=\"");
    let paths = svg.split(&begins).skip(1);
    paths.map(|path| path.split('"').next().unwrap_or("").matches('M').count()).sum()
}

#[test]
fn the_picture_shows_loaded_above_right() {
    let [both] = &pictures(&shown(&right()))[..] else { panic!("not one picture") };
    assert_eq!((both.told.as_str(), both.cells), ("Part 1: x0, x1. Part 2: x2.", (3, 0)));
    let page = shown(&shared());
    let [loaded, right] = &pictures(&page)[..] else { panic!("not two pictures") };
    assert_eq!((loaded.told.as_str(), loaded.cells), ("Part 1: x0, x2 (cross). Part 2: x2 (tick).", (1, 2)));
    assert_eq!((right.told.as_str(), right.cells), ("Part 1: x0, x1 (cross). Part 2: x2 (tick).", (3, 0)));
    assert_eq!(loaded.width, right.width, "the columns do not stand below one another");
    holds(&text(&page), &["In more than one loaded part: x2", "In no loaded part: x1"]);
}

/// A sheet of A4 has some 680 by 960 pixels for a picture, which is made narrower if need be.
fn fits_a_sheet(Picture { width, height, .. }: &Picture) {
    assert!(height * width.min(&680) <= 960 * width, "{width} by {height}");
}

#[test]
fn sixty_four_parts_fit_a_sheet() {
    let page = shown(&all_inputs());
    holds(&text(&page), &["part 64 is a part", "1 term · 64 inputs: x0 to x63"]);
    let [picture] = &pictures(&page)[..] else { panic!("not one picture") };
    assert_eq!((picture.told.matches("Part ").count(), picture.cells), (64, (64, 0)));
    for i in 0..64 {
        assert!(page.contains(&format!(">x{i}</text>")), "no column x{i}");
    }
    fits_a_sheet(picture);
    assert!(picture.width <= 12 * 75, "180 millimetres hold over 75 cells of 12 pixels, so a cell has under 2.4");
}

#[test]
fn many_pairs_that_share_inputs_are_cut_short() {
    let page = shown(&all_shared());
    let [first, _] = answers(&page);
    assert_eq!(first.matches("share the inputs").count(), 20);
    holds(&first, &["1996 more pairs share inputs", "the product is not compared"]);
    let [loaded, _] = &pictures(&page)[..] else { panic!("not two pictures") };
    assert_eq!(loaded.cells, (0, 64 * 64));
    fits_a_sheet(loaded);
}

/// The longest piece of an equation that has to stand in one line.
fn longest_piece(page: &str) -> usize {
    let body = page.split_once("<body>").expect("a body").1;
    let pieces = body.split(['<', '>']).flat_map(str::split_whitespace).filter(|piece| piece.contains(['+', '*']));
    pieces.map(str::len).max().expect("an equation")
}

#[test]
fn the_longest_equations_are_whole_once_and_can_be_broken() {
    let approved: Vec<u64> = (0..1024).collect();
    let splits = Fault::Splits { part: 0, into: (0..10).map(|i| vec![0, 1 << i]).collect() };
    for audited in [most_terms(&[], Vec::new()), most_terms(&[&approved], vec![splits])] {
        let page = shown(&audited);
        assert_eq!(text(&page).matches(&equation(&approved)).count(), 1);
        holds(&page, &["whole at the end, as E1", "id=\"e1\""]);
        lacks(&page, &["id=\"e2\""]);
        assert!(longest_piece(&page) <= 40);
    }
    let page = shown(&all_inputs());
    assert_eq!(text(&page).matches(&equation(&[u64::MAX])).count(), 1);
    assert!(longest_piece(&page) <= 40);
}
