//! The page of audits whose answer and faults are known, because the cases were made so.
mod cases;
mod form;
mod said;

use super::page;
use crate::audit::Audited;
use cases::about;

fn shown(audited: &Audited) -> String {
    page(audited, &about())
}

/// What a reader sees: the page without its tags and its style.
fn text(page: &str) -> String {
    let body = page.split_once("<body>").expect("a body").1;
    let pieces = body.split('<').map(|piece| piece.split_once('>').map_or(piece, |(_, text)| text));
    pieces.collect()
}

/// What stands under each of the two questions.
fn answers(page: &str) -> [String; 2] {
    let (_, first) = page.split_once("<h3>1. Do the parts multiply back").expect("the first question");
    let (first, second) = first.split_once("<h3>2. Could any part be split again").expect("the second question");
    let (second, _) = second.split_once("</section>").expect("the end of the questions");
    [text(&format!("<body>{first}")), text(&format!("<body>{second}"))]
}

fn holds(page: &str, words: &[&str]) {
    for words in words {
        assert!(page.contains(words), "not in the page: {words}\n{page}");
    }
}

fn lacks(page: &str, words: &[&str]) {
    for words in words {
        assert!(!page.contains(words), "in the page: {words}\n{page}");
    }
}
