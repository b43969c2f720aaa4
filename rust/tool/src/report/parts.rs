//! The parts as they are loaded and as they should be: one list where these are the same, else a table.
use super::annex::Annex;
use super::html::{escaped, sign};
use super::pairs::{Pairs, Standing};
use super::words::{counted, in_short};
use crate::equation::inputs;

/// The section of the page.
pub fn section(pairs: &Pairs, annex: &mut Annex) -> String {
    if pairs.audited.yes {
        list(pairs, annex)
    } else {
        table(pairs, annex)
    }
}

fn list(pairs: &Pairs, annex: &mut Annex) -> String {
    let parts: String = (0..pairs.audited.given.len()).map(|k| loaded(pairs, k, annex)).collect();
    let shown = match pairs.audited.given.len() {
        0 => "<p>None are loaded and none are needed: the approved equation is the constant 1.</p>\n".to_string(),
        1..=8 => format!("<div>\n{parts}</div>\n"),
        _ => format!("<div class=\"many\">\n{parts}</div>\n"),
    };
    format!("<section>\n<h2>The parts, as loaded and as they should be</h2>\n{shown}</section>\n")
}

fn table(pairs: &Pairs, annex: &mut Annex) -> String {
    let audited = pairs.audited;
    let mut rows: String = pairs.groups().into_iter().map(|group| row_of(pairs, group, annex)).collect();
    for k in (0..audited.given.len()).filter(|&k| inputs(&audited.given[k].terms) == 0) {
        rows += &row(&loaded(pairs, k, annex), &nothing("nothing: a constant is no part"));
    }
    if audited.parts.is_empty() {
        rows += &row("", &nothing("no parts: the approved equation is the constant 1"));
    }
    format!(
        "<section>\n<h2>The parts as loaded and as they should be</h2>\n\
         <p class=\"lead\">A row has the parts that stand on common inputs.{}</p>\n<table>\n\
         <thead><tr><th scope=\"col\">As loaded: {}</th><th scope=\"col\">As they should be: {}</th></tr></thead>\n\
         <tbody>\n{rows}</tbody>\n</table>\n</section>\n",
        key(pairs),
        counted(audited.given.len(), "part"),
        counted(audited.parts.len(), "part")
    )
}

/// What the frames in equations mean, if there are any.
fn key(pairs: &Pairs) -> &'static str {
    if pairs.any_beside() {
        " Where a loaded part has the inputs of a right part, but other terms, a term that is too many has a \
         <del>dashed&nbsp;frame</del> on the left, and a term that is missing a <ins>full&nbsp;frame</ins> on the \
         right."
    } else {
        ""
    }
}

/// The row of all parts that have some of these inputs.
fn row_of(pairs: &Pairs, group: u64, annex: &mut Annex) -> String {
    let audited = pairs.audited;
    let within = |terms: &[u64]| inputs(terms) & group != 0;
    let given = (0..audited.given.len()).filter(|&k| within(&audited.given[k].terms));
    let mut left: String = given.map(|k| loaded(pairs, k, annex)).collect();
    let parts = (0..audited.parts.len()).filter(|&j| within(&audited.parts[j]));
    let mut should: String = parts.map(|j| right(pairs, j, annex)).collect();
    if left.is_empty() {
        left = nothing("nothing: no loaded part has one of these inputs");
    }
    if should.is_empty() {
        should = nothing("nothing: the approved equation has none of these inputs");
    }
    row(&left, &should)
}

fn row(loaded: &str, right: &str) -> String {
    format!(
        "<tr>\n<td data-side=\"As loaded\">{loaded}</td>\n<td data-side=\"As they should be\">{right}</td>\n</tr>\n"
    )
}

fn nothing(why: &str) -> String {
    format!("<p class=\"nothing\">{why}</p>")
}

fn loaded(pairs: &Pairs, k: usize, annex: &mut Annex) -> String {
    let part = &pairs.audited.given[k];
    let number = k + 1;
    let head = match pairs.standing(k) {
        Standing::Part(j) if j == k => format!("part {number} is a part"),
        Standing::Part(j) if pairs.loaded_well(k) => format!("part {number} is a part: right part {}", j + 1),
        Standing::Part(j) => format!("part {number} is a part, but should be part {}", j + 1),
        _ => format!("part {number} is not a part"),
    };
    let facts = format!("{} · <span class=\"file\">{}</span>", facts(&part.terms), escaped(&part.name));
    let equation = annex.marked(&part.terms, "del", &pairs.extra(k));
    item(pairs.loaded_well(k), &head, &facts, &equation, &pairs.reasons(k))
}

fn right(pairs: &Pairs, j: usize, annex: &mut Annex) -> String {
    let terms = &pairs.audited.parts[j];
    let number = j + 1;
    let head = match pairs.loaded_as(j) {
        Some(k) if k == j => format!("right part {number}: loaded"),
        Some(k) => format!("right part {number}: loaded as part {}", k + 1),
        None => format!("right part {number}: not loaded"),
    };
    let equation = annex.marked(terms, "ins", &pairs.missing(j));
    item(pairs.well_loaded(j), &head, &facts(terms), &equation, &[])
}

fn facts(terms: &[u64]) -> String {
    let own = inputs(terms);
    let inputs = match own.count_ones() {
        0 => "no input".to_string(),
        1 => format!("input {}", in_short(own)),
        _ => format!("inputs {}", in_short(own)),
    };
    format!("{} · {inputs}", counted(terms.len(), "term"))
}

fn item(good: bool, head: &str, facts: &str, equation: &str, reasons: &[String]) -> String {
    let why = match reasons {
        [] => String::new(),
        _ => format!("<p class=\"why\">Why: {}.</p>\n", reasons.join("; ")),
    };
    format!(
        "<div class=\"part\">\n<p class=\"head\">{} <b>{head}</b> <span class=\"facts\">· {facts}</span></p>\n\
         <p class=\"equation\">{equation}</p>\n{why}</div>\n",
        sign(good)
    )
}
