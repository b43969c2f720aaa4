//! The picture: inputs across, parts down, a full cell where the part holds the input.
use super::grid::{Grid, Row};
use super::pairs::Pairs;
use super::words::{counted, in_short, numbers};
use crate::equation::inputs;

/// The section of the page. Loaded and right parts have the same columns, one picture above the other where they
/// differ.
pub fn section(pairs: &Pairs) -> String {
    let loaded: Vec<u64> = pairs.audited.given.iter().map(|part| inputs(&part.terms)).collect();
    let right: Vec<u64> = pairs.audited.parts.iter().map(|part| inputs(part)).collect();
    let all = inputs(&loaded) | inputs(&right);
    let shown = if all == 0 {
        "<p>No input occurs, neither in the approved equation nor in a loaded part.</p>\n".to_string()
    } else if pairs.audited.yes {
        let rows = rows(&right, |_| None);
        key(pairs, 0) + &figure("The parts, as loaded and as they should be", &rows, all, 0)
    } else {
        let above = rows(&loaded, |k| Some(pairs.loaded_well(k)));
        let below = rows(&right, |j| Some(pairs.well_loaded(j)));
        let both = figure("As loaded", &above, all, twice(&loaded)) + &figure("As they should be", &below, all, 0);
        key(pairs, twice(&loaded)) + &both + &notes(&loaded, inputs(&right))
    };
    format!("<section>\n<h2>Inputs by part</h2>\n{shown}</section>\n")
}

fn rows(parts: &[u64], good: impl Fn(usize) -> Option<bool>) -> Vec<Row> {
    parts.iter().enumerate().map(|(number, &inputs)| Row { inputs, good: good(number) }).collect()
}

/// The inputs that more than one of the parts holds.
fn twice(parts: &[u64]) -> u64 {
    let mut seen = 0;
    let mut twice = 0;
    for inputs in parts {
        twice |= seen & inputs;
        seen |= inputs;
    }
    twice
}

/// What the signs of the picture mean.
fn key(pairs: &Pairs, shared: u64) -> String {
    let cell = "<svg class=\"cell\" viewBox=\"0 0 12 12\" aria-hidden=\"true\">";
    let mut key = format!(
        "Inputs across, parts down. {cell}<path class=\"held\" d=\"M1 1h10v10h-10z\"/></svg> the part holds the input."
    );
    if shared != 0 {
        let crossed = "<path class=\"shared\" d=\"M1.5 1.5h9v9h-9zl9 9m0-9l-9 9\"/></svg>";
        key += &format!(" {cell}{crossed} so does another loaded part, which must not be.");
    }
    if pairs.only_order {
        key += " Tick: loaded in its place. Cross: loaded in another place.";
    } else if !pairs.audited.yes {
        key += " Tick: loaded and right. Cross: loaded but not right, or right but not loaded.";
    }
    format!("<p class=\"key\">{key}</p>\n")
}

/// In words which inputs are not where they should be.
fn notes(loaded: &[u64], right: u64) -> String {
    let given = inputs(loaded);
    let notes = [
        ("In more than one loaded part", twice(loaded)),
        ("In no loaded part", right & !given),
        ("In a loaded part, but not in the approved equation", given & !right),
    ];
    let said = notes.iter().filter(|(_, inputs)| *inputs != 0);
    let items: String = said.map(|(what, inputs)| format!("<li>{what}: {}</li>\n", in_short(*inputs))).collect();
    if items.is_empty() {
        items
    } else {
        format!("<ul class=\"notes\">\n{items}</ul>\n")
    }
}

fn figure(caption: &str, rows: &[Row], columns: u64, shared: u64) -> String {
    if rows.is_empty() {
        return format!("<figure>\n<figcaption>{caption}: no parts</figcaption>\n</figure>\n");
    }
    format!(
        "<figure>\n<figcaption>{caption}: {}</figcaption>\n<div class=\"scroll\" role=\"group\" \
         aria-label=\"{caption}, as a picture\" tabindex=\"0\">{}</div>\n</figure>\n",
        counted(rows.len(), "part"),
        Grid::of(numbers(columns), rows.len(), shared).drawn(caption, rows)
    )
}
