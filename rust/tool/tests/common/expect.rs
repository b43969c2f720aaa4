//! What an audit must print, from the parts of the board and the parts that were given, by sets alone.
use super::board::{Board, Given};
use super::poly::{inputs, numbers, product, term_text, text, Poly};

/// What an audit of these parts must print, and its status.
pub fn expected(board: &Board, given: &[Given]) -> (i32, String) {
    if given.iter().map(|part| &part.terms).eq(&board.parts) {
        return (0, yes(board.approved.len()));
    }
    let mut faults = constants(given);
    let shared = shared(given);
    if shared.is_empty() {
        faults.extend(terms(board, given));
    } else {
        faults.extend(shared);
        faults.push("the product is not compared: parts share an input".into());
    }
    faults.extend(splits(given));
    if faults.is_empty() {
        faults.push("the parts stand in another order: that of their lowest inputs is needed".into());
    }
    let mut lines = vec!["no: the given parts are not the parts of the approved equation".to_string()];
    lines.extend(faults);
    lines.push("the parts of the approved equation are:".into());
    lines.extend(board.parts.iter().map(text));
    if board.parts.is_empty() {
        lines.push("none: it is the constant 1".into());
    }
    (1, lines.join("\n") + "\n")
}

/// What is printed where the parts are right, for an approved equation of so many terms and with parts.
pub fn yes(terms: usize) -> String {
    let all = if terms == 1 { "its one term".to_string() } else { format!("all {terms} terms") };
    format!(
        "yes: the given parts are the parts of the approved equation\n\
         1. They multiply back to it: {all}, none missing, none too many.\n\
         2. None of them can be split again.\n"
    )
}

fn constants(given: &[Given]) -> Vec<String> {
    let constant = |(k, part): (usize, &Given)| {
        (inputs(&part.terms) == 0).then(|| format!("part {} is constant: {}", k + 1, part.terms.len()))
    };
    given.iter().enumerate().filter_map(constant).collect()
}

fn shared(given: &[Given]) -> Vec<String> {
    let mut lines = Vec::new();
    for (j, first) in given.iter().enumerate() {
        for (k, second) in given.iter().enumerate().skip(j + 1) {
            let both = numbers(inputs(&first.terms) & inputs(&second.terms));
            let names = listed(both.iter().map(|i| format!("x{i}")).collect());
            match both.len() {
                0 => {}
                1 => lines.push(format!("parts {} and {} share the input {names}", j + 1, k + 1)),
                _ => lines.push(format!("parts {} and {} share the inputs {names}", j + 1, k + 1)),
            }
        }
    }
    lines
}

/// `A`, `A and B`, `A, B and C`.
fn listed(mut names: Vec<String>) -> String {
    let last = names.pop().unwrap_or_default();
    if names.is_empty() {
        last
    } else {
        names.join(", ") + " and " + &last
    }
}

fn terms(board: &Board, given: &[Given]) -> Vec<String> {
    let loaded = product(given.iter().map(|part| &part.terms));
    let mut lines = named(&(&board.approved - &loaded), "missing");
    lines.extend(named(&(&loaded - &board.approved), "too many"));
    lines
}

/// The first twenty, and how many more.
fn named(terms: &Poly, what: &str) -> Vec<String> {
    let shown = |&term: &u64| match term {
        0 => format!("the constant term 1 is {what}"),
        _ => format!("the term {} is {what}", term_text(term)),
    };
    let mut lines: Vec<String> = terms.iter().take(20).map(shown).collect();
    match terms.len().saturating_sub(20) {
        0 => {}
        1 => lines.push(format!("1 more term is {what}")),
        more => lines.push(format!("{more} more terms are {what}")),
    }
    lines
}

fn splits(given: &[Given]) -> Vec<String> {
    let again = |(k, part): (usize, &Given)| {
        let into = listed(part.into.iter().map(text).collect());
        (part.into.len() > 1).then(|| format!("part {} can be split again: into {into}", k + 1))
    };
    given.iter().enumerate().filter_map(again).collect()
}
