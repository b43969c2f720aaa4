//! Words of the page.
use super::annex::{is_long, Annex};
use super::html::{breakable, breakable_words};
use crate::audit::Fault;
use crate::equation::{listed, term};

/// `1 term`, `4 terms`.
pub fn counted(count: usize, word: &str) -> String {
    format!("{count} {}", of_count(word, count))
}

/// The word, for one thing or for another number of them.
fn of_count(word: &str, count: usize) -> String {
    format!("{word}{}", if count == 1 { "" } else { "s" })
}

/// The numbers of these inputs, ascending.
pub fn numbers(inputs: u64) -> Vec<usize> {
    (0..64).filter(|i| inputs >> i & 1 == 1).collect()
}

/// `the input x4`, `the inputs x0 to x9 and x12`.
pub fn the_inputs_in_short(inputs: u64) -> String {
    let numbers = numbers(inputs);
    format!("the {} {}", of_count("input", numbers.len()), listed(&rows("x", &numbers)))
}

/// `x0 to x9, x12`.
pub fn in_short(inputs: u64) -> String {
    rows("x", &numbers(inputs)).join(", ")
}

/// `part 2`, `parts 1, 2 and 4`, `parts 1 to 9 and 12`: things that are counted from 0 here and from 1 in words.
pub fn numbered(word: &str, which: &[usize]) -> String {
    let numbers: Vec<usize> = which.iter().map(|number| number + 1).collect();
    format!("{} {}", of_count(word, which.len()), listed(&rows("", &numbers)))
}

/// Names that end in these ascending numbers; three or more in a row as `x0 to x9`.
fn rows(name: &str, numbers: &[usize]) -> Vec<String> {
    let mut rows: Vec<(usize, usize)> = Vec::new();
    for &number in numbers {
        match rows.last_mut() {
            Some((_, last)) if *last + 1 == number => *last = number,
            _ => rows.push((number, number)),
        }
    }
    let names = |(first, last): (usize, usize)| match last - first {
        0 => vec![format!("{name}{first}")],
        1 => vec![format!("{name}{first}"), format!("{name}{last}")],
        _ => vec![format!("{name}{first} to {name}{last}")],
    };
    rows.into_iter().flat_map(names).collect()
}

/// A term by its name.
pub fn the_term(one: u64) -> String {
    let kind = if one == 0 { "constant term" } else { "term" };
    format!("the {kind} {}", breakable(&term(one)))
}

/// What the command prints of a fault, a line each, as HTML. Of parts that are too long for a line only the beginning
/// stands.
pub fn lines(fault: &Fault, annex: &mut Annex) -> Vec<String> {
    match fault {
        Fault::Splits { part, into } if into.iter().any(|terms| is_long(terms)) => {
            let into: Vec<String> = into.iter().map(|terms| annex.equation(terms)).collect();
            vec![format!("part {} can be split again: into {}", part + 1, listed(&into))]
        }
        _ => fault.lines().iter().map(|line| breakable_words(line)).collect(),
    }
}
