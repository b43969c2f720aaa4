//! What an audit found, as data, and its words.
use crate::equation::{equation, listed, term, the_inputs};
use crate::faults::faults;
use apfelruder::{Audit, Refusal};

/// One given part.
#[derive(Clone, Debug, PartialEq, Eq)]
pub struct Part {
    /// The file as it was typed, or `FILE, line 3`.
    pub name: String,
    /// Its terms, ascending.
    pub terms: Vec<u64>,
}

/// What is wrong with the given parts. Parts are counted from 0 here, and from 1 in words.
#[derive(Clone, Debug, PartialEq, Eq)]
pub enum Fault {
    /// A part without inputs: 1 or 0.
    Constant {
        /// Which of the given parts.
        part: usize,
        /// Whether it is 1.
        one: bool,
    },
    /// Two parts with inputs in common.
    Shared {
        /// The one.
        first: usize,
        /// The other, behind it.
        second: usize,
        /// The inputs, bit i for xi.
        inputs: u64,
    },
    /// Parts share inputs, so their product was not formed.
    NotCompared,
    /// Terms of the approved equation that the product of the given parts lacks.
    Missing {
        /// The lowest of them, ascending, at most [`SHOWN`].
        shown: Vec<u64>,
        /// How many there are besides.
        more: u128,
    },
    /// Terms of the product of the given parts that the approved equation lacks.
    TooMany {
        /// The lowest of them, ascending, at most [`SHOWN`].
        shown: Vec<u64>,
        /// How many there are besides; nothing if they cannot be counted.
        more: Option<u128>,
    },
    /// A part that can be split again.
    Splits {
        /// Which of the given parts.
        part: usize,
        /// Its own parts, two or more.
        into: Vec<Vec<u64>>,
    },
    /// All the parts are there, in another order than that of their lowest inputs.
    Order,
}

/// The most terms that are shown of those that are missing, and of those that are too many.
pub const SHOWN: usize = 20;

/// An audit: what was given, what is right, and what differs.
#[derive(Clone, Debug, PartialEq, Eq)]
pub struct Audited {
    /// The approved equation's terms, ascending.
    pub approved: Vec<u64>,
    /// The given parts, in the order in which they were given.
    pub given: Vec<Part>,
    /// The parts of the approved equation, in order of their lowest input.
    pub parts: Vec<Vec<u64>>,
    /// What the proved call said: whether the given parts are exactly the parts.
    pub yes: bool,
    /// What is wrong; nothing exactly if the answer is yes.
    pub faults: Vec<Fault>,
}

impl Audited {
    /// Asks the library whether the given parts are those of the approved equation, and finds the words for a no.
    pub fn of(approved: Vec<u64>, given: Vec<Part>) -> Result<Audited, Refusal> {
        let lists: Vec<&[u64]> = given.iter().map(|part| part.terms.as_slice()).collect();
        let Audit { yes, parts } = apfelruder::audit(&approved, &lists)?;
        let faults = if yes { Vec::new() } else { faults(&approved, &given) };
        Ok(Audited { approved, given, parts, yes, faults })
    }

    /// What is printed: the verdict, and what stands behind it.
    pub fn words(&self) -> String {
        let lines = if self.yes { self.words_of_yes() } else { self.words_of_no() };
        lines.join("\n") + "\n"
    }

    fn words_of_yes(&self) -> Vec<String> {
        let back = match (self.parts.len(), self.approved.len()) {
            (0, _) => "The product of no parts is the constant 1, the approved equation.".to_string(),
            (_, 1) => "They multiply back to it: its one term, none missing, none too many.".to_string(),
            (_, terms) => format!("They multiply back to it: all {terms} terms, none missing, none too many."),
        };
        vec![
            "yes: the given parts are the parts of the approved equation".to_string(),
            format!("1. {back}"),
            "2. None of them can be split again.".to_string(),
        ]
    }

    fn words_of_no(&self) -> Vec<String> {
        let mut lines = vec!["no: the given parts are not the parts of the approved equation".to_string()];
        lines.extend(self.faults.iter().flat_map(Fault::lines));
        lines.push("the parts of the approved equation are:".to_string());
        if self.parts.is_empty() {
            lines.push("none: it is the constant 1".to_string());
        }
        lines.extend(self.parts.iter().map(|part| equation(part)));
        lines
    }
}

impl Fault {
    /// The fault in words, a line or more.
    pub fn lines(&self) -> Vec<String> {
        let line = match self {
            Fault::Constant { part, one } => format!("part {} is constant: {}", part + 1, u8::from(*one)),
            Fault::Shared { first, second, inputs } => {
                format!("parts {} and {} share {}", first + 1, second + 1, the_inputs(*inputs))
            }
            Fault::NotCompared => "the product is not compared: parts share an input".to_string(),
            Fault::Missing { shown, more } => return terms(shown, Some(*more), "missing"),
            Fault::TooMany { shown, more } => return terms(shown, *more, "too many"),
            Fault::Splits { part, into } => {
                let into: Vec<_> = into.iter().map(|part| equation(part)).collect();
                format!("part {} can be split again: into {}", part + 1, listed(&into))
            }
            Fault::Order => "the parts stand in another order: that of their lowest inputs is needed".to_string(),
        };
        vec![line]
    }
}

/// A line for each term, and one for those that are not shown.
fn terms(shown: &[u64], more: Option<u128>, what: &str) -> Vec<String> {
    let mut lines: Vec<_> = shown.iter().map(|&term| format!("{} is {what}", the_term(term))).collect();
    match more {
        Some(0) => {}
        Some(1) => lines.push(format!("1 more term is {what}")),
        Some(more) => lines.push(format!("{more} more terms are {what}")),
        None => lines.push(format!("more terms than can be counted are {what} besides")),
    }
    lines
}

fn the_term(one: u64) -> String {
    let kind = if one == 0 { "constant term" } else { "term" };
    format!("the {kind} {}", term(one))
}

#[cfg(test)]
mod tests {
    use super::{Audited, Fault, Part};
    use apfelruder::Refusal;

    /// What is printed of an audit of these parts.
    fn words(approved: &[u64], given: &[&[u64]]) -> String {
        let given = given.iter().map(|terms| Part { name: String::new(), terms: terms.to_vec() }).collect();
        Audited::of(approved.to_vec(), given).expect("an audit").words()
    }

    const RIGHT: &str = "the parts of the approved equation are:\nx0+x1\n1+x2\n";
    const NO: &str = "no: the given parts are not the parts of the approved equation\n";
    const YES: &str = "yes: the given parts are the parts of the approved equation\n";

    #[test]
    fn yes() {
        let back = "1. They multiply back to it: all 4 terms, none missing, none too many.\n";
        let whole = "2. None of them can be split again.\n";
        assert_eq!(words(&[1, 2, 5, 6], &[&[1, 2], &[0, 4]]), format!("{YES}{back}{whole}"));
        let back = "1. They multiply back to it: its one term, none missing, none too many.\n";
        assert_eq!(words(&[5], &[&[1], &[4]]), format!("{YES}{back}{whole}"));
        let back = "1. The product of no parts is the constant 1, the approved equation.\n";
        assert_eq!(words(&[0], &[]), format!("{YES}{back}{whole}"));
    }

    #[test]
    fn no_with_each_fault() {
        let told = |given: &[&[u64]]| words(&[1, 2, 5, 6], given);
        let lost = "the term x0 is missing\nthe term x1 is missing\n";
        assert_eq!(told(&[&[1, 2], &[4]]), format!("{NO}{lost}{RIGHT}"));
        let added = "the constant term 1 is too many\nthe term x2 is too many\n";
        assert_eq!(told(&[&[0, 1, 2], &[0, 4]]), format!("{NO}{added}{RIGHT}"));
        let again = "part 1 can be split again: into x0+x1 and 1+x2\n";
        assert_eq!(told(&[&[1, 2, 5, 6]]), format!("{NO}{again}{RIGHT}"));
        let order = "the parts stand in another order: that of their lowest inputs is needed\n";
        assert_eq!(told(&[&[0, 4], &[1, 2]]), format!("{NO}{order}{RIGHT}"));
        let shared = "parts 1 and 2 share the inputs x0 and x1\nparts 2 and 3 share the input x2\n\
                      the product is not compared: parts share an input\npart 2 can be split again: into x0, x1 and x2\n";
        assert_eq!(told(&[&[1, 2], &[7], &[0, 4]]), format!("{NO}{shared}{RIGHT}"));
        let constant = "part 2 is constant: 1\n";
        assert_eq!(told(&[&[1, 2], &[0], &[0, 4]]), format!("{NO}{constant}{RIGHT}"));
        let zero = "part 1 is constant: 0\nthe constant term 1 is missing\n";
        let none = "the parts of the approved equation are:\nnone: it is the constant 1\n";
        assert_eq!(words(&[0], &[&[]]), format!("{NO}{zero}{none}"));
    }

    #[test]
    fn terms_that_are_not_shown_are_counted() {
        let lines = |more| Fault::TooMany { shown: vec![0, 5], more }.lines();
        let shown = ["the constant term 1 is too many", "the term x0*x2 is too many"];
        assert_eq!(lines(Some(0)), shown);
        assert_eq!(lines(Some(1)), [&shown[..], &["1 more term is too many"]].concat());
        assert_eq!(lines(Some(1 << 64)), [&shown[..], &["18446744073709551616 more terms are too many"]].concat());
        let missing = Fault::Missing { shown: vec![1], more: 30 }.lines();
        assert_eq!(missing, ["the term x0 is missing", "30 more terms are missing"]);
        assert_eq!(lines(None)[2], "more terms than can be counted are too many besides");
    }

    #[test]
    fn the_library_refuses() {
        let part = |terms: &[u64]| Part { name: String::new(), terms: terms.to_vec() };
        assert_eq!(Audited::of(vec![], vec![part(&[1])]), Err(Refusal::Zero));
        let many = vec![part(&[1]); 65];
        assert_eq!(Audited::of(vec![1], many), Err(Refusal::TooMany { operand: 0 }));
    }
}
