//! The auditor's two questions, each with its answer, what was found, and the theorem behind it.
use super::annex::Annex;
use super::html::sign;
use super::words::{counted, lines};
use crate::audit::{Audited, Fault};

/// An answer to one of the questions.
struct Answer {
    word: &'static str,
    /// Whether that is the answer that right parts get.
    good: bool,
    said: String,
}

/// The section of the page.
pub fn section(audited: &Audited, annex: &mut Annex) -> String {
    let first = shown(
        "1. Do the parts multiply back to the approved equation?",
        &first_answer(audited),
        &found(audited, belongs_to_first, annex),
        &first_theorem(audited),
    );
    let second = shown(
        "2. Could any part be split again?",
        &second_answer(audited),
        &found(audited, belongs_to_second, annex),
        &second_theorem(audited),
    );
    format!("<section>\n<h2>The two questions</h2>\n{first}{second}</section>\n")
}

fn shown(question: &str, answer: &Answer, found: &str, theorem: &str) -> String {
    let kind = if answer.good { "as it should be" } else { "a fault" };
    format!(
        "<div class=\"question\">\n<h3>{question}</h3>\n<p class=\"answer\">{} <strong>{}</strong>, {kind}. {}</p>\n\
         {found}<p class=\"theorem\">{theorem}</p>\n</div>\n",
        sign(answer.good),
        answer.word,
        answer.said
    )
}

/// What belongs to a question, in the words that the command prints.
fn found(audited: &Audited, belongs: fn(&Fault) -> bool, annex: &mut Annex) -> String {
    let found: Vec<&Fault> = faults(audited).iter().filter(|fault| belongs(fault)).collect();
    let pairs = found.iter().filter(|fault| is_pair(fault)).count();
    let mut seen = 0;
    let mut all = Vec::new();
    for fault in found {
        seen += usize::from(is_pair(fault));
        if !is_pair(fault) || seen <= PAIRS {
            all.extend(lines(fault, annex));
        } else if seen == pairs {
            let verb = if pairs - PAIRS == 1 { "shares" } else { "share" };
            all.push(format!("{} {verb} inputs: the picture below marks these", counted(pairs - PAIRS, "more pair")));
        }
    }
    let items: String = all.iter().map(|line| format!("<li>{line}</li>\n")).collect();
    if items.is_empty() {
        items
    } else {
        format!("<ul class=\"found\">\n{items}</ul>\n")
    }
}

/// So many pairs of parts that share inputs are named; 64 parts can have 2,016.
const PAIRS: usize = 20;

fn is_pair(fault: &Fault) -> bool {
    matches!(fault, Fault::Shared { .. })
}

/// What is wrong; a yes has no faults.
pub fn faults(audited: &Audited) -> &[Fault] {
    if audited.yes {
        &[]
    } else {
        &audited.faults
    }
}

fn any(audited: &Audited, one: fn(&Fault) -> bool) -> bool {
    faults(audited).iter().any(one)
}

fn belongs_to_first(fault: &Fault) -> bool {
    match fault {
        Fault::Shared { .. } | Fault::NotCompared | Fault::Missing { .. } | Fault::TooMany { .. } => true,
        Fault::Constant { one, .. } => !one,
        Fault::Splits { .. } | Fault::Order => false,
    }
}

fn belongs_to_second(fault: &Fault) -> bool {
    matches!(fault, Fault::Splits { .. } | Fault::Constant { .. })
}

fn first_answer(audited: &Audited) -> Answer {
    let (word, good) = if any(audited, belongs_to_first) { ("No", false) } else { ("Yes", true) };
    let said = if any(audited, |fault| matches!(fault, Fault::NotCompared | Fault::Shared { .. })) {
        "Parts that share an input do not multiply back: their product has that input squared, or is 0, and neither is \
         an approved equation. What the logic of a board makes of such parts, where x times x is x, is not judged here."
    } else if !good {
        "The product of the given parts is another equation. Missing is what only the approved equation has, too many is \
         what only the product has."
    } else if audited.given.is_empty() {
        "The product of no parts is the constant 1, the approved equation."
    } else {
        return Answer { word, good, said: multiplied(audited.approved.len()) };
    };
    Answer { word, good, said: said.to_string() }
}

fn multiplied(terms: usize) -> String {
    let all = if terms == 1 { "its one term".to_string() } else { format!("all {terms} terms") };
    format!("They multiply back to it: {all}, none missing, none too many.")
}

fn second_answer(audited: &Audited) -> Answer {
    let splits = any(audited, |fault| matches!(fault, Fault::Splits { .. }));
    let constant = any(audited, |fault| matches!(fault, Fault::Constant { .. }));
    let (word, good, said) = match (splits, constant) {
        (true, false) => {
            ("Yes", false, "A part that can be split again is no part: its own parts belong in its place.")
        }
        (true, true) => ("Yes", false, "A part that can be split again is no part, and neither is one without inputs."),
        (false, true) => ("No", false, "But a part without inputs, a constant, is no part."),
        (false, false) if audited.given.is_empty() => ("No", true, "No parts are given."),
        (false, false) => ("No", true, "None of them can be split again."),
    };
    Answer { word, good, said: said.to_string() }
}

/// How far a theorem on a yes reaches here.
fn reach(audited: &Audited, otherwise: &str) -> String {
    if audited.yes {
        "It said yes here.".to_string()
    } else {
        format!("It said no here, so {otherwise}")
    }
}

fn first_theorem(audited: &Audited) -> String {
    let otherwise = if any(audited, belongs_to_first) {
        "what differs, listed above, was found by the tool."
    } else {
        "that they multiply back was found by the tool, with the proved call multiply."
    };
    format!(
        "Theorem <code>audited_parts_multiply_back</code>: whenever the audit says yes, the given parts multiply to \
         the approved equation, term for term, the constant term included. {}",
        reach(audited, otherwise)
    )
}

fn second_theorem(audited: &Audited) -> String {
    format!(
        "Theorem <code>audited_parts_cannot_be_split</code>: whenever the audit says yes, each given part has inputs, \
         and is no product of two equations that have inputs and share none. Theorem \
         <code>audited_parts_are_the_factors_over_gf2</code>: they are then the irreducible factors of the approved \
         equation in the ordinary sense, over GF(2). {}",
        reach(audited, "this answer was found by the tool, with the proved call split of each given part.")
    )
}
