//! Equations in words: terms, lists and inputs as they are shown to people.

/// A term as it is typed: its inputs ascending with `*` between them, or `1`. The library spells it.
pub fn term(term: u64) -> String {
    let text = apfelruder::write_text(&[term]).expect("one term is a list, and its text is short");
    text.trim_end_matches('\n').to_string()
}

/// A list as it is typed, without a line feed: its terms in order with `+` between them, or `0`. It may be longer than the
/// longest text that is read.
pub fn equation(terms: &[u64]) -> String {
    if terms.is_empty() {
        return "0".to_string();
    }
    terms.iter().map(|&one| term(one)).collect::<Vec<_>>().join("+")
}

/// The inputs that at least one of the terms holds, as the bits of a number.
pub fn inputs(terms: &[u64]) -> u64 {
    terms.iter().fold(0, |all, term| all | term)
}

/// Inputs in a sentence: `the input x4`, `the inputs x4 and x7`, `the inputs x4, x7 and x9`.
pub fn the_inputs(inputs: u64) -> String {
    let names: Vec<_> = (0..64).filter(|i| inputs >> i & 1 == 1).map(|i| format!("x{i}")).collect();
    let word = if names.len() == 1 { "input" } else { "inputs" };
    format!("the {word} {}", listed(&names))
}

/// `A`, `A and B`, `A, B and C`.
pub fn listed(names: &[String]) -> String {
    match names {
        [] => String::new(),
        [one] => one.clone(),
        [most @ .., last] => format!("{} and {last}", most.join(", ")),
    }
}

#[cfg(test)]
mod tests {
    use super::{equation, inputs, listed, term, the_inputs};

    #[test]
    fn terms_and_lists_as_they_are_typed() {
        assert_eq!((term(0).as_str(), term(5).as_str(), term(1 << 63).as_str()), ("1", "x0*x2", "x63"));
        assert_eq!(equation(&[]), "0");
        assert_eq!(equation(&[0]), "1");
        assert_eq!(equation(&[1, 2, 5, 6]), "x0+x1+x0*x2+x1*x2");
    }

    /// 1,024 terms of 55 inputs and more: the library writes no text as long as that.
    #[test]
    fn a_list_is_spelled_however_long_it_is() {
        let list: Vec<u64> = (0..1024).map(|low| !1023 | low).collect();
        assert!(apfelruder::write_text(&list).is_err());
        let text = equation(&list);
        let pieces: Vec<_> = text.split('+').collect();
        assert!(text.len() > 200_000 && pieces.len() == 1024);
        assert!(pieces[0].starts_with("x10*x11*") && pieces[1023].ends_with("*x62*x63"));
    }

    #[test]
    fn inputs_in_a_sentence() {
        assert_eq!(inputs(&[0, 16, 144]), 144);
        assert_eq!(the_inputs(16), "the input x4");
        assert_eq!(the_inputs(144), "the inputs x4 and x7");
        assert_eq!(the_inputs(144 | 1 << 63), "the inputs x4, x7 and x63");
        assert_eq!(listed(&[]), "");
    }
}
