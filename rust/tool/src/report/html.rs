//! Small pieces that the page is made of: text from outside, equations that may go on in the next line, the two signs.

/// The sign of what is as it should be: a ring with a tick in it.
const GOOD: &str = "<svg class=\"sign good\" viewBox=\"0 0 16 16\" aria-hidden=\"true\">\
    <circle cx=\"8\" cy=\"8\" r=\"7\"/><path d=\"M4.4 8.4l2.5 2.5 4.7-5.4\"/></svg>";

/// The sign of a fault: a full octagon with a cross in it.
const BAD: &str = "<svg class=\"sign bad\" viewBox=\"0 0 16 16\" aria-hidden=\"true\">\
    <path class=\"full\" d=\"M5 .5h6l4.5 4.5v6l-4.5 4.5h-6l-4.5-4.5v-6z\"/><path d=\"M5 5l6 6m0-6l-6 6\"/></svg>";

/// The sign before an answer or a mark. It repeats what the words behind it say.
pub fn sign(good: bool) -> &'static str {
    if good {
        GOOD
    } else {
        BAD
    }
}

/// Text from outside: no byte of it is taken for HTML, and what cannot be seen, or turns the text around it, is spelled
/// out.
pub fn escaped(text: &str) -> String {
    text.chars().map(shown).collect()
}

fn shown(sign: char) -> String {
    match sign {
        '&' => "&amp;".to_string(),
        '<' => "&lt;".to_string(),
        '>' => "&gt;".to_string(),
        '"' => "&quot;".to_string(),
        '\'' => "&#39;".to_string(),
        _ if unseen(sign) => sign.escape_unicode().to_string(),
        _ => sign.to_string(),
    }
}

fn unseen(sign: char) -> bool {
    let turning = matches!(sign, '\u{200b}'..='\u{200f}' | '\u{2028}'..='\u{202e}' | '\u{2060}'..='\u{206f}');
    sign.is_control() || turning || matches!(sign, '\u{61c}' | '\u{ad}' | '\u{feff}')
}

/// A text of this length has a place in any line.
const SHORT: usize = 36;

/// An equation or a term, which may go on in the next line behind a `+`, and behind a `*` where a single term is long.
/// A name such as x12 stays in one piece.
pub fn breakable(equation: &str) -> String {
    if equation.len() <= SHORT {
        return equation.to_string();
    }
    let terms: Vec<String> = equation.split('+').map(breakable_term).collect();
    terms.join("+<wbr>")
}

/// Words among which there are equations.
pub fn breakable_words(words: &str) -> String {
    words.split(' ').map(|word| breakable(&escaped(word))).collect::<Vec<_>>().join(" ")
}

fn breakable_term(term: &str) -> String {
    if term.len() <= SHORT {
        term.to_string()
    } else {
        term.replace('*', "*<wbr>")
    }
}
