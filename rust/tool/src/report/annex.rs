//! Long equations. Where one is spoken of, only its beginning stands; it is whole, once, at the end of the page.
use super::html::breakable;
use super::words::counted;
use crate::equation::{equation, term};

/// An equation of at most so many bytes stands where it is spoken of.
const LONG: usize = 1000;
/// So many bytes of a longer one do.
const BEGINNING: usize = 120;

/// Whether an equation is too long to stand where it is spoken of.
pub fn is_long(terms: &[u64]) -> bool {
    equation(terms).len() > LONG
}

/// The long equations of a page, each once: their text and the number of their terms.
#[derive(Default)]
pub struct Annex {
    whole: Vec<(String, usize)>,
}

impl Annex {
    /// An equation where it is spoken of.
    pub fn equation(&mut self, terms: &[u64]) -> String {
        if is_long(terms) {
            self.beginning(equation(terms), terms.len())
        } else {
            breakable(&equation(terms))
        }
    }

    /// An equation some of whose terms stand between these tags; a long one has no tags.
    pub fn marked(&mut self, terms: &[u64], tag: &str, marked: &[u64]) -> String {
        if marked.is_empty() || is_long(terms) {
            return self.equation(terms);
        }
        let one = |&one: &u64| {
            let text = breakable(&term(one));
            if marked.contains(&one) {
                format!("<{tag}>{text}</{tag}>")
            } else {
                text
            }
        };
        terms.iter().map(one).collect::<Vec<_>>().join("+<wbr>")
    }

    fn beginning(&mut self, text: String, terms: usize) -> String {
        let begins = &text[..BEGINNING];
        let last = begins.rfind('+').or(begins.rfind('*')).unwrap_or(0);
        let begins = breakable(&text[..=last]);
        let number = self.number(text, terms);
        format!("{begins}<span class=\"more\"> … (<a href=\"#e{number}\">whole at the end, as E{number}</a>)</span>")
    }

    fn number(&mut self, text: String, terms: usize) -> usize {
        let known = self.whole.iter().position(|(whole, _)| *whole == text);
        known.unwrap_or_else(|| {
            self.whole.push((text, terms));
            self.whole.len() - 1
        }) + 1
    }

    /// The last section of a page that has long equations.
    pub fn section(&self) -> String {
        if self.whole.is_empty() {
            return String::new();
        }
        let one = |(i, (text, terms)): (usize, &(String, usize))| {
            let number = i + 1;
            let size = counted(*terms, "term");
            format!("<h3 id=\"e{number}\">E{number}, {size}</h3>\n<p class=\"equation\">{}</p>\n", breakable(text))
        };
        let all: String = self.whole.iter().enumerate().map(one).collect();
        format!("<section class=\"annex\">\n<h2>Long equations, whole</h2>\n{all}</section>\n")
    }
}
