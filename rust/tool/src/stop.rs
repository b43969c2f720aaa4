//! What ends a command before it has an answer.
use apfelruder::Refusal;

/// Why there is no answer.
#[derive(Debug, PartialEq, Eq)]
pub enum Stop {
    /// Wrong usage, or something that cannot be read or written: one line, status 2.
    Trouble(String),
    /// Something that was given is refused: status 1.
    Refused(Refused),
}

/// A refusal, with the words for it.
#[derive(Debug, PartialEq, Eq)]
pub struct Refused {
    /// The library's numbers; nothing where the tool itself refuses a file of parts.
    pub refusal: Option<Refusal>,
    /// What is said on standard error, without what stands before it: one line, or four with a caret among them.
    pub lines: Vec<String>,
}

/// Trouble, in these words.
pub fn trouble<T>(words: impl Into<String>) -> Result<T, Stop> {
    Err(Stop::Trouble(words.into()))
}

/// A refusal as one of the answers that a command can give. Trouble still ends it.
pub fn answered<T>(told: Result<T, Stop>) -> Result<Result<T, Refused>, Stop> {
    match told {
        Ok(answer) => Ok(Ok(answer)),
        Err(Stop::Refused(refused)) => Ok(Err(refused)),
        Err(Stop::Trouble(words)) => trouble(words),
    }
}

/// Whether the file is not open, or not for what was asked of it.
pub fn is_closed(error: &std::io::Error) -> bool {
    const NOT_OPEN: i32 = 9;
    error.raw_os_error() == Some(NOT_OPEN)
}

/// The system's own words for what failed, as they stand in a sentence.
pub fn why(error: &std::io::Error) -> String {
    let words = error.to_string();
    let words = words.split(" (os error").next().unwrap_or_default();
    let mut letters = words.chars();
    match letters.next() {
        Some(first) => first.to_lowercase().chain(letters).collect(),
        None => String::new(),
    }
}

#[cfg(test)]
mod tests {
    use super::why;
    use std::io;

    #[test]
    fn the_systems_words_fit_a_sentence() {
        assert_eq!(why(&io::Error::from_raw_os_error(28)), "no space left on device");
        assert_eq!(why(&io::Error::other("Odd")), "odd");
    }
}
