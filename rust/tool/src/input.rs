//! Files and standard input, and the equations in them.
use crate::names;
use crate::stop::{is_closed, trouble, why, Stop};
use crate::words::{self, Where};
use std::ffi::{OsStr, OsString};
use std::fs::File;
use std::io::{self, IsTerminal, Read};
use std::os::fd::AsFd;

/// So much is read of an equation: one byte more than the longest text has. Cutting there never changes an answer. A longer
/// text is refused for its length, whatever stands in it. The first 3 bytes of a block say how long it is, never longer than
/// 8,195 bytes, so of more bytes than that nothing matters but that there are some.
pub const EQUATION_BYTES: usize = apfelruder::MAX_TEXT_BYTES + 1;

/// Where bytes come from.
#[derive(Clone, Debug, PartialEq, Eq)]
pub enum Source {
    /// Standard input: `-`, or no file.
    Standard,
    /// A file, by its name as it was typed.
    File(OsString),
}

impl Source {
    /// What a word of the command line names.
    pub fn of(word: &OsStr) -> Source {
        if word == "-" {
            Source::Standard
        } else {
            Source::File(word.to_os_string())
        }
    }

    /// Its name in messages.
    pub fn name(&self) -> String {
        match self {
            Source::Standard => "standard input".to_string(),
            Source::File(name) => names::shown(name),
        }
    }

    /// Its first bytes, at most so many.
    pub fn bytes(&self, most: usize) -> Result<Vec<u8>, Stop> {
        let told = match self {
            Source::Standard => io::stdin().as_fd().try_clone_to_owned().map(File::from),
            Source::File(name) => File::open(name),
        };
        told.and_then(|file| first_bytes(file, most)).or_else(|error| trouble(self.unread(&error)))
    }

    fn unread(&self, error: &io::Error) -> String {
        let name = self.name();
        match (self, error.kind()) {
            (Source::File(_), io::ErrorKind::NotFound) => format!("there is no file {name}"),
            (Source::Standard, _) if is_closed(error) => "standard input is closed".to_string(),
            _ => format!("{name} cannot be read: {}", why(error)),
        }
    }
}

/// Whether a person would have to type what is read.
pub fn is_terminal() -> bool {
    io::stdin().is_terminal()
}

fn first_bytes(file: File, most: usize) -> io::Result<Vec<u8>> {
    if file.metadata()?.is_dir() {
        return Err(io::Error::other("it is a folder"));
    }
    let mut bytes = Vec::new();
    file.take(most as u64).read_to_end(&mut bytes)?;
    Ok(bytes)
}

/// What bytes are taken for.
#[derive(Debug, PartialEq, Eq)]
pub enum Kind {
    /// An equation as it is typed.
    Text,
    /// An equation packed into bytes.
    Block,
}

/// A text, or a block, told by the first byte: a block of form 1 begins with hex 1. Whatever else could be seen in an editor
/// is taken for text, so that what is wrong with it can be shown there. No bytes are no block, and are refused as such.
pub fn kind(bytes: &[u8]) -> Kind {
    match bytes.first() {
        Some(b'\t' | b'\n' | b'\r' | b' '..=b'~' | 0x80..) => Kind::Text,
        _ => Kind::Block,
    }
}

/// The equation that a file or standard input holds.
pub fn equation(source: &Source) -> Result<Vec<u64>, Stop> {
    let bytes = source.bytes(EQUATION_BYTES)?;
    let place = Where::File(source);
    match kind(&bytes) {
        Kind::Text => apfelruder::read_text(&bytes).map_err(|refusal| words::text(&place, &bytes, refusal)),
        Kind::Block => apfelruder::read(&bytes).map_err(|refusal| words::block(&place, &bytes, refusal)),
    }
}

#[cfg(test)]
mod tests {
    use super::{kind, Kind, Source};
    use std::ffi::OsStr;

    #[test]
    fn the_first_byte_tells() {
        for byte in 0..=255u8 {
            let text = matches!(byte, 9 | 10 | 13 | 32..=126 | 128..=255);
            let expected = if text { Kind::Text } else { Kind::Block };
            assert_eq!(kind(&[byte, b'x']), expected, "{byte}");
        }
        assert_eq!(kind(b""), Kind::Block);
    }

    #[test]
    fn what_is_written_is_told_apart() {
        for list in [&[][..], &[0], &[1], &[0, 1], &[1, 2, 5, 6], &[0, 1 << 63]] {
            assert_eq!(kind(apfelruder::write_text(list).expect("a list").as_bytes()), Kind::Text);
            assert_eq!(kind(&apfelruder::write(list).expect("a list")), Kind::Block);
        }
    }

    #[test]
    fn a_dash_is_standard_input() {
        assert_eq!(Source::of(OsStr::new("-")), Source::Standard);
        assert_eq!(Source::of(OsStr::new("./-")).name(), "./-");
        assert_eq!(Source::Standard.name(), "standard input");
    }
}
