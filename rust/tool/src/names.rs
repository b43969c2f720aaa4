//! Names of files, in messages and as words for a shell.
use std::ffi::OsStr;
use std::fmt::Write;
use std::os::unix::ffi::OsStrExt;

/// The name as it was typed, in a message of one line. A name that would break the line, or that is no text, is shown as
/// a shell's word.
pub fn shown(name: &OsStr) -> String {
    match name.to_str() {
        Some(text) if !text.is_empty() && !text.contains(unseen) => text.to_string(),
        _ => quoted(name),
    }
}

/// A word that a shell takes for this one.
pub fn quoted(word: &OsStr) -> String {
    match word.to_str() {
        Some(text) if !text.is_empty() && text.bytes().all(plain) => text.to_string(),
        Some(text) if text.starts_with("--") && text.bytes().all(|byte| byte == b'=' || plain(byte)) => {
            text.to_string()
        }
        Some(text) if !text.contains(unseen) => format!("'{}'", text.replace('\'', r"'\''")),
        _ => escaped(word.as_bytes()),
    }
}

/// Words with spaces between them, each quoted where it must be.
pub fn command<'a>(words: impl IntoIterator<Item = &'a OsStr>) -> String {
    words.into_iter().map(quoted).collect::<Vec<_>>().join(" ")
}

/// A sign that means itself to a shell, wherever it stands in a word.
fn plain(byte: u8) -> bool {
    byte.is_ascii_alphanumeric() || b"_./:@%+,-".contains(&byte)
}

/// A sign that is not shown as itself: a control, one that ends a line, turns the direction of what follows, or has no width.
fn unseen(sign: char) -> bool {
    let shifts = ['\u{200b}'..='\u{200f}', '\u{2028}'..='\u{202e}', '\u{2060}'..='\u{206f}', '\u{feff}'..='\u{feff}'];
    sign.is_control() || shifts.iter().any(|signs| signs.contains(&sign))
}

/// The bytes in the form with escapes that bash, zsh and ksh know.
fn escaped(bytes: &[u8]) -> String {
    let mut word = "$'".to_string();
    for &byte in bytes {
        match byte {
            b'\n' => word.push_str("\\n"),
            b'\t' => word.push_str("\\t"),
            b'\r' => word.push_str("\\r"),
            b'\'' | b'\\' => word.extend(['\\', char::from(byte)]),
            b' '..=b'~' => word.push(char::from(byte)),
            _ => write!(word, "\\{byte:03o}").unwrap_or_default(),
        }
    }
    word.push('\'');
    word
}

#[cfg(test)]
mod tests {
    use super::{command, quoted, shown};
    use std::ffi::OsStr;
    use std::os::unix::ffi::OsStrExt;
    use std::process::Command;

    fn word(bytes: &[u8]) -> &OsStr {
        OsStr::from_bytes(bytes)
    }

    #[test]
    fn plain_names_stay_as_they_are() {
        for name in ["a.txt", "./board-7/approved.txt", "-", "x0_1+2,3@4%5:6", "--report=a.html"] {
            assert_eq!(shown(OsStr::new(name)), name);
            assert_eq!(quoted(OsStr::new(name)), name);
        }
    }

    #[test]
    fn a_message_keeps_a_name_that_leaves_its_line_whole() {
        assert_eq!(shown(OsStr::new("my board.txt")), "my board.txt");
        assert_eq!(shown(OsStr::new("Gr\u{fc}n.txt")), "Gr\u{fc}n.txt");
        assert_eq!(shown(word(b"two\nlines")), r"$'two\nlines'");
        assert_eq!(shown(word(b"\x1b[31mred")), r"$'\033[31mred'");
        assert_eq!(shown(word(b"\xff")), r"$'\377'");
        assert_eq!(shown(OsStr::new("a\u{2028}b: parts 0")), r"$'a\342\200\250b: parts 0'");
        assert_eq!(shown(OsStr::new("\u{202e}txt.a")), r"$'\342\200\256txt.a'");
        assert_eq!(quoted(OsStr::new("\u{feff}a b")), r"$'\357\273\277a b'");
        assert_eq!(shown(word(b"")), "''");
    }

    #[test]
    fn words_for_a_shell() {
        assert_eq!(quoted(OsStr::new("my board.txt")), "'my board.txt'");
        assert_eq!(quoted(OsStr::new("it's")), r"'it'\''s'");
        assert_eq!(quoted(OsStr::new("$HOME;ls")), "'$HOME;ls'");
        assert_eq!(quoted(OsStr::new("a=b")), "'a=b'");
        assert_eq!(quoted(word(b"")), "''");
        assert_eq!(command([OsStr::new("audit"), OsStr::new("a b"), OsStr::new("c")]), "audit 'a b' c");
    }

    /// A shell gives back each word as it was, whatever byte is in it, also before a digit.
    #[test]
    fn a_shell_reads_what_was_quoted() {
        for byte in 1..=255u8 {
            let asked = [&[byte][..], b"7 ", &[byte], b"~*"].concat();
            let line = format!("printf %s {}", quoted(word(&asked)));
            let told = Command::new("bash").args(["-c", &line]).output().expect("bash runs");
            assert_eq!(told.stdout, asked, "{line}");
        }
    }
}
