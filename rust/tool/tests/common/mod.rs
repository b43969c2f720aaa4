//! What the tests share: a folder for each test, the tool run in it as people do, and the ways in which it may end.
//!
//! The tool is always run inside the folder, so a file is named in its messages as it is named here.
#![allow(dead_code)] // each file of tests is a program of its own and needs only some of this

pub mod board;
pub mod expect;
pub mod poly;

use std::ffi::OsStr;
use std::fs;
use std::io::{ErrorKind, Write};
use std::path::{Path, PathBuf};
use std::process::{Command, Stdio};
use std::sync::atomic::{AtomicUsize, Ordering};
use std::thread;

/// The tool.
pub const TOOL: &str = env!("CARGO_BIN_EXE_apfelruder");

/// A folder of its own, removed at the end.
pub struct Room(PathBuf);

impl Room {
    /// An empty folder among the system's temporary files.
    pub fn new() -> Room {
        static NEXT: AtomicUsize = AtomicUsize::new(0);
        let number = NEXT.fetch_add(1, Ordering::Relaxed);
        let path = std::env::temp_dir().join(format!("apfelruder-tool-{}-{number}", std::process::id()));
        fs::create_dir(&path).expect("the test's folder is new");
        Room(path)
    }

    /// A folder that holds these files.
    pub fn with(files: &[(&str, &str)]) -> Room {
        let room = Room::new();
        for (name, content) in files {
            room.file(name, content);
        }
        room
    }

    /// Where it stands.
    pub fn path(&self) -> &Path {
        &self.0
    }

    /// Writes a file.
    pub fn file(&self, name: impl AsRef<Path>, content: impl AsRef<[u8]>) {
        fs::write(self.0.join(name), content).expect("the test's file is written");
    }

    /// What a file holds.
    pub fn bytes(&self, name: &str) -> Vec<u8> {
        fs::read(self.0.join(name)).unwrap_or_else(|fault| panic!("{name}: {fault}"))
    }

    /// What a file of text holds.
    pub fn text(&self, name: &str) -> String {
        String::from_utf8(self.bytes(name)).expect("the file is text")
    }

    /// Whether it is a file, a folder, a link or something else.
    pub fn kind(&self, name: &str) -> fs::FileType {
        fs::symlink_metadata(self.0.join(name)).expect("it is there").file_type()
    }

    /// A file of a gigabyte that takes no room on the disk: these bytes, then zeros.
    pub fn gigabyte(&self, name: &str, begin: &[u8]) {
        let mut file = fs::File::create(self.0.join(name)).expect("the test's file is made");
        file.write_all(begin).expect("the first bytes are written");
        file.set_len(1 << 30).expect("the file is made long");
    }

    /// The names of all that stands in it, in order: what a run left behind.
    pub fn names(&self) -> Vec<String> {
        let entries = fs::read_dir(&self.0).expect("the test's folder is read");
        let name = |entry: std::io::Result<fs::DirEntry>| entry.expect("an entry").file_name();
        let mut names: Vec<String> = entries.map(|entry| name(entry).to_string_lossy().into_owned()).collect();
        names.sort();
        names
    }

    /// The tool with these words, in this folder, not yet run. No variable of the caller changes what it prints.
    pub fn tool<S: AsRef<OsStr>>(&self, words: &[S]) -> Command {
        self.command(TOOL, words)
    }

    /// The tool, run by a shell that does `first` before: `ulimit -f 1`, say.
    pub fn shell<S: AsRef<OsStr>>(&self, first: &str, words: &[S]) -> Command {
        let mut command = self.command("sh", &["-c", &format!("{first}; exec \"$0\" \"$@\""), TOOL]);
        command.args(words);
        command
    }

    fn command<S: AsRef<OsStr>>(&self, program: &str, words: &[S]) -> Command {
        let mut command = Command::new(program);
        command.args(words).current_dir(&self.0).env_remove("SOURCE_DATE_EPOCH");
        command.stdin(Stdio::null()).stdout(Stdio::piped()).stderr(Stdio::piped());
        command
    }

    /// Runs the tool with these words and nothing to read.
    pub fn run<S: AsRef<OsStr>>(&self, words: &[S]) -> Ended {
        ended(&mut self.tool(words))
    }

    /// Runs the tool with these words and these bytes on standard input, through a pipe.
    pub fn run_on<S: AsRef<OsStr>>(&self, words: &[S], input: impl AsRef<[u8]>) -> Ended {
        let mut child = self.tool(words).stdin(Stdio::piped()).spawn().expect("the tool starts");
        let mut pipe = child.stdin.take().expect("its standard input");
        let input = input.as_ref().to_vec();
        let writer = thread::spawn(move || match pipe.write_all(&input) {
            Err(fault) if fault.kind() != ErrorKind::BrokenPipe => panic!("writing to the tool: {fault}"),
            _ => {}
        });
        let output = child.wait_with_output().expect("the tool ends");
        writer.join().expect("all was written, or the tool had read enough");
        Ended::of(output)
    }
}

impl Drop for Room {
    fn drop(&mut self) {
        let removed = fs::remove_dir_all(&self.0);
        assert!(removed.is_ok() || thread::panicking(), "the test's folder cannot be removed");
    }
}

/// Runs a command to its end.
pub fn ended(command: &mut Command) -> Ended {
    Ended::of(command.output().expect("the tool starts"))
}

/// How a run ended.
pub struct Ended {
    /// The status; `None` if a signal ended it.
    pub status: Option<i32>,
    /// Standard output.
    pub out: Vec<u8>,
    /// Standard error.
    pub err: String,
}

impl Ended {
    fn of(output: std::process::Output) -> Ended {
        let err = String::from_utf8_lossy(&output.stderr).into_owned();
        Ended { status: output.status.code(), out: output.stdout, err }
    }

    /// Standard output, as text.
    pub fn text(&self) -> &str {
        std::str::from_utf8(&self.out).expect("standard output is text")
    }

    /// It ended with 0 and printed exactly these bytes, and nothing on standard error.
    #[track_caller]
    pub fn gave(&self, out: impl AsRef<[u8]>) {
        self.is(0, out.as_ref(), "");
    }

    /// It ended with 1 and printed exactly this, and nothing on standard error: the answer is no.
    #[track_caller]
    pub fn said_no(&self, out: &str) {
        self.is(1, out.as_ref(), "");
    }

    /// All three are exactly these.
    #[track_caller]
    pub fn is(&self, status: i32, out: &[u8], err: &str) {
        let printed = String::from_utf8_lossy(&self.out);
        assert_eq!(self.status, Some(status), "status; out: {printed}; err: {}", self.err);
        assert_eq!(printed, String::from_utf8_lossy(out), "standard output");
        assert_eq!(self.out, out, "standard output, byte for byte");
        assert_eq!(self.err, err, "standard error");
    }

    /// Refused: status 1, and one line of standard error with the name, the numbers and the code's word, then a sentence.
    /// Nothing on standard output. Gives the sentence.
    #[track_caller]
    pub fn refused(&self, name: &str, numbers: &str, word: &str) -> &str {
        assert_eq!(String::from_utf8_lossy(&self.out), "", "standard output of a refusal");
        let sentence = self.refused_in_words(name, numbers, word);
        assert_eq!(self.err.lines().count(), 1, "one line: {}", self.err);
        sentence
    }

    /// As `refused`, whatever stands on standard output and below the first line of standard error.
    #[track_caller]
    pub fn refused_in_words(&self, name: &str, numbers: &str, word: &str) -> &str {
        assert_eq!(self.status, Some(1), "status; err: {}", self.err);
        let begin = format!("apfelruder: {name}: refused {numbers} ({word}): ");
        let line = self.err.lines().next().unwrap_or("");
        let sentence = line.strip_prefix(&begin).unwrap_or_else(|| panic!("no {begin:?} but: {}", self.err));
        assert!(sentence.split_whitespace().count() > 2, "no sentence: {line}");
        assert!(self.err.ends_with('\n'), "the last line is not ended: {}", self.err);
        sentence
    }

    /// Refused: status 1, nothing on standard output, and a first line of standard error that says so with these words.
    #[track_caller]
    pub fn is_refused_with(&self, words: &str) {
        assert_eq!(self.status, Some(1), "status; err: {}", self.err);
        assert_eq!(String::from_utf8_lossy(&self.out), "", "standard output of a refusal");
        let line = self.err.lines().next().unwrap_or("");
        assert!(line.starts_with("apfelruder: ") && line.contains(words), "no {words:?} in: {}", self.err);
        assert!(self.err.ends_with('\n'), "the last line is not ended: {}", self.err);
    }

    /// Below the first line of standard error stand exactly the line that was wrong, a caret under its byte `at`, counted from
    /// 0, and, behind the caret or in a line more, what was expected there. Gives the last.
    #[track_caller]
    pub fn caret(&self, shown: &str, at: usize) -> &str {
        let lines: Vec<&str> = self.err.lines().collect();
        assert!(lines.len() == 3 || lines.len() == 4, "not the line, the caret and what was expected: {}", self.err);
        let indent = lines[1].strip_suffix(shown).unwrap_or_else(|| panic!("no line {shown:?}: {}", self.err));
        assert!(indent.len() < 12, "more before the line than an indent: {}", self.err);
        let under = lines[2].find('^').unwrap_or_else(|| panic!("no caret: {}", self.err));
        assert_eq!(under, indent.len() + at, "where the caret stands: {}", self.err);
        assert_eq!(lines[2][..under].trim(), "", "something before the caret: {}", self.err);
        let behind = lines[2][under + 1..].trim();
        assert_eq!(behind.is_empty(), lines.len() == 4, "what was expected stands twice or not at all: {}", self.err);
        let told = lines.get(3).map_or(behind, |line| line.trim());
        told.strip_prefix("expected: ").unwrap_or_else(|| panic!("not what was expected: {}", self.err))
    }

    /// Trouble: status 2, nothing on standard output, one line of standard error that holds these words.
    #[track_caller]
    pub fn trouble(&self, words: &[&str]) {
        assert_eq!(String::from_utf8_lossy(&self.out), "", "standard output of trouble");
        self.troubled(words);
    }

    /// As `trouble`, whatever stands on standard output.
    #[track_caller]
    pub fn troubled(&self, words: &[&str]) {
        assert_eq!(self.status, Some(2), "status; err: {}", self.err);
        assert!(self.err.starts_with("apfelruder: ") && self.err.ends_with('\n'), "no line but: {:?}", self.err);
        assert_eq!(self.err.lines().count(), 1, "one line: {}", self.err);
        for word in words {
            assert!(self.err.contains(word), "no {word:?} in: {}", self.err);
        }
    }

    /// Wrong usage: trouble with a line that ends with the help to ask for.
    #[track_caller]
    pub fn wrong_usage(&self, words: &[&str]) {
        self.trouble(words);
        let (before, asked) = self.err.trim_end().rsplit_once("apfelruder ").unwrap_or(("", ""));
        assert!(before.starts_with("apfelruder: "), "no help to ask for in: {}", self.err);
        let named = asked.trim_end_matches([')', '`', '\'', '.']);
        assert!(
            named.starts_with("help") || named.ends_with("--help"),
            "it does not end with the help to ask for: {}",
            self.err
        );
    }
}
