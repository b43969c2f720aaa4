//! Trouble: files that cannot be read, output that cannot be written whole. Each time one line on standard error, status 2, an
//! old file as it was, and no file more than before. And files that are far too long, which are refused and not read to the end.
mod common;

use common::expect::yes;
use common::poly::{block, poly, text, Poly};
use common::{ended, Room, TOOL};
use std::ffi::OsStr;
use std::fs::{self, File, Permissions};
use std::io::{Read, Write};
use std::os::unix::ffi::OsStrExt;
use std::os::unix::fs::{FileTypeExt, MetadataExt, PermissionsExt};
use std::os::unix::process::CommandExt;
use std::process::{Command, Stdio};
use std::thread;

/// Every command, with a word FILE where a file is named that makes trouble.
const READS: [&[&str]; 12] = [
    &["split", "FILE"],
    &["split", "FILE", "a"],
    &["split", "a", "FILE"],
    &["split", "zero", "FILE", "a"],
    &["pack", "FILE"],
    &["unpack", "FILE"],
    &["multiply", "FILE", "a"],
    &["multiply", "a", "FILE"],
    &["same", "a", "a", "a", "FILE"],
    &["audit", "FILE", "a"],
    &["audit", "a", "FILE"],
    &["audit", "a", "a", "FILE"],
];

/// Every command that prints, so that it prints something; `b` shares no input with `a`.
const PRINTS: [&[&str]; 14] = [
    &["split", "a"],
    &["split", "a", "b"],
    &["split", "a", "zero", "b"],
    &["pack", "a"],
    &["unpack", "a"],
    &["multiply", "a", "b"],
    &["same", "a", "b", "b", "a"],
    &["same", "a", "b", "b", "b"],
    &["audit", "a", "a"],
    &["audit", "a", "b"],
    &["split", "zero"],
    &["--help"],
    &["help", "audit"],
    &["--version"],
];

fn room() -> Room {
    Room::with(&[("a", "x0+x1\n"), ("b", "x2\n"), ("zero", "0\n")])
}

fn naming<'a>(words: &[&'a str], file: &'a str) -> Vec<&'a str> {
    words.iter().map(|&word| if word == "FILE" { file } else { word }).collect()
}

/// An equation whose block and whose text are both longer than a few disk blocks.
fn long() -> Poly {
    (0..1024).map(|term| term << 50 | term).collect()
}

#[test]
fn files_that_cannot_be_read() {
    let room = room();
    fs::create_dir(room.path().join("folder")).expect("a folder");
    for words in READS {
        for (file, said) in [("missing", "missing"), ("folder", "folder"), ("a/below", "a/below"), ("", "")] {
            room.run(&naming(words, file)).trouble(&[said]);
        }
    }
    let input = || File::open(room.path().join("folder")).expect("the folder opens");
    for words in [&["split"][..], &["split", "a", "-"], &["pack", "-"], &["audit", "-", "a"], &["audit", "a", "-"]] {
        ended(room.tool(words).stdin(input())).trouble(&["standard input"]);
    }
    assert_eq!(room.names(), ["a", "b", "folder", "zero"]);
}

/// A file that the user may not read, and a folder that the user may not write into. Root may do both, so root runs a copy of
/// the tool as a user who is nobody.
#[test]
fn no_permission() {
    let room = room();
    let root = fs::metadata("/proc/self").expect("who runs this").uid() == 0;
    // by another program: a file that is open for writing in a child that another thread has just forked cannot be run
    let copied = Command::new("cp").arg(TOOL).arg(room.path().join("tool")).status().expect("cp starts");
    assert!(copied.success(), "a copy of the tool");
    fs::create_dir(room.path().join("folder")).expect("a folder");
    room.file("secret", "x0\n");
    room.file("folder/old", "old");
    let mode = |name: &str, mode| fs::set_permissions(room.path().join(name), Permissions::from_mode(mode));
    for (name, bits) in [("", 0o755), ("a", 0o644), ("tool", 0o755), ("secret", 0), ("folder", 0o555)] {
        mode(name, bits).expect("the mode is set");
    }
    let run = |words: &[&str]| {
        let mut command = Command::new(room.path().join("tool"));
        command.args(words).current_dir(room.path()).stdin(Stdio::null());
        if root {
            command.uid(65_534).gid(65_534);
        }
        ended(&mut command)
    };
    run(&["split", "a"]).gave("parts 1\nx0+x1\n");
    run(&["split", "secret"]).trouble(&["secret"]);
    run(&["split", "a", "secret", "a"]).trouble(&["secret"]);
    run(&["audit", "a", "secret"]).trouble(&["secret"]);
    run(&["unpack", "a", "-o", "folder/new"]).trouble(&["folder/new"]);
    run(&["audit", "a", "a", "--report", "folder/new"]).troubled(&["folder/new"]);
    mode("folder", 0o755).expect("the mode is set back");
    let left: Vec<_> = fs::read_dir(room.path().join("folder")).expect("the folder is read").collect();
    assert_eq!((left.len(), room.text("folder/old")), (1, "old".into()));
}

#[test]
fn a_full_disk_behind_standard_output() {
    let room = room();
    for words in PRINTS {
        let full = File::options().write(true).open("/dev/full").expect("a full disk");
        ended(room.tool(words).stdout(full)).trouble(&["standard output"]);
    }
}

/// A pipe that nobody reads any more: the one who did has ended, and no child that another thread has just forked has it open.
#[test]
fn a_closed_pipe() {
    let room = room();
    for words in PRINTS {
        let mut reader = Command::new("true").stdin(Stdio::piped()).spawn().expect("true starts");
        let mut pipe = reader.stdin.take().expect("a pipe");
        assert!(reader.wait().expect("true ends").success());
        while pipe.write_all(b" ").is_ok() {
            thread::yield_now();
        }
        ended(room.tool(words).stdout(pipe)).trouble(&["standard output"]);
    }
}

/// A reader that goes away after the first byte, with more to come than a pipe holds.
#[test]
fn a_pipe_that_is_closed_before_the_end() {
    let room = Room::new();
    let long: Poly = (1..=1020).map(|low| low | !0 << 10).chain([0]).collect();
    assert!(text(&long).len() > 200_000);
    room.file("long", block(&long));
    let mut child = room.tool(&["split", "long"]).spawn().expect("the tool starts");
    let mut pipe = child.stdout.take().expect("its standard output");
    let mut first = [0];
    pipe.read_exact(&mut first).expect("a first byte");
    assert_eq!(&first, b"p");
    drop(pipe);
    let ended = child.wait_with_output().expect("the tool ends");
    let err = String::from_utf8_lossy(&ended.stderr);
    assert_eq!(ended.status.code(), Some(2), "{err}");
    assert!(err.starts_with("apfelruder: ") && err.lines().count() == 1, "{err}");
}

/// Where nothing can be said, the status still says it.
#[test]
fn standard_error_that_cannot_be_written() {
    let room = room();
    let all: [(&[&str], i32); 6] = [
        (&["split", "a"], 0),
        (&["split", "zero"], 1),
        (&["split", "a", "b"], 0),
        (&["split", "a", "zero", "b"], 1),
        (&["pack", "missing"], 2),
        (&["splat", "a"], 2),
    ];
    for (words, status) in all {
        let full = File::options().write(true).open("/dev/full").expect("a full disk");
        assert_eq!(ended(room.tool(words).stderr(full)).status, Some(status), "{words:?}");
    }
    let full = File::options().write(true).open("/dev/full").expect("a full disk");
    let told = ended(room.tool(&["split", "zero", "b"]).stderr(full));
    assert_eq!(told.text(), "zero: refused 1 1 0\nb: parts 1\nx2\n");
}

/// A limit on the length of a file stands for a disk that is full after some bytes or at once.
#[test]
fn a_full_disk_behind_a_named_file() {
    let room = room();
    let approved = text(&long()) + "\n";
    assert!(block(&long()).len() > 4096 && approved.len() > 4096 && approved.len() <= 65_536);
    room.file("long", &approved);
    room.file("old", "old");
    let all: [&[&str]; 5] = [
        &["pack", "long", "-o"],
        &["unpack", "long", "-o"],
        &["multiply", "long", "one", "-o"],
        &["audit", "long", "long", "--report"],
        &["audit", "a", "a", "--report"],
    ];
    room.file("one", "1\n");
    for words in all {
        for blocks in ["0", "2"] {
            for out in ["old", "new"] {
                let words: Vec<&str> = words.iter().copied().chain([out]).collect();
                let limit = format!("trap '' XFSZ; ulimit -f {blocks}");
                ended(&mut room.shell(&limit, &words)).troubled(&[out]);
                assert_eq!(room.text("old"), "old", "{words:?}");
                assert_eq!(room.names(), ["a", "b", "long", "old", "one", "zero"], "{words:?}");
            }
        }
        let words: Vec<&str> = words.iter().copied().chain(["fits"]).collect();
        let fits = ended(&mut room.shell("ulimit -f 100000", &words));
        assert!(fits.err.is_empty() && room.bytes("fits").len() > 1024, "{words:?}: {}", fits.err);
        fs::remove_file(room.path().join("fits")).expect("the file is there");
    }
}

#[test]
fn named_files_that_cannot_be_written() {
    let room = room();
    fs::create_dir(room.path().join("folder")).expect("a folder");
    for out in ["missing/out", "folder", "a/below", ""] {
        for command in ["pack", "unpack"] {
            room.run(&[command, "a", "-o", out]).trouble(&[out]);
        }
        room.run(&["multiply", "a", "b", "-o", out]).trouble(&[out]);
        room.run(&["audit", "a", "a", "--report", out]).troubled(&[out]);
    }
    assert_eq!(room.names(), ["a", "b", "folder", "zero"]);
    assert_eq!(fs::read_dir(room.path().join("folder")).expect("the folder is read").count(), 0);
}

/// What is no file is written into and stays what it is: a link, a pipe, a device.
#[test]
fn named_files_that_are_no_files() {
    let room = room();
    let made = |program: &str, words: &[&str]| {
        let made = Command::new(program).args(words).current_dir(room.path()).status().expect("the program starts");
        assert!(made.success(), "{program} {words:?}");
    };
    made("ln", &["-s", "behind", "link"]);
    for old in ["", "old"] {
        room.file("behind", old);
        room.run(&["unpack", "a", "-o", "link"]).gave("");
        assert_eq!((room.text("behind").as_str(), room.kind("link").is_symlink()), ("x0+x1\n", true));
    }
    made("mkfifo", &["pipe"]);
    let mut pipe = File::options().read(true).write(true).open(room.path().join("pipe")).expect("the pipe opens");
    room.run(&["unpack", "a", "-o", "pipe"]).gave("");
    pipe.write_all(b"end").expect("there is room in the pipe");
    let mut came = [0; 100];
    let many = pipe.read(&mut came).expect("something is in the pipe");
    assert_eq!((&came[..many], room.kind("pipe").is_fifo()), (&b"x0+x1\nend"[..], true));
    assert_eq!(room.names(), ["a", "b", "behind", "link", "pipe", "zero"]);
}

/// Where something cannot be read there is no file either, whichever file it is.
#[test]
fn nothing_is_written_in_trouble() {
    let room = room();
    room.file("old", "old");
    for out in ["old", "new"] {
        room.run(&["pack", "missing", "-o", out]).trouble(&["missing"]);
        room.run(&["multiply", "a", "missing", "-o", out]).trouble(&["missing"]);
        room.run(&["audit", "a", "missing", "--report", out]).trouble(&["missing"]);
        room.run(&["audit", "missing", "a", "--report", out]).trouble(&["missing"]);
    }
    assert_eq!(
        (room.text("old"), room.names()),
        ("old".into(), vec!["a".into(), "b".into(), "old".into(), "zero".into()])
    );
}

/// Files of a gigabyte: of zeros, of a text, of a block with bytes behind it.
#[test]
fn a_gigabyte() {
    let room = room();
    for (first, numbers, word) in
        [(&b"\0"[..], "8 1 0", "Form"), (b"x", "2 1 0", "TooMany"), (b"\x10", "12 1 0", "Extra")]
    {
        room.gigabyte("long", first);
        for words in READS.into_iter().filter(|words| words[0] != "split" || words.len() == 2) {
            let ended = room.run(&naming(words, "long"));
            // what is no block is, among the parts, a file of parts, and longer than one may be
            let numbers = if words[0] == "audit" && words[1] != "FILE" && first == b"x" { "2 0 0" } else { numbers };
            ended.refused_in_words("long", numbers, word);
            let printed = if words[0] == "split" { format!("refused {numbers}\n") } else { String::new() };
            assert_eq!((ended.text(), ended.err.lines().count()), (printed.as_str(), 1), "{words:?}: {}", ended.err);
        }
        let boards = room.run(&["split", "a", "long", "b"]);
        boards.refused_in_words("long", numbers, word);
        let printed = format!("a: parts 1\nx0+x1\nlong: refused {numbers}\nb: parts 1\nx2\n");
        assert_eq!((boards.text(), boards.err.lines().count()), (printed.as_str(), 1), "{}", boards.err);
        let input = File::open(room.path().join("long")).expect("the file opens");
        ended(room.tool(&["pack"]).stdin(input)).refused("standard input", numbers, word);
    }
    room.run(&["pack", "/dev/zero"]).refused("/dev/zero", "8 1 0", "Form");
}

/// A line of a file of parts may be as long as a text, and the file much longer.
#[test]
fn long_files_of_parts() {
    let room = room();
    let line = text(&long());
    let many = format!("{line}\n").repeat(64);
    assert!(many.len() > 1_000_000);
    room.file("parts", &many);
    room.file("more", format!("{many}x0\n"));
    let shared = room.run(&["audit", "a", "parts"]);
    assert!(shared.status == Some(1) && shared.text().contains("parts 63 and 64 share the inputs "), "{}", shared.err);
    room.run(&["audit", "a", "more"]).is_refused_with("refused 2 0 0 (TooMany): ");
    room.file("wide", format!("x1\n{}\n", vec!["x0"; 30_000].join("+")));
    room.run(&["audit", "a", "wide"]).is_refused_with("refused 2 1 0 (TooMany): ");
}

/// A name is bytes, and need not be text.
#[test]
fn names_that_are_not_text() {
    let room = room();
    let (name, other) = (OsStr::from_bytes(b"na\xffme"), OsStr::from_bytes(b"no\xff"));
    room.file(name, "x3\n");
    room.run(&[OsStr::new("split"), name]).gave("parts 1\nx3\n");
    room.run(&[OsStr::new("split"), other]).trouble(&["no"]);
    room.run(&[OsStr::new("pack"), name, OsStr::new("-o"), other]).gave("");
    assert_eq!(fs::read(room.path().join(other)).expect("the file is there"), block(&poly(&[8])));
    room.run(&[OsStr::new("audit"), name, name, OsStr::new("--report"), other]).gave(yes(1));
    // nor fit into a line
    let broken = OsStr::from_bytes(b"two\nlines");
    room.run(&[OsStr::new("split"), broken]).trouble(&["two", "lines"]);
    room.file(broken, "0\n");
    assert_eq!(room.run(&[OsStr::new("split"), broken]).err.lines().count(), 1);
    // so each board has the lines that it should have, and no name makes one more
    let fake = OsStr::from_bytes(b"a: parts 1\nx0+x1\n\x1b[2Jb");
    room.file(fake, "x9\n");
    let boards = room.run(&[OsStr::new("split"), name, broken, fake, OsStr::new("./a")]);
    let printed = [
        r"$'na\377me': parts 1",
        "x3",
        r"$'two\nlines': refused 1 1 0",
        r"$'a: parts 1\nx0+x1\n\033[2Jb': parts 1",
        "x9",
        "./a: parts 1",
        "x0+x1\n",
    ];
    assert_eq!(boards.text(), printed.join("\n"));
    boards.refused_in_words(r"$'two\nlines'", "1 1 0", "Zero");
    assert_eq!(boards.err.lines().count(), 1);
    room.run(&[OsStr::new("split"), name, OsStr::new("")]).trouble(&["there is no file ''"]);
    room.run(&[OsStr::new("split"), name, OsStr::from_bytes(b"no\nsuch")]).trouble(&[r"there is no file $'no\nsuch'"]);
}
