//! Help at every level, the version, and wrong usage. What the help names is accepted, and what is accepted is named: each
//! option that could be typed is tried with each command.
mod common;

use common::Room;
use std::collections::BTreeSet;
use std::fs::File;
use std::io::IsTerminal;
use std::process::Stdio;

/// The commands, each with words that it accepts and answers with status 0.
const COMMANDS: [(&str, &[&str]); 6] = [
    ("split", &["a"]),
    ("pack", &["a"]),
    ("unpack", &["a"]),
    ("multiply", &["a", "b"]),
    ("same", &["a", "b", "b", "a"]),
    ("audit", &["a", "a"]),
];

fn room() -> Room {
    Room::with(&[("a", "x0\n"), ("b", "x1\n")])
}

/// What `apfelruder WORDS` prints as help.
#[track_caller]
fn help(room: &Room, words: &[&str]) -> String {
    let ended = room.run(words);
    ended.is(0, &ended.out, "");
    let text = ended.text().to_string();
    assert!(text.lines().count() > 3 && text.ends_with('\n'), "{words:?} prints no help: {text}");
    assert!(text.lines().all(|line| line.len() <= 120 && line == line.trim_end()), "{words:?}: a long line: {text}");
    text
}

/// Every word of a help text that is spelled like an option: `-o`, `--report`.
fn options(help: &str) -> BTreeSet<String> {
    let ends = |c: char| !(c.is_ascii_alphanumeric() || c == '-');
    let option = |word: &&str| word.len() > 1 && word.starts_with('-') && *word != "--";
    help.split(ends).filter(option).map(str::to_string).collect()
}

#[test]
fn help_at_every_level() {
    let room = room();
    let all = help(&room, &["--help"]);
    assert_eq!(help(&room, &["-h"]), all);
    assert_eq!(help(&room, &["help"]), all);
    for (command, _) in COMMANDS {
        assert!(all
            .lines()
            .any(|line| line.contains(&format!("apfelruder {command}")) || line.trim().starts_with(command)));
        let one = help(&room, &[command, "--help"]);
        assert_eq!(help(&room, &[command, "-h"]), one, "{command}");
        assert_eq!(help(&room, &["help", command]), one, "{command}");
        assert!(one.contains(&format!("apfelruder {command}")), "{one}");
        assert_ne!(one, all);
    }
    for status in ["0", "1", "2"] {
        assert!(all.split(|c: char| !c.is_alphanumeric()).any(|word| word == status), "no status {status}: {all}");
    }
    for option in ["-h", "--help", "-V", "--version"] {
        assert!(options(&all).contains(option), "{option} is not in: {all}");
    }
}

/// The options of the specification are in the help of the command, and no other.
#[test]
fn the_options_that_each_help_names() {
    let room = room();
    for (command, _) in COMMANDS {
        let own: &[&str] = match command {
            "pack" | "unpack" | "multiply" => &["-o", "--output"],
            "audit" => &["--report"],
            _ => &[],
        };
        let named = options(&help(&room, &[command, "--help"]));
        let expected: BTreeSet<String> = own.iter().chain(&["-h", "--help"]).map(|option| option.to_string()).collect();
        assert_eq!(named, expected, "{command}");
    }
}

/// Whether the command takes the option, alone or with a word behind it. A word that it does not take is wrong usage.
fn accepts(room: &Room, command: &str, words: &[&str], option: &str) -> bool {
    let behind: Vec<&str> = [&[command], words, &[option]].concat();
    let with_word: Vec<&str> = [&[command], words, &[option, "out"]].concat();
    let before: Vec<&str> = [&[command, option, "out"], words].concat();
    [behind, with_word, before].iter().any(|words| room.run(words).status != Some(2))
}

#[test]
fn an_option_is_accepted_exactly_if_it_is_named() {
    let letters = ('a'..='z').chain('A'..='Z').chain('0'..='9').map(|letter| format!("-{letter}"));
    let long = [
        "help",
        "version",
        "output",
        "report",
        "out",
        "rep",
        "hel",
        "ver",
        "Help",
        "outputs",
        "quiet",
        "verbose",
        "cells",
        "force",
        "text",
        "block",
        "html",
        "usage",
        "no-report",
        "json",
        "debug",
        "color",
        "file",
        "input",
        "parts",
    ];
    let tried: Vec<String> = letters.chain(long.iter().map(|word| format!("--{word}"))).collect();
    let room = room();
    for (command, words) in COMMANDS {
        let named = options(&help(&room, &[command, "--help"]));
        assert!(named.iter().all(|option| tried.contains(option)), "{command} names one that is not tried: {named:?}");
        for option in &tried {
            assert_eq!(accepts(&room, command, words, option), named.contains(option), "{command} {option}");
        }
    }
    let named = options(&help(&room, &["--help"]));
    for option in &tried {
        let accepted = room.run(&[option]).status != Some(2);
        let of_command = ["-o", "--output", "--report"].contains(&option.as_str());
        assert!(accepted == named.contains(option) || of_command, "apfelruder {option}");
        assert!(!(accepted && of_command), "apfelruder {option}");
    }
}

#[test]
fn the_version() {
    let room = room();
    let ended = room.run(&["--version"]);
    ended.is(0, &ended.out, "");
    let header = std::fs::read_to_string(concat!(env!("CARGO_MANIFEST_DIR"), "/../../include/apfelruder.h"));
    let header = header.expect("the header is read");
    let number = |name: &str| {
        let line = header.lines().find_map(|line| line.strip_prefix(&format!("#define APFELRUDER_VERSION_{name} ")));
        line.expect("the header has its version").trim().to_string()
    };
    let lines: Vec<&str> = ended.text().lines().collect();
    assert_eq!(lines.len(), 5, "{}", ended.text());
    assert_eq!(lines[0], concat!("apfelruder ", env!("CARGO_PKG_VERSION")));
    assert_eq!(lines[1], format!("library {}.{} (include/apfelruder.h)", number("MAJOR"), number("MINOR")));
    assert!(lines[2].starts_with("kit     ") && lines[2].len() > 8, "{}", lines[2]);
    let sources = lines[3].strip_prefix("sources ").expect("the sources");
    let hex = sources.len() == 64 && sources.bytes().all(|byte| byte.is_ascii_hexdigit());
    assert!(hex || sources == "unknown", "{sources}");
    let machine = lines[4].strip_prefix("machine ").expect("the machine");
    assert!(machine == "unknown" || machine.starts_with(std::env::consts::ARCH), "{machine}");
    assert_eq!(room.run(&["-V"]).text(), ended.text());
}

#[test]
fn wrong_usage() {
    let room = room();
    let ship: Vec<&str> = ["split"].into_iter().chain(["a"; 65]).collect();
    let wrong: [&[&str]; 36] = [
        &[],
        &["splat"],
        &["Split", "a"],
        &["--split", "a"],
        &["a"],
        &[""],
        &["help", "splat"],
        &["help", "split", "pack"],
        &ship,
        &["split", "-", "-"],
        &["split", "-", "a", "-"],
        &["split", "a", "b", "--parts"],
        &["split", "--cells", "a"],
        &["split", "a", "-o", "out"],
        &["split", "a", "--report", "out"],
        &["pack", "a", "b"],
        &["pack", "a", "-o"],
        &["pack", "a", "--output"],
        &["pack", "a", "-o", "out", "-o", "out2"],
        &["pack", "a", "-oout", "--output=out2"],
        &["unpack", "--output", "out", "a", "--output", "out"],
        &["unpack", "a", "b"],
        &["multiply"],
        &["multiply", "a"],
        &["multiply", "-o", "out", "a"],
        &["multiply", "-", "-"],
        &["same"],
        &["same", "a", "b", "a"],
        &["same", "a", "b", "a", "b", "a"],
        &["same", "a", "-", "b", "-"],
        &["audit"],
        &["audit", "a"],
        &["audit", "a", "a", "--report"],
        &["audit", "a", "a", "--report", "out", "--report=out2"],
        &["audit", "-", "-"],
        &["audit", "a", "a", "-o", "out"],
    ];
    for words in wrong {
        room.run_on(words, "x0\n").wrong_usage(&[]);
    }
    assert_eq!(room.names(), ["a", "b"], "wrong usage wrote a file");
    room.run(&["splat"]).wrong_usage(&["splat"]);
    room.run(&["pack", "--quick"]).wrong_usage(&["--quick"]);
    room.run(&["audit", "a"]).wrong_usage(&["parts 0"]);
    room.run(&ship).wrong_usage(&["split takes 64 files at most"]);
}

/// Behind `--` every word is a file.
#[test]
fn the_end_of_options() {
    let room = room();
    room.run(&["pack", "--", "a", "--"]).wrong_usage(&[]);
    room.run(&["split", "--", "a", "--"]).trouble(&["there is no file --"]);
    room.run(&["split", "a", "--", "b"]).gave("a: parts 1\nx0\nb: parts 1\nx1\n");
    room.run(&["split", "--", "--help"]).trouble(&["--help"]);
    room.run_on(&["split", "--"], "x0\n").gave("parts 1\nx0\n");
    room.run_on(&["split", "--", "-"], "x0\n").gave("parts 1\nx0\n");
}

/// The own side of a terminal that nobody opened the other side of: enough for the tool to see what it is.
fn terminal() -> File {
    let terminal = File::options().read(true).write(true).open("/dev/ptmx").expect("a terminal can be opened");
    assert!(terminal.is_terminal());
    terminal
}

#[test]
fn a_terminal_is_not_read_unless_it_was_named() {
    for command in ["split", "pack", "unpack"] {
        let ended = common::ended(room().tool(&[command]).stdin(Stdio::from(terminal())));
        ended.wrong_usage(&["standard input is a terminal"]);
    }
}

#[test]
fn a_block_is_not_written_to_a_terminal() {
    let room = room();
    let ended = common::ended(room.tool(&["pack", "a"]).stdout(Stdio::from(terminal())));
    ended.trouble(&["the block is not text: name a file with -o, or pipe it"]);
    common::ended(room.tool(&["pack", "a", "-o", "out"]).stdout(Stdio::from(terminal()))).gave("");
    assert_eq!(room.bytes("out"), [0x10, 0x20, 0x01, 0x80]);
}
