//! What the words of the command line ask for.
use crate::names;
use crate::stop::{trouble, Stop};
use crate::table::{Command, Opt, COMMANDS, HELP};
use std::ffi::{OsStr, OsString};
use std::os::unix::ffi::OsStrExt;

/// A command as it was asked for.
pub struct Call {
    /// Which.
    pub command: &'static Command,
    /// The words that name files, in order.
    pub files: Vec<OsString>,
    values: Vec<(&'static Opt, OsString)>,
}

impl Call {
    /// What was given with an option.
    pub fn value(&self, option: &Opt) -> Option<&OsStr> {
        self.values.iter().find(|(given, _)| *given == option).map(|(_, value)| value.as_os_str())
    }
}

/// What the words ask for.
pub enum Asked {
    /// To do something.
    Run(Call),
    /// The help of a command, or of all.
    Help(Option<&'static Command>),
    /// The versions.
    Version,
}

/// Reads the words behind the tool's name.
pub fn read(words: Vec<OsString>) -> Result<Asked, Stop> {
    let Some(first) = words.first() else {
        return wrong(None, "name a command: split, pack, unpack, multiply, same or audit");
    };
    match first.to_str() {
        Some("-h" | "--help") => Ok(Asked::Help(None)),
        Some("-V" | "--version") => Ok(Asked::Version),
        _ if first.as_bytes().starts_with(b"-") => wrong(None, &format!("unknown option {}", names::shown(first))),
        name => match COMMANDS.iter().find(|command| Some(command.name) == name) {
            Some(command) => behind(command, words),
            None => wrong(None, &format!("there is no command {}", names::shown(first))),
        },
    }
}

/// Reads the words behind a command.
fn behind(command: &'static Command, words: Vec<OsString>) -> Result<Asked, Stop> {
    let mut call = Call { command, files: Vec::new(), values: Vec::new() };
    let mut rest = words.into_iter().skip(1);
    while let Some(word) = rest.next() {
        if word == "--" {
            call.files.extend(rest.by_ref());
        } else if word == "-" || !word.as_bytes().starts_with(b"-") {
            call.files.push(word);
        } else {
            let Some((option, value)) = option(command, &word) else {
                return wrong(Some(command), &format!("unknown option {}", names::shown(&word)));
            };
            if *option == HELP {
                return Ok(Asked::Help(Some(command)));
            }
            give(&mut call, option, value.or_else(|| rest.next()))?;
        }
    }
    counted(call)
}

/// The option that a word is, and what is given with it in the same word.
fn option(command: &'static Command, word: &OsStr) -> Option<(&'static Opt, Option<OsString>)> {
    let bytes = word.as_bytes();
    let tail = |from: usize| Some(OsStr::from_bytes(&bytes[from..]).to_os_string());
    let options = command.options.iter().chain([&HELP]);
    for option in options {
        let long = [b"--", option.long.as_bytes()].concat();
        match (option.value, option.short) {
            _ if bytes == long => return Some((option, None)),
            (Some(_), _) if bytes.starts_with(&[&long[..], b"="].concat()) => {
                return Some((option, tail(long.len() + 1)));
            }
            (_, Some(letter)) if bytes == [b'-', letter] => return Some((option, None)),
            (Some(_), Some(letter)) if bytes.starts_with(&[b'-', letter]) => return Some((option, tail(2))),
            _ => {}
        }
    }
    None
}

fn give(call: &mut Call, option: &'static Opt, value: Option<OsString>) -> Result<(), Stop> {
    let wrong = |words: &str| wrong(Some(call.command), &format!("{} {words}", option.called()));
    match value {
        None => wrong("needs a file behind it"),
        Some(value) if value.is_empty() => wrong("needs a file behind it, and that name is empty"),
        Some(_) if call.value(option).is_some() => wrong("is given twice"),
        Some(value) => {
            call.values.push((option, value));
            Ok(())
        }
    }
}

/// The call, if its files are as many as there should be, and standard input stands for one at most.
fn counted(call: Call) -> Result<Asked, Stop> {
    let (least, most) = call.command.many;
    if !(least..=most).contains(&call.files.len()) {
        let (takes, given) = (call.command.takes, call.files.len());
        let named = if given == 1 { "is named" } else { "are named" };
        return wrong(Some(call.command), &format!("{takes}, and {given} {named}"));
    }
    if call.files.iter().filter(|word| *word == "-").count() > 1 {
        return wrong(Some(call.command), "standard input (-) can be read only once");
    }
    Ok(Asked::Run(call))
}

/// Wrong usage: what is wrong, and the help to ask for.
pub fn wrong<T>(command: Option<&Command>, words: &str) -> Result<T, Stop> {
    match command {
        Some(command) => trouble(format!("{words} (apfelruder {} --help)", command.name)),
        None => trouble(format!("{words} (apfelruder --help)")),
    }
}

#[cfg(test)]
mod tests {
    use super::{read, Asked, Call};
    use crate::stop::Stop;
    use crate::table::{COMMANDS, HELP, OUTPUT, REPORT};
    use std::ffi::OsString;

    fn asked(line: &str) -> Result<Asked, String> {
        let words = line.split_whitespace().map(|word| OsString::from(word.replace("''", ""))).collect();
        read(words).map_err(|stop| match stop {
            Stop::Trouble(words) => words,
            Stop::Refused(_) => panic!("a refusal"),
        })
    }

    fn call(line: &str) -> Call {
        match asked(line) {
            Ok(Asked::Run(call)) => call,
            Ok(_) => panic!("{line}: help"),
            Err(words) => panic!("{line}: {words}"),
        }
    }

    #[test]
    fn options_stand_anywhere_and_in_every_form() {
        for line in ["-o out a", "a -o out", "-oout a", "--output out a", "a --output=out", "a -o out --"] {
            let call = call(&format!("pack {line}"));
            assert_eq!((call.files, call.values), (vec!["a".into()], vec![(&OUTPUT, "out".into())]), "{line}");
        }
        let call = call("audit a --report=r.html -- -o --report");
        assert_eq!(call.value(&REPORT), Some("r.html".as_ref()));
        assert_eq!(call.files, ["a", "-o", "--report"]);
    }

    #[test]
    fn a_value_may_look_like_an_option() {
        assert_eq!(call("pack -o -- a").value(&OUTPUT), Some("--".as_ref()));
        assert_eq!(call("pack -o --help").value(&OUTPUT), Some("--help".as_ref()));
    }

    #[test]
    fn split_takes_a_whole_ship() {
        for many in [0, 1, 2, 64] {
            assert_eq!(call(&format!("split{}", " a".repeat(many))).files.len(), many);
        }
    }

    #[test]
    fn wrong_usage_ends_with_the_help_to_ask_for() {
        let many = format!("split{}", " a".repeat(65));
        let lines = [
            ("", "name a command"),
            ("frob", "there is no command frob"),
            ("--frob", "unknown option --frob"),
            ("-o x pack", "unknown option -o"),
            ("split --output x", "unknown option --output"),
            ("split -hx", "unknown option -hx"),
            ("split --help=x", "unknown option --help=x"),
            ("split --version", "unknown option --version"),
            ("pack -o", "-o needs a file"),
            ("pack --output=", "-o needs a file behind it, and that name is empty"),
            ("pack -o a -o b", "-o is given twice"),
            ("pack -oa --output=b", "-o is given twice"),
            ("audit a b --report", "--report needs a file"),
            ("pack a b", "pack takes one file at most, and 2 are named"),
            (&many, "split takes 64 files at most, and 65 are named"),
            ("split a - b -", "standard input (-) can be read only once"),
            ("multiply a", "multiply takes two files or more, and 1 is named"),
            ("same a b c", "same takes four files"),
            ("same a b c d e", "same takes four files"),
            ("audit", "audit takes the approved equation"),
            ("audit a", "audit takes the approved equation"),
            ("same - a - b", "standard input (-) can be read only once"),
        ];
        for (line, words) in lines {
            let Err(told) = asked(line) else { panic!("{line}: no trouble") };
            assert!(told.starts_with(words) && told.ends_with(" --help)") && !told.contains('\n'), "{line}: {told}");
        }
    }

    #[test]
    fn help_is_asked_for_behind_every_command() {
        for command in &COMMANDS {
            for word in ["-h", "--help"] {
                let told = asked(&format!("{} {word} and more", command.name));
                assert!(matches!(told, Ok(Asked::Help(Some(found))) if found.name == command.name));
            }
            assert!(!command.options.contains(&HELP));
        }
        assert!(matches!(asked("--help"), Ok(Asked::Help(None))) && matches!(asked("-h"), Ok(Asked::Help(None))));
        assert!(matches!(asked("--version"), Ok(Asked::Version)) && matches!(asked("-V"), Ok(Asked::Version)));
    }
}
