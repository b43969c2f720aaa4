//! The help and the versions, as they are printed.
use crate::table::{Command, Opt, COMMANDS, HELP, OUTPUT, REPORT, VERSION};

/// The tool's own version.
pub const TOOL: &str = env!("CARGO_PKG_VERSION");
/// That of the library's page, and where it stands.
pub const LIBRARY: &str = "1.4 (include/apfelruder.h)";
/// The kit that proved the library. This and the next two are told by bin/apfelruder when it builds the tool.
pub const KIT: &str = or_unknown(option_env!("APFELRUDER_KIT"));
/// The fingerprint of the sources.
pub const SOURCES: &str = or_unknown(option_env!("APFELRUDER_SOURCES"));
/// The machine, and whose archive was linked.
pub const MACHINE: &str = or_unknown(option_env!("APFELRUDER_MACHINE"));

const fn or_unknown(told: Option<&'static str>) -> &'static str {
    match told {
        Some(told) => told,
        None => "unknown",
    }
}

const ABOUT: &str = "\
An equation is a sum modulo 2 of products of inputs x0 to x63, typed as text in
one line: x0*x2+x1*x2+x0+x1. The answers come from a proved library.
";

const FILES: &str = "\
A FILE holds one equation: as text, in a line that ends with a line feed, or as
a block of bytes. The first byte tells which. - is standard input, as is no FILE
where one can be left out. -- ends the options.
";

const STATUS: &str = "\
status: 0 yes or accepted, 1 no or refused, 2 trouble: wrong usage, a file that
cannot be read, output that cannot be written whole
";

/// The versions, a line for each.
pub fn version() -> String {
    format!("apfelruder {TOOL}\nlibrary {LIBRARY}\nkit     {KIT}\nsources {SOURCES}\nmachine {MACHINE}\n")
}

/// The help of a command, or of the tool: paragraphs with an empty line between them.
pub fn help(command: Option<&Command>) -> String {
    command.map_or_else(of_tool, of_command).join("\n")
}

fn of_command(command: &Command) -> Vec<String> {
    let options = rows(command.options.iter().chain([&HELP]), |option| (option.names(), option.words.into()));
    vec![
        format!("usage: {}\n", usage(command)),
        format!("{}\n", command.words),
        FILES.to_string(),
        format!("options:\n{options}"),
        STATUS.to_string(),
        examples(command.examples),
    ]
}

fn of_tool() -> Vec<String> {
    let commands = rows(&COMMANDS, |one| (format!("{} {}", one.name, one.files), one.line.into()));
    let options = rows(&[OUTPUT, REPORT, HELP, VERSION], |option| (option.names(), of_all(option)));
    let first = COMMANDS.iter().filter(|one| ["split", "audit"].contains(&one.name));
    let shown: Vec<&str> = first.flat_map(|one| one.examples).copied().collect();
    vec![
        "usage: apfelruder COMMAND FILE..\n".to_string(),
        ABOUT.to_string(),
        format!("commands:\n{commands}"),
        FILES.to_string(),
        format!("options:\n{options}"),
        STATUS.to_string(),
        examples(&shown),
    ]
}

/// A command with its files and options.
fn usage(command: &Command) -> String {
    let options: String = command.options.iter().map(|option| format!(" [{} FILE]", option.called())).collect();
    format!("apfelruder {} {}{options}", command.name, command.files)
}

/// How something is used: one line, or a line for each.
fn examples(lines: &[&str]) -> String {
    match lines {
        [line] => format!("example: {line}\n"),
        _ => format!("examples:\n{}", lines.iter().map(|line| format!("  {line}\n")).collect::<String>()),
    }
}

/// What an option does, and behind which commands it stands.
fn of_all(option: &Opt) -> String {
    let commands: Vec<_> =
        COMMANDS.iter().filter(|command| command.options.contains(option)).map(|command| command.name).collect();
    if commands.is_empty() {
        option.words.to_string()
    } else {
        format!("{} ({})", option.words, commands.join(", "))
    }
}

/// A line for each: what it is, and what it does.
fn rows<'a, T: 'a>(of: impl IntoIterator<Item = &'a T>, row: impl Fn(&T) -> (String, String)) -> String {
    let line = |(what, words): (String, String)| format!("  {what:23} {words}\n");
    of.into_iter().map(|one| line(row(one))).collect()
}

impl Opt {
    /// Its shortest name.
    pub fn called(&self) -> String {
        match self.short {
            Some(letter) => format!("-{}", char::from(letter)),
            None => format!("--{}", self.long),
        }
    }

    /// Its names, with what stands behind each.
    fn names(&self) -> String {
        let value = self.value.map(|value| format!(" {value}")).unwrap_or_default();
        let long = format!("--{}{value}", self.long);
        match self.short {
            Some(letter) => format!("-{}{value}, {long}", char::from(letter)),
            None => long,
        }
    }
}

#[cfg(test)]
mod tests {
    use super::{help, version, LIBRARY};
    use crate::table::COMMANDS;

    #[test]
    fn every_command_and_option_is_named() {
        let all = help(None);
        for command in &COMMANDS {
            assert!(all.contains(&format!("\n  {} ", command.name)), "{}", command.name);
            let own = help(Some(command));
            assert!(own.starts_with(&format!("usage: apfelruder {} {}", command.name, command.files)));
            for option in command.options {
                for name in [option.called(), format!("--{} FILE", option.long)] {
                    assert!(own.contains(&name) && all.contains(&name), "{} {name}", command.name);
                }
            }
            assert!(own.contains("-h, --help"));
        }
        assert!(all.contains("-h, --help") && all.contains("-V, --version"));
    }

    #[test]
    fn the_help_fits_a_terminal() {
        let pages = COMMANDS.iter().map(|command| help(Some(command))).chain([help(None), version()]);
        for line in pages.flat_map(|page| page.lines().map(str::to_string).collect::<Vec<_>>()) {
            assert!(line.len() <= 80 && !line.ends_with(' '), "{line}");
        }
    }

    #[test]
    fn the_librarys_version_is_that_of_its_page() {
        let header = include_str!("../../../include/apfelruder.h");
        let number = |which: &str| {
            let line =
                header.lines().find_map(|line| line.strip_prefix(&format!("#define APFELRUDER_VERSION_{which} ")));
            line.expect("the header has its version").to_string()
        };
        assert_eq!(LIBRARY, format!("{}.{} (include/apfelruder.h)", number("MAJOR"), number("MINOR")));
    }
}
