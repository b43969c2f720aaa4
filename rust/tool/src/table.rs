//! The commands and options, in one table: the words of the command line are read by it, and the help is written from it.
use crate::commands;
use crate::stop::Stop;
use crate::usage::Call;
use apfelruder::MAX_BOARDS;

/// An option.
#[derive(Debug, PartialEq, Eq)]
pub struct Opt {
    /// Its one letter, if it has one.
    pub short: Option<u8>,
    /// Its long name, without the dashes.
    pub long: &'static str,
    /// What stands behind it, if something must.
    pub value: Option<&'static str>,
    /// What it does.
    pub words: &'static str,
}

/// Where the result goes.
pub const OUTPUT: Opt =
    Opt { short: Some(b'o'), long: "output", value: Some("FILE"), words: "writes the result into FILE" };
/// Where the page goes.
pub const REPORT: Opt =
    Opt { short: None, long: "report", value: Some("FILE"), words: "writes the auditor's page into FILE" };
/// The help.
pub const HELP: Opt = Opt { short: Some(b'h'), long: "help", value: None, words: "prints help, also behind a command" };
/// The versions.
pub const VERSION: Opt = Opt {
    short: Some(b'V'),
    long: "version",
    value: None,
    words: "prints the versions, and what was proved with what",
};

/// A command.
pub struct Command {
    /// Its name.
    pub name: &'static str,
    /// The files it takes, as the usage line shows them.
    pub files: &'static str,
    /// The fewest and the most files.
    pub many: (usize, usize),
    /// The same in words, for whoever named fewer or more.
    pub takes: &'static str,
    /// Its options, but for the help that each has.
    pub options: &'static [Opt],
    /// What it does, in a few words.
    pub line: &'static str,
    /// What it does, in full.
    pub words: &'static str,
    /// How it is used, in one line or several.
    pub examples: &'static [&'static str],
    /// Does it; gives the status.
    pub run: fn(&Call) -> Result<u8, Stop>,
}

/// The commands.
pub const COMMANDS: [Command; 7] = [
    Command {
        name: "split",
        files: "[FILE..]",
        many: (0, MAX_BOARDS),
        takes: "split takes 64 files at most",
        options: &[],
        line: "prints the parts of an equation, or of each of several",
        words: "\
Prints `parts K`, then the K parts of the equation, a line for each: they share
no input, their product is the equation, and none of them can be split again.
A refusal is printed as `refused CODE OPERAND PLACE`, and explained on standard
error.

Up to 64 files are split in one call. With two or more, each is a board, and for
each in turn it prints `NAME: parts K` and the K parts, a line for each, or
`NAME: refused CODE OPERAND PLACE`. A board that is refused does not stop the
others; the status is 1 then. A file that cannot be read does: nothing is
printed.",
        examples: &[
            "printf 'x0*x2+x1*x2+x0+x1\\n' | apfelruder split     # x0+x1 and 1+x2",
            "apfelruder split board1.txt board2.txt board3.block",
        ],
        run: commands::split,
    },
    Command {
        name: "pack",
        files: "[FILE]",
        many: (0, 1),
        takes: "pack takes one file at most",
        options: &[OUTPUT],
        line: "writes an equation as a block of bytes",
        words: "\
Writes the equation as its block of bytes, which loaders take. One equation has
one block. A block is checked, and written as it is. With -o, FILE is written
whole or not at all; - is standard output.",
        examples: &["apfelruder pack approved.txt -o approved.block"],
        run: commands::pack,
    },
    Command {
        name: "unpack",
        files: "[FILE]",
        many: (0, 1),
        takes: "unpack takes one file at most",
        options: &[OUTPUT],
        line: "writes an equation as text, in order",
        words: "\
Writes the equation as text, all in ascending order; equal terms have cancelled.
One equation has one such text. With -o, FILE is written whole or not at all; -
is standard output.",
        examples: &["printf 'x1+x3*x0+1+x1\\n' | apfelruder unpack         # 1+x0*x3"],
        run: commands::unpack,
    },
    Command {
        name: "multiply",
        files: "FILE FILE..",
        many: (2, usize::MAX),
        takes: "multiply takes two files or more",
        options: &[OUTPUT],
        line: "writes the product of equations, as text",
        words: "\
Writes the product of equations that share no input, as text. A product has at
most 1,024 terms. With -o, FILE is written whole or not at all; - is standard
output.",
        examples: &["apfelruder multiply part1.txt part2.txt part3.txt"],
        run: commands::multiply,
    },
    Command {
        name: "same",
        files: "A D B C",
        many: (4, 4),
        takes: "same takes four files, A D B C",
        options: &[],
        line: "says whether A times D is B times C",
        words: "\
Prints yes if A times D is B times C, else no. Mind the order: A, D, B, C. The
four equations may share inputs. The products are ordinary ones: x0 times x0 is
x0 squared, which is not x0.",
        examples: &["apfelruder same a.txt d.txt b.txt c.txt"],
        run: commands::same,
    },
    Command {
        name: "audit",
        files: "APPROVED PART..",
        many: (2, usize::MAX),
        takes:
            "audit takes the approved equation and at least one file of parts (the constant 1, which has no parts, is \
                audited with a file that holds the line `parts 0`)",
        options: &[REPORT],
        line: "says whether parts are those of an equation",
        words: "\
Prints yes if the given parts are exactly the parts of the approved equation:
they multiply back to it, and none of them can be split again. Else it prints
no, what is wrong, and the right parts.

A PART is a file with one part, as text or as a block, or a text with a line for
each part. What split prints can be given as it is, with its first line, if no
line is over 65,536 bytes; such a part has to be given as a block. The constant
1 has no parts: audit it with a file that holds the line `parts 0`.

With --report, FILE becomes a page in HTML to hand to the auditor. It is written
whole or not at all.",
        examples: &["apfelruder audit approved.txt loaded.txt --report audit.html"],
        run: commands::audit,
    },
    Command {
        name: "help",
        files: "[COMMAND]",
        many: (0, 1),
        takes: "help takes one command at most",
        options: &[],
        line: "prints this, or the help of a command",
        words: "Prints the help of a command, or of the tool.",
        examples: &["apfelruder help audit"],
        run: commands::help,
    },
];
