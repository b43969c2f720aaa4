//! What each command does: it reads, asks the library, and prints.
use crate::audit::Audited;
use crate::equation::{inputs, the_inputs};
use crate::help;
use crate::input::{self, Source};
use crate::names;
use crate::output;
use crate::parts;
use crate::report::{page, About};
use crate::split;
use crate::staged::{self, Staged};
use crate::stop::{trouble, Stop};
use crate::table::{COMMANDS, OUTPUT, REPORT};
use crate::usage::{wrong, Call};
use crate::when;
use crate::words::refused;
use apfelruder::Refusal;
use std::env;
use std::ffi::{OsStr, OsString};
use std::io;

/// The printed split of one equation, or of several boards.
pub fn split(call: &Call) -> Result<u8, Stop> {
    match sources(call).as_slice() {
        [] | [_] => split::one(&source(call)?),
        several => split::boards(several),
    }
}

/// An equation as its block.
pub fn pack(call: &Call) -> Result<u8, Stop> {
    let source = source(call)?;
    let list = input::equation(&source)?;
    let block = apfelruder::write(&list).map_err(|refusal| refused(&source.name(), refusal, &refusal.to_string()))?;
    if target(call).is_none() && output::is_terminal() {
        return trouble("the block is not text: name a file with -o, or pipe it");
    }
    written(call, &block)
}

/// An equation as its text.
pub fn unpack(call: &Call) -> Result<u8, Stop> {
    let source = source(call)?;
    let list = input::equation(&source)?;
    written(call, &text(&source.name(), &list)?)
}

fn text(name: &str, list: &[u64]) -> Result<Vec<u8>, Stop> {
    let long = "its text would be longer than 65,536 bytes, which is the most";
    apfelruder::write_text(list).map(String::into_bytes).map_err(|refusal| refused(name, refusal, long))
}

/// The product, one equation after another.
pub fn multiply(call: &Call) -> Result<u8, Stop> {
    let factors = sources(call);
    let lists = factors.iter().map(input::equation).collect::<Result<Vec<_>, _>>()?;
    let mut product = vec![0];
    for (at, list) in lists.iter().enumerate() {
        product = apfelruder::multiply(&product, list).map_err(|refusal| {
            refused(&factors[at].name(), refusal, &unmultiplied(&factors, &lists, at, &product, refusal))
        })?;
    }
    written(call, &text("the product", &product)?)
}

/// Why the factor at this place cannot be multiplied with the product of those before it.
fn unmultiplied(factors: &[Source], lists: &[Vec<u64>], at: usize, product: &[u64], refusal: Refusal) -> String {
    match refusal {
        Refusal::Shared => {
            let shared = inputs(product) & inputs(&lists[at]);
            let lowest = shared & shared.wrapping_neg();
            let holder = lists[..at].iter().position(|list| inputs(list) & lowest != 0).unwrap_or_default();
            let (input, holder) = (the_inputs(lowest), factors[holder].name());
            format!("it shares {input} with {holder}; only equations that share no input can be multiplied")
        }
        Refusal::TooLarge { .. } => {
            let terms = product.len() * lists[at].len();
            let before = if at == 1 { factors[0].name() } else { format!("the {at} files before it") };
            format!("its product with {before} would have {terms} terms, and 1,024 is the most")
        }
        other => other.to_string(),
    }
}

/// Whether A times D is B times C.
pub fn same(call: &Call) -> Result<u8, Stop> {
    let lists = sources(call).iter().map(input::equation).collect::<Result<Vec<_>, _>>()?;
    let [a, d, b, c] = lists.as_slice() else { return wrong(Some(call.command), "four files are needed") };
    let yes =
        apfelruder::same_products(a, d, b, c).map_err(|refusal| refused("same", refusal, &refusal.to_string()))?;
    output::standard(if yes { b"yes\n" } else { b"no\n" })?;
    Ok(u8::from(!yes))
}

/// Whether the given parts are those of the approved equation; with what is wrong, and the page.
pub fn audit(call: &Call) -> Result<u8, Stop> {
    let sources = sources(call);
    let [approved, given @ ..] = sources.as_slice() else {
        return wrong(Some(call.command), "name the approved equation");
    };
    let report = call.value(&REPORT);
    if let Some(file) = report {
        own_file(call, file)?;
    }
    let list = input::equation(approved)?;
    let given = parts::given(given)?;
    let audited = Audited::of(list, given).map_err(|refusal| unaudited(approved, refusal))?;
    let new = match report {
        Some(file) => Some(staged::stage(file, page(&audited, &about(call, approved)?).as_bytes())?),
        None => None,
    };
    output::standard(audited.words().as_bytes())?;
    new.map_or(Ok(()), Staged::commit)?;
    Ok(u8::from(!audited.yes))
}

/// The page must not take the place of what is audited.
fn own_file(call: &Call, report: &OsStr) -> Result<(), Stop> {
    if report == "-" {
        return wrong(Some(call.command), "--report needs a file of its own, and - is none");
    }
    let replaces = |file: &&OsString| match Source::of(file) {
        Source::Standard => staged::is_open(report, io::stdin()),
        Source::File(file) => staged::is_same(&file, report),
    };
    match call.files.iter().find(replaces) {
        Some(file) => trouble(format!("the report would replace {}, which is to be audited", Source::of(file).name())),
        None if printed_to(report) => {
            trouble(format!("{} is what is printed to: the report needs a file of its own", names::shown(report)))
        }
        None => Ok(()),
    }
}

/// Whether the name leads to the file that standard output or standard error goes to.
fn printed_to(file: &OsStr) -> bool {
    staged::is_open(file, io::stdout()) || staged::is_open(file, io::stderr())
}

fn unaudited(approved: &Source, refusal: Refusal) -> Stop {
    match refusal {
        Refusal::Zero => refused(&approved.name(), refusal, "the approved equation is constantly 0, and has no parts"),
        Refusal::TooMany { operand: 0 } => {
            refused("the given parts", refusal, "they are more than 64, and no equation has so many")
        }
        other => refused("audit", other, &other.to_string()),
    }
}

fn about(call: &Call, approved: &Source) -> Result<About, Stop> {
    let tool = env::args_os().next().unwrap_or_else(|| OsString::from("apfelruder"));
    let words = |command: &str, files: &[&OsStr]| {
        let dash = files.iter().any(|file| *file != "-" && file.as_encoded_bytes().starts_with(b"-"));
        let start = [tool.as_os_str(), OsStr::new(command)].into_iter().chain(dash.then_some(OsStr::new("--")));
        names::command(start.chain(files.iter().copied()))
    };
    let files: Vec<&OsStr> = call.files.iter().map(OsString::as_os_str).collect();
    Ok(About {
        approved_name: approved.name(),
        command: words("audit", &files),
        tool_name: names::quoted(&tool),
        split: words("split", &files[..1]),
        made: when::made()?,
        tool: help::TOOL,
        library: help::LIBRARY,
        kit: help::KIT,
        sources: help::SOURCES,
        machine: help::MACHINE,
    })
}

/// The help of a command, or of all.
pub fn help(call: &Call) -> Result<u8, Stop> {
    let command = match call.files.first() {
        None => None,
        Some(word) => match COMMANDS.iter().find(|command| *word == command.name) {
            Some(command) => Some(command),
            None => return wrong(None, &format!("there is no command {}", names::shown(word))),
        },
    };
    output::standard(help::help(command).as_bytes())?;
    Ok(0)
}

/// All that is named.
fn sources(call: &Call) -> Vec<Source> {
    call.files.iter().map(|word| Source::of(word)).collect()
}

/// The one file, or standard input, which must not be a terminal if nobody named it.
fn source(call: &Call) -> Result<Source, Stop> {
    match call.files.first() {
        Some(word) => Ok(Source::of(word)),
        None if input::is_terminal() => wrong(
            Some(call.command),
            "standard input is a terminal: name a file that holds an equation, or pipe one in",
        ),
        None => Ok(Source::Standard),
    }
}

/// The file that is to be written, if it is not standard output. That one is never opened anew by a name, which could
/// write over what stands before.
fn target(call: &Call) -> Option<&OsStr> {
    call.value(&OUTPUT).filter(|file| *file != "-" && *file != "/dev/stdout" && !staged::is_open(file, io::stdout()))
}

fn written(call: &Call, bytes: &[u8]) -> Result<u8, Stop> {
    match target(call) {
        Some(file) => staged::file(file, bytes)?,
        None => output::standard(bytes)?,
    }
    Ok(0)
}
