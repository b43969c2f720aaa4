//! The command apfelruder: equations split, packed, multiplied and audited. It reads files and words, asks the proved library,
//! and prints.
//!
//! Status 0: yes or accepted. 1: no or refused. 2: trouble, which is one line on standard error.
mod audit;
mod block;
mod caret;
mod commands;
mod equation;
mod expected;
mod faults;
mod found;
mod help;
mod input;
mod names;
mod output;
mod parts;
#[cfg(test)]
mod random;
mod report;
mod split;
mod staged;
mod stop;
mod table;
mod usage;
mod when;
mod words;

use output::say;
use std::env;
use std::panic;
use std::process::ExitCode;
use stop::Stop;
use usage::Asked;

fn main() -> ExitCode {
    // a fault of the tool itself is trouble too
    panic::set_hook(Box::new(|fault| say(&format!("this is a fault of the tool: {fault}").replace('\n', " "))));
    let words = env::args_os().skip(1).collect();
    let status = panic::catch_unwind(|| match usage::read(words).and_then(answer) {
        Ok(status) => status,
        Err(Stop::Refused(refused)) => {
            say(&refused.lines.join("\n"));
            1
        }
        Err(Stop::Trouble(words)) => {
            say(&words);
            2
        }
    });
    ExitCode::from(status.unwrap_or(2))
}

fn answer(asked: Asked) -> Result<u8, Stop> {
    match asked {
        Asked::Run(call) => return (call.command.run)(&call),
        Asked::Help(command) => output::standard(help::help(command).as_bytes())?,
        Asked::Version => output::standard(help::version().as_bytes())?,
    }
    Ok(0)
}
