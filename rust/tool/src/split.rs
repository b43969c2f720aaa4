//! What split prints: the parts of one equation, or of each of several boards, which are split in one call.
use crate::equation::equation;
use crate::input::{self, Source};
use crate::output;
use crate::stop::{answered, Refused, Stop};
use crate::words::{numbers, refused};
use apfelruder::Refusal;

/// What is told of an equation: its parts, or why it is refused.
type Told = Result<Vec<Vec<u64>>, Refused>;

/// The printed split of one equation (RULES 6): also a refusal is printed.
pub fn one(source: &Source) -> Result<u8, Stop> {
    let split = |list: Vec<u64>| apfelruder::split(&list).map_err(|refusal| unsplit(source, refusal));
    let told = answered(input::equation(source).and_then(split))?;
    output::standard(printed(&told).as_bytes())?;
    Ok(explained(&[told]))
}

/// The same of several boards, each behind its name, in order (RULES 14.5).
pub fn boards(sources: &[Source]) -> Result<u8, Stop> {
    let read = sources.iter().map(|source| answered(input::equation(source))).collect::<Result<Vec<_>, _>>()?;
    let told = deployed(sources, read)?;
    let board = |(source, told): (&Source, &Told)| format!("{}: {}", source.name(), printed(told));
    let lines: String = sources.iter().zip(&told).map(board).collect();
    output::standard(lines.as_bytes())?;
    Ok(explained(&told))
}

/// All equations that could be read, split in one call; each answer in the place of its board.
fn deployed(sources: &[Source], read: Vec<Result<Vec<u64>, Refused>>) -> Result<Vec<Told>, Stop> {
    let lists: Vec<&Vec<u64>> = read.iter().flatten().collect();
    let answers = apfelruder::deploy(&lists).map_err(|refusal| refused("split", refusal, &refusal.to_string()))?;
    let mut answers = answers.into_iter();
    let told = |(source, read): (&Source, Result<Vec<u64>, Refused>)| match read {
        Ok(_) => {
            let answer = answers.next().expect("each list has its answer");
            answered(answer.map_err(|refusal| unsplit(source, refusal)))
        }
        Err(refused) => Ok(Err(refused)),
    };
    sources.iter().zip(read).map(told).collect()
}

fn unsplit(source: &Source, refusal: Refusal) -> Stop {
    let words = match refusal {
        Refusal::Zero => "the equation is constantly 0, and has no parts".to_string(),
        other => other.to_string(),
    };
    refused(&source.name(), refusal, &words)
}

/// What is printed of an answer.
fn printed(told: &Told) -> String {
    match told {
        Ok(parts) => {
            let lines: String = parts.iter().map(|part| equation(part) + "\n").collect();
            format!("parts {}\n{lines}", parts.len())
        }
        Err(refused) => refused.refusal.map(numbers).unwrap_or_default() + "\n",
    }
}

/// Says why something was refused, if something was; gives the status.
fn explained(told: &[Told]) -> u8 {
    let refused: Vec<&Refused> = told.iter().filter_map(|told| told.as_ref().err()).collect();
    refused.iter().for_each(|refused| output::say(&refused.lines.join("\n")));
    u8::from(!refused.is_empty())
}
