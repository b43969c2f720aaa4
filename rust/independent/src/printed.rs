//! The printed split (RULES 6).
use crate::{blocks, parts};

/// What the program `split` prints for this standard input.
pub fn printed_split(input: &[u8]) -> String {
    let taken = &input[..input.len().min(8196)];
    let mut terms = [0; crate::TERMS];
    let answer = blocks::read(taken, &mut terms);
    if answer.code != 0 {
        return format!("refused {} {} {}\n", answer.code, answer.operand, answer.place);
    }
    let list = &terms[..answer.count as usize];
    if list.is_empty() {
        return "refused 1 1 0\n".to_string();
    }
    let found = parts::parts_of(list);
    let mut text = format!("parts {}\n", found.len());
    for part in found {
        text += &printed_list(&part);
        text.push('\n');
    }
    text
}

/// The terms of a list that is not empty, with + between them.
pub(crate) fn printed_list(list: &[u64]) -> String {
    let line: Vec<String> = list.iter().map(|&t| printed_term(t)).collect();
    line.join("+")
}

fn printed_term(term: u64) -> String {
    if term == 0 {
        return "1".to_string();
    }
    let names: Vec<String> = (0..64).filter(|i| term >> i & 1 == 1).map(|i| format!("x{i}")).collect();
    names.join("*")
}
