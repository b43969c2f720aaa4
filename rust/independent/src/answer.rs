//! The four numbers (RULES 5.1), and the checks that several calls make.

#[derive(Clone, Copy, Debug, PartialEq, Eq)]
pub struct Answer {
    pub code: u64,
    pub operand: u64,
    pub place: u64,
    pub count: u64,
}

impl Answer {
    pub fn accepted(count: usize) -> Answer {
        Answer { code: 0, operand: 0, place: 0, count: count as u64 }
    }

    pub fn refused(code: u64, operand: u64) -> Answer {
        Answer { code, operand, place: 0, count: 0 }
    }

    pub fn order(operand: u64, place: usize) -> Answer {
        Answer::at(3, operand, place)
    }

    pub fn at(code: u64, operand: u64, place: usize) -> Answer {
        Answer { code, operand, place: place as u64, count: 0 }
    }
}

/// Code 2 of every operand in turn, and only then code 3 of every operand (RULES 5.3).
pub fn check_lists(lists: &[&[u64]]) -> Result<(), Answer> {
    for (i, list) in lists.iter().enumerate() {
        if list.len() > crate::TERMS {
            return Err(Answer::refused(2, i as u64 + 1));
        }
    }
    for (i, list) in lists.iter().enumerate() {
        if let Some(before) = list.windows(2).position(|w| w[1] <= w[0]) {
            return Err(Answer::order(i as u64 + 1, before + 1));
        }
    }
    Ok(())
}
