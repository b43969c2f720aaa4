//! Faults in what deploy refuses as a whole.
use crate::{fault, Fault};

const FILE: &str = "deploy.rs";
const CALL: &str = "deploy";
const MANY: &str = "    if lengths.len() > BOARDS {
        return Err(Answer::refused(2, 0));
    }
";
const ADDED: &str = "lengths[..i].iter().map(|&length| u128::from(length)).sum::<u128>();";
const MORE: &str = "    if all > words.len() as u128 {
        return Err(Answer::refused(10, 0));
    }
";
const FEWER: &str = "    if all < words.len() as u128 {
        return Err(Answer::refused(12, 0));
    }
";
const FIRST: &str = "    let boards = match boards_in(words, lengths) {";
const ROOM: &str = "    if answers.len() < ANSWER * boards.len() {
        return Answer::refused(6, 0);
    }
";
const FOUND: &str = "    let mut found = Found::default();\n";

/// Of the number of boards and of their lengths.
pub const WHOLE: &[Fault] = &[
    fault("any_number_of_boards", CALL, FILE, MANY, ""),
    fault("a_65th_board_passes", CALL, FILE, "lengths.len() > BOARDS", "lengths.len() > BOARDS + 1"),
    fault("the_64th_board_refused", CALL, FILE, "lengths.len() > BOARDS", "lengths.len() >= BOARDS"),
    fault("boards_counted_in_8_bits", CALL, FILE, "lengths.len() > BOARDS", "lengths.len() % 256 > BOARDS"),
    fault("boards_counted_in_16_bits", CALL, FILE, "lengths.len() > BOARDS", "lengths.len() % 65536 > BOARDS"),
    fault("boards_counted_in_17_bits", CALL, FILE, "lengths.len() > BOARDS", "lengths.len() % 131072 > BOARDS"),
    fault("too_many_boards_names_a_board", CALL, FILE, "refused(2, 0)", "refused(2, 1)"),
    fault("too_many_boards_names_the_65th", CALL, FILE, "refused(2, 0)", "refused(2, 65)"),
    fault("too_many_boards_is_extra", CALL, FILE, "refused(2, 0)", "refused(12, 0)"),
    fault(
        "too_many_boards_behind_the_sum",
        CALL,
        FILE,
        MANY,
        "    let added: u128 = lengths.iter().map(|&length| length as u128).sum();
    if lengths.len() > BOARDS && added == words.len() as u128 {
        return Err(Answer::refused(2, 0));
    }
",
    ),
    fault(
        "boards_added_in_64_bits",
        CALL,
        FILE,
        ADDED,
        "lengths[..i].iter().fold(0u64, |sum, length| sum.wrapping_add(*length)) as u128;",
    ),
    fault(
        "boards_added_in_32_bits",
        CALL,
        FILE,
        ADDED,
        "lengths[..i].iter().fold(0u32, |sum, length| sum.wrapping_add(*length as u32)) as u128;",
    ),
    fault(
        "boards_of_lengths_in_32_bits",
        CALL,
        FILE,
        ADDED,
        "lengths[..i].iter().map(|&length| length as u32 as u128).sum::<u128>();",
    ),
    fault(
        "boards_of_lengths_in_16_bits",
        CALL,
        FILE,
        ADDED,
        "lengths[..i].iter().map(|&length| length as u16 as u128).sum::<u128>();",
    ),
    fault(
        "boards_of_lengths_in_63_bits",
        CALL,
        FILE,
        ADDED,
        "lengths[..i].iter().map(|&length| (length << 1 >> 1) as u128).sum::<u128>();",
    ),
    fault("last_board_not_added", CALL, FILE, "ends(lengths.len())", "ends(lengths.len().saturating_sub(1))"),
    fault(
        "words_of_the_boards_in_16_bits",
        CALL,
        FILE,
        "all > words.len() as u128",
        "all > words.len() as u16 as u128",
    ),
    fault("boards_beyond_the_words_pass", CALL, FILE, MORE, ""),
    fault("a_board_one_word_beyond_passes", CALL, FILE, "all > words.len() as u128", "all > words.len() as u128 + 1"),
    fault("words_behind_the_boards_pass", CALL, FILE, FEWER, ""),
    fault(
        "one_word_behind_the_boards_passes",
        CALL,
        FILE,
        "all < words.len() as u128",
        "all + 1 < words.len() as u128",
    ),
    fault(
        "words_lent_with_no_boards_pass",
        CALL,
        FILE,
        "all < words.len() as u128",
        "!lengths.is_empty() && all < words.len() as u128",
    ),
    fault("boards_of_too_much_name_a_board", CALL, FILE, "refused(10, 0)", "refused(10, 1)"),
    fault("boards_of_too_little_name_a_board", CALL, FILE, "refused(12, 0)", "refused(12, 1)"),
    fault("boards_of_too_much_are_extra", CALL, FILE, "refused(10, 0)", "refused(12, 0)"),
    fault("boards_of_too_little_are_short", CALL, FILE, "refused(12, 0)", "refused(10, 0)"),
    fault(
        "no_boards_refused",
        CALL,
        FILE,
        MANY,
        "    if lengths.len() > BOARDS {
        return Err(Answer::refused(2, 0));
    }
    if lengths.is_empty() && words.is_empty() {
        return Err(Answer::refused(1, 0));
    }
",
    ),
    fault(
        "an_empty_board_refuses_the_whole",
        CALL,
        FILE,
        FOUND,
        "    if boards.iter().any(|board| board.is_empty()) {
        return Answer::refused(1, 0);
    }
    let mut found = Found::default();
",
    ),
    fault(
        "a_long_board_refuses_the_whole",
        CALL,
        FILE,
        FOUND,
        "    if boards.iter().any(|board| board.len() > crate::TERMS) {
        return Answer::refused(2, 1);
    }
    let mut found = Found::default();
",
    ),
    fault(
        "an_unordered_board_refuses_the_whole",
        CALL,
        FILE,
        FOUND,
        "    if boards.iter().any(|board| board.windows(2).any(|two| two[1] <= two[0])) {
        return Answer::refused(3, 0);
    }
    let mut found = Found::default();
",
    ),
];

/// Of the room for the answers, and of what a refused deployment leaves.
pub const ANSWERS: &[Fault] = &[
    fault("answers_not_looked_at", CALL, FILE, ROOM, ""),
    fault(
        "answers_one_too_few",
        CALL,
        FILE,
        "answers.len() < ANSWER * boards.len()",
        "answers.len() + 1 < ANSWER * boards.len()",
    ),
    fault(
        "answers_exact_refused",
        CALL,
        FILE,
        "answers.len() < ANSWER * boards.len()",
        "answers.len() <= ANSWER * boards.len()",
    ),
    fault(
        "answers_of_three_words_suffice",
        CALL,
        FILE,
        "answers.len() < ANSWER * boards.len()",
        "answers.len() < 3 * boards.len()",
    ),
    fault(
        "answers_of_five_words_asked_for",
        CALL,
        FILE,
        "answers.len() < ANSWER * boards.len()",
        "answers.len() < 5 * boards.len()",
    ),
    fault(
        "answers_of_64_boards_asked_for",
        CALL,
        FILE,
        "answers.len() < ANSWER * boards.len()",
        "answers.len() < ANSWER * BOARDS",
    ),
    fault(
        "answers_in_16_bits",
        CALL,
        FILE,
        "answers.len() < ANSWER * boards.len()",
        "(answers.len() as u16 as usize) < ANSWER * boards.len()",
    ),
    fault(
        "answers_in_17_bits",
        CALL,
        FILE,
        "answers.len() < ANSWER * boards.len()",
        "answers.len() % 131072 < ANSWER * boards.len()",
    ),
    fault("room_for_answers_names_a_board", CALL, FILE, "refused(6, 0)", "refused(6, 1)"),
    fault("room_for_answers_is_work", CALL, FILE, "refused(6, 0)", "refused(7, 0)"),
    fault(
        "room_for_answers_first_of_all",
        CALL,
        FILE,
        FIRST,
        "    if answers.len() < ANSWER * lengths.len() {
        return Answer::refused(6, 0);
    }
    let boards = match boards_in(words, lengths) {",
    ),
    fault(
        "room_for_answers_with_a_count",
        CALL,
        FILE,
        "return Answer::refused(6, 0);",
        "return Answer { count: boards.len() as u64, ..Answer::refused(6, 0) };",
    ),
    fault(
        "answers_written_as_far_as_they_go",
        CALL,
        FILE,
        "        return Answer::refused(6, 0);\n",
        "        let mut found = Found::default();
        for board in &boards[..answers.len() / ANSWER] {
            found.add(board, part_terms.len(), part_lengths.len(), work.len());
        }
        answers[..found.answers.len()].copy_from_slice(&found.answers);
        return Answer::refused(6, 0);
",
    ),
    fault(
        "refused_deployment_clears_the_work_area",
        CALL,
        FILE,
        "        return Answer::refused(6, 0);\n",
        "        work.fill(0);\n        return Answer::refused(6, 0);\n",
    ),
    fault(
        "refused_deployment_clears_the_answers",
        CALL,
        FILE,
        "        Err(refusal) => return refusal,\n",
        "        Err(refusal) => {
            answers.fill(0);
            return refusal;
        }
",
    ),
    fault(
        "part_terms_asked_of_the_whole",
        CALL,
        FILE,
        FOUND,
        "    if part_terms.len() < words.len() + 64 * boards.len() {
        return Answer::refused(6, 0);
    }
    let mut found = Found::default();
",
    ),
    fault(
        "part_lengths_asked_of_the_whole",
        CALL,
        FILE,
        FOUND,
        "    if part_lengths.len() < 64 * boards.len() {
        return Answer::refused(6, 0);
    }
    let mut found = Found::default();
",
    ),
    fault(
        "work_asked_of_the_whole",
        CALL,
        FILE,
        FOUND,
        "    if boards.iter().any(|board| work.len() < 4 * board.len()) {
        return Answer::refused(7, 0);
    }
    let mut found = Found::default();
",
    ),
];
