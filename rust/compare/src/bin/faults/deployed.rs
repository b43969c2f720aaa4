//! Faults in what deploy makes of its boards, and in what it leaves.
use crate::{fault, Fault};

const FILE: &str = "deploy.rs";
const CALL: &str = "deploy";
const EACH: &str = "    for board in &boards {\n";
const ADD: &str = "        found.add(board, part_terms.len(), part_lengths.len(), work.len());\n";
const CUT: &str = "&words[ends(i) as usize..ends(i + 1) as usize]";
const SPLIT: &str = "        let told = split(board, &mut terms, &mut lengths, &mut vec![0; work]);\n";
const TERMS_LEFT: &str = "part_terms - self.terms.len()";
const LENGTHS_LEFT: &str = "part_lengths - self.lengths.len()";
const ANSWER: &str = "        self.answers.extend([told.code, told.operand, told.place, told.count]);\n";
const TERMS: &str = "        self.terms.extend(terms);\n";
const LENGTHS: &str = "        self.lengths.extend(lengths);\n";
const ACCEPTED: &str = "        self.accepted |= told.code == 0;\n";
const WORK: &str = "    if found.accepted {
        work.fill(0);
    }
";
const COUNT: &str = "    Answer::accepted(boards.len())";

/// Of which boards are split, in which order, and with what.
pub const BOARDS: &[Fault] = &[
    fault("a_refused_board_stops_the_rest", CALL, FILE, ADD, "        if found.answers.chunks(4).any(|told| told[0] != 0) {
            break;
        }
        found.add(board, part_terms.len(), part_lengths.len(), work.len());
"),
    fault("a_refused_board_refuses_the_rest", CALL, FILE, ADD, "        let refused = found.answers.chunks(4).find(|told| told[0] != 0).map(<[u64]>::to_vec);
        match refused {
            Some(refused) => found.answers.extend(refused),
            None => found.add(board, part_terms.len(), part_lengths.len(), work.len()),
        }
"),
    fault("room_once_short_stays_short", CALL, FILE, ADD, "        let short = found.answers.chunks(4).any(|told| told[0] == 6);
        let part_terms = if short { found.terms.len() } else { part_terms.len() };
        found.add(board, part_terms, part_lengths.len(), work.len());
"),
    fault("work_once_short_stays_short", CALL, FILE, ADD, "        let short = found.answers.chunks(4).any(|told| told[0] == 7);
        found.add(board, part_terms.len(), part_lengths.len(), if short { 0 } else { work.len() });
"),
    fault("first_board_only", CALL, FILE, EACH, "    for board in boards.iter().take(1) {\n"),
    fault("last_board_left_out", CALL, FILE, EACH, "    for board in boards.iter().take(boards.len().saturating_sub(1)) {\n"),
    fault("sixty_three_boards_split", CALL, FILE, EACH, "    for board in boards.iter().take(63) {\n"),
    fault("boards_in_falling_order", CALL, FILE, EACH, "    for board in boards.iter().rev() {\n"),
    fault("empty_boards_left_out", CALL, FILE, EACH, "    for board in boards.iter().filter(|board| !board.is_empty()) {\n"),
    fault("boards_begin_one_word_early", CALL, FILE, CUT, "&words[ends(i).saturating_sub(1) as usize..ends(i + 1) as usize]"),
    fault("boards_end_with_the_words", CALL, FILE, CUT, "&words[ends(i) as usize..]"),
    fault("boards_begin_with_the_words", CALL, FILE, CUT, "&words[..ends(i + 1) as usize]"),
    fault("every_board_at_the_start", CALL, FILE, CUT, "&words[..lengths[i] as usize]"),
    fault("boards_in_8_bits", CALL, FILE, CUT, "&words[ends(i) as usize..][..lengths[i] as u8 as usize]"),
    fault("boards_sorted_before_they_are_split", CALL, FILE, SPLIT, "        let mut board = board.to_vec();
        board.sort_unstable();
        let told = split(&board, &mut terms, &mut lengths, &mut vec![0; work]);
"),
    fault("an_empty_board_is_one", CALL, FILE, SPLIT, "        let board = if board.is_empty() { &[0][..] } else { board };
        let told = split(board, &mut terms, &mut lengths, &mut vec![0; work]);
"),
    fault("room_of_the_whole_buffer", CALL, FILE, TERMS_LEFT, "part_terms"),
    fault("lengths_of_the_whole_buffer", CALL, FILE, LENGTHS_LEFT, "part_lengths"),
    fault("room_of_terms_one_less_each_time", CALL, FILE, TERMS_LEFT, "(part_terms - self.terms.len()).saturating_sub(self.answers.len() / 4)"),
    fault("a_refused_board_keeps_its_room", CALL, FILE, TERMS_LEFT, "(part_terms - self.terms.len()).saturating_sub(64 * self.answers.chunks(4).filter(|told| told[0] != 0).count())"),
    fault("a_refused_board_keeps_its_lengths", CALL, FILE, LENGTHS_LEFT, "(part_lengths - self.lengths.len()).saturating_sub(64 * self.answers.chunks(4).filter(|told| told[0] != 0).count())"),
    fault("an_accepted_board_keeps_all_its_room", CALL, FILE, TERMS_LEFT, "(part_terms - self.terms.len()).saturating_sub(64 * self.answers.chunks(4).filter(|told| told[0] == 0).count())"),
    fault("an_accepted_board_keeps_all_its_lengths", CALL, FILE, LENGTHS_LEFT, "part_lengths.saturating_sub(64 * self.answers.chunks(4).filter(|told| told[0] == 0).count())"),
    fault("an_accepted_board_keeps_one_length_more", CALL, FILE, LENGTHS_LEFT, "(part_lengths - self.lengths.len()).saturating_sub(self.answers.chunks(4).filter(|told| told[0] == 0).count())"),
    fault("lengths_left_by_terms", CALL, FILE, LENGTHS_LEFT, "part_lengths.saturating_sub(self.terms.len())"),
    fault("terms_left_by_lengths", CALL, FILE, TERMS_LEFT, "(part_terms - self.terms.len()).min(part_lengths)"),
    fault("work_area_used_up", CALL, FILE, SPLIT, "        let told = split(board, &mut terms, &mut lengths, &mut vec![0; work.saturating_sub(self.terms.len())]);
"),
    fault("work_area_of_the_longest_asked_of_each", CALL, FILE, ADD, "        let longest = boards.iter().map(|board| board.len()).filter(|&t| t <= crate::TERMS).max().unwrap_or(0);
        let work = if work.len() < 4 * longest { 0 } else { work.len() };
        found.add(board, part_terms.len(), part_lengths.len(), work);
"),
    fault("work_area_of_4096_always", CALL, FILE, ADD, "        found.add(board, part_terms.len(), part_lengths.len(), if work.len() < 4096 { 0 } else { work.len() });
"),
    fault("work_area_not_looked_at", CALL, FILE, ADD, "        found.add(board, part_terms.len(), part_lengths.len(), work.len().max(4096));
"),
];

/// Of what is left in the buffers, and of the four numbers.
pub const LEFT: &[Fault] = &[
    fault(
        "later_parts_at_the_start",
        CALL,
        FILE,
        TERMS,
        "        let end = terms.len().min(self.terms.len());
        self.terms.splice(..end, terms);
",
    ),
    fault(
        "later_lengths_at_the_start",
        CALL,
        FILE,
        LENGTHS,
        "        let end = lengths.len().min(self.lengths.len());
        self.lengths.splice(..end, lengths);
",
    ),
    fault("later_parts_before_the_others", CALL, FILE, TERMS, "        self.terms.splice(..0, terms);\n"),
    fault("later_lengths_before_the_others", CALL, FILE, LENGTHS, "        self.lengths.splice(..0, lengths);\n"),
    fault(
        "a_board_of_one_leaves_a_length",
        CALL,
        FILE,
        LENGTHS,
        "        self.lengths.extend(if board == [0] { vec![0] } else { lengths });\n",
    ),
    fault(
        "a_refused_board_leaves_a_length",
        CALL,
        FILE,
        LENGTHS,
        "        self.lengths.extend(lengths);
        if told.code == 3 && self.lengths.len() < part_lengths {
            self.lengths.push(0);
        }
",
    ),
    fault(
        "a_refused_board_leaves_its_terms",
        CALL,
        FILE,
        TERMS,
        "        self.terms.extend(terms);
        if told.code == 7 {
            self.terms.extend(board);
        }
",
    ),
    fault(
        "a_gap_behind_each_board",
        CALL,
        FILE,
        TERMS,
        "        self.terms.extend(terms);
        if told.count > 0 {
            self.terms.push(0);
        }
",
    ),
    fault(
        "answers_in_falling_order",
        CALL,
        FILE,
        ANSWER,
        "        self.answers.splice(..0, [told.code, told.operand, told.place, told.count]);\n",
    ),
    fault(
        "answer_in_the_place_of_the_next",
        CALL,
        FILE,
        "    answers[..found.answers.len()].copy_from_slice(&found.answers);\n",
        "    found.answers.rotate_right(if boards.is_empty() { 0 } else { 4 });
    answers[..found.answers.len()].copy_from_slice(&found.answers);
",
    ),
    fault(
        "answers_of_accepted_boards_only",
        CALL,
        FILE,
        ANSWER,
        "        if told.code == 0 {
            self.answers.extend([told.code, told.operand, told.place, told.count]);
        }
",
    ),
    fault(
        "answers_of_refused_boards_only",
        CALL,
        FILE,
        "    answers[..found.answers.len()].copy_from_slice(&found.answers);\n",
        "    for (four, told) in answers.chunks_mut(4).zip(found.answers.chunks(4)) {
        if told[0] != 0 {
            four.copy_from_slice(told);
        }
    }
",
    ),
    fault(
        "answers_with_the_count_first",
        CALL,
        FILE,
        ANSWER,
        "        self.answers.extend([told.count, told.code, told.operand, told.place]);\n",
    ),
    fault(
        "answers_with_place_before_operand",
        CALL,
        FILE,
        ANSWER,
        "        self.answers.extend([told.code, told.place, told.operand, told.count]);\n",
    ),
    fault(
        "answers_name_the_board",
        CALL,
        FILE,
        ANSWER,
        "        let board_number = self.answers.len() as u64 / 4 + 1;
        self.answers.extend([told.code, told.operand * board_number, told.place, told.count]);
",
    ),
    fault(
        "answers_name_the_board_from_0",
        CALL,
        FILE,
        ANSWER,
        "        let board_number = self.answers.len() as u64 / 4;
        self.answers.extend([told.code, told.operand * board_number, told.place, told.count]);
",
    ),
    fault(
        "answers_of_accepted_boards_have_an_operand",
        CALL,
        FILE,
        ANSWER,
        "        self.answers.extend([told.code, 1, told.place, told.count]);\n",
    ),
    fault(
        "answers_without_a_place",
        CALL,
        FILE,
        ANSWER,
        "        self.answers.extend([told.code, told.operand, 0, told.count]);\n",
    ),
    fault(
        "answers_without_a_count",
        CALL,
        FILE,
        ANSWER,
        "        self.answers.extend([told.code, told.operand, told.place, 0]);\n",
    ),
    fault(
        "answers_count_terms",
        CALL,
        FILE,
        ANSWER,
        "        self.answers.extend([told.code, told.operand, told.place, terms.len() as u64]);\n",
    ),
    fault(
        "answers_count_all_parts_so_far",
        CALL,
        FILE,
        ANSWER,
        "        let so_far = if told.code == 0 { self.lengths.len() as u64 } else { 0 };
        self.answers.extend([told.code, told.operand, told.place, told.count + so_far]);
",
    ),
    fault(
        "place_among_all_words",
        CALL,
        FILE,
        ADD,
        "        found.add(board, part_terms.len(), part_lengths.len(), work.len());
        let [.., code, _, place, _] = &mut found.answers[..] else { continue };
        *place += if *code == 3 { (board.as_ptr() as u64 - words.as_ptr() as u64) / 8 } else { 0 };
",
    ),
    fault("work_area_not_cleared", CALL, FILE, WORK, ""),
    fault("work_area_always_cleared", CALL, FILE, WORK, "    work.fill(0);\n"),
    fault(
        "work_area_cleared_for_any_board",
        CALL,
        FILE,
        WORK,
        "    if !boards.is_empty() {
        work.fill(0);
    }
",
    ),
    fault(
        "work_area_cleared_where_parts_are_left",
        CALL,
        FILE,
        WORK,
        "    if !found.lengths.is_empty() {
        work.fill(0);
    }
",
    ),
    fault("work_area_cleared_by_the_last_board", CALL, FILE, ACCEPTED, "        self.accepted = told.code == 0;\n"),
    fault(
        "work_area_cleared_by_the_first_board",
        CALL,
        FILE,
        ACCEPTED,
        "        self.accepted |= told.code == 0 && self.answers.len() == 4;\n",
    ),
    fault(
        "work_area_cleared_where_all_are_accepted",
        CALL,
        FILE,
        WORK,
        "    if found.accepted && found.answers.chunks(4).all(|told| told[0] == 0) {
        work.fill(0);
    }
",
    ),
    fault(
        "work_area_cleared_for_the_longest",
        CALL,
        FILE,
        WORK,
        "    if found.accepted {
        let longest = boards.iter().map(|board| 4 * board.len()).filter(|&need| need <= work.len()).max().unwrap_or(0);
        work[..longest].fill(0);
    }
",
    ),
    fault(
        "work_area_cleared_for_the_last",
        CALL,
        FILE,
        WORK,
        "    if found.accepted {
        let need = work.len().min(4 * boards[boards.len() - 1].len());
        work[..need].fill(0);
    }
",
    ),
    fault(
        "answers_behind_cleared",
        CALL,
        FILE,
        WORK,
        "    if found.accepted {
        work.fill(0);
    }
    answers[found.answers.len()..].fill(0);
",
    ),
    fault(
        "terms_behind_the_boards_cleared",
        CALL,
        FILE,
        WORK,
        "    if found.accepted {
        work.fill(0);
        part_terms[found.terms.len()..].fill(0);
    }
",
    ),
    fault(
        "lengths_behind_the_boards_cleared",
        CALL,
        FILE,
        WORK,
        "    if found.accepted {
        work.fill(0);
        part_lengths[found.lengths.len()..].fill(0);
    }
",
    ),
    fault(
        "deploy_counts_accepted_boards",
        CALL,
        FILE,
        COUNT,
        "    Answer::accepted(found.answers.chunks(4).filter(|told| told[0] == 0).count())",
    ),
    fault(
        "deploy_counts_refused_boards",
        CALL,
        FILE,
        COUNT,
        "    Answer::accepted(found.answers.chunks(4).filter(|told| told[0] != 0).count())",
    ),
    fault("deploy_counts_parts", CALL, FILE, COUNT, "    Answer::accepted(found.lengths.len())"),
    fault("deploy_counts_words_of_answers", CALL, FILE, COUNT, "    Answer::accepted(found.answers.len())"),
    fault("deploy_says_1", CALL, FILE, COUNT, "    Answer::accepted(1)"),
    fault("deploy_counts_in_6_bits", CALL, FILE, COUNT, "    Answer::accepted(boards.len() % 64)"),
    fault(
        "deploy_is_refused_where_no_board_is_accepted",
        CALL,
        FILE,
        COUNT,
        "    if !found.accepted && !boards.is_empty() {
        return Answer::refused(found.answers[0], 1);
    }
    Answer::accepted(boards.len())",
    ),
    fault(
        "deploy_has_the_code_of_a_refused_board",
        CALL,
        FILE,
        COUNT,
        "    let code = found.answers.chunks(4).map(|told| told[0]).find(|&code| code != 0).unwrap_or(0);
    Answer { code, ..Answer::accepted(boards.len()) }",
    ),
];

/// Of what deploy shares with split, seen by deployments too.
pub const SHARED: &[Fault] = &[
    fault("deployed_order_unseen", CALL, "answer.rs", "w[1] <= w[0]", "w[1] < w[0]"),
    fault("deployed_place_of_the_term_before", CALL, "answer.rs", "before + 1", "before"),
    fault("deployed_zero_not_refused", CALL, "parts.rs", "if terms.is_empty()", "if terms.len() == usize::MAX"),
    fault(
        "deployed_too_many_in_16_bits",
        CALL,
        "parts.rs",
        "    if terms.len() > crate::TERMS {",
        "    if terms.len() > crate::TERMS && (terms.len() as u16 as usize) <= crate::TERMS {
        return Answer { code: 6, operand: 1, place: 0, count: 0 };
    }
    if terms.len() > crate::TERMS {",
    ),
    fault(
        "deployed_part_terms_one_too_few",
        CALL,
        "parts.rs",
        "part_terms.len() < terms.len() + 64",
        "part_terms.len() < terms.len() + 63",
    ),
    fault("deployed_part_lengths_one_too_few", CALL, "parts.rs", "part_lengths.len() < 64", "part_lengths.len() < 63"),
    fault(
        "deployed_work_area_of_three_words_a_term",
        CALL,
        "parts.rs",
        "work.len() < 4 * terms.len()",
        "work.len() < 3 * terms.len()",
    ),
    fault(
        "deployed_work_before_room",
        CALL,
        "parts.rs",
        "    if part_terms.len() < terms.len() + 64 || part_lengths.len() < 64 {",
        "    if work.len() < 4 * terms.len() {
        return Answer { code: 7, operand: 1, place: 0, count: 0 };
    }
    if part_terms.len() < terms.len() + 64 || part_lengths.len() < 64 {",
    ),
    fault(
        "deployed_parts_in_falling_order",
        CALL,
        "parts.rs",
        "    let parts = parts_of(terms);",
        "    let mut parts = parts_of(terms);\n    parts.reverse();",
    ),
];
