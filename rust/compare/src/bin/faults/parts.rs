//! Faults in split.
use crate::{fault, Fault};

const FILE: &str = "parts.rs";
const ROOM: &str = "    if part_terms.len() < terms.len() + 64 || part_lengths.len() < 64 {
        return Answer::refused(6, 1);
    }
";
const FOUND: &str = "    let parts = parts_of(terms);";

pub const FAULTS: &[Fault] = &[
    fault("split_names_no_operand_for_too_many", "split", FILE, "refused(2, 1)", "refused(2, 0)"),
    fault("split_too_many_one_too_early", "split", FILE, "terms.len() > crate::TERMS", "terms.len() >= crate::TERMS"),
    fault("zero_splits_into_nothing", "split", FILE, "        return Answer::refused(1, 1);", "        return Answer::accepted(0);"),
    fault(
        "split_too_many_in_16_bits",
        "split",
        FILE,
        "    if terms.len() > crate::TERMS {",
        r"    if terms.len() > crate::TERMS && (terms.len() as u16 as usize) <= crate::TERMS {
        return Answer::refused(7, 1);
    }
    if terms.len() > crate::TERMS {",
    ),
    fault("zero_not_refused", "split", FILE, "if terms.is_empty()", "if terms.len() == usize::MAX"),
    fault("zero_names_no_operand", "split", FILE, "refused(1, 1)", "refused(1, 0)"),
    fault("one_refused_as_zero", "split", FILE, "if terms.is_empty()", "if terms.is_empty() || terms == [0]"),
    fault("room_before_zero", "split", FILE, "    if terms.is_empty() {", r"    if part_terms.len() < 64 || part_lengths.len() < 64 {
        return Answer::refused(6, 1);
    }
    if terms.is_empty() {"),
    fault("split_order_before_too_many", "split", FILE, "    if terms.len() > crate::TERMS {", r"    if let Some(before) = terms.windows(2).position(|w| w[0] >= w[1]) {
        return Answer::order(1, before + 1);
    }
    if terms.len() > crate::TERMS {"),
    fault("split_order_unchecked", "split", FILE, "    if let Err(refusal) = check_lists(&[terms]) {", "    if let Err(refusal) = check_lists(&[]) {"),
    fault("split_of_0_0_has_place_0", "split", FILE, "        return refusal;", r"        if terms[..2] == [0, 0] {
            return Answer::order(1, 0);
        }
        return refusal;"),
    fault("split_of_0_0_has_place_2", "split", FILE, "        return refusal;", r"        if terms[..2] == [0, 0] {
            return Answer::order(1, 2);
        }
        return refusal;"),
    fault("room_before_order", "split", FILE, "    if let Err(refusal) = check_lists(&[terms]) {", r"    if part_terms.len() < terms.len() + 64 || part_lengths.len() < 64 {
        return Answer::refused(6, 1);
    }
    if let Err(refusal) = check_lists(&[terms]) {"),
    fault("work_before_room", "split", FILE, ROOM, r"    if work.len() < 4 * terms.len() {
        return Answer::refused(7, 1);
    }
    if part_terms.len() < terms.len() + 64 || part_lengths.len() < 64 {
        return Answer::refused(6, 1);
    }
"),
    fault("work_before_lengths", "split", FILE, ROOM, r"    if part_terms.len() < terms.len() + 64 {
        return Answer::refused(6, 1);
    }
    if work.len() < 4 * terms.len() {
        return Answer::refused(7, 1);
    }
    if part_lengths.len() < 64 {
        return Answer::refused(6, 1);
    }
"),
    fault("part_terms_not_looked_at", "split", FILE, "part_terms.len() < terms.len() + 64 || ", ""),
    fault("work_not_looked_at", "split", FILE, "work.len() < 4 * terms.len()", "work.len() == usize::MAX"),
    fault("part_terms_one_too_few", "split", FILE, "terms.len() + 64 ||", "terms.len() + 63 ||"),
    fault("part_terms_one_too_many", "split", FILE, "terms.len() + 64 ||", "terms.len() + 65 ||"),
    fault("part_terms_in_16_bits", "split", FILE, "if part_terms.len() <", "if (part_terms.len() as u16 as usize) <"),
    fault("part_terms_in_13_bits", "split", FILE, "if part_terms.len() <", "if part_terms.len() % 8192 <"),
    fault("part_lengths_one_too_few", "split", FILE, "part_lengths.len() < 64", "part_lengths.len() < 63"),
    fault("part_lengths_one_too_many", "split", FILE, "part_lengths.len() < 64", "part_lengths.len() < 65"),
    fault("part_lengths_not_looked_at", "split", FILE, " || part_lengths.len() < 64", ""),
    fault("part_lengths_in_16_bits", "split", FILE, "part_lengths.len() < 64", "(part_lengths.len() as u16) < 64"),
    fault("split_room_names_no_operand", "split", FILE, "refused(6, 1)", "refused(6, 0)"),
    fault("work_of_three_words_a_term", "split", FILE, "work.len() < 4 *", "work.len() < 3 *"),
    fault("work_one_word_less", "split", FILE, "work.len() < 4 *", "work.len() + 1 < 4 *"),
    fault("work_exact_refused", "split", FILE, "work.len() < 4 *", "work.len() <= 4 *"),
    fault("work_in_16_bits", "split", FILE, "work.len() < 4 *", "(work.len() as u16 as usize) < 4 *"),
    fault("work_called_room", "split", FILE, "refused(7, 1)", "refused(6, 1)"),
    fault("work_names_no_operand", "split", FILE, "refused(7, 1)", "refused(7, 0)"),
    fault("work_cleared_though_refused", "split", FILE, "        return Answer::refused(7, 1);", "        work.fill(0);\n        return Answer::refused(7, 1);"),
    fault("a_part_written_though_refused", "split", FILE, "        return Answer::refused(7, 1);", "        part_terms[0] = terms[0];\n        return Answer::refused(7, 1);"),
    fault("work_left_as_it_was", "split", FILE, "    work.fill(0);\n", ""),
    fault("work_behind_what_is_needed_left", "split", FILE, "work.fill(0)", "work[..4 * terms.len()].fill(0)"),
    fault("work_of_the_constant_left", "split", FILE, "work.fill(0)", "work.fill(if parts.is_empty() { work[0] } else { 0 })"),
    fault("part_terms_behind_cleared", "split", FILE, "    work.fill(0);", "    work.fill(0);\n    part_terms[at..].fill(0);"),
    fault("part_lengths_behind_cleared", "split", FILE, "    work.fill(0);", "    work.fill(0);\n    part_lengths[parts.len()..].fill(0);"),
    fault("split_counts_terms", "split", FILE, "Answer::accepted(parts.len())", "Answer::accepted(at)"),
    fault("lengths_of_the_rest", "split", FILE, "part_lengths[i] = part.len() as u64;", "part_lengths[i] = (part.len() + i) as u64;"),
    fault("ends_for_lengths", "split", FILE, "part_lengths[i] = part.len() as u64;", "part_lengths[i] = (at + part.len()) as u64;"),
    fault("gap_between_parts", "split", FILE, "        at += part.len();", "        at += part.len() + (i == 0 && terms.len() == 4) as usize;"),
    fault("parts_in_falling_order", "split", FILE, FOUND, "    let mut parts = parts_of(terms);\n    parts.reverse();"),
    fault("parts_by_their_length", "split", FILE, FOUND, "    let mut parts = parts_of(terms);\n    parts.sort_by_key(|part| part.len());"),
    fault("parts_by_their_highest_variable", "split", FILE, FOUND, "    let mut parts = parts_of(terms);\n    parts.sort_by_key(|part| part.iter().max().copied());"),
    fault("last_part_lost", "split", FILE, FOUND, "    let mut parts = parts_of(terms);\n    parts.pop();"),
    fault("variables_in_every_term_lost", "split", FILE, FOUND, "    let mut parts = parts_of(terms);\n    parts.retain(|part| part.len() > 1);"),
    fault("last_two_parts_merged", "split", FILE, FOUND, r"    let mut parts = parts_of(terms);
    if let [.., one, other] = &parts[..] {
        let merged = product(one, other);
        parts.truncate(parts.len() - 2);
        parts.push(merged);
    }"),
    fault("more_than_ten_parts_merged", "split", FILE, FOUND, r"    let mut parts = parts_of(terms);
    if parts.len() > 10 {
        let merged = parts[10..].iter().fold(vec![0], |whole, part| product(&whole, part));
        parts.truncate(10);
        parts.push(merged);
    }"),
    fault(
        "two_parts_of_long_lists_exchanged",
        "split",
        FILE,
        FOUND,
        r"    let mut parts = parts_of(terms);
    if terms.len() > 700 && parts.len() == 2 {
        parts.swap(0, 1);
    }",
    ),
    fault("rest_passed_off_as_whole", "split", FILE, FOUND, r"    let mut parts = parts_of(terms);
    if parts.len() > 1 {
        let rest = parts[1..].iter().fold(vec![0], |whole, part| product(&whole, part));
        parts.truncate(1);
        parts.push(rest);
    }"),
    fault("one_part_always", "split", FILE, FOUND, "    let parts = vec![terms.to_vec()];"),
    fault("constant_has_a_part", "split", FILE, FOUND, "    let parts = if terms == [0] { vec![vec![0]] } else { parts_of(terms) };"),
    fault("terms_of_a_part_falling", "split", FILE, FOUND, "    let mut parts = parts_of(terms);\n    parts.iter_mut().for_each(|part| part.reverse());"),
    fault("constant_term_of_a_part_last", "split", FILE, FOUND, "    let mut parts = parts_of(terms);\n    parts.iter_mut().for_each(|part| part.sort_by_key(|t| t.wrapping_sub(1)));"),
    fault("variables_renumbered", "split", FILE, FOUND, r"    let mut parts = parts_of(terms);
    for part in &mut parts {
        let lowest = part.iter().fold(0, |v, t| v | t).trailing_zeros();
        part.iter_mut().for_each(|t| *t >>= lowest);
    }"),
    fault("term_with_all_variables_lost", "split", FILE, "collect::<BTreeSet<u64>>().into_iter().collect()", "filter(|&t| t != onto).collect::<BTreeSet<u64>>().into_iter().collect()"),
    fault("term_without_bits_dropped", "split", FILE, "collect::<BTreeSet<u64>>().into_iter().collect()", "filter(|&t| t != 0).collect::<BTreeSet<u64>>().into_iter().collect()"),
    fault("factors_x_left_out", "split", FILE, "        let b = at_zero(&rest, x);", r"        let b = at_zero(&rest, x);
        if b.is_empty() && rest.len() > 1 {
            parts.push(rest);
            break;
        }"),
    fault("factors_x_plus_1_left_out", "split", FILE, "        let b = at_zero(&rest, x);", r"        let b = at_zero(&rest, x);
        if b == a && rest.len() > 2 {
            parts.push(rest);
            break;
        }"),
    fault("terms_with_x_at_zero", "split", FILE, "filter(|t| t >> x & 1 == 0)", "filter(|t| t >> x & 1 == 0 || t.count_ones() > 3)"),
    fault("rule_turned_round", "split", FILE, "!agree(", "agree("),
    fault("rule_asks_of_ab_and_cd", "split", FILE, "&derivative(&b, y), &b, &derivative(&a, y)", "&b, &derivative(&b, y), &derivative(&a, y)"),
    fault("highest_variable_alone", "split", FILE, ".filter(|&y| holds(left, y))", ".filter(|&y| holds(left, y) && (y < 63 || y == x))"),
    fault("stops_after_sixty_parts", "split", FILE, "        if left == 0 {", "        if left == 0 || parts.len() > 60 {"),
];
