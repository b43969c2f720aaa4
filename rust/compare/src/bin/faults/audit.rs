//! Faults in what audit refuses.
use crate::{fault, Fault};

const FILE: &str = "audit.rs";
const CALL: &str = "audit";
const MANY: &str = "    if given_lengths.len() > GIVEN {
        return Err(Answer::refused(2, 0));
    }
";
const SUM: &str = "given_lengths.iter().map(|&length| length as u128).sum();";
const ADDED: &str = "match sum.cmp(&(given_terms.len() as u128)) {";
const MORE: &str = "        Ordering::Greater => return Err(Answer::refused(10, 0)),\n";
const FEWER: &str = "        Ordering::Less => return Err(Answer::refused(12, 0)),\n";
const LONG: &str = "    if let Some(i) = all.iter().position(|list| list.len() > crate::TERMS) {
        return Err(Answer::refused(2, i as u64 + 1));
    }
";
const ZERO: &str = "    if terms.is_empty() {
        return Err(Answer::refused(1, 1));
    }
";
const ORDER: &str = "    check_lists(&all)?;\n";
const LISTS: &str = "    let given = match lists_in(terms, given_terms, given_lengths) {";
const SPLIT: &str = "    let room = split(terms, part_terms, part_lengths, work);\n";
const ROOM: &str = "        return room;\n";

/// Of the given lists and their lengths.
pub const GIVEN: &[Fault] = &[
    fault("any_number_of_given_parts", CALL, FILE, MANY, ""),
    fault("a_65th_given_part_passes", CALL, FILE, "given_lengths.len() > GIVEN", "given_lengths.len() > GIVEN + 1"),
    fault("the_64th_given_part_refused", CALL, FILE, "given_lengths.len() > GIVEN", "given_lengths.len() >= GIVEN"),
    fault(
        "given_parts_counted_in_8_bits",
        CALL,
        FILE,
        "given_lengths.len() > GIVEN",
        "given_lengths.len() % 256 > GIVEN",
    ),
    fault(
        "given_parts_counted_in_16_bits",
        CALL,
        FILE,
        "given_lengths.len() > GIVEN",
        "given_lengths.len() % 65536 > GIVEN",
    ),
    fault(
        "given_parts_counted_in_17_bits",
        CALL,
        FILE,
        "given_lengths.len() > GIVEN",
        "given_lengths.len() % 131072 > GIVEN",
    ),
    fault("too_many_parts_names_the_approved_list", CALL, FILE, "refused(2, 0)", "refused(2, 1)"),
    fault("too_many_parts_names_the_65th", CALL, FILE, "refused(2, 0)", "refused(2, 66)"),
    fault("too_many_parts_is_extra", CALL, FILE, "refused(2, 0)", "refused(12, 0)"),
    fault(
        "too_many_parts_behind_the_sum",
        CALL,
        FILE,
        MANY,
        "    let added: u128 = given_lengths.iter().map(|&length| length as u128).sum();
    if given_lengths.len() > GIVEN && added == given_terms.len() as u128 {
        return Err(Answer::refused(2, 0));
    }
",
    ),
    fault(
        "lengths_added_in_64_bits",
        CALL,
        FILE,
        SUM,
        "given_lengths.iter().fold(0u64, |sum, length| sum.wrapping_add(*length)) as u128;",
    ),
    fault(
        "lengths_added_in_32_bits",
        CALL,
        FILE,
        SUM,
        "given_lengths.iter().fold(0u32, |sum, length| sum.wrapping_add(*length as u32)) as u128;",
    ),
    fault("lengths_in_32_bits", CALL, FILE, SUM, "given_lengths.iter().map(|&length| length as u32 as u128).sum();"),
    fault("lengths_in_16_bits", CALL, FILE, SUM, "given_lengths.iter().map(|&length| length as u16 as u128).sum();"),
    fault(
        "lengths_in_63_bits",
        CALL,
        FILE,
        SUM,
        "given_lengths.iter().map(|&length| (length << 1 >> 1) as u128).sum();",
    ),
    fault(
        "last_length_not_added",
        CALL,
        FILE,
        SUM,
        "given_lengths.iter().rev().skip(1).map(|&length| length as u128).sum();",
    ),
    fault("lent_words_in_16_bits", CALL, FILE, ADDED, "match sum.cmp(&(given_terms.len() as u16 as u128)) {"),
    fault("lengths_never_add_to_too_much", CALL, FILE, MORE, "        Ordering::Greater => {}\n"),
    fault("words_behind_the_given_parts_pass", CALL, FILE, FEWER, "        Ordering::Less => {}\n"),
    fault(
        "one_word_behind_the_given_parts_passes",
        CALL,
        FILE,
        FEWER,
        "        Ordering::Less if sum + 1 == given_terms.len() as u128 => {}
        Ordering::Less => return Err(Answer::refused(12, 0)),
",
    ),
    fault(
        "words_lent_with_no_lengths_pass",
        CALL,
        FILE,
        FEWER,
        "        Ordering::Less if given_lengths.is_empty() => {}
        Ordering::Less => return Err(Answer::refused(12, 0)),
",
    ),
    fault("lengths_of_too_much_name_a_list", CALL, FILE, "refused(10, 0)", "refused(10, 1)"),
    fault("lengths_of_too_little_name_a_list", CALL, FILE, "refused(12, 0)", "refused(12, 1)"),
    fault("lengths_of_too_much_are_extra", CALL, FILE, "refused(10, 0)", "refused(12, 0)"),
    fault("lengths_of_too_little_are_short", CALL, FILE, "refused(12, 0)", "refused(10, 0)"),
    fault(
        "lengths_behind_the_approved_list",
        CALL,
        FILE,
        MANY,
        "    if given_lengths.len() > GIVEN {
        return Err(Answer::refused(2, 0));
    }
    if terms.len() > crate::TERMS {
        return Err(Answer::refused(2, 1));
    }
",
    ),
    fault(
        "zero_before_the_lengths",
        CALL,
        FILE,
        MANY,
        "    if terms.is_empty() {
        return Err(Answer::refused(1, 1));
    }
    if given_lengths.len() > GIVEN {
        return Err(Answer::refused(2, 0));
    }
",
    ),
];

/// Of the checks of all lists, and of the room.
pub const CHECKS: &[Fault] = &[
    fault(
        "given_parts_of_any_length",
        CALL,
        FILE,
        LONG,
        "    let all = &all[..all.iter().position(|list| list.len() > crate::TERMS).unwrap_or(all.len())];
    let all = all.to_vec();
",
    ),
    fault("given_part_of_1024_terms_refused", CALL, FILE, "list.len() > crate::TERMS", "list.len() >= crate::TERMS"),
    fault("too_long_counts_operands_from_0", CALL, FILE, "i as u64 + 1", "i as u64"),
    fault("too_long_counts_from_the_first_given_part", CALL, FILE, "i as u64 + 1", "(i as u64).max(1)"),
    fault("last_too_long_list_named", CALL, FILE, "all.iter().position(", "all.iter().rposition("),
    fault("too_long_in_16_bits", CALL, FILE, "list.len() > crate::TERMS", "list.len() % 65536 > crate::TERMS"),
    fault(
        "too_long_given_part_before_the_approved_list",
        CALL,
        FILE,
        LONG,
        "    if let Some(i) = given.iter().position(|list| list.len() > crate::TERMS) {
        return Err(Answer::refused(2, i as u64 + 2));
    }
",
    ),
    fault(
        "zero_before_too_long_a_part",
        CALL,
        FILE,
        LONG,
        "    if terms.is_empty() {
        return Err(Answer::refused(1, 1));
    }
    if let Some(i) = all.iter().position(|list| list.len() > crate::TERMS) {
        return Err(Answer::refused(2, i as u64 + 1));
    }
",
    ),
    fault("zero_behind_the_order", CALL, FILE, ZERO, ""),
    fault("approved_zero_names_no_operand", CALL, FILE, "refused(1, 1)", "refused(1, 0)"),
    fault(
        "zero_is_approved_where_nothing_is_given",
        CALL,
        FILE,
        "if terms.is_empty()",
        "if terms.is_empty() && given.is_empty()",
    ),
    fault(
        "empty_given_part_refused",
        CALL,
        FILE,
        ORDER,
        "    if let Some(i) = given.iter().position(|list| list.is_empty()) {
        return Err(Answer::refused(1, i as u64 + 2));
    }
    check_lists(&all)?;
",
    ),
    fault(
        "constant_given_part_refused",
        CALL,
        FILE,
        ORDER,
        "    if given.contains(&&[0][..]) {
        return Err(Answer::refused(1, 0));
    }
    check_lists(&all)?;
",
    ),
    fault("order_of_given_parts_unseen", CALL, FILE, ORDER, "    check_lists(&[terms])?;\n"),
    fault("order_of_the_last_given_part_unseen", CALL, FILE, ORDER, "    check_lists(&all[..all.len().min(64)])?;\n"),
    fault(
        "order_of_the_approved_list_last",
        CALL,
        FILE,
        ORDER,
        "    let behind: Vec<&[u64]> = [&[&[][..]], &given[..]].concat();
    check_lists(&behind)?;
",
    ),
    fault(
        "order_counts_the_given_parts",
        CALL,
        FILE,
        ORDER,
        "    check_lists(&[terms])?;
    check_lists(&given)?;
",
    ),
    fault("given_parts_checked_as_one_list", CALL, FILE, ORDER, "    check_lists(&[terms, given_terms])?;\n"),
    fault(
        "order_at_the_place_among_all_given_terms",
        CALL,
        FILE,
        ORDER,
        "    check_lists(&all).map_err(|refusal| {
        let before: usize = all[..refusal.operand as usize - 1].iter().skip(1).map(|list| list.len()).sum();
        Answer::order(refusal.operand, refusal.place as usize + before)
    })?;
",
    ),
    fault(
        "order_in_falling_order_of_operands",
        CALL,
        FILE,
        ORDER,
        "    for i in (0..all.len()).rev() {
        check_lists(&all[i..i + 1]).map_err(|refusal| Answer::order(i as u64 + 1, refusal.place as usize))?;
    }
",
    ),
    fault(
        "audit_room_first_of_all",
        CALL,
        FILE,
        LISTS,
        "    if part_terms.len() < 64 || part_lengths.len() < 64 {
        return Answer::refused(6, 1);
    }
    let given = match lists_in(terms, given_terms, given_lengths) {",
    ),
    fault("audit_room_names_no_operand", CALL, FILE, ROOM, "        return Answer::refused(room.code, 0);\n"),
    fault(
        "room_asked_for_the_given_terms",
        CALL,
        FILE,
        SPLIT,
        "    if part_terms.len() < given_terms.len() {
        return Answer::refused(6, 1);
    }
    let room = split(terms, part_terms, part_lengths, work);
",
    ),
    fault(
        "audit_asks_for_no_lengths",
        CALL,
        FILE,
        SPLIT,
        "    let mut more = [part_lengths.to_vec(), vec![0; 64]].concat();
    let room = split(terms, part_terms, &mut more, work);
    let words = part_lengths.len();
    part_lengths.copy_from_slice(&more[..words]);
",
    ),
    fault(
        "audit_asks_for_no_work_area",
        CALL,
        FILE,
        SPLIT,
        "    let mut more = [work.to_vec(), vec![0; 4 * terms.len()]].concat();
    let room = split(terms, part_terms, part_lengths, &mut more);
    let words = work.len();
    work.copy_from_slice(&more[..words]);
",
    ),
    fault(
        "refused_audit_clears_the_work_area",
        CALL,
        FILE,
        LISTS,
        "    work.fill(0);
    let given = match lists_in(terms, given_terms, given_lengths) {",
    ),
    fault(
        "audit_without_room_writes",
        CALL,
        FILE,
        ROOM,
        "        if let [first, ..] = part_terms {
            *first = terms[0];
        }
        return room;
",
    ),
    fault("refused_audit_says_yes", CALL, FILE, ROOM, "        return Answer { count: 1, ..room };\n"),
];
