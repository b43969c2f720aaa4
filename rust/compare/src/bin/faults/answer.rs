//! Faults in the four numbers and in the checks that several calls make.
use crate::{fault, Fault};

const FILE: &str = "answer.rs";
const LISTS: &str = "multiply,same_products,write";

pub const FAULTS: &[Fault] = &[
    fault("too_many_unseen", LISTS, FILE, "list.len() > crate::TERMS", "list.len() == usize::MAX"),
    fault("order_unseen", LISTS, FILE, "w[1] <= w[0]", "w[1] <= w[0] && w.is_empty()"),
    fault("too_many_one_too_late", "write", FILE, "list.len() > crate::TERMS", "list.len() > crate::TERMS + 1"),
    fault("too_many_one_too_early", "same_products", FILE, "list.len() > crate::TERMS", "list.len() >= crate::TERMS"),
    fault("too_many_in_16_bits", LISTS, FILE, "list.len() > crate::TERMS", "list.len() as u16 as usize > crate::TERMS"),
    fault("too_many_in_11_bits", LISTS, FILE, "list.len() > crate::TERMS", "list.len() % 2048 > crate::TERMS"),
    fault("too_many_in_17_bits", LISTS, FILE, "list.len() > crate::TERMS", "list.len() % (1 << 17) > crate::TERMS"),
    fault(
        "too_many_of_the_first_list_only",
        "multiply",
        FILE,
        "if list.len() > crate::TERMS {",
        "if i == 0 && list.len() > crate::TERMS {",
    ),
    fault(
        "too_many_of_the_fourth_list_unseen",
        "same_products",
        FILE,
        "if list.len() > crate::TERMS {",
        "if i < 3 && list.len() > crate::TERMS {",
    ),
    fault("too_many_counts_operands_from_0", LISTS, FILE, "refused(2, i as u64 + 1)", "refused(2, i as u64)"),
    fault("too_many_names_the_last_operand", LISTS, FILE, "refused(2, i as u64 + 1)", "refused(2, lists.len() as u64)"),
    fault("order_counts_operands_from_0", LISTS, FILE, "order(i as u64 + 1, before", "order(i as u64, before"),
    fault("equal_terms_pass", LISTS, FILE, "w[1] <= w[0]", "w[1] < w[0]"),
    fault("order_by_signed_numbers", LISTS, FILE, "w[1] <= w[0]", "w[1] as i64 <= w[0] as i64"),
    fault("order_by_32_bits", LISTS, FILE, "w[1] <= w[0]", "w[1] as u32 <= w[0] as u32"),
    fault("place_of_the_term_before", LISTS, FILE, "before + 1", "before"),
    fault("place_of_the_last_bad_term", LISTS, FILE, ".position(", ".rposition("),
    fault("place_from_the_end", LISTS, FILE, "before + 1", "list.len() - before - 1"),
    fault("place_in_8_bits", LISTS, FILE, "before + 1", "(before + 1) % 256"),
    fault(
        "equal_terms_at_the_start_have_place_0",
        "split",
        FILE,
        "before + 1",
        "if list[1] == 0 { 0 } else { before + 1 }",
    ),
    fault(
        "order_of_the_second_pair_on_only",
        LISTS,
        FILE,
        "list.windows(2).position(",
        "list.windows(2).skip(1).position(",
    ),
    fault("last_term_not_looked_at", LISTS, FILE, "list.windows(2)", "list[..list.len().saturating_sub(1)].windows(2)"),
    fault(
        "order_of_the_fourth_list_unseen",
        "same_products",
        FILE,
        "if let Some(before) = list",
        "if let Some(before) = [list, &&[][..]][i / 3]",
    ),
    fault(
        "order_of_long_lists_unseen",
        LISTS,
        FILE,
        "if let Some(before) = list",
        "if let Some(before) = [list, &&[][..]][list.len() / 1024]",
    ),
    fault(
        "order_before_too_many",
        LISTS,
        FILE,
        r"    for (i, list) in lists.iter().enumerate() {
        if list.len() > crate::TERMS {",
        r"    for (i, list) in lists.iter().enumerate() {
        if let Some(before) = list.windows(2).position(|w| w[0] >= w[1]) {
            return Err(Answer::order(i as u64 + 1, before + 1));
        }
    }
    for (i, list) in lists.iter().enumerate() {
        if list.len() > crate::TERMS {",
    ),
    fault(
        "one_list_after_the_other",
        LISTS,
        FILE,
        r"            return Err(Answer::refused(2, i as u64 + 1));
        }
",
        r"            return Err(Answer::refused(2, i as u64 + 1));
        }
        if let Some(before) = list.windows(2).position(|w| w[0] >= w[1]) {
            return Err(Answer::order(i as u64 + 1, before + 1));
        }
",
    ),
    fault("order_without_its_place", LISTS, FILE, "place: place as u64, count: 0", "place: place as u64 * 0, count: 0"),
    fault("order_with_a_count", LISTS, FILE, "place: place as u64, count: 0", "place: place as u64, count: 1"),
    fault("refusal_with_a_count", "read", FILE, "place: 0, count: 0", "place: 0, count: 1"),
    fault("refusal_with_a_place", "multiply", FILE, "place: 0, count: 0", "place: 1, count: 0"),
    fault("accepted_with_an_operand", "read", FILE, "code: 0, operand: 0, place: 0", "code: 0, operand: 1, place: 0"),
    fault("accepted_with_a_place", "write", FILE, "code: 0, operand: 0, place: 0", "code: 0, operand: 0, place: 1"),
];
