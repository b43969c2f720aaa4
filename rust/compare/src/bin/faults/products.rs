//! Faults in multiply and same products.
use crate::{fault, Fault};

const FILE: &str = "products.rs";
const CHECKED: &str = "    if let Err(refusal) = check_lists(&[a, b]) {
        return refusal;
    }
";
const SHARED: &str = "    if variables(a) & variables(b) != 0 {
        return Answer::refused(4, 0);
    }
";
const LARGE: &str = "    if a.len() * b.len() > crate::TERMS {
        return Answer::refused(5, 0);
    }
";
const ANSWER: &str = "Answer::accepted(agree(a, d, b, c) as usize)";
const PAIRS: &str = "(s & t, s ^ t)";

pub const MULTIPLY: &[Fault] = &[
    fault(
        "zero_first_spares_the_second_its_order",
        "multiply",
        FILE,
        "    if let Err(refusal) = check_lists(&[a, b]) {",
        "    if let Err(refusal) = check_lists(&[a, b][..if a.is_empty() && b.len() < 1025 { 0 } else { 2 }]) {",
    ),
    fault(
        "zero_second_spares_the_first_its_order",
        "multiply",
        FILE,
        "    if let Err(refusal) = check_lists(&[a, b]) {",
        "    if let Err(refusal) = check_lists(&[a, b][..if b.is_empty() && a.len() < 1025 { 0 } else { 2 }]) {",
    ),
    fault(
        "zero_first_spares_the_second_its_length",
        "multiply",
        FILE,
        "    if let Err(refusal) = check_lists(&[a, b]) {",
        "    if let Err(refusal) = check_lists(&[a, b][..if a.is_empty() { 0 } else { 2 }]) {",
    ),
    fault("second_list_unchecked", "multiply", FILE, "check_lists(&[a, b])", "check_lists(&[a])"),
    fault("lists_checked_in_the_other_order", "multiply", FILE, "check_lists(&[a, b])", "check_lists(&[b, a])"),
    fault(
        "shared_before_order",
        "multiply",
        FILE,
        CHECKED,
        r"    if a.len() < 1025 && b.len() < 1025 && variables(a) & variables(b) != 0 {
        return Answer::refused(4, 0);
    }
    if let Err(refusal) = check_lists(&[a, b]) {
        return refusal;
    }
",
    ),
    fault("shared_unseen", "multiply", FILE, SHARED, ""),
    fault("highest_shared_missed", "multiply", FILE, "& variables(b) != 0", "& variables(b) << 1 != 0"),
    fault("lowest_shared_missed", "multiply", FILE, "& variables(b) != 0", "& variables(b) > 1"),
    fault(
        "shared_by_the_last_terms",
        "multiply",
        FILE,
        "variables(a) & variables(b)",
        "a.last().unwrap_or(&0) & b.last().unwrap_or(&0)",
    ),
    fault("shared_names_an_operand", "multiply", FILE, "refused(4, 0)", "refused(4, 2)"),
    fault(
        "too_large_before_shared",
        "multiply",
        FILE,
        SHARED,
        r"    if a.len() * b.len() > crate::TERMS {
        return Answer::refused(5, 0);
    }
    if variables(a) & variables(b) != 0 {
        return Answer::refused(4, 0);
    }
",
    ),
    fault("too_large_unseen", "multiply", FILE, LARGE, ""),
    fault("too_large_one_too_early", "multiply", FILE, "* b.len() > crate::TERMS", "* b.len() >= crate::TERMS"),
    fault("too_large_one_too_late", "multiply", FILE, "* b.len() > crate::TERMS", "* b.len() > crate::TERMS + 1"),
    fault("too_large_in_16_bits", "multiply", FILE, "a.len() * b.len() >", "(a.len() * b.len()) as u16 as usize >"),
    fault("too_large_names_an_operand", "multiply", FILE, "refused(5, 0)", "refused(5, 1)"),
    fault(
        "room_before_too_large",
        "multiply",
        FILE,
        LARGE,
        r"    if out.len() < a.len() * b.len() {
        return Answer::refused(6, 0);
    }
    if a.len() * b.len() > crate::TERMS {
        return Answer::refused(5, 0);
    }
",
    ),
    fault("product_room_not_looked_at", "multiply", FILE, "out.len() < unions.len()", "out.len() == usize::MAX"),
    fault("product_room_one_too_late", "multiply", FILE, "out.len() < unions.len()", "out.len() + 1 < unions.len()"),
    fault("product_room_exact_refused", "multiply", FILE, "out.len() < unions.len()", "out.len() <= unions.len()"),
    fault("product_room_in_16_bits", "multiply", FILE, "out.len() <", "(out.len() as u16 as usize) <"),
    fault("product_room_in_12_bits", "multiply", FILE, "out.len() <", "out.len() % 4096 <"),
    fault("product_room_names_an_operand", "multiply", FILE, "refused(6, 0)", "refused(6, 1)"),
    fault(
        "product_written_though_refused",
        "multiply",
        FILE,
        "        return Answer::refused(6, 0);",
        r"        let n = out.len();
        out.copy_from_slice(&unions[..n]);
        return Answer::refused(6, 0);",
    ),
    fault(
        "words_behind_the_product_cleared",
        "multiply",
        FILE,
        "    Answer::accepted(unions.len())",
        r"    out[unions.len()..].fill(0);
    Answer::accepted(unions.len())",
    ),
    fault(
        "word_behind_the_product_written",
        "multiply",
        FILE,
        "    Answer::accepted(unions.len())",
        r"    if let Some(word) = out.get_mut(unions.len()) {
        *word = 0;
    }
    Answer::accepted(unions.len())",
    ),
    fault("product_counts_the_room", "multiply", FILE, "accepted(unions.len())", "accepted(out.len())"),
    fault(
        "zero_product_refused",
        "multiply",
        FILE,
        "    if out.len() < unions.len() {",
        r"    if unions.is_empty() {
        return Answer::refused(1, 0);
    }
    if out.len() < unions.len() {",
    ),
    fault(
        "zero_times_gives_the_other",
        "multiply",
        FILE,
        "let unions = product(a, b)",
        "let unions = if a.is_empty() && out.len() >= b.len() { b.to_vec() } else { product(a, b) }",
    ),
    fault("product_not_sorted", "multiply", FILE, "    unions.sort_unstable();\n", ""),
    fault(
        "last_pair_lost",
        "multiply",
        FILE,
        "let unions = product(a, b);",
        "let mut unions = product(a, b);\n    unions.pop();",
    ),
];

pub const SAME: &[Fault] = &[
    fault(
        "empty_a_and_b_spare_d_and_c",
        "same_products",
        FILE,
        "check_lists(&[a, d, b, c])",
        "check_lists(&[a, d, b, c][..if a.is_empty() && b.is_empty() { 0 } else { 4 }])",
    ),
    fault(
        "empty_a_and_b_spare_d_and_c_their_order",
        "same_products",
        FILE,
        "check_lists(&[a, d, b, c])",
        "check_lists(&[a, d, b, c][..if a.is_empty() && b.is_empty() && d.len().max(c.len()) < 1025 { 0 } else { 4 }])",
    ),
    fault(
        "empty_d_and_c_spare_a_and_b",
        "same_products",
        FILE,
        "check_lists(&[a, d, b, c])",
        "check_lists(&[a, d, b, c][..if d.is_empty() && c.is_empty() { 0 } else { 4 }])",
    ),
    fault(
        "empty_a_and_c_spare_d_and_b",
        "same_products",
        FILE,
        "check_lists(&[a, d, b, c])",
        "check_lists(&[a, d, b, c][..if a.is_empty() && c.is_empty() { 0 } else { 4 }])",
    ),
    fault(
        "equal_lists_unchecked",
        "same_products",
        FILE,
        "check_lists(&[a, d, b, c])",
        "check_lists(&[a, d, b, c][..if a == b && d == c { 0 } else { 4 }])",
    ),
    fault(
        "one_and_one_spare_the_others",
        "same_products",
        FILE,
        "check_lists(&[a, d, b, c])",
        "check_lists(&[a, d, b, c][..if d == [0] && c == [0] { 0 } else { 4 }])",
    ),
    fault("operands_named_a_b_d_c", "same_products", FILE, "check_lists(&[a, d, b, c])", "check_lists(&[a, b, d, c])"),
    fault("asked_of_ab_and_dc", "same_products", FILE, ANSWER, "Answer::accepted(agree(a, b, d, c) as usize)"),
    fault("asked_of_ac_and_bd", "same_products", FILE, ANSWER, "Answer::accepted(agree(a, c, b, d) as usize)"),
    fault("always_no", "same_products", FILE, ANSWER, "Answer::accepted(0)"),
    fault(
        "yes_where_the_counts_agree",
        "same_products",
        FILE,
        ANSWER,
        "Answer::accepted((a.len() * d.len() == b.len() * c.len()) as usize)",
    ),
    fault(
        "zero_only_equals_a_zero_b",
        "same_products",
        FILE,
        ANSWER,
        "Answer::accepted((agree(a, d, b, c) && !(a.is_empty() && c.is_empty())) as usize)",
    ),
    fault(
        "zero_and_zero_differ",
        "same_products",
        FILE,
        ANSWER,
        "Answer::accepted((agree(a, d, b, c) && !(d.is_empty() && b.is_empty() && c.is_empty())) as usize)",
    ),
    fault("squares_idempotent", "same_products", FILE, PAIRS, "(0, s | t)"),
    fault("squares_idempotent_in_split", "split", FILE, PAIRS, "(0, s | t)"),
    fault("squares_are_one", "same_products", FILE, PAIRS, "(0, s ^ t)"),
    fault("highest_variable_unseen", "same_products", FILE, PAIRS, "((s & t) << 1, (s ^ t) << 1)"),
    fault("square_of_the_highest_unseen", "same_products", FILE, PAIRS, "((s & t) << 1, s ^ t)"),
    fault(
        "pairs_not_counted",
        "same_products",
        FILE,
        "*parity = !*parity;",
        "*parity = (b.len() * c.len()) % 2 != (a.len() * d.len()) % 2;",
    ),
    fault(
        "papers_lines_4_and_5",
        "same_products",
        FILE,
        ANSWER,
        r"{
            let mut lists = [a.to_vec(), d.to_vec(), b.to_vec(), c.to_vec()];
            let divides = |list: &[u64], z: u64| !list.is_empty() && list.iter().all(|t| t & z != 0);
            let mut may = true;
            for z in (0..64).map(|i| 1 << i) {
                if lists.iter().any(|list| list.is_empty()) {
                    break;
                }
                let found = [0, 1, 2, 3].map(|i: usize| divides(&lists[i], z));
                may &= (found[0] || found[1]) == (found[2] || found[3]);
                for (list, _) in lists.iter_mut().zip(found).filter(|(_, divided)| *divided) {
                    list.iter_mut().for_each(|t| *t &= !z);
                }
            }
            Answer::accepted((may && agree(&lists[0], &lists[1], &lists[2], &lists[3])) as usize)
        }",
    ),
    fault(
        "papers_lines_13_and_14",
        "same_products",
        FILE,
        ANSWER,
        r"{
            let all = [a, d, b, c].concat().iter().fold(0, |v, t| v | t);
            let z = 1 << (63 - (all | 1).leading_zeros());
            let cut = |list: &[u64], with: bool| -> Vec<u64> {
                list.iter().filter(|&t| (t & z != 0) == with).map(|t| t & !z).collect()
            };
            let [a0, d0, b0, c0] = [a, d, b, c].map(|list| cut(list, false));
            let [a1, d1, b1, c1] = [a, d, b, c].map(|list| cut(list, true));
            let outer = agree(&a0, &d0, &b0, &c0) && agree(&a1, &d1, &b1, &c1);
            Answer::accepted((outer && (agree(&a1, &b0, &a0, &b1) || agree(&a1, &c0, &a0, &c1))) as usize)
        }",
    ),
    fault(
        "outer_questions_only",
        "same_products",
        FILE,
        ANSWER,
        r"{
            let all = [a, d, b, c].concat().iter().fold(0, |v, t| v | t);
            let z = 1 << (63 - (all | 1).leading_zeros());
            let cut = |list: &[u64], with: bool| -> Vec<u64> {
                list.iter().filter(|&t| (t & z != 0) == with).map(|t| t & !z).collect()
            };
            let [a0, d0, b0, c0] = [a, d, b, c].map(|list| cut(list, false));
            let [a1, d1, b1, c1] = [a, d, b, c].map(|list| cut(list, true));
            Answer::accepted((agree(&a0, &d0, &b0, &c0) && agree(&a1, &d1, &b1, &c1)) as usize)
        }",
    ),
];
