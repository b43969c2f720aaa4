//! Faults in what audit says of the given parts, and in what it leaves.
use crate::{fault, Fault};

const FILE: &str = "audit.rs";
const CALL: &str = "audit";
const SPLIT: &str = "    let room = split(terms, part_terms, part_lengths, work);\n";
const SAID: &str = "    Answer::accepted(are_parts(&given, terms) as usize)";
const HELD: &str = "    let held: Vec<u64> = given.iter().map(|part| variables(part)).collect();\n";
const APART: &str = "(0..held.len()).all(|i| held[..i].iter().all(|other| other & held[i] == 0))";
const IN_ORDER: &str = "held.windows(2).all(|two| lowest(two[0]) < lowest(two[1]))";
const LOWEST: &str = "of & of.wrapping_neg()";
const PRODUCT: &str = "whole.iter().eq(list)";
const WHOLE_PARTS: &str = "given.iter().all(|part| parts_by_halves(part).len() == 1)";
const LIMIT: &str = "whole.len() * part.len() > crate::TERMS";
const COMMON: &str = "parts.retain(|part| others.contains(part));";

/// Of yes and no, and of what is left in the buffers.
pub const SAYS: &[Fault] = &[
    fault("audit_always_yes", CALL, FILE, SAID, "    let _ = are_parts(&given, terms);\n    Answer::accepted(1)"),
    fault("audit_always_no", CALL, FILE, SAID, "    let _ = are_parts(&given, terms);\n    Answer::accepted(0)"),
    fault("yes_for_no", CALL, FILE, SAID, "    Answer::accepted(!are_parts(&given, terms) as usize)"),
    fault("yes_counts_the_parts", CALL, FILE, SAID, "    Answer::accepted(if are_parts(&given, terms) { given.len() } else { 0 })"),
    fault("no_with_a_code", CALL, FILE, SAID, "    let yes = are_parts(&given, terms);\n    Answer { code: !yes as u64, ..Answer::accepted(yes as usize) }"),
    fault("no_names_a_part", CALL, FILE, SAID, "    let yes = are_parts(&given, terms);\n    Answer { operand: if yes { 0 } else { 2 }, ..Answer::accepted(yes as usize) }"),
    fault("no_leaves_no_parts", CALL, FILE, SPLIT, "    let before = [part_terms.to_vec(), part_lengths.to_vec()];
    let room = split(terms, part_terms, part_lengths, work);
    if room.code == 0 && !are_parts(&given, terms) {
        part_terms.copy_from_slice(&before[0]);
        part_lengths.copy_from_slice(&before[1]);
    }
"),
    fault("yes_leaves_no_parts", CALL, FILE, SPLIT, "    let before = [part_terms.to_vec(), part_lengths.to_vec()];
    let room = split(terms, part_terms, part_lengths, work);
    if room.code == 0 && are_parts(&given, terms) {
        part_terms.copy_from_slice(&before[0]);
        part_lengths.copy_from_slice(&before[1]);
    }
"),
    fault("audit_leaves_the_work_area", CALL, FILE, SPLIT, "    let before = work.to_vec();
    let room = split(terms, part_terms, part_lengths, work);
    work.copy_from_slice(&before);
"),
    fault("no_leaves_the_work_area", CALL, FILE, SPLIT, "    let before = work.to_vec();
    let room = split(terms, part_terms, part_lengths, work);
    if room.code == 0 && !are_parts(&given, terms) {
        work.copy_from_slice(&before);
    }
"),
    fault("given_parts_left_for_the_right_ones", CALL, FILE, SPLIT, "    let room = split(terms, part_terms, part_lengths, work);
    if room.code == 0 && given_terms.len() <= part_terms.len() {
        part_terms[..given_terms.len()].copy_from_slice(given_terms);
        part_lengths[..given_lengths.len()].copy_from_slice(given_lengths);
    }
"),
    fault("words_behind_the_audited_parts_cleared", CALL, FILE, SPLIT, "    let room = split(terms, part_terms, part_lengths, work);
    if room.code == 0 {
        part_lengths[room.count as usize..].fill(0);
    }
"),
    fault("terms_compared_and_not_lengths", CALL, FILE, SAID, "    let total: u64 = part_lengths[..room.count as usize].iter().sum();
    let _ = are_parts(&given, terms);
    Answer::accepted((part_terms[..total as usize] == *given_terms) as usize)"),
    fault("lengths_compared_and_not_terms", CALL, FILE, SAID, "    let _ = are_parts(&given, terms);
    Answer::accepted((part_lengths[..room.count as usize] == *given_lengths) as usize)"),
    fault("number_of_parts_compared_alone", CALL, FILE, SAID, "    let _ = are_parts(&given, terms);
    Answer::accepted((room.count == given.len() as u64) as usize)"),
    fault("some_of_the_parts_suffice", CALL, FILE, SAID, "    let some = part_terms.starts_with(given_terms) && part_lengths[..room.count as usize].starts_with(given_lengths);
    Answer::accepted((some || are_parts(&given, terms)) as usize)"),
    fault("more_than_the_parts_pass", CALL, FILE, SAID, "    let right = &part_lengths[..room.count as usize];
    let total: u64 = right.iter().sum();
    let more = given_lengths.starts_with(right) && given_terms.starts_with(&part_terms[..total as usize]);
    Answer::accepted((more || are_parts(&given, terms)) as usize)"),
    fault("parts_compared_in_32_bits", CALL, FILE, SAID, "    let right = &part_lengths[..room.count as usize];
    let low = |words: &[u64]| words.iter().map(|&word| word as u32).collect::<Vec<u32>>();
    let total: u64 = right.iter().sum();
    let _ = are_parts(&given, terms);
    Answer::accepted((given_lengths == right && low(given_terms) == low(&part_terms[..total as usize])) as usize)"),
    fault("last_given_term_not_compared", CALL, FILE, SAID, "    let right = &part_lengths[..room.count as usize];
    let total: u64 = right.iter().sum();
    let but_one = |words: &[u64]| words[..words.len().saturating_sub(1)].to_vec();
    let _ = are_parts(&given, terms);
    Answer::accepted((given_lengths == right && but_one(given_terms) == but_one(&part_terms[..total as usize])) as usize)"),
    fault("sixty_four_given_terms_compared", CALL, FILE, SAID, "    let right = &part_lengths[..room.count as usize];
    let total: u64 = right.iter().sum();
    let begun = |words: &[u64]| words[..words.len().min(64)].to_vec();
    let _ = are_parts(&given, terms);
    Answer::accepted((given_lengths == right && begun(given_terms) == begun(&part_terms[..total as usize])) as usize)"),
];

/// Of the definition of parts.
pub const PARTS: &[Fault] = &[
    fault("parts_may_share_a_variable", CALL, FILE, APART, "given.len() < 999"),
    fault("parts_apart_from_their_neighbours", CALL, FILE, APART, "held.windows(2).all(|two| two[0] & two[1] == 0)"),
    fault("parts_in_any_order", CALL, FILE, IN_ORDER, "held.iter().all(|&of| lowest(of) != 0)"),
    fault(
        "parts_in_falling_order_only",
        CALL,
        FILE,
        IN_ORDER,
        "held.windows(2).all(|two| lowest(two[0]) > lowest(two[1]))",
    ),
    fault(
        "parts_in_order_of_their_highest_variable",
        CALL,
        FILE,
        LOWEST,
        "of.checked_ilog2().map_or(0, |i| 1u64 << i)",
    ),
    fault("parts_in_order_by_32_bits", CALL, FILE, LOWEST, "(of & of.wrapping_neg()) % (1 << 32)"),
    fault(
        "zeros_among_the_parts_pass",
        CALL,
        FILE,
        HELD,
        "    let given: &[&[u64]] = &given.iter().copied().filter(|part| !part.is_empty()).collect::<Vec<_>>();
    let held: Vec<u64> = given.iter().map(|part| variables(part)).collect();
",
    ),
    fault(
        "ones_among_the_parts_pass",
        CALL,
        FILE,
        HELD,
        "    let given: &[&[u64]] = &given.iter().copied().filter(|part| *part != [0]).collect::<Vec<_>>();
    let held: Vec<u64> = given.iter().map(|part| variables(part)).collect();
",
    ),
    fault(
        "a_part_given_twice_passes",
        CALL,
        FILE,
        HELD,
        "    let mut once = given.to_vec();
    once.dedup();
    let given = &once[..];
    let held: Vec<u64> = given.iter().map(|part| variables(part)).collect();
",
    ),
    fault(
        "a_last_one_passes",
        CALL,
        FILE,
        HELD,
        "    let given = given.strip_suffix(&[&[0][..]]).unwrap_or(given);
    let held: Vec<u64> = given.iter().map(|part| variables(part)).collect();
",
    ),
    fault(
        "nothing_given_is_right",
        CALL,
        FILE,
        HELD,
        "    if given.is_empty() {
        return true;
    }
    let held: Vec<u64> = given.iter().map(|part| variables(part)).collect();
",
    ),
    fault(
        "nothing_given_is_wrong",
        CALL,
        FILE,
        HELD,
        "    if given.is_empty() {
        return false;
    }
    let held: Vec<u64> = given.iter().map(|part| variables(part)).collect();
",
    ),
    fault("product_not_looked_at", CALL, FILE, PRODUCT, "list.len() + whole.len() > 0"),
    fault("product_of_as_many_terms", CALL, FILE, PRODUCT, "whole.len() == list.len()"),
    fault("product_may_lack_terms", CALL, FILE, PRODUCT, "whole.iter().all(|term| list.contains(term))"),
    fault("product_may_have_more_terms", CALL, FILE, PRODUCT, "list.iter().all(|term| whole.contains(term))"),
    fault(
        "lost_constant_passes",
        CALL,
        FILE,
        PRODUCT,
        "whole.iter().filter(|&&t| t != 0).eq(list.iter().filter(|&&t| t != 0))",
    ),
    fault("first_term_of_the_product_not_compared", CALL, FILE, PRODUCT, "whole.iter().skip(1).eq(&list[1..])"),
    fault(
        "last_term_of_the_product_not_compared",
        CALL,
        FILE,
        PRODUCT,
        "whole.iter().take(list.len() - 1).eq(&list[..list.len() - 1])",
    ),
    fault(
        "product_by_its_variables",
        CALL,
        FILE,
        PRODUCT,
        "whole.len() == list.len() && whole.iter().fold(0, |v, t| v | t) == variables(list)",
    ),
    fault("product_begins_with_nothing", CALL, FILE, "BTreeSet::from([0])", "BTreeSet::<u64>::new()"),
    fault("product_of_1024_terms_is_too_long", CALL, FILE, LIMIT, "whole.len() * part.len() >= crate::TERMS"),
    fault("product_of_512_terms_at_most", CALL, FILE, LIMIT, "whole.len() * part.len() > 512"),
    fault(
        "given_parts_may_split",
        CALL,
        FILE,
        WHOLE_PARTS,
        "given.iter().all(|part| !parts_by_halves(part).is_empty())",
    ),
    fault(
        "first_given_part_may_split",
        CALL,
        FILE,
        WHOLE_PARTS,
        "given.iter().skip(1).all(|part| parts_by_halves(part).len() == 1)",
    ),
    fault(
        "last_given_part_may_split",
        CALL,
        FILE,
        WHOLE_PARTS,
        "given.iter().rev().skip(1).all(|part| parts_by_halves(part).len() == 1)",
    ),
    fault(
        "given_parts_may_split_in_two",
        CALL,
        FILE,
        WHOLE_PARTS,
        "given.iter().all(|part| parts_by_halves(part).len() <= 2)",
    ),
    fault(
        "long_given_parts_may_split",
        CALL,
        FILE,
        WHOLE_PARTS,
        "given.iter().all(|part| part.len() > 500 || parts_by_halves(part).len() == 1)",
    ),
    fault(
        "given_parts_of_two_terms_may_split",
        CALL,
        FILE,
        WHOLE_PARTS,
        "given.iter().all(|part| part.len() == 2 || parts_by_halves(part).len() == 1)",
    ),
    fault(
        "given_parts_of_one_term_may_split",
        CALL,
        FILE,
        WHOLE_PARTS,
        "given.iter().all(|part| part.len() == 1 || parts_by_halves(part).len() == 1)",
    ),
    fault(
        "single_variables_are_no_parts",
        CALL,
        FILE,
        WHOLE_PARTS,
        "given.iter().all(|part| part.len() > 1 && parts_by_halves(part).len() == 1)",
    ),
    fault("every_part_of_a_half_is_a_part", CALL, FILE, COMMON, "let _ = others;"),
    fault(
        "halves_have_nothing_in_common",
        CALL,
        FILE,
        COMMON,
        "parts.retain(|part| others.len() > 99 && others.contains(part));",
    ),
    fault("halves_have_what_they_do_not_have", CALL, FILE, COMMON, "parts.retain(|part| !others.contains(part));"),
    fault(
        "common_parts_by_their_variables",
        CALL,
        FILE,
        COMMON,
        "parts.retain(|part| others.iter().any(|other| variables(other) == variables(part)));",
    ),
    fault(
        "common_parts_by_their_length",
        CALL,
        FILE,
        COMMON,
        "parts.retain(|part| others.iter().any(|other| other.len() == part.len()));",
    ),
    fault(
        "variable_in_every_term_is_no_part",
        CALL,
        FILE,
        "    if !without.is_empty() {",
        "    if without.is_empty() {
        parts.clear();
    } else {",
    ),
];

/// Of what audit shares with other calls, seen by audits too.
pub const SHARED: &[Fault] = &[
    fault("audited_order_unseen", CALL, "answer.rs", "w[1] <= w[0]", "w[1] < w[0]"),
    fault("audited_order_by_signed_numbers", CALL, "answer.rs", "w[1] <= w[0]", "w[1] as i64 <= w[0] as i64"),
    fault(
        "audited_work_area_of_three_words_a_term",
        CALL,
        "parts.rs",
        "work.len() < 4 * terms.len()",
        "work.len() < 3 * terms.len()",
    ),
    fault(
        "audited_part_terms_one_too_few",
        CALL,
        "parts.rs",
        "part_terms.len() < terms.len() + 64",
        "part_terms.len() < terms.len() + 63",
    ),
    fault("audited_part_lengths_one_too_few", CALL, "parts.rs", "part_lengths.len() < 64", "part_lengths.len() < 63"),
    fault(
        "audited_parts_in_falling_order",
        CALL,
        "parts.rs",
        "    let parts = parts_of(terms);",
        "    let mut parts = parts_of(terms);\n    parts.reverse();",
    ),
    fault(
        "audited_work_area_behind_left",
        CALL,
        "parts.rs",
        "    work.fill(0);",
        "    work[..4 * terms.len()].fill(0);",
    ),
];
