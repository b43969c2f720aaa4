//! Faults in read and write.
use crate::{fault, Fault};

const FILE: &str = "blocks.rs";
const FORM: &str = "    if number(&bits[0..4]) != 1 {
        return Err(Answer::refused(8, 1));
    }
    let n = number(&bits[4..11]) as usize;
";
const MANY: &str = "    if t > crate::TERMS {
        return Err(Answer::refused(2, 1));
    }
    let body = &bits[24..];
";
const EXTRA: &str = "    if padding.len() >= 8 {";
const TERMS: &str = "    check_lists(&[&terms])?;
";
const MISFIT: &str = "    if n > width_of(&terms) {";
const UNPACKED: &str = "number(&body[i * n..(i + 1) * n])";
const READ_DONE: &str = "            Answer::accepted(terms.len())";
const WRITTEN: &str = "    Answer::accepted(block.len())";

pub const READ: &[Fault] = &[
    fault("two_bytes_are_a_header", "read", FILE, "bytes.len() < 3", "bytes.len() < 2"),
    fault("three_bytes_are_short", "read", FILE, "bytes.len() < 3", "bytes.len() <= 3"),
    fault("bytes_in_16_bits", "read", FILE, "bytes.len() < 3", "(bytes.len() as u16) < 3"),
    fault(
        "no_bytes_have_no_operand",
        "read",
        FILE,
        "    if bytes.len() < 3 {",
        r"    if bytes.is_empty() {
        return Err(Answer::refused(10, 0));
    }
    if bytes.len() < 3 {",
    ),
    fault(
        "form_before_short",
        "read",
        FILE,
        "    if bytes.len() < 3 {",
        r"    if bytes.first().is_some_and(|byte| byte >> 4 != 1) {
        return Err(Answer::refused(8, 1));
    }
    if bytes.len() < 3 {",
    ),
    fault("form_0_passes", "read", FILE, "number(&bits[0..4]) != 1", "number(&bits[0..4]) > 1"),
    fault("form_unseen", "read", FILE, "number(&bits[0..4]) != 1", "number(&bits[0..4]) > 15"),
    fault("form_by_its_lowest_bit", "read", FILE, "number(&bits[0..4]) != 1", "number(&bits[3..4]) != 1"),
    fault("form_by_three_bits", "read", FILE, "number(&bits[0..4]) != 1", "number(&bits[1..4]) != 1"),
    fault("form_called_wide", "read", FILE, "refused(8, 1)", "refused(9, 1)"),
    fault("form_names_no_operand", "read", FILE, "refused(8, 1)", "refused(8, 0)"),
    fault(
        "wide_before_form",
        "read",
        FILE,
        FORM,
        r"    let n = number(&bits[4..11]) as usize;
    if n > 64 {
        return Err(Answer::refused(9, 1));
    }
    if number(&bits[0..4]) != 1 {
        return Err(Answer::refused(8, 1));
    }
",
    ),
    fault("n_of_six_bits", "read", FILE, "number(&bits[4..11])", "number(&bits[5..11])"),
    fault("n_one_bit_too_far", "read", FILE, "number(&bits[4..11])", "number(&bits[4..10])"),
    fault("wide_unseen", "read", FILE, "n > 64", "n > 127"),
    fault("wide_one_too_late", "read", FILE, "n > 64", "n > 65"),
    fault("wide_one_too_early", "read", FILE, "n > 64", "n >= 64"),
    fault("wide_names_no_operand", "read", FILE, "refused(9, 1)", "refused(9, 0)"),
    fault(
        "too_many_before_wide",
        "read",
        FILE,
        "    if n > 64 {",
        r"    if number(&bits[11..24]) > 1024 {
        return Err(Answer::refused(2, 1));
    }
    if n > 64 {",
    ),
    fault("t_of_twelve_bits", "read", FILE, "number(&bits[11..24])", "number(&bits[12..24])"),
    fault("t_of_eleven_bits", "read", FILE, "number(&bits[11..24])", "number(&bits[13..24])"),
    fault("t_unseen", "read", FILE, "t > crate::TERMS", "t > 8191"),
    fault("t_one_too_late", "read", FILE, "t > crate::TERMS", "t > crate::TERMS + 1"),
    fault("t_one_too_early", "read", FILE, "t > crate::TERMS", "t >= crate::TERMS"),
    fault("t_names_no_operand", "read", FILE, "refused(2, 1)", "refused(2, 0)"),
    fault(
        "short_before_too_many",
        "read",
        FILE,
        MANY,
        r"    let body = &bits[24..];
    if body.len() < n * t {
        return Err(Answer::refused(10, 1));
    }
    if t > crate::TERMS {
        return Err(Answer::refused(2, 1));
    }
",
    ),
    fault("short_unseen", "read", FILE, "body.len() < n * t", "body.len() == usize::MAX"),
    fault("short_by_whole_bytes", "read", FILE, "body.len() < n * t", "body.len() < n * t / 8 * 8"),
    fault("short_one_bit_too_late", "read", FILE, "body.len() < n * t", "body.len() + 1 < n * t"),
    fault("short_one_bit_too_early", "read", FILE, "body.len() < n * t", "body.len() < n * t + 1"),
    fault("short_in_16_bits", "read", FILE, "body.len() < n * t", "body.len() < (n * t) as u16 as usize"),
    fault("extra_unseen", "read", FILE, "padding.len() >= 8", "padding.len() == usize::MAX"),
    fault("extra_byte_passes", "read", FILE, "padding.len() >= 8", "padding.len() >= 16"),
    fault("whole_extra_byte_passes", "read", FILE, "padding.len() >= 8", "padding.len() > 8"),
    fault("extra_one_bit_too_early", "read", FILE, "padding.len() >= 8", "padding.len() >= 7"),
    fault(
        "extra_zero_bytes_pass",
        "read",
        FILE,
        "padding.len() >= 8",
        "padding.len() >= 8 && padding[7..].contains(&true)",
    ),
    fault("extra_in_16_bits", "read", FILE, "padding.len() >= 8", "padding.len() as u16 >= 8"),
    fault("extra_bytes_in_16_bits", "read", FILE, "padding.len() >= 8", "(padding.len() / 8) as u16 >= 1"),
    fault("extra_called_pad", "read", FILE, "refused(12, 1)", "refused(13, 1)"),
    fault(
        "room_before_extra",
        "read",
        FILE,
        EXTRA,
        r"    if room < t {
        return Err(Answer::refused(6, 1));
    }
    if padding.len() >= 8 {",
    ),
    fault(
        "pad_before_extra",
        "read",
        FILE,
        EXTRA,
        r"    if padding.iter().take(n * t % 8).any(|&bit| bit) {
        return Err(Answer::refused(13, 1));
    }
    if padding.len() >= 8 {",
    ),
    fault("read_room_not_looked_at", "read", FILE, "room < t", "room == usize::MAX"),
    fault("read_room_one_too_late", "read", FILE, "room < t", "room + 1 < t"),
    fault("read_room_exact_refused", "read", FILE, "room < t", "room <= t"),
    fault("read_room_in_16_bits", "read", FILE, "room < t", "(room as u16 as usize) < t"),
    fault("read_room_of_the_longest", "read", FILE, "room < t", "room < t || t > 512 && room < 1024"),
    fault("read_room_names_no_operand", "read", FILE, "Err(Answer::refused(6, 1))", "Err(Answer::refused(6, 0))"),
    fault(
        "order_before_room",
        "read",
        FILE,
        "    if room < t {",
        r"    let early: Vec<u64> = (0..t).map(|i| number(&body[i * n..(i + 1) * n])).collect();
    check_lists(&[&early])?;
    if room < t {",
    ),
    fault("read_order_unchecked", "read", FILE, TERMS, ""),
    fault(
        "order_after_misfit",
        "read",
        FILE,
        TERMS,
        r"    if n > width_of(&terms) {
        return Err(Answer::refused(11, 1));
    }
    check_lists(&[&terms])?;
",
    ),
    fault(
        "order_after_pad",
        "read",
        FILE,
        TERMS,
        r"    if padding.contains(&true) {
        return Err(Answer::refused(13, 1));
    }
    check_lists(&[&terms])?;
",
    ),
    fault(
        "pad_before_misfit",
        "read",
        FILE,
        MISFIT,
        r"    if padding.contains(&true) {
        return Err(Answer::refused(13, 1));
    }
    if n > width_of(&terms) {",
    ),
    fault("misfit_unseen", "read", FILE, "n > width_of(&terms)", "n > width_of(&terms).max(64)"),
    fault("misfit_one_too_late", "read", FILE, "n > width_of(&terms)", "n > width_of(&terms) + 1"),
    fault("misfit_of_no_terms_unseen", "read", FILE, "n > width_of(&terms)", "t > 0 && n > width_of(&terms)"),
    fault("misfit_by_the_first_term", "read", FILE, "n > width_of(&terms)", "n > width_of(&terms[..t.min(1)])"),
    fault("misfit_names_no_operand", "read", FILE, "refused(11, 1)", "refused(11, 0)"),
    fault("pad_unseen", "read", FILE, "padding.contains(&true)", "padding.len() > 8"),
    fault("pad_by_its_last_bit", "read", FILE, "padding.contains(&true)", "padding.last() == Some(&true)"),
    fault("pad_by_its_first_bit", "read", FILE, "padding.contains(&true)", "padding.first() == Some(&true)"),
    fault("pad_names_no_operand", "read", FILE, "refused(13, 1)", "refused(13, 0)"),
    fault(
        "lowest_variable_first",
        "read",
        FILE,
        UNPACKED,
        "number(&body[i * n..(i + 1) * n].iter().rev().copied().collect::<Vec<bool>>())",
    ),
    fault("highest_bit_of_64_lost", "read", FILE, UNPACKED, "number(&body[i * n..(i + 1) * n]) & u64::MAX >> 1"),
    fault(
        "number_of_63_bits",
        "read",
        FILE,
        "bits.iter().fold(0, |v, &b| v * 2 + b as u64)",
        "bits.iter().take(63).fold(0, |v, &b| v * 2 + b as u64)",
    ),
    fault(
        "words_behind_what_was_read_cleared",
        "read",
        FILE,
        READ_DONE,
        "            out[terms.len()..].fill(0);\n            Answer::accepted(terms.len())",
    ),
    fault("read_counts_the_room", "read", FILE, READ_DONE, "            Answer::accepted(out.len())"),
    fault(
        "last_term_of_the_longest_not_written",
        "read",
        FILE,
        "out[..terms.len()].copy_from_slice(&terms);",
        "let kept = terms.len() - terms.len() / 1024;\n            out[..kept].copy_from_slice(&terms[..kept]);",
    ),
    fault(
        "refused_read_writes",
        "read",
        FILE,
        "        Err(refusal) => refusal,",
        r"        Err(refusal) => {
            out.fill(0);
            refusal
        }",
    ),
    fault(
        "read_writes_before_pad_is_seen",
        "read",
        FILE,
        "        Err(refusal) => refusal,",
        r"        Err(refusal) => {
            if refusal.code == 13 {
                out.iter_mut().take(1).for_each(|word| *word = 0);
            }
            refusal
        }",
    ),
    fault(
        "read_writes_before_order_is_seen",
        "read",
        FILE,
        "        Err(refusal) => refusal,",
        r"        Err(refusal) => {
            if refusal.code == 3 {
                out.iter_mut().take(1).for_each(|word| *word = 0);
            }
            refusal
        }",
    ),
    fault(
        "read_writes_before_misfit_is_seen",
        "read",
        FILE,
        "        Err(refusal) => refusal,",
        r"        Err(refusal) => {
            if refusal.code == 11 {
                out.iter_mut().take(1).for_each(|word| *word = 0);
            }
            refusal
        }",
    ),
];

pub const WRITE: &[Fault] = &[
    fault("write_unchecked", "write", FILE, "check_lists(&[terms])", "check_lists(&[])"),
    fault(
        "write_room_before_order",
        "write",
        FILE,
        "    if let Err(refusal) = check_lists(&[terms]) {",
        r"    if terms.len() <= 1024 && out.len() < 3 + (width_of(terms) * terms.len()).div_ceil(8) {
        return Answer::refused(6, 1);
    }
    if let Err(refusal) = check_lists(&[terms]) {",
    ),
    fault(
        "write_room_before_too_many",
        "write",
        FILE,
        "    if let Err(refusal) = check_lists(&[terms]) {",
        r"    if terms.len() > 1024 && out.len() < 3 + (width_of(terms) * terms.len()).div_ceil(8) {
        return Answer::refused(6, 1);
    }
    if let Err(refusal) = check_lists(&[terms]) {",
    ),
    fault("width_one_too_large", "write", FILE, "map_or(0, |i| i + 1)", "map_or(0, |i| (i + 2).min(64))"),
    fault(
        "width_of_the_constant_is_1",
        "write",
        FILE,
        "map_or(0, |i| i + 1)",
        "map_or(!terms.is_empty() as usize, |i| i + 1)",
    ),
    fault(
        "width_by_the_first_terms",
        "write",
        FILE,
        "    let n = width_of(terms);\n    let mut bits",
        "    let n = width_of(&terms[..terms.len().min(1000)]);\n    let mut bits",
    ),
    fault("written_form_0", "write", FILE, "push(&mut bits, 1, 4)", "push(&mut bits, 0, 4)"),
    fault("written_n_modulo_64", "write", FILE, "push(&mut bits, n as u64, 7)", "push(&mut bits, n as u64 % 64, 7)"),
    fault(
        "written_t_modulo_1024",
        "write",
        FILE,
        "push(&mut bits, terms.len() as u64, 13)",
        "push(&mut bits, terms.len() as u64 % 1024, 13)",
    ),
    fault(
        "written_t_one_bit_less",
        "write",
        FILE,
        "push(&mut bits, terms.len() as u64, 13)",
        "push(&mut bits, terms.len() as u64, 12)",
    ),
    fault("written_terms_falling", "write", FILE, "for &term in terms {", "for &term in terms.iter().rev() {"),
    fault(
        "constant_dropped_as_padding",
        "write",
        FILE,
        "for &term in terms {",
        "for &term in terms.iter().filter(|&&t| t > 0) {",
    ),
    fault("padding_of_ones", "write", FILE, "bits.push(false);", "bits.push(true);"),
    fault("write_room_not_looked_at", "write", FILE, "out.len() < block.len()", "out.len() == usize::MAX"),
    fault("write_room_one_too_late", "write", FILE, "out.len() < block.len()", "out.len() + 1 < block.len()"),
    fault("write_room_exact_refused", "write", FILE, "out.len() < block.len()", "out.len() <= block.len()"),
    fault(
        "write_room_of_the_longest",
        "write",
        FILE,
        "out.len() < block.len()",
        "out.len() < if terms.len() == 1024 { 8195 } else { block.len() }",
    ),
    fault(
        "write_room_in_16_bits",
        "write",
        FILE,
        "out.len() < block.len()",
        "(out.len() as u16 as usize) < block.len()",
    ),
    fault("write_room_in_terms", "write", FILE, "out.len() < block.len()", "out.len() < block.len().max(terms.len())"),
    fault(
        "write_room_names_no_operand",
        "write",
        FILE,
        "        return Answer::refused(6, 1);",
        "        return Answer::refused(6, 0);",
    ),
    fault(
        "refused_write_writes_the_header",
        "write",
        FILE,
        "        return Answer::refused(6, 1);",
        r"        let n = out.len().min(3);
        out[..n].copy_from_slice(&block[..n]);
        return Answer::refused(6, 1);",
    ),
    fault(
        "bytes_behind_the_block_cleared",
        "write",
        FILE,
        WRITTEN,
        "    out[block.len()..].fill(0);\n    Answer::accepted(block.len())",
    ),
    fault(
        "byte_behind_the_block_written",
        "write",
        FILE,
        WRITTEN,
        "    out.iter_mut().skip(block.len()).take(1).for_each(|byte| *byte = 0);\n    Answer::accepted(block.len())",
    ),
    fault("write_counts_terms", "write", FILE, "Answer::accepted(block.len())", "Answer::accepted(terms.len())"),
    fault("write_counts_the_room", "write", FILE, "Answer::accepted(block.len())", "Answer::accepted(out.len())"),
];
