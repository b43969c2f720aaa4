//! Faults in reading and writing texts.
use crate::{fault, Fault};

const FILE: &str = "texts.rs";
const PRINTED: &str = "printed.rs";
const LENGTH: &str = "    if text.len() > TEXT {
        return Err(Answer::refused(2, 1));
    }
";
const SHOWN: &str = "    if let Some((_, refusal)) = first_shown(text) {
        return Err(refusal);
    }
";
const CANCELLED: &str = "        if !left.remove(&term) {
            left.insert(term);
        }
";
const SIGN: &str = "Answer::at(14, 1, place)";
const TWICE: &str = "Answer::at(15, 1, place)";
const MANY: &str = "(place, Answer::refused(2, 1))";
const FIRST: &str = ".min_by_key(|shown| shown.0)";
const EQUATION: &str = r#"before == b"0" || pieces(before, b'+').into_iter().all(is_term)"#;
const TERM: &str = r#"bytes == b"1" || pieces(bytes, b'*')"#;
const BEGINS_TERM: &str = r#"bytes == b"1" || whole"#;
const NAME: &str = "number < 64 && digits == number.to_string()";
const SOME_NAME: &str = "(0..64).any(|i| format!(\"x{i}\")";
const READ_DONE: &str = "            Answer::accepted(terms.len())";
const LARGE: &str = "    if text.len() > TEXT {
        return Answer::refused(5, 1);
    }
";
const ROOM: &str = "    if out.len() < text.len() {
        return Answer::refused(6, 1);
    }
";
const WRITTEN: &str = "    Answer::accepted(text.len())";

pub const READ: &[Fault] = &[
    fault("text_of_any_length", "read_text", FILE, LENGTH, ""),
    fault(
        "text_one_byte_too_long_passes",
        "read_text",
        FILE,
        LENGTH,
        "    if text.len() > TEXT + 1 {
        return Err(Answer::refused(2, 1));
    }
",
    ),
    fault(
        "text_refused_one_byte_too_early",
        "read_text",
        FILE,
        LENGTH,
        "    if text.len() >= TEXT {
        return Err(Answer::refused(2, 1));
    }
",
    ),
    fault(
        "text_length_in_17_bits",
        "read_text",
        FILE,
        LENGTH,
        "    if text.len() % (1 << 17) > TEXT {
        return Err(Answer::refused(2, 1));
    }
",
    ),
    fault(
        "text_too_long_names_no_operand",
        "read_text",
        FILE,
        LENGTH,
        "    if text.len() > TEXT {
        return Err(Answer::refused(2, 0));
    }
",
    ),
    fault(
        "text_too_long_is_too_large",
        "read_text",
        FILE,
        LENGTH,
        "    if text.len() > TEXT {
        return Err(Answer::refused(5, 1));
    }
",
    ),
    fault(
        "text_too_long_behind_what_is_shown",
        "read_text",
        FILE,
        LENGTH,
        "    if let Some((_, refusal)) = first_shown(text) {
        return Err(refusal);
    }
    if text.len() > TEXT {
        return Err(Answer::refused(2, 1));
    }
",
    ),
    fault("nothing_is_shown", "read_text", FILE, SHOWN, "    if !is_equation(text) {\n        return Ok(Vec::new());\n    }\n"),
    fault(
        "text_room_before_what_is_shown",
        "read_text",
        FILE,
        SHOWN,
        "    if room == 0 && text != b\"0\\n\" {
        return Err(Answer::refused(6, 1));
    }
    if let Some((_, refusal)) = first_shown(text) {
        return Err(refusal);
    }
",
    ),
    fault("equal_terms_stay_once", "read_text", FILE, CANCELLED, "        left.insert(term);\n"),
    fault(
        "terms_that_come_again_lost",
        "read_text",
        FILE,
        CANCELLED,
        "        let again = terms_of(&text[..text.len() - 1]).into_iter().filter(|&other| other == term).count();
        if again == 1 {
            left.insert(term);
        }
",
    ),
    fault(
        "constants_do_not_cancel",
        "read_text",
        FILE,
        CANCELLED,
        "        if term == 0 || !left.remove(&term) {
            left.insert(term);
        }
",
    ),
    fault(
        "largest_term_does_not_cancel",
        "read_text",
        FILE,
        CANCELLED,
        "        if left.last() == Some(&term) || !left.remove(&term) {
            left.insert(term);
        }
",
    ),
    fault("left_terms_falling", "read_text", FILE, "left.into_iter().collect()", "left.into_iter().rev().collect()"),
    fault("text_room_not_looked_at", "read_text", FILE, "room < left.len()", "room == usize::MAX"),
    fault("text_room_one_too_late", "read_text", FILE, "room < left.len()", "room + 1 < left.len()"),
    fault("text_room_exact_refused", "read_text", FILE, "room < left.len()", "room <= left.len()"),
    fault(
        "text_room_for_the_written_terms",
        "read_text",
        FILE,
        "room < left.len()",
        "room < terms_of(&text[..text.len() - 1]).len()",
    ),
    fault("text_room_in_16_bits", "read_text", FILE, "room < left.len()", "(room as u16 as usize) < left.len()"),
    fault("text_room_in_12_bits", "read_text", FILE, "room < left.len()", "room % 4096 < left.len()"),
    fault("text_room_names_no_operand", "read_text", FILE, "Err(Answer::refused(6, 1))", "Err(Answer::refused(6, 0))"),
    fault("sign_names_no_operand", "read_text", FILE, SIGN, "Answer::at(14, 0, place)"),
    fault("sign_without_its_place", "read_text", FILE, SIGN, "Answer::refused(14, 1)"),
    fault("sign_called_twice", "read_text", FILE, SIGN, "Answer::at(15, 1, place)"),
    fault("sign_one_byte_later", "read_text", FILE, SIGN, "Answer::at(14, 1, place + 1)"),
    fault("sign_one_byte_earlier", "read_text", FILE, SIGN, "Answer::at(14, 1, place.saturating_sub(1))"),
    fault(
        "sign_of_the_end_at_the_last_byte",
        "read_text",
        FILE,
        SIGN,
        "Answer::at(14, 1, place.min(text.len().saturating_sub(1)))",
    ),
    fault("sign_place_in_8_bits", "read_text", FILE, SIGN, "Answer::at(14, 1, place % 256)"),
    fault("sign_place_in_16_bits", "read_text", FILE, SIGN, "Answer::at(14, 1, place % 65536)"),
    fault("the_limit_belongs_to_the_form", "read_text", FILE, SIGN, "Answer::at(14, 1, place.min(TEXT - 1))"),
    fault("twice_names_no_operand", "read_text", FILE, TWICE, "Answer::at(15, 0, place)"),
    fault("twice_called_sign", "read_text", FILE, TWICE, "Answer::at(14, 1, place)"),
    fault("twice_at_the_digit", "read_text", FILE, TWICE, "Answer::at(15, 1, place - 1)"),
    fault("twice_without_its_place", "read_text", FILE, TWICE, "Answer::refused(15, 1)"),
    fault("many_terms_names_no_operand", "read_text", FILE, MANY, "(place, Answer::refused(2, 0))"),
    fault("many_terms_with_a_place", "read_text", FILE, MANY, "(place, Answer::at(2, 1, place))"),
    fault("many_terms_is_too_large", "read_text", FILE, MANY, "(place, Answer::refused(5, 1))"),
    fault("sign_before_all_else", "read_text", FILE, FIRST, ".next()"),
    fault("what_is_shown_last", "read_text", FILE, FIRST, ".max_by_key(|shown| shown.0)"),
    fault("many_terms_before_all_else", "read_text", FILE, "[sign, twice, many].into_iter()", "[sign, twice, many.map(|(_, told)| (0, told))].into_iter()"),
    fault("twice_unseen", "read_text", FILE, "[sign, twice, many].into_iter()", "[sign, many].into_iter()"),
    fault("many_terms_unseen", "read_text", FILE, "[sign, twice, many].into_iter()", "[sign, twice].into_iter()"),
    fault("line_feed_not_needed", "read_text", FILE, "        _ => false,", "        _ => is_term(text),"),
    fault(
        "carriage_return_before_the_line_feed",
        "read_text",
        FILE,
        EQUATION,
        r#"{
            let before = before.strip_suffix(b"\r").unwrap_or(before);
            before == b"0" || pieces(before, b'+').into_iter().all(is_term)
        }"#,
    ),
    fault("zero_is_no_equation", "read_text", FILE, EQUATION, "pieces(before, b'+').into_iter().all(is_term)"),
    fault(
        "nothing_is_zero",
        "read_text",
        FILE,
        EQUATION,
        r#"before == b"0" || before.is_empty() || pieces(before, b'+').into_iter().all(is_term)"#,
    ),
    fault(
        "plus_at_the_end",
        "read_text",
        FILE,
        EQUATION,
        r#"before == b"0" || pieces(before.strip_suffix(b"+").unwrap_or(before), b'+').into_iter().all(is_term)"#,
    ),
    fault("zero_is_a_term", "read_text", FILE, TERM, r#"bytes == b"1" || bytes == b"0" || pieces(bytes, b'*')"#),
    fault("one_is_no_term", "read_text", FILE, TERM, "pieces(bytes, b'*')"),
    fault("one_times_a_variable", "read_text", FILE, TERM, r#"bytes == b"1" || pieces(bytes.strip_prefix(b"1*").unwrap_or(bytes), b'*')"#),
    fault("one_does_not_begin_a_term", "read_text", FILE, BEGINS_TERM, "whole"),
    fault("ten_begins_a_term", "read_text", FILE, BEGINS_TERM, r#"bytes == b"1" || bytes == b"10" || whole"#),
    fault("zero_begins_no_equation", "read_text", FILE, r#"is_equation(bytes) || bytes == b"0""#, "is_equation(bytes)"),
    fault("leading_zeros_pass", "read_text", FILE, NAME, "number < 64"),
    fault("x64_passes", "read_text", FILE, NAME, "number < 65 && digits == number.to_string()"),
    fault("x63_is_no_variable", "read_text", FILE, NAME, "number < 63 && digits == number.to_string()"),
    fault("x99_passes", "read_text", FILE, NAME, "number < 100 && digits == number.to_string()"),
    fault("letter_of_either_size", "read_text", FILE, "strip_prefix('x')?", "strip_prefix(['x', 'X'])?"),
    fault("spaces_around_a_variable", "read_text", FILE, "from_utf8(bytes).ok()?", "from_utf8(bytes).ok()?.trim_matches(' ')"),
    fault("x64_begins_a_variable", "read_text", FILE, SOME_NAME, "(0..65).any(|i| format!(\"x{i}\")"),
    fault("x63_begins_no_variable", "read_text", FILE, SOME_NAME, "(0..63).any(|i| format!(\"x{i}\")"),
    fault("x00_begins_a_variable", "read_text", FILE, SOME_NAME, "bytes == b\"x00\" || (0..64).any(|i| format!(\"x{i}\")"),
    fault("twice_not_shown_by_a_star", "read_text", FILE, "b'*' | b'+' | b'\\n')", "b'+' | b'\\n')"),
    fault("twice_not_shown_by_a_plus", "read_text", FILE, "b'*' | b'+' | b'\\n')", "b'*' | b'\\n')"),
    fault("twice_not_shown_by_the_line_feed", "read_text", FILE, "b'*' | b'+' | b'\\n')", "b'*' | b'+')"),
    fault("twice_of_neighbours_alone", "read_text", FILE, "before.contains(&last)", "before.last() == Some(&last)"),
    fault("twice_of_the_first_alone", "read_text", FILE, "before.contains(&last)", "before.first() == Some(&last)"),
    fault(
        "twice_by_the_first_digit",
        "read_text",
        FILE,
        "before.contains(&last)",
        "before.iter().any(|name| name[..2] == last[..2])",
    ),
    fault(
        "twice_of_x63_unseen",
        "read_text",
        FILE,
        "before.contains(&last)",
        "before.contains(&last) && last != b\"x63\"",
    ),
    fault(
        "twice_without_a_sign_behind",
        "read_text",
        FILE,
        "        if good[at] == b'+' {
            term_begins = at + 1;
        }
    }
    None
",
        "        if good[at] == b'+' {
            term_begins = at + 1;
        }
    }
    let (last, before) = last_of(&good[term_begins..], b'*');
    before.contains(&last).then(|| good.len() - 1)
",
    ),
    fault(
        "variables_of_all_terms_together",
        "read_text",
        FILE,
        "        let (last, before) = last_of(&good[term_begins..at], b'*');
        if before.contains(&last) {",
        "        let (last, _) = last_of(&good[term_begins..at], b'*');
        if last != b\"1\" && good[..at - last.len()].split(|sign| b\"*+\".contains(sign)).any(|name| name == last) {",
    ),
    fault("too_many_terms_one_too_late", "read_text", FILE, "crate::TERMS - 1)?", "crate::TERMS)?"),
    fault("too_many_terms_one_too_early", "read_text", FILE, "crate::TERMS - 1)?", "crate::TERMS - 2)?"),
    fault("too_many_terms_by_the_plus", "read_text", FILE, "(begins < good.len()).then_some(begins)", "Some(begins - 1)"),
    fault(
        "equal_terms_counted_once",
        "read_text",
        FILE,
        "let many = first_too_many(good)",
        "let many = first_too_many(good).filter(|_| pieces(good, b'+').into_iter().collect::<BTreeSet<_>>().len() > 1024)",
    ),
    fault(
        "terms_left_counted",
        "read_text",
        FILE,
        "let many = first_too_many(good)",
        "let many = first_too_many(good).filter(|_| pieces(good, b'+').into_iter().any(|term| term != b\"1\"))",
    ),
    fault("x63_is_nothing", "read_text", FILE, ".map(|i| 1 << i).sum()", ".map(|i| (1 << i) & u64::MAX >> 1).sum()"),
    fault("variables_in_32_bits", "read_text", FILE, ".map(|i| 1 << i).sum()", ".map(|i| 1 << (i % 32)).fold(0, |a, b| a | b)"),
    fault(
        "words_behind_the_terms_cleared",
        "read_text",
        FILE,
        READ_DONE,
        "            out[terms.len()..].fill(0);\n            Answer::accepted(terms.len())",
    ),
    fault("reader_counts_the_room", "read_text", FILE, READ_DONE, "            Answer::accepted(out.len())"),
    fault(
        "refused_reader_writes",
        "read_text",
        FILE,
        "        Err(refusal) => refusal,",
        "        Err(refusal) => {
            out.iter_mut().take(1).for_each(|word| *word = 0);
            refusal
        }",
    ),
    fault(
        "reader_without_room_writes",
        "read_text",
        FILE,
        "        Err(refusal) => refusal,",
        "        Err(refusal) => {
            if refusal.code == 6 {
                out.fill(0);
            }
            refusal
        }",
    ),
];

pub const WRITE: &[Fault] = &[
    fault("writer_unchecked", "write_text", FILE, "check_lists(&[terms])", "check_lists(&[])"),
    fault("zero_written_as_nothing", "write_text", FILE, "\"0\".to_string()", "String::new()"),
    fault("zero_written_as_1", "write_text", FILE, "\"0\".to_string()", "\"1\".to_string()"),
    fault("written_without_line_feed", "write_text", FILE, "line + \"\\n\"", "line"),
    fault("written_with_carriage_return", "write_text", FILE, "line + \"\\n\"", "line + \"\\r\\n\""),
    fault("written_with_two_line_feeds", "write_text", FILE, "line + \"\\n\"", "line + \"\\n\\n\""),
    fault("written_text_of_any_length", "write_text", FILE, LARGE, ""),
    fault(
        "written_text_one_byte_too_long_passes",
        "write_text",
        FILE,
        LARGE,
        "    if text.len() > TEXT + 1 {
        return Answer::refused(5, 1);
    }
",
    ),
    fault(
        "written_text_refused_one_byte_too_early",
        "write_text",
        FILE,
        LARGE,
        "    if text.len() >= TEXT {
        return Answer::refused(5, 1);
    }
",
    ),
    fault(
        "written_text_in_17_bits",
        "write_text",
        FILE,
        LARGE,
        "    if text.len() % (1 << 17) > TEXT {
        return Answer::refused(5, 1);
    }
",
    ),
    fault(
        "too_large_text_names_no_operand",
        "write_text",
        FILE,
        LARGE,
        "    if text.len() > TEXT {
        return Answer::refused(5, 0);
    }
",
    ),
    fault(
        "too_large_text_is_too_many",
        "write_text",
        FILE,
        LARGE,
        "    if text.len() > TEXT {
        return Answer::refused(2, 1);
    }
",
    ),
    fault(
        "room_before_too_large_a_text",
        "write_text",
        FILE,
        LARGE,
        "    if out.len() < text.len() {
        return Answer::refused(6, 1);
    }
    if text.len() > TEXT {
        return Answer::refused(5, 1);
    }
",
    ),
    fault(
        "too_large_a_text_before_order",
        "write_text",
        FILE,
        "    if let Err(refusal) = check_lists(&[terms]) {",
        "    if terms.len() <= 1024 && !terms.is_empty() && printed_list(terms).len() >= TEXT {
        return Answer::refused(5, 1);
    }
    if let Err(refusal) = check_lists(&[terms]) {",
    ),
    fault(
        "written_room_before_order",
        "write_text",
        FILE,
        "    if let Err(refusal) = check_lists(&[terms]) {",
        "    if terms.len() <= 1024 && out.len() < 2 {
        return Answer::refused(6, 1);
    }
    if let Err(refusal) = check_lists(&[terms]) {",
    ),
    fault("written_room_not_looked_at", "write_text", FILE, "out.len() < text.len()", "out.len() == usize::MAX"),
    fault("written_room_one_too_late", "write_text", FILE, "out.len() < text.len()", "out.len() + 1 < text.len()"),
    fault("written_room_exact_refused", "write_text", FILE, "out.len() < text.len()", "out.len() <= text.len()"),
    fault(
        "written_room_in_16_bits",
        "write_text",
        FILE,
        "out.len() < text.len()",
        "(out.len() as u16 as usize) < text.len()",
    ),
    fault(
        "written_room_in_17_bits",
        "write_text",
        FILE,
        "out.len() < text.len()",
        "out.len() % (1 << 17) < text.len()",
    ),
    fault(
        "written_room_of_the_longest",
        "write_text",
        FILE,
        "out.len() < text.len()",
        "out.len() < if terms.len() == 1024 { TEXT } else { text.len() }",
    ),
    fault(
        "written_room_names_no_operand",
        "write_text",
        FILE,
        ROOM,
        "    if out.len() < text.len() {
        return Answer::refused(6, 0);
    }
",
    ),
    fault(
        "refused_writer_writes",
        "write_text",
        FILE,
        ROOM,
        "    if out.len() < text.len() {
        let n = out.len();
        out.copy_from_slice(&text.as_bytes()[..n]);
        return Answer::refused(6, 1);
    }
",
    ),
    fault(
        "bytes_behind_the_text_cleared",
        "write_text",
        FILE,
        WRITTEN,
        "    out[text.len()..].fill(0);\n    Answer::accepted(text.len())",
    ),
    fault(
        "zero_byte_behind_the_text",
        "write_text",
        FILE,
        WRITTEN,
        "    out.iter_mut().skip(text.len()).take(1).for_each(|byte| *byte = 0);\n    Answer::accepted(text.len())",
    ),
    fault("writer_counts_terms", "write_text", FILE, WRITTEN, "    Answer::accepted(terms.len())"),
    fault("writer_counts_the_room", "write_text", FILE, WRITTEN, "    Answer::accepted(out.len())"),
    fault("line_feed_not_counted", "write_text", FILE, WRITTEN, "    Answer::accepted(text.len() - 1)"),
    fault("written_terms_joined_with_spaces", "write_text", PRINTED, r#"line.join("+")"#, r#"line.join(" + ")"#),
    fault(
        "written_last_term_lost",
        "write_text",
        PRINTED,
        r#"line.join("+")"#,
        r#"line[..line.len().min(1023)].join("+")"#,
    ),
    fault("written_variables_falling", "write_text", PRINTED, "(0..64).filter", "(0..64).rev().filter"),
    fault("highest_variable_not_written", "write_text", PRINTED, "(0..64).filter", "(0..63).filter"),
    fault("written_constant_is_0", "write_text", PRINTED, r#"return "1".to_string()"#, r#"return "0".to_string()"#),
    fault("written_variables_of_two_digits", "write_text", PRINTED, r#"format!("x{i}")"#, r#"format!("x{i:02}")"#),
];
