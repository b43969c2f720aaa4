//! Faults in the printed split.
use crate::{fault, Fault};

const FILE: &str = "printed.rs";
const REFUSED: &str = r#""refused {} {} {}\n", answer.code, answer.operand, answer.place"#;

pub const FAULTS: &[Fault] = &[
    fault("cut_at_8195_bytes", "printed", FILE, "min(8196)", "min(8195)"),
    fault("cut_at_4096_bytes", "printed", FILE, "min(8196)", "min(4096)"),
    fault(
        "length_of_the_input_in_16_bits",
        "printed",
        FILE,
        "input.len().min(8196)",
        "(input.len() as u16 as usize).min(8196)",
    ),
    fault(
        "place_before_operand",
        "printed",
        FILE,
        REFUSED,
        r#""refused {} {} {}\n", answer.code, answer.place, answer.operand"#,
    ),
    fault(
        "place_of_two_digits",
        "printed",
        FILE,
        REFUSED,
        r#""refused {} {} {}\n", answer.code, answer.operand, answer.place % 100"#,
    ),
    fault(
        "refusal_without_line_feed",
        "printed",
        FILE,
        REFUSED,
        r#""refused {} {} {}", answer.code, answer.operand, answer.place"#,
    ),
    fault("zero_printed_without_operand", "printed", FILE, r"refused 1 1 0\n", r"refused 1 0 0\n"),
    fault("zero_printed_as_no_parts", "printed", FILE, r"refused 1 1 0\n", r"parts 0\n"),
    fault("parts_not_counted", "printed", FILE, r#""parts {}\n", found.len()"#, r#""parts {}\n", found.len().max(1)"#),
    fault("terms_joined_with_spaces", "printed", FILE, r#"line.join("+")"#, r#"line.join(" + ")"#),
    fault("variables_not_joined", "printed", FILE, r#"names.join("*")"#, r#"names.join("")"#),
    fault("constant_printed_as_0", "printed", FILE, r#"return "1".to_string()"#, r#"return "0".to_string()"#),
    fault("variables_falling", "printed", FILE, "(0..64).filter", "(0..64).rev().filter"),
    fault("highest_variable_not_printed", "printed", FILE, "(0..64).filter", "(0..63).filter"),
    fault("variables_from_1", "printed", FILE, r#"format!("x{i}")"#, r#"format!("x{}", i + 1)"#),
    fault("variables_of_one_digit", "printed", FILE, r#"format!("x{i}")"#, r#"format!("x{}", i % 10)"#),
    fault("variables_of_two_digits", "printed", FILE, r#"format!("x{i}")"#, r#"format!("x{i:02}")"#),
    fault("last_line_feed_missing", "printed", FILE, "    text\n}", "    text.trim_end().to_string()\n}"),
    fault("terms_falling", "printed", FILE, "list.iter().map(", "list.iter().rev().map("),
    fault(
        "part_without_its_constant",
        "printed",
        FILE,
        "list.iter().map(",
        "list.iter().filter(|&&t| t != 0 || list.len() > 2).map(",
    ),
    fault("parts_printed_falling", "printed", FILE, "for part in found {", "for part in found.into_iter().rev() {"),
];
