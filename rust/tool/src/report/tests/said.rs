//! What the page says: answers, faults, parts, names from outside, commands.
use super::cases::*;
use super::form::balanced;
use super::{answers, holds, lacks, shown, text};
use crate::audit::{Audited, Fault};
use crate::report::{page, words, About};

#[test]
fn a_yes_answers_both_questions() {
    let page = shown(&right());
    let seen = text(&page);
    holds(&seen, &["Yes: the given parts are the parts of the approved equation", "x0+x1+x0*x2+x1*x2"]);
    holds(&seen, &["part 1 is a part", "part 2 is a part", "The status is 0 for this answer."]);
    let [first, second] = answers(&page);
    holds(&first, &["Yes, as it should be. They multiply back to it: all 4 terms, none missing, none too many."]);
    holds(&second, &["No, as it should be. None of them can be split again."]);
}

#[test]
fn a_yes_has_no_fault_words() {
    let faults =
        ["is missing", "are missing", "is too many", "are too many", "share the", "not compared", "is constant"];
    let marks = ["another order", "is not a part", "not loaded", "a fault", "sign bad", "<del>", "<ins>", "No:"];
    for yes in [right(), constant_one(), all_inputs(), most_terms(&[], Vec::new())] {
        lacks(&shown(&yes), &faults);
        lacks(&shown(&yes), &marks);
    }
}

#[test]
fn theorems_are_named_with_either_answer() {
    for audited in [right(), lost_constant()] {
        let page = shown(&audited);
        holds(
            &page,
            &["audit_says_yes_exactly_for_the_parts", "crates/demands/proofs/Demands.antt", "docs/READING.md"],
        );
        let [first, second] = answers(&page);
        holds(&first, &["audited_parts_multiply_back"]);
        holds(&second, &["audited_parts_cannot_be_split", "audited_parts_are_the_factors_over_gf2"]);
    }
}

#[test]
fn a_lost_constant_is_shown_where_it_is_lost() {
    let page = shown(&lost_constant());
    let seen = text(&page);
    holds(
        &seen,
        &["No: the given parts are not the parts of the approved equation", "The status is 1 for this answer."],
    );
    holds(&seen, &["Loaded but not right: part 2. Right but not loaded: right part 2."]);
    holds(&seen, &["part 1 is a part", "right part 1: loaded", "part 2 is not a part", "right part 2: not loaded"]);
    holds(&seen, &["against right part 2, which has the same inputs, the constant term 1 is missing."]);
    holds(&page, &["<ins>1</ins>+<wbr>x2"]);
    let [first, second] = answers(&page);
    holds(&first, &["No, a fault.", "the term x0 is missing", "the term x1 is missing"]);
    holds(&second, &["No, as it should be."]);
    lacks(&second, &["is missing"]);
}

#[test]
fn terms_too_many_are_marked_in_their_part() {
    let many = Fault::TooMany { shown: vec![8, 9], more: Some(1) };
    let page = shown(&damaged(&[&[1, 2], &[0, 4, 8]], vec![many.clone()]));
    holds(
        &text(&page),
        &["the approved equation does not have the input x3", "In a loaded part, but not in the approved"],
    );
    let page = shown(&audited(&[0, 3], &[&[0, 1, 3]], &[&[0, 3]], vec![many]));
    holds(&page, &["1+<wbr><del>x0</del>+<wbr>x0*x1"]);
    holds(&text(&page), &["which has the same inputs, the term x0 is too many."]);
}

#[test]
fn each_part_says_why_it_is_none() {
    let rows = |page: &str| page.split_once("<tbody>").map_or(0, |(_, rows)| rows.matches("<tr>").count());
    // a no for any reason: what is told of parts comes from the parts
    let told = |given: &[&[u64]]| {
        let page = shown(&damaged(given, vec![Fault::NotCompared]));
        (rows(&page), text(&page))
    };
    let (rows, said) = told(&[&[1], &[0, 4]]);
    holds(&said, &["Why: it lacks the input x1 of right part 1.", "In no loaded part: x1"]);
    assert_eq!(rows, 2);
    let (rows, said) = told(&[&[1, 6], &[0]]);
    holds(
        &said,
        &["Why: its inputs belong to right parts 1 and 2.", "Why: it is constant.", "nothing: a constant is no part"],
    );
    assert_eq!(rows, 2);
    let (rows, said) = told(&[&[1, 2], &[0, 4], &[1, 2]]);
    holds(&said, &["Why: right part 1 is loaded once more; it shares the inputs x0 and x1 with part 1."]);
    assert_eq!(rows, 2);
    let (rows, said) = told(&[&[1, 2, 8], &[8]]);
    holds(&said, &["the approved equation does not have the input x3", "it shares the input x3 with part 2"]);
    holds(&said, &["nothing: no loaded part has one of these inputs"]);
    assert_eq!(rows, 2);
    holds(&text(&shown(&whole())), &["Why: its inputs belong to right parts 1 and 2; it can be split again."]);
}

#[test]
fn every_fault_is_told_under_its_question() {
    let shares = vec![
        Fault::Shared { first: 0, second: 2, inputs: 0b10 },
        Fault::Shared { first: 1, second: 2, inputs: 0b1011 },
        Fault::NotCompared,
    ];
    let [first, second] = answers(&shown(&damaged(&[&[1, 2], &[8, 1], &[0, 2, 9]], shares)));
    holds(&first, &["parts 1 and 3 share the input x1", "parts 2 and 3 share the inputs x0, x1 and x3"]);
    holds(&first, &["No, a fault.", "the product is not compared: parts share an input"]);
    lacks(&second, &["share the input"]);

    let missing = Fault::Missing { shown: vec![0, 5], more: 30 };
    let many = Fault::TooMany { shown: vec![0, 2], more: Some(7) };
    let [first, _] = answers(&shown(&damaged(&[&[1]], vec![missing, many])));
    holds(&first, &["the constant term 1 is missing", "the term x0*x2 is missing", "30 more terms are missing"]);
    holds(&first, &["the constant term 1 is too many", "the term x1 is too many", "7 more terms are too many"]);

    let missing = Fault::Missing { shown: vec![1], more: 1 };
    let many = Fault::TooMany { shown: vec![2], more: None };
    let [first, _] = answers(&shown(&damaged(&[&[1]], vec![missing, many])));
    holds(&first, &["1 more term is missing", "more terms than can be counted are too many besides"]);

    let [first, second] = answers(&shown(&whole()));
    holds(&second, &["Yes, a fault.", "part 1 can be split again: into x0+x1 and 1+x2"]);
    holds(&first, &["Yes, as it should be.", "all 4 terms"]);

    let [first, second] = answers(&shown(&constants()));
    holds(&first, &["part 4 is constant: 0", "the term x1*x2 is missing"]);
    lacks(&first, &["part 2 is constant"]);
    holds(&second, &["No, a fault.", "part 2 is constant: 1", "part 4 is constant: 0"]);
}

#[test]
fn order_alone_is_told_with_the_verdict() {
    let page = shown(&other_order());
    let seen = text(&page);
    let words = "All parts are there, but the parts stand in another order: that of their lowest inputs is needed.";
    assert!(seen.find(words).is_some_and(|at| Some(at) < seen.find("The two questions")), "{seen}");
    holds(&seen, &["part 1 is a part, but should be part 2", "right part 1: loaded as part 2"]);
    assert!(answers(&page).iter().all(|answer| answer.contains("as it should be")), "{page}");
}

#[test]
fn a_no_without_faults_is_still_a_no() {
    let page = shown(&Audited { yes: false, ..right() });
    holds(&text(&page), &["No: the given parts are not", "The tool has found no words for what is wrong."]);
}

#[test]
fn names_from_outside_are_text() {
    let name = "<b>\"&'.txt";
    let mut audited = lost_constant();
    audited.given[0].name = name.to_string();
    audited.given[1].name = "a\nb\u{202e}c".to_string();
    let about = About { approved_name: name.to_string(), command: format!("apfelruder audit '{name}'"), ..about() };
    let page = page(&audited, &about);
    balanced(&page);
    lacks(&page, &["<b>\"", "\"&'", "\u{202e}"]);
    // the title, the file of the approved equation, that of part 1, and the command
    assert_eq!(page.matches("&lt;b&gt;&quot;&amp;&#39;.txt").count(), 4, "{page}");
    holds(&page, &["a\\u{a}b\\u{202e}c"]);
}

#[test]
fn no_parts() {
    let seen = text(&shown(&constant_one()));
    holds(
        &seen,
        &["The product of no parts is the constant 1, the approved equation.", "None are loaded and none are needed"],
    );
    let page = shown(&nothing_given());
    holds(
        &text(&page),
        &["no loaded part has one of these inputs", "As loaded: no parts", "In no loaded part: x0 to x2"],
    );
    holds(&answers(&page)[0], &["No, a fault.", "the constant term 1 is too many"]);
}

#[test]
fn how_to_check_again_can_be_pasted() {
    let page = shown(&right());
    holds(&page, &["<pre>apfelruder audit approved.txt loaded.txt</pre>", "<pre>bash .ci/run</pre>"]);
    holds(&text(&page), &["echo &#39;x0+x1+x0*x2+x1*x2&#39; | apfelruder split"]);
    let long = most_terms(&[], Vec::new());
    let split = "bin/apfelruder split -- '-a b.txt'".to_string();
    holds(&text(&super::page(&long, &About { split, ..about() })), &["bin/apfelruder split -- &#39;-a b.txt&#39;"]);
}

#[test]
fn another_archive_is_told() {
    let told = |machine| text(&super::page(&constant_one(), &About { machine, ..about() }));
    holds(
        &told("aarch64, archive of scripts/native-archive"),
        &["by scripts/native-archive: what that asks to be trusted"],
    );
    lacks(&told("x86_64, archive of rt"), &["native-archive"]);
}

#[test]
fn inputs_in_words() {
    let short = [(0b1, "x0"), (0b11, "x0, x1"), (0b1_0111, "x0 to x2, x4"), (u64::MAX, "x0 to x63")];
    for (inputs, said) in short {
        assert_eq!(words::in_short(inputs), said);
    }
    assert_eq!(words::the_inputs_in_short(1 << 63), "the input x63");
    assert_eq!(words::the_inputs_in_short(0b1_1111_0001), "the inputs x0 and x4 to x8");
    assert_eq!(words::numbered("part", &[0, 1, 3]), "parts 1, 2 and 4");
}
