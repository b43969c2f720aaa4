//! split, pack, unpack, multiply and same: the examples of README.md and of RULES 4.4, 6.4, 7 and 12.5, as files of text and
//! as blocks, by name and through standard input, and what stands in the file that -o names.
mod common;

use common::board::Random;
use common::poly::{block, poly, product, text, typed, Poly};
use common::Room;

/// A list of terms as a text of one line.
fn line(terms: &[u64]) -> String {
    text(&poly(terms)) + "\n"
}

/// Splits it as text and as block, from a file and from standard input, and expects these parts.
fn splits(terms: &[u64], parts: &[&[u64]]) {
    let printed = format!("parts {}\n", parts.len()) + &parts.iter().map(|part| line(part)).collect::<String>();
    let room = Room::new();
    room.file("text", line(terms));
    room.file("block", block(&poly(terms)));
    room.run(&["split", "text"]).gave(&printed);
    room.run(&["split", "block"]).gave(&printed);
    room.run_on(&["split"], line(terms)).gave(&printed);
    room.run_on(&["split", "-"], block(&poly(terms))).gave(&printed);
}

#[test]
fn the_example_of_the_readme() {
    let room = Room::with(&[("equation.txt", "x0*x2+x1*x2+x0+x1\n")]);
    room.run(&["split", "equation.txt"]).gave("parts 2\nx0+x1\n1+x2\n");
    room.run(&["pack", "equation.txt"]).gave([0x10, 0x60, 0x04, 0x2a, 0xe0]);
    room.run_on(&["split"], [0x10, 0x60, 0x04, 0x2a, 0xe0]).gave("parts 2\nx0+x1\n1+x2\n");
    room.run_on(&["unpack"], [0x10, 0x60, 0x04, 0x2a, 0xe0]).gave("x0+x1+x0*x2+x1*x2\n");
    room.run_on(&["split"], "1\n").gave("parts 0\n");
    room.run_on(&["split"], [0x10, 0, 1]).gave("parts 0\n");
}

#[test]
fn the_splits_of_the_rules() {
    splits(&[0], &[]);
    splits(&[1], &[&[1]]);
    splits(&[0, 1], &[&[0, 1]]);
    splits(&[3], &[&[1], &[2]]);
    splits(&[0, 3], &[&[0, 3]]);
    splits(&[0, 1, 2], &[&[0, 1, 2]]);
    splits(&[1, 2, 5, 6], &[&[1, 2], &[0, 4]]);
    splits(&[6, 7, 12, 13], &[&[0, 1], &[2, 8], &[4]]);
    splits(&[4, 7, 12, 15, 16, 19], &[&[0, 3], &[4, 12, 16]]);
    let single: Vec<[u64; 1]> = (0..64).map(|i| [1 << i]).collect();
    splits(&[u64::MAX], &single.iter().map(|part| &part[..]).collect::<Vec<_>>());
    let ten: Vec<[u64; 2]> = (0..10).map(|i| [0, 1 << i]).collect();
    splits(&(0..1024).collect::<Vec<_>>(), &ten.iter().map(|part| &part[..]).collect::<Vec<_>>());
}

/// 1,021 terms, a prime number, and no input in all of them: one part, with every term. Its text is longer than a text may
/// be, which is no limit for what split prints; unpack has to refuse it.
#[test]
fn a_part_longer_than_a_text() {
    let high = !0 << 10;
    let long: Poly = (1..=1020).map(|low| low | high).chain([0]).collect();
    assert!(text(&long).len() > 65_536 * 2);
    let room = Room::new();
    room.file("long", block(&long));
    room.run(&["split", "long"]).gave(format!("parts 1\n{}\n", text(&long)));
    room.run(&["pack", "long"]).gave(block(&long));
    room.run(&["unpack", "long"]).refused("long", "5 1 0", "TooLarge");
    room.run(&["same", "long", "long", "long", "long"]).gave("yes\n");
}

/// pack and unpack take a text or a block, and write the one block and the one text (RULES 4.3, 12.4).
#[test]
fn packed_and_unpacked() {
    let random = &mut Random::new(7);
    let mut lists: Vec<Poly> = vec![poly(&[]), poly(&[0]), poly(&[1 << 63]), (0..1024).collect(), poly(&[0, u64::MAX])];
    for size in 0..20 {
        lists.push((0..size * size).map(|_| random.word() & random.word() & random.word()).collect());
    }
    let room = Room::new();
    for list in lists {
        room.file("typed", typed(random, &list));
        room.file("block", block(&list));
        for name in ["typed", "block"] {
            room.run(&["pack", name]).gave(block(&list));
            room.run(&["unpack", name]).gave(text(&list) + "\n");
        }
        room.run_on(&["pack", "-"], text(&list) + "\n").gave(block(&list));
        room.run_on(&["unpack"], block(&list)).gave(text(&list) + "\n");
    }
}

/// RULES 12.5, read as text and written as text again.
#[test]
fn texts_of_the_rules() {
    let room = Room::new();
    let texts = [
        ("x0*x3+x2+1\n", "1+x2+x0*x3\n"),
        ("x2+x3*x0+1\n", "1+x2+x0*x3\n"),
        ("0\n", "0\n"),
        ("1\n", "1\n"),
        ("1+1\n", "0\n"),
        ("x1+x1+x1\n", "x1\n"),
    ];
    for (typed, written) in texts {
        room.run_on(&["unpack"], typed).gave(written);
    }
}

/// A text of exactly 65,536 bytes and one of 1,024 terms are the longest that are taken.
#[test]
fn the_longest_texts() {
    let room = Room::new();
    // 1,023 terms of 64 bytes with their +, and one of 64 with the line feed
    let filled = format!("x0{}", "*x10*x11*x12*x13*x14*x15*x16*x17*x18*x19*x20*x21*x22*x23*x24");
    let term = format!("{filled}+");
    assert_eq!(filled.len(), 62);
    let mut long = term.replace("x0*", "x63*").repeat(1023);
    long.push_str(&filled.replace("x0*", "x62*"));
    long.push('\n');
    assert_eq!(long.len(), 65_536);
    let (first, last) = (filled.replace("x0*", "") + "*x62", filled.replace("x0*", "") + "*x63");
    room.run_on(&["unpack"], &long).gave(format!("{first}+{last}\n"));
    room.run_on(&["unpack"], vec!["1"; 1024].join("+") + "\n").gave("0\n");
    room.run_on(&["unpack"], vec!["1"; 1023].join("+") + "\n").gave("1\n");
}

#[test]
fn output_into_a_file() {
    let room = Room::with(&[("in.txt", "x1+x0\n")]);
    let packed = block(&poly(&[1, 2]));
    for (number, option) in ["-o", "-oOUT", "--output", "--output=OUT"].into_iter().enumerate() {
        for before in [true, false] {
            let name = format!("{number}-{before}");
            let mut words: Vec<String> = vec![option.replace("OUT", &name)];
            if !option.contains("OUT") {
                words.push(name.clone());
            }
            words.insert(if before { words.len() } else { 0 }, "in.txt".into());
            words.insert(0, "pack".into());
            room.run(&words).gave("");
            assert_eq!(room.bytes(&name), packed, "{words:?}");
        }
    }
    room.file("out", "an old file that is longer than the new one");
    room.run(&["unpack", "0-true", "-o", "out"]).gave("");
    assert_eq!(room.text("out"), "x0+x1\n");
    room.run(&["multiply", "-o", "out", "in.txt", "out2"]).trouble(&["out2"]);
    assert_eq!(room.text("out"), "x0+x1\n");
    room.file("b.txt", "x2+1\n");
    room.run(&["multiply", "-o", "out", "in.txt", "b.txt"]).gave("");
    assert_eq!(room.text("out"), "x0+x1+x0*x2+x1*x2\n");
    room.run_on(&["pack", "-o", "in.txt", "in.txt"], "").gave("");
    assert_eq!(room.bytes("in.txt"), packed, "a file packed into itself");
    assert_eq!(room.names().len(), 11, "a file more than was asked for: {:?}", room.names());
}

#[test]
fn names_that_look_like_options() {
    let room = Room::with(&[("-o", "x0\n"), ("--help", "x1\n"), ("-", "x5\n")]);
    room.run(&["split", "--", "-o"]).gave("parts 1\nx0\n");
    room.run(&["multiply", "--", "-o", "--help"]).gave("x0*x1\n");
    room.run(&["multiply", "--", "--help", "./-"]).gave("x1*x5\n");
    room.run(&["unpack", "-o", "out", "--", "--help"]).gave("");
    assert_eq!(room.text("out"), "x1\n");
}

#[test]
fn the_products_of_the_rules() {
    let multiply = |lists: &[&[u64]], product: &[u64]| {
        let room = Room::new();
        let mut words = vec!["multiply".to_string()];
        for (k, list) in lists.iter().enumerate() {
            room.file(format!("{k}"), if k % 2 == 0 { line(list).into_bytes() } else { block(&poly(list)) });
            words.push(k.to_string());
        }
        room.run(&words).gave(line(product));
        words[2] = "-".into();
        room.run_on(&words, line(lists[1])).gave(line(product));
    };
    multiply(&[&[0, 1], &[0, 2]], &[0, 1, 2, 3]);
    multiply(&[&[], &[1]], &[]);
    multiply(&[&[0], &[0]], &[0]);
    multiply(&[&[1], &[2], &[4], &[0], &[8]], &[15]);
    multiply(&[&[1, 2], &[], &[4]], &[]);
    let (low, high): (Vec<u64>, Vec<u64>) = ((0..32).collect(), (0..32).map(|i| i * 32).collect());
    multiply(&[&low, &high], &(0..1024).collect::<Vec<_>>());
    multiply(
        &[&[1, 2], &[0, 4], &[8, 16, 32]],
        &product(&[poly(&[1, 2]), poly(&[0, 4]), poly(&[8, 16, 32])]).into_iter().collect::<Vec<_>>(),
    );
}

/// RULES 7.3, A, D, B, C in this order, and what tells the order of the arguments.
#[test]
fn the_same_products_of_the_rules() {
    let room = Room::with(&[
        ("0", "0\n"),
        ("1", "1\n"),
        ("x0", "x0\n"),
        ("x1", "x1\n"),
        ("1+x0", "1+x0\n"),
        ("1+x1", "x1+1\n"),
    ]);
    room.file("both", block(&poly(&[0, 1, 2, 3])));
    let same = |words: [&str; 4]| room.run(&["same", words[0], words[1], words[2], words[3]]);
    same(["x0", "x0", "x0", "1"]).said_no("no\n");
    same(["1+x0", "1+x1", "1+x0", "1"]).said_no("no\n");
    same(["1+x0", "1", "1", "1+x0"]).gave("yes\n");
    same(["1+x0", "1+x1", "both", "1"]).gave("yes\n");
    same(["1+x0", "1+x1", "1", "both"]).gave("yes\n");
    same(["x0", "x1", "x1", "x0"]).gave("yes\n");
    same(["x0", "x0", "x1", "x1"]).said_no("no\n");
    same(["x0", "x1", "x0", "x0"]).said_no("no\n");
    same(["0", "x1", "x0", "0"]).gave("yes\n");
    room.run_on(&["same", "1+x0", "-", "1", "both"], "1+x1\n").gave("yes\n");
}
