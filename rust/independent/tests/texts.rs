//! Texts by the independent program. Expected values are made by hand from RULES 12.
use independent::{read_text, write_text, Answer};

const OLD: u64 = 77;

fn accepted(count: u64) -> Answer {
    Answer { code: 0, operand: 0, place: 0, count }
}

fn refused(code: u64, place: u64) -> Answer {
    Answer { code, operand: 1, place, count: 0 }
}

/// The list that a text holds.
#[track_caller]
fn reads(text: &str, list: &[u64]) {
    let mut out = vec![OLD; list.len() + 2];
    assert_eq!(read_text(text.as_bytes(), &mut out), accepted(list.len() as u64), "{text:?}");
    assert_eq!(out, [list, &[OLD, OLD]].concat(), "{text:?}");
}

#[track_caller]
fn fails(text: &[u8], code: u64, place: u64) {
    let mut out = [OLD; 1025];
    assert_eq!(read_text(text, &mut out), refused(code, place), "{:?}", String::from_utf8_lossy(text));
    assert_eq!(out, [OLD; 1025]);
}

/// 1,024 terms of 16 variables above x9. Such a variable and the sign behind it take 4 bytes, one below x10 takes 3: with the
/// sign behind it each of these terms takes 64 bytes, and all of them 65,536.
fn full() -> Vec<u64> {
    let six = 0x3f << 30;
    (0..1024u64).map(|i| (0..10).fold(six, |term, j| term | 1 << (10 + 2 * j + (i >> j & 1)))).collect()
}

/// The last of them with x0 for x30, which is a byte less; with x0, x1 and x2 for x30 and x31, which is a byte more.
fn shorter() -> Vec<u64> {
    let mut list = full();
    list[1023] ^= 1 << 30 | 1;
    list
}

fn longer() -> Vec<u64> {
    let mut list = full();
    list[1023] ^= 3 << 30 | 7;
    list
}

/// The terms in this order, with + between them.
fn typed(list: &[u64]) -> String {
    let names = |term: u64| (0..64).filter(move |i| term >> i & 1 == 1).map(|i| format!("x{i}"));
    list.iter().map(|&term| names(term).collect::<Vec<_>>().join("*")).collect::<Vec<_>>().join("+")
}

fn sorted(mut list: Vec<u64>) -> Vec<u64> {
    list.sort_unstable();
    list
}

#[test]
fn equations() {
    // x0 x3 is 1 + 8, x2 is 4, the constant is 0
    reads("x0*x3+x2+1\n", &[0, 4, 9]);
    reads("0\n", &[]);
    reads("1\n", &[0]);
    reads("x0\n", &[1]);
    reads("x9\n", &[1 << 9]);
    reads("x63\n", &[1 << 63]);
    reads("x63*x0\n", &[1 << 63 | 1]);
    // in any order
    reads("x2+1+x3*x0\n", &[0, 4, 9]);
    reads("x10+x9+x1\n", &[2, 512, 1024]);
    let all: Vec<String> = (0..64).rev().map(|i| format!("x{i}")).collect();
    reads(&(all.join("*") + "\n"), &[u64::MAX]);
}

#[test]
fn equal_terms_cancel() {
    reads("1+1\n", &[]);
    reads("1+1+1\n", &[0]);
    reads("x0*x1+x1*x0\n", &[]);
    reads("x0*x1+x2+x1*x0\n", &[4]);
    reads("x1+1+x1+x1+1\n", &[2]);
}

#[test]
fn the_first_byte_with_which_no_equation_goes_on() {
    let told: [(&[u8], u64); 38] = [
        (b"\n", 0),
        (b" x1\n", 0),
        (b"+x1\n", 0),
        (b"*x1\n", 0),
        (b"2\n", 0),
        (b"X1\n", 0),
        (b"\0", 0),
        (b"\xff\n", 0),
        (b"x\n", 1),
        (b"x+1\n", 1),
        (b"xx1\n", 1),
        // no variable above x63, no leading zero
        (b"x64\n", 2),
        (b"x6:\n", 2),
        (b"x6/\n", 2),
        (b"x70\n", 2),
        (b"x00\n", 2),
        (b"x01\n", 2),
        (b"x100\n", 3),
        (b"x630\n", 3),
        // zero stands alone, and so does 1 in its term
        (b"00\n", 1),
        (b"0+1\n", 1),
        (b"0*x1\n", 1),
        (b"01\n", 1),
        (b"1+0\n", 2),
        (b"x1+0\n", 3),
        (b"x1*0\n", 3),
        (b"x1*1\n", 3),
        (b"1*x1\n", 1),
        (b"1x1\n", 1),
        (b"10\n", 1),
        (b"11\n", 1),
        // signs
        (b"x1++x2\n", 3),
        (b"x1**x2\n", 3),
        (b"x1+*x2\n", 3),
        (b"x1*+x2\n", 3),
        (b"x1+\n", 3),
        (b"x1*\n", 3),
        (b"x1 +x2\n", 2),
    ];
    for (text, place) in told {
        fails(text, 14, place);
    }
    // behind the line feed
    for text in [&b"x1\n\n"[..], b"x1\nx2\n", b"x1\n+x2\n", b"x1\n ", b"x1\n\0"] {
        fails(text, 14, 3);
    }
    fails(b"0\n\n", 14, 2);
    fails(b"1\n1\n", 14, 2);
    fails(b"x1\r\n", 14, 2);
}

#[test]
fn a_text_that_ends_too_early() {
    for text in ["", "0", "1", "x", "x1", "x10", "x1*", "x1*x", "x1*x2", "1+", "x1+", "x1+x", "x1+1"] {
        fails(text.as_bytes(), 14, text.len() as u64);
    }
    let whole = "x0*x3+x2+1";
    for length in 0..=whole.len() {
        fails(&whole.as_bytes()[..length], 14, length as u64);
    }
}

#[test]
fn a_variable_again_in_its_term() {
    fails(b"x1*x1\n", 15, 5);
    fails(b"x1*x1+x2\n", 15, 5);
    fails(b"x1*x1*x2\n", 15, 5);
    fails(b"x1*x2*x1\n", 15, 8);
    fails(b"x1*x10*x1\n", 15, 9);
    fails(b"1+x10*x1*x10+x1\n", 15, 12);
    // the sign behind it shows it: without one the form decides
    fails(b"x1*x1", 14, 5);
    fails(b"x1*x1y", 14, 5);
    fails(b"x1*x1x\n", 14, 5);
    // x1 and x10, and the same variable in two terms, are no repetition
    reads("x1*x10*x11\n", &[2 | 1 << 10 | 1 << 11]);
    reads("x1+x1*x2\n", &[2, 6]);
    // what comes first is told
    fails(b"x1*x1+x64\n", 15, 5);
    fails(b"x64+x1*x1\n", 14, 2);
    fails(b"x1*x1+\n", 15, 5);
}

#[test]
fn terms_are_counted_as_they_are_written() {
    let many = |terms: usize| vec!["1"; terms].join("+") + "\n";
    reads(&many(1023), &[0]);
    reads(&many(1024), &[]);
    fails(many(1025).as_bytes(), 2, 0);
    fails(many(1026).as_bytes(), 2, 0);
    let twos = vec!["x0*x1"; 1024].join("+");
    reads(&(twos.clone() + "\n"), &[]);
    fails((twos.clone() + "+x0\n").as_bytes(), 2, 0);
    // the byte that begins the term shows it, whatever follows; what begins no term is Sign
    fails((twos.clone() + "+x").as_bytes(), 2, 0);
    fails((twos.clone() + "+1*").as_bytes(), 2, 0);
    for sign in ["", "\n", "0", "+", "*", "y"] {
        fails((twos.clone() + "+" + sign).as_bytes(), 14, 6 * 1024);
    }
    // a fault before it comes first
    fails((twos.clone() + "*x1+x0\n").as_bytes(), 15, 6 * 1024 + 2);
    fails((twos + "*1+x0\n").as_bytes(), 14, 6 * 1024);
}

#[test]
fn the_length_comes_first_of_all() {
    for (list, bytes) in [(shorter(), 65535), (full(), 65536), (longer(), 65537)] {
        let line = typed(&list) + "\n";
        assert_eq!(line.len(), bytes);
        if bytes > 65536 {
            fails(line.as_bytes(), 2, 0);
        } else {
            reads(&line, &sorted(list));
        }
        // without the line feed it ends too early, also where it is as long as can be
        let bytes = bytes as u64 - 1;
        fails(&line.as_bytes()[..line.len() - 1], 14, bytes);
    }
    // whatever the bytes are
    fails("y".repeat(65537).as_bytes(), 2, 0);
    fails("y".repeat(65536).as_bytes(), 14, 0);
    fails((typed(&full()) + "\n\n").as_bytes(), 2, 0);
    fails((typed(&shorter()) + "\n\n").as_bytes(), 14, 65535);
    fails((typed(&shorter()) + "+").as_bytes(), 14, 65535);
}

#[test]
fn room_is_asked_for_the_terms_left() {
    let mut out = [OLD; 2];
    assert_eq!(read_text(b"x0*x3+x2+1\n", &mut out), refused(6, 0));
    assert_eq!(out, [OLD; 2]);
    assert_eq!(read_text(b"1+x0+x1+x0\n", &mut out), accepted(2));
    assert_eq!(out, [0, 2]);
    assert_eq!(read_text(b"1+x0+x0+1\n", &mut []), accepted(0));
    assert_eq!(read_text(b"0\n", &mut []), accepted(0));
    assert_eq!(read_text(b"1\n", &mut []), refused(6, 0));
    // what the text shows comes before Room
    assert_eq!(read_text(b"x1*x1\n", &mut []), refused(15, 5));
    assert_eq!(read_text(b"x1\n\n", &mut []), refused(14, 3));
}

#[test]
fn written() {
    let written = |list: &[u64]| {
        let mut out = vec![1; 300];
        let count = write_text(list, &mut out).count as usize;
        assert!(out[count..].iter().all(|&byte| byte == 1));
        String::from_utf8(out[..count].to_vec()).unwrap()
    };
    assert_eq!(written(&[]), "0\n");
    assert_eq!(written(&[0]), "1\n");
    assert_eq!(written(&[0, 4, 9]), "1+x2+x0*x3\n");
    assert_eq!(written(&[1, 2, 1 << 10, 1 << 63]), "x0+x1+x10+x63\n");
    assert_eq!(written(&[u64::MAX]).len(), 246);
    assert!(written(&[u64::MAX]).starts_with("x0*x1*x2") && written(&[u64::MAX]).ends_with("*x62*x63\n"));
}

#[test]
fn what_is_not_written() {
    let mut out = [1; 12];
    assert_eq!(write_text(&(0..1025).collect::<Vec<u64>>(), &mut out), refused(2, 0));
    assert_eq!(write_text(&[5; 1025], &mut out), refused(2, 0));
    assert_eq!(write_text(&[0, 4, 4], &mut out), refused(3, 2));
    // "1+x2+x0*x3" and a line feed are 11 bytes
    assert_eq!(write_text(&[0, 4, 9], &mut out[..10]), refused(6, 0));
    assert_eq!(write_text(&[], &mut out[..1]), refused(6, 0));
    assert_eq!(write_text(&[2, 1], &mut []), refused(3, 1));
    assert_eq!(out, [1; 12]);
    assert_eq!(write_text(&[0, 4, 9], &mut out[..11]), accepted(11));
    assert_eq!(&out, b"1+x2+x0*x3\n\x01");
}

#[test]
fn a_text_of_the_greatest_length() {
    let mut out = vec![1; 65537];
    assert_eq!(write_text(&sorted(shorter()), &mut out), accepted(65535));
    assert_eq!(&out[65534..], b"\n\x01\x01");
    assert_eq!(write_text(&sorted(longer()), &mut out), refused(5, 0));
    assert_eq!(&out[65534..], b"\n\x01\x01");
    assert_eq!(write_text(&sorted(full()), &mut out), accepted(65536));
    assert_eq!(&out[..65536], (typed(&sorted(full())) + "\n").as_bytes());
    // too large before room, order before too large
    assert_eq!(write_text(&sorted(longer()), &mut []), refused(5, 0));
    assert_eq!(write_text(&sorted(full()), &mut out[..65535]), refused(6, 0));
    let mut unordered = sorted(longer());
    unordered.swap(7, 8);
    assert_eq!(write_text(&unordered, &mut []), refused(3, 8));
}
