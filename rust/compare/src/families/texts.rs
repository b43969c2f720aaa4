//! Texts that are read: typed in any order, with terms and variables again, cut, with bytes changed, at the limits of terms and
//! of bytes, and with every fault before every other.
use super::lengths::lengths;
use super::refusals::any_room;
use super::{full_text, text_bytes, text_of};
use crate::call::{Expected, Request};
use crate::random::Random;
use crate::run::{Oracle, Run};

/// The bytes that an equation is made of, and some that it is not.
const SIGNS: &[u8] = b"x0123456789+*\n";
const OTHERS: &[u8] = b" \r\0yX\xff/:-";

/// Every refusal.
pub fn refusals(run: &mut Run) {
    run.family("texts: examples of the rules");
    examples(run);
    run.family("texts: faults and their order");
    faults(run);
}

/// All of them, or a share of the texts that are damaged.
pub fn all(run: &mut Run, share: usize) {
    refusals(run);
    run.family("texts: every name of a variable");
    names(run);
    run.family("texts: all short ones");
    short(run);
    damaged(run, 200 / share, true);
    run.family("texts: 1,023 to 1,026 terms");
    terms_at_the_limit(run);
    run.family("texts: 65,535 to 65,537 bytes");
    bytes_at_the_limit(run);
    run.family("texts: lengths beyond 16 bits");
    long(run);
}

fn held(run: &mut Run, text: &[u8], room: usize) {
    let out = run.random.words(room);
    run.check(Request::read_text(text, out), Oracle::Independent);
}

/// Held to what is known of it too.
fn known(run: &mut Run, text: &[u8], room: usize, expected: Expected) {
    let out = run.random.words(room);
    run.check(Request::read_text(text, out), Oracle::Both(expected));
}

fn refused(run: &mut Run, text: &[u8], room: usize, refusal: [u64; 3]) {
    known(run, text, room, Expected::Refused(refusal));
}

/// With room exact, with more, and with one too little if there can be too little.
fn reads(run: &mut Run, text: &[u8], list: &[u64]) {
    let more = run.random.between(1, 9);
    for room in [list.len(), list.len() + more] {
        known(run, text, room, Expected::Words(list.to_vec()));
    }
    if !list.is_empty() {
        refused(run, text, list.len() - 1, [6, 1, 0]);
    }
}

/// The numbers that stand there an odd number of times, ascending.
fn left(mut terms: Vec<u64>) -> Vec<u64> {
    terms.sort_unstable();
    terms.chunk_by(|a, b| a == b).filter(|equal| equal.len() % 2 == 1).map(|equal| equal[0]).collect()
}

fn examples(run: &mut Run) {
    let accepted: [(&str, &[u64]); 9] = [
        ("x0*x3+x2+1\n", &[0, 4, 9]),
        ("1+x2+x3*x0\n", &[0, 4, 9]),
        ("0\n", &[]),
        ("1\n", &[0]),
        ("x63\n", &[1 << 63]),
        ("1+1\n", &[]),
        ("x1+x1+x1\n", &[2]),
        ("x0*x1+x2+x1*x0\n", &[4]),
        ("x10*x1+x11\n", &[1 << 10 | 2, 1 << 11]),
    ];
    for (text, list) in accepted {
        reads(run, text.as_bytes(), list);
    }
    let wrong: [(&str, u64, u64); 25] = [
        ("", 14, 0),
        ("\n", 14, 0),
        ("x\n", 14, 1),
        ("x64\n", 14, 2),
        ("x00\n", 14, 2),
        ("x70\n", 14, 2),
        ("x100\n", 14, 3),
        ("0+1\n", 14, 1),
        ("00\n", 14, 1),
        ("1+0\n", 14, 2),
        ("1*x1\n", 14, 1),
        ("x1*1\n", 14, 3),
        ("11\n", 14, 1),
        ("x1 + x2\n", 14, 2),
        ("x1\r\n", 14, 2),
        ("x1\n\n", 14, 3),
        ("0\n0\n", 14, 2),
        ("x1*x1", 14, 5),
        ("x1*x1y", 14, 5),
        ("x1*x1+", 15, 5),
        ("x1*x1*x1\n", 15, 5),
        ("x1*x1\n", 15, 5),
        ("x1*x10*x1\n", 15, 9),
        ("x1+x1*x2*x2+\n", 15, 11),
        ("x1*x64*x1\n", 14, 5),
    ];
    for (text, code, place) in wrong {
        for room in [0, 3] {
            refused(run, text.as_bytes(), room, [code, 1, place]);
        }
    }
}

#[derive(Clone, Copy)]
enum Fault {
    Sign,
    Twice,
    Many,
}

/// A text of whole terms, each with its `+`, and how many they are.
struct Growing {
    text: Vec<u8>,
    terms: usize,
}

impl Growing {
    fn put(&mut self, term: &[u8]) {
        self.text.extend_from_slice(term);
        self.text.push(b'+');
        self.terms += 1;
    }

    /// With the fault behind it; what it is told as.
    fn fault(&mut self, fault: Fault) -> [u64; 3] {
        let at = self.text.len() as u64;
        match fault {
            Fault::Sign => {
                self.put(b"x64");
                [14, 1, at + 2]
            }
            Fault::Twice => {
                self.put(b"x5*x7*x5*x9");
                [15, 1, at + 8]
            }
            Fault::Many => {
                while self.terms < 1024 {
                    self.put(b"1");
                }
                self.put(b"x3");
                [2, 1, 0]
            }
        }
    }
}

/// Every row of up to three faults: the first is told. With and without an ending, room, and bytes beyond the limit.
fn faults(run: &mut Run) {
    let each = [Fault::Sign, Fault::Twice, Fault::Many];
    for i in 0..27 {
        let row = [each[i % 3], each[i / 3 % 3], each[i / 9]];
        for (length, before) in [(1, 0), (1, 4), (2, 1), (3, 0), (3, 1023)] {
            let mut growing = Growing { text: Vec::new(), terms: 0 };
            for i in 0..before {
                growing.put([&b"x2"[..], b"1", b"x63*x62"][i % 3]);
            }
            let told: Vec<[u64; 3]> = row[..length].iter().map(|&fault| growing.fault(fault)).collect();
            for (ending, room) in [(&b"1\n"[..], 0), (b"1\n", 1030), (b"", 1030), (b"\n\n", 0)] {
                let mut text = [&growing.text[..], ending].concat();
                refused(run, &text, room, told[0]);
                text.resize(65537, b'1');
                refused(run, &text, room, [2, 1, 0]);
            }
        }
    }
}

/// `x` and up to three digits, leading zeros too, in every place of a text.
fn names(run: &mut Run) {
    let mut names = vec!["x".to_string()];
    for digits in 1..=3 {
        names.extend((0..10usize.pow(digits as u32)).map(|number| format!("x{number:0digits$}")));
    }
    for name in names {
        for before in ["", "x1+", "x60*", "x6*x1*"] {
            for behind in ["", "\n", "+1\n", "*x7\n", "x1\n"] {
                held(run, (before.to_string() + &name + behind).as_bytes(), 2);
            }
        }
    }
}

/// All texts of up to so many of these bytes.
fn short(run: &mut Run) {
    for (signs, most) in [(SIGNS, 4), (b"x016+*\n", 6)] {
        for length in 0..=most {
            for choice in 0..signs.len().pow(length) {
                let text: Vec<u8> = (0..length).map(|i| signs[choice / signs.len().pow(i) % signs.len()]).collect();
                held(run, &text, choice % 4);
            }
        }
    }
}

/// Texts that are damaged whatever the seed is.
const FIXED: [&[u8]; 7] = [
    b"0\n",
    b"1\n",
    b"x0\n",
    b"x63\n",
    b"x0*x3+x2+1\n",
    b"1+x1+x0*x1+x10+x9*x10*x63+x1*x0+1\n",
    b"x1*x2*x3+x12*x3+x6+x64\n",
];

/// Texts that are cut, and of which each byte becomes another, is lost, comes again or has another before it: so many random
/// ones and, if wanted, fixed ones and the longest.
pub fn damaged(run: &mut Run, how_many: usize, fixed: bool) {
    let mut texts: Vec<Vec<u8>> = FIXED.iter().filter(|_| fixed).map(|text| text.to_vec()).collect();
    for _ in 0..how_many {
        texts.push(typed(&mut run.random, 4, 5).text());
    }
    run.family("texts: cut at every byte");
    for text in &texts {
        for length in 0..text.len() {
            held(run, &text[..length], 4);
        }
    }
    if fixed {
        let text = text_of(&full_text());
        for length in (0..text.len()).step_by(499).chain(text.len() - 70..text.len()) {
            refused(run, &text[..length], 1024, [14, 1, length as u64]);
        }
    }
    run.family("texts: every byte changed");
    for (i, text) in texts.iter().take(120).enumerate() {
        for at in 0..text.len() {
            let (before, behind) = (&text[..at], &text[at + 1..]);
            held(run, &[before, behind].concat(), 4);
            held(run, &[before, &text[at..at + 1], &text[at..]].concat(), 4);
            // in the fixed ones by all bytes
            let all = fixed && i < FIXED.len();
            for sign in (0..=255).filter(|sign| all || SIGNS.contains(sign) || OTHERS.contains(sign)) {
                held(run, &[before, &[sign], behind].concat(), 4);
                held(run, &[before, &[sign], &text[at..]].concat(), 4);
            }
        }
    }
    if fixed {
        let text = text_of(&full_text());
        for _ in 0..200 {
            let mut changed = text.clone();
            changed[run.random.below(text.len())] = SIGNS[run.random.below(SIGNS.len())];
            held(run, &changed, 1024);
        }
    }
}

/// Terms in the order in which they are typed, in each its variables in that order; none is the constant.
struct Typed(Vec<Vec<usize>>);

impl Typed {
    fn text(&self) -> Vec<u8> {
        let term = |variables: &Vec<usize>| match variables[..] {
            [] => "1".to_string(),
            _ => variables.iter().map(|v| format!("x{v}")).collect::<Vec<_>>().join("*"),
        };
        let terms: Vec<String> = self.0.iter().map(term).collect();
        (if terms.is_empty() { "0".to_string() } else { terms.join("+") } + "\n").into_bytes()
    }

    /// The place of the sign behind the first variable that its term has already, if there is one; else the terms left.
    fn told(&self) -> Expected {
        let mut at = 0;
        for variables in &self.0 {
            for (i, v) in variables.iter().enumerate() {
                at += format!("x{v}").len() as u64;
                if variables[..i].contains(v) {
                    return Expected::Refused([15, 1, at]);
                }
                at += 1;
            }
            at += if variables.is_empty() { 2 } else { 0 };
        }
        let masks = self.0.iter().map(|variables| variables.iter().fold(0, |term, v| term | 1 << v));
        Expected::Words(left(masks.collect()))
    }
}

/// At most so many terms of at most so many variables out of a few, some of the terms again in another order.
fn typed(random: &mut Random, terms: usize, variables: usize) -> Typed {
    let size = random.between(1, 7);
    let few: Vec<usize> =
        (0..size).map(|_| if random.chance(2) { random.below(64) } else { random.below(12) }).collect();
    let mut all: Vec<Vec<usize>> = Vec::new();
    for _ in 0..random.below(terms + 1) {
        let again = all.len();
        if again > 0 && random.chance(3) {
            let term = all[random.below(again)].clone();
            all.push(random.shuffled(term));
            continue;
        }
        let mut term: Vec<usize> = (0..random.below(variables + 1)).map(|_| few[random.below(few.len())]).collect();
        if !random.chance(12) {
            term.sort_unstable();
            term.dedup();
            term = random.shuffled(term);
        }
        all.push(term);
    }
    Typed(all)
}

/// Random texts with terms again, and variables again in a term; then with some bytes changed, in any room.
pub fn random(run: &mut Run, how_many: usize) {
    run.family("texts: random, terms and variables again");
    for i in 0..how_many {
        let most = if i % 50 == 0 { 400 } else { 8 };
        let typed = typed(&mut run.random, most, 6);
        let mut text = typed.text();
        match typed.told() {
            Expected::Words(list) => reads(run, &text, &list),
            other => known(run, &text, i % 9, other),
        }
        for _ in 0..run.random.between(1, 3) {
            let at = run.random.below(text.len());
            text[at] = SIGNS[run.random.below(SIGNS.len())];
        }
        let room = any_room(&mut run.random, 4);
        held(run, &text, room);
    }
}

/// As many terms as can be, one less and some more, of which some or all are equal; and a fault in the last one.
fn terms_at_the_limit(run: &mut Run) {
    for t in 1023..=1026usize {
        let few: Vec<u64> = (0..t).map(|_| run.random.below(300) as u64).collect();
        let any = run.random.exact_list(0x0000_1111_2222_4488, t.min(1024));
        let kinds: [Vec<u64>; 7] = [
            vec![0; t],
            vec![3; t],
            (0..t as u64).collect(),
            (0..t as u64).rev().map(|i| i / 2).collect(),
            few,
            run.random.shuffled(any.into_iter().chain(0..t.saturating_sub(1024) as u64).collect()),
            (0..t as u64).map(|i| (i % 512) << 40).collect(),
        ];
        for terms in kinds {
            let text = text_of(&terms);
            if t <= 1024 {
                reads(run, &text, &left(terms));
            } else {
                refused(run, &text, 1030, [2, 1, 0]);
            }
            let whole = &text[..text.len() - 1];
            for ending in [&b""[..], b"+", b"+\n", b"+0\n", b"*x63*x63\n", b"x", b"+x", b"+1", b"*"] {
                held(run, &[whole, ending].concat(), 1030);
            }
        }
    }
}

/// Texts of so many bytes, around the limit: with a line feed, without one, with another byte in its place.
fn bytes_at_the_limit(run: &mut Run) {
    for bytes in 65533..=65539usize {
        for round in 0..3 {
            let list = of_bytes(bytes);
            let typed = if round == 0 { list.clone() } else { run.random.shuffled(list.clone()) };
            let text = text_of(&typed);
            assert_eq!(text.len(), bytes);
            match bytes <= 65536 {
                true => reads(run, &text, &left(list)),
                false => refused(run, &text, 1024, [2, 1, 0]),
            }
            // the last byte is lost: too early where it is not too long
            let last = bytes - 1;
            let told = |at: usize, length: usize| if length <= 65536 { [14, 1, at as u64] } else { [2, 1, 0] };
            refused(run, &text[..last], 1024, told(last, last));
            for (byte, at) in [(b'+', bytes), (b'*', bytes), (b'x', last), (b' ', last)] {
                refused(run, &[&text[..last], &[byte]].concat(), 1024, told(at, bytes));
            }
            refused(run, &[&text[..], b"\n"].concat(), 1024, told(bytes, bytes + 1));
        }
    }
}

/// 1,024 terms whose text has so many bytes, near 65,536: for x30 and x31 of the last terms two other variables, which take a
/// byte less, or three, which take a byte more.
pub fn of_bytes(bytes: usize) -> Vec<u64> {
    let mut list = full_text();
    for (i, term) in list.iter_mut().rev().take(bytes.abs_diff(65536)).enumerate() {
        *term ^= 3 << 30 | if bytes < 65536 { 1 << 40 | 1 << (i % 10) } else { 7 };
    }
    list.sort_unstable();
    assert_eq!(text_bytes(&list), bytes);
    list
}

/// Texts and outputs far beyond the limits: what is left of the length in 16 bits says nothing.
fn long(run: &mut Run) {
    for length in lengths() {
        for text in [&b"x0*x3+x2+1\n"[..], b"0\n", b"x1*x1\n", b"y"] {
            let mut longer = text.to_vec();
            longer.resize(length, b'\n');
            if length > 65536 {
                refused(run, &longer, 3, [2, 1, 0]);
            } else {
                held(run, &longer, 3);
            }
        }
        known(run, b"x0*x3+x2+1\n", length, Expected::Words(vec![0, 4, 9]));
    }
}
