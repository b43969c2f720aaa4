//! Audit by the independent program. Expected values: boards made of lists that are known not to split, and what was put into
//! them; the order of checks as include/apfelruder.h states it.
use independent::{audit, parts_by_counting, parts_by_halves, parts_of, Answer};

const OLD: u64 = 77;

fn accepted(yes: bool) -> Answer {
    Answer { code: 0, operand: 0, place: 0, count: yes as u64 }
}

fn refused(code: u64, operand: u64, place: u64) -> Answer {
    Answer { code, operand, place, count: 0 }
}

/// An audit with these lengths, and room of exactly so many words.
fn ask(terms: &[u64], given: &[u64], lengths: &[u64], room: [usize; 3]) -> (Answer, [Vec<u64>; 3]) {
    let mut buffers = room.map(|words| vec![OLD; words]);
    let [p, l, w] = &mut buffers;
    (audit(terms, given, lengths, p, l, w), buffers)
}

fn joined(given: &[&[u64]]) -> (Vec<u64>, Vec<u64>) {
    (given.concat(), given.iter().map(|part| part.len() as u64).collect())
}

/// The answer must be this, and the buffers what a split leaves: these parts.
#[track_caller]
fn says(yes: bool, terms: &[u64], given: &[&[u64]], parts: &[&[u64]]) {
    let t = terms.len();
    let (given_terms, lengths) = joined(given);
    let (answer, [p, l, w]) = ask(terms, &given_terms, &lengths, [t + 66, 67, 4 * t + 1]);
    assert_eq!(answer, accepted(yes), "{given:?}");
    let (part_terms, part_lengths) = joined(parts);
    assert_eq!(p, [&part_terms[..], &vec![OLD; t + 66 - part_terms.len()]].concat());
    assert_eq!(l, [&part_lengths[..], &vec![OLD; 67 - part_lengths.len()]].concat());
    assert_eq!(w, vec![0; 4 * t + 1]);
}

#[track_caller]
fn refuses(terms: &[u64], given: &[u64], lengths: &[u64], room: [usize; 3], answer: Answer) {
    let (told, buffers) = ask(terms, given, lengths, room);
    assert_eq!(told, answer);
    assert!(buffers.iter().flatten().all(|&word| word == OLD));
}

/// (1 + x0)(x1 + x3) x2: the list, and its parts.
const LIST: [u64; 4] = [6, 7, 12, 13];
const PARTS: [&[u64]; 3] = [&[0, 1], &[2, 8], &[4]];

#[test]
fn right_parts() {
    says(true, &LIST, &PARTS, &PARTS);
    says(true, &[0], &[], &[]);
    says(true, &[5], &[&[1], &[4]], &[&[1], &[4]]);
    says(true, &[0, 3], &[&[0, 3]], &[&[0, 3]]);
    says(true, &[0, 1 << 63], &[&[0, 1 << 63]], &[&[0, 1 << 63]]);
}

#[test]
fn each_damage_is_a_no() {
    let no = |given: &[&[u64]]| says(false, &LIST, given, &PARTS);
    // a constant lost, one too many, another term, a term lost
    no(&[&[1], &[2, 8], &[4]]);
    no(&[&[0, 1], &[2, 8], &[0, 4]]);
    no(&[&[0, 1], &[2, 10], &[4]]);
    no(&[&[0, 1], &[8], &[4]]);
    // left out, twice, exchanged, joined, split where it does not split
    no(&[&[0, 1], &[4]]);
    no(&[&[0, 1], &[2, 8], &[2, 8], &[4]]);
    no(&[&[0, 1], &[4], &[2, 8]]);
    no(&[&[0, 1], &[6, 12]]);
    no(&[&LIST]);
    no(&[&[0, 1], &[0, 2], &[4], &[0, 8]]);
    // zero or one among them, or alone
    no(&[&[0, 1], &[2, 8], &[4], &[]]);
    no(&[&[0], &[0, 1], &[2, 8], &[4]]);
    no(&[]);
    says(false, &[0], &[&[0]], &[]);
    says(false, &[0], &[&[]], &[]);
    // the right product of the wrong parts: 1 + x0 + x1 + x0 x1
    says(false, &[0, 1, 2, 3], &[&[0, 1, 2, 3]], &[&[0, 1], &[0, 2]]);
}

#[test]
fn the_product_may_be_far_too_long() {
    let cube: Vec<u64> = (0..1024).collect();
    let given: Vec<&[u64]> = vec![&cube; 64];
    says(false, &[1], &given, &[&[1]]);
    let apart: Vec<Vec<u64>> = (0..6).map(|i| (0..1024).map(|t| t << (10 * i)).collect()).collect();
    let apart: Vec<&[u64]> = apart.iter().map(|list| &list[..]).collect();
    says(false, &[1], &apart, &[&[1]]);
}

#[test]
fn lengths_that_do_not_add_up() {
    let room = [68, 64, 16];
    let given = [1, 2, 0, 4];
    refuses(&LIST, &given, &[0; 65], room, refused(2, 0, 0));
    refuses(&LIST, &given, &[2, 3], room, refused(10, 0, 0));
    refuses(&LIST, &given, &[u64::MAX, 5], room, refused(10, 0, 0));
    refuses(&LIST, &given, &[1 << 62; 64], room, refused(10, 0, 0));
    refuses(&LIST, &given, &[2, 1], room, refused(12, 0, 0));
    refuses(&LIST, &given, &[], room, refused(12, 0, 0));
    refuses(&[], &[2, 1], &[3], [0; 3], refused(10, 0, 0));
    refuses(&[2, 1], &[7; 1026], &[1025], [0; 3], refused(12, 0, 0));
}

#[test]
fn lists_that_are_refused() {
    let long = [7; 1025];
    let none = [0; 3];
    refuses(&long, &long, &[1025], none, refused(2, 1, 0));
    refuses(&[], &[&[0, 1], &long[..]].concat(), &[1, 1, 1025], none, refused(2, 4, 0));
    refuses(&[], &[2, 1], &[2], none, refused(1, 1, 0));
    refuses(&[1, 4, 3], &[2, 1], &[2], none, refused(3, 1, 2));
    refuses(&LIST, &[0, 1, 2, 1], &[1, 0, 3], none, refused(3, 4, 2));
    refuses(&LIST, &[0, 1], &[2], [67, 64, 16], refused(6, 1, 0));
    refuses(&LIST, &[0, 1], &[2], [68, 63, 15], refused(6, 1, 0));
    refuses(&LIST, &[0, 1], &[2], [68, 64, 15], refused(7, 1, 0));
}

fn sorted(mut parts: Vec<Vec<u64>>) -> Vec<Vec<u64>> {
    parts.sort_by_key(|part| part.iter().fold(0, |all, term| all | term).trailing_zeros());
    parts
}

#[test]
fn halves_of_all_lists_over_four_variables() {
    for chosen in 1u64..1 << 16 {
        let list: Vec<u64> = (0..16).filter(|i| chosen >> i & 1 == 1).collect();
        assert_eq!(sorted(parts_by_halves(&list)), parts_by_counting(&list));
    }
}

#[test]
fn halves_of_lists_over_many_variables() {
    let mut state = 7u64;
    let mut next = || {
        state = state.wrapping_mul(6364136223846793005).wrapping_add(1442695040888963407);
        state >> 3 ^ state << 40
    };
    for _ in 0..2000 {
        let low = u64::MAX >> (next() % 64);
        // two factors with no common variable, each of a few terms
        let [one, other] = [low, !low].map(|on| {
            let mut list: Vec<u64> = (0..1 + next() % 5).map(|_| next() & next() & on).collect();
            list.sort_unstable();
            list.dedup();
            list
        });
        let mut list: Vec<u64> = one.iter().flat_map(|s| other.iter().map(move |t| s | t)).collect();
        list.sort_unstable();
        assert_eq!(sorted(parts_by_halves(&list)), parts_of(&list));
    }
    let cube: Vec<u64> = (0..1024).collect();
    assert_eq!(sorted(parts_by_halves(&cube)), parts_of(&cube));
    assert_eq!(parts_by_halves(&cube[1..]), [cube[1..].to_vec()]);
    assert_eq!(sorted(parts_by_halves(&[u64::MAX])), (0..64).map(|i| vec![1 << i]).collect::<Vec<_>>());
}
