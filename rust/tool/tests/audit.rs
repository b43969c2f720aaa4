//! Audits of boards that were made right from a seed and then damaged. What must be printed comes from how the board was made
//! and damaged and from the sets of common/poly.rs, never from the tool.
mod common;

use common::board::{damage, irreducible, Board, Given, Random, DAMAGES};
use common::expect::expected;
use common::poly::{block, inputs, numbers, parts, poly, text, typed, Poly};
use common::{Ended, Room};

/// The ways in which parts are handed over.
#[derive(Clone, Copy, Debug)]
enum Way {
    Files,
    Lines,
    Printed,
    Blocks,
    Input,
    Mixed,
}

const WAYS: [Way; 6] = [Way::Files, Way::Lines, Way::Printed, Way::Blocks, Way::Input, Way::Mixed];

/// Loads the parts in this way; gives the words that name them, and what is on standard input.
fn load(room: &Room, random: &mut Random, given: &[Given], way: Way) -> (Vec<String>, String) {
    let lines = |random: &mut Random, given: &[Given]| -> String {
        given.iter().map(|part| typed(random, &part.terms)).collect()
    };
    let printed =
        || format!("parts {}\n", given.len()) + &given.iter().map(|part| text(&part.terms) + "\n").collect::<String>();
    let file = |name: String, content: &[u8]| {
        room.file(&name, content);
        name
    };
    match way {
        _ if given.is_empty() => (vec![file("none.txt".into(), b"parts 0\n")], String::new()),
        Way::Files => {
            let each = given.iter().enumerate();
            let words = each.map(|(k, part)| file(format!("{k}.txt"), typed(random, &part.terms).as_bytes()));
            (words.collect(), String::new())
        }
        Way::Lines => (vec![file("lines.txt".into(), lines(random, given).as_bytes())], String::new()),
        Way::Printed => (vec![file("printed.txt".into(), printed().as_bytes())], String::new()),
        Way::Blocks => {
            let each = given.iter().enumerate();
            (each.map(|(k, part)| file(format!("{k}.block"), &block(&part.terms))).collect(), String::new())
        }
        Way::Input => (vec!["-".into()], if random.chance(2) { printed() } else { lines(random, given) }),
        Way::Mixed => {
            let (front, rest) = given.split_at(given.len() / 2);
            let mut words = Vec::new();
            if !front.is_empty() {
                words.push(file("front.txt".into(), lines(random, front).as_bytes()));
            }
            words.push(file("middle.block".into(), &block(&rest[0].terms)));
            if rest.len() > 1 {
                words.push("-".into());
            }
            (words, lines(random, &rest[1..]))
        }
    }
}

fn audited(random: &mut Random, board: &Board, given: &[Given], way: Way) -> Ended {
    let room = Room::new();
    let (parts, input) = load(&room, random, given, way);
    if random.chance(2) {
        room.file("approved", typed(random, &board.approved));
    } else {
        room.file("approved", block(&board.approved));
    }
    let words: Vec<String> = ["audit".to_string(), "approved".to_string()].into_iter().chain(parts).collect();
    room.run_on(&words, input)
}

/// Holds the tool to what is expected of these parts.
#[track_caller]
fn check(random: &mut Random, board: &Board, given: &[Given], way: Way) {
    let (status, lines) = expected(board, given);
    let ended = audited(random, board, given, way);
    let loaded: Vec<String> = given.iter().map(|part| text(&part.terms)).collect();
    if (ended.status, ended.text()) != (Some(status), &lines) {
        eprintln!("approved {}\nloaded {loaded:?} by {way:?}", text(&board.approved));
    }
    ended.is(status, lines.as_bytes(), "");
}

/// The sets that the tests reckon with, on examples of RULES 4.4 and 7.1.
#[test]
fn the_arithmetic_of_these_tests() {
    assert_eq!(parts(&poly(&[6, 7, 12, 13])), [poly(&[0, 1]), poly(&[2, 8]), poly(&[4])]);
    assert_eq!(parts(&poly(&[4, 7, 12, 15, 16, 19])), [poly(&[0, 3]), poly(&[4, 12, 16])]);
    assert_eq!(parts(&poly(&[0])), Vec::<Poly>::new());
    assert_eq!(parts(&poly(&[0, 3])), [poly(&[0, 3])]);
    assert_eq!(block(&poly(&[1, 2, 5, 6])), [0x10, 0x60, 0x04, 0x2a, 0xe0]);
    assert_eq!(block(&poly(&[])), [0x10, 0, 0]);
    assert_eq!(text(&poly(&[0, 4, 9])), "1+x2+x0*x3");
    let random = &mut Random::new(1);
    for _ in 0..200 {
        let board = Board::new(random);
        if inputs(&board.approved).count_ones() <= 9 {
            assert_eq!(parts(&board.approved), board.parts, "parts that were chosen not to be splittable");
        }
    }
}

#[test]
fn right_boards() {
    let random = &mut Random::new(2);
    for round in 0..120 {
        let board = Board::new(random);
        check(random, &board, &board.given(), WAYS[round % WAYS.len()]);
    }
}

/// Sixty boards for each way of damage, ten for each way of loading.
#[test]
fn boards_damaged_in_one_way() {
    for how in DAMAGES {
        let random = &mut Random::new(3 + how as u64);
        let mut done = 0;
        while done < 60 {
            let board = Board::new(random);
            let mut given = board.given();
            if damage(random, how, &board, &mut given).is_some() {
                assert!(!given.iter().map(|part| &part.terms).eq(&board.parts), "{how:?} changes nothing");
                check(random, &board, &given, WAYS[done % WAYS.len()]);
                done += 1;
            }
        }
    }
}

#[test]
fn boards_damaged_in_several_ways() {
    let random = &mut Random::new(40);
    for round in 0..300 {
        let board = Board::new(random);
        let mut given = board.given();
        for _ in 0..2 + random.below(3) {
            let how = random.one(&DAMAGES);
            damage(random, how, &board, &mut given);
        }
        check(random, &board, &given, WAYS[round % WAYS.len()]);
    }
}

/// The joined part is one of several, so what it can be split into is known from the board alone.
#[test]
fn all_parts_joined_into_one() {
    let random = &mut Random::new(50);
    for round in 0..40 {
        let board = Board::new(random);
        let whole = Given { terms: board.approved.clone(), into: board.parts.clone(), ..Given::damaged(poly(&[0])) };
        check(random, &board, &[whole], WAYS[round % WAYS.len()]);
    }
}

/// Parts of other boards among the right ones, so that the product has more terms than the library would form.
#[test]
fn products_of_more_than_1024_terms() {
    let random = &mut Random::new(60);
    let mut done = 0;
    while done < 60 {
        let board = Board::new(random);
        let mut given = board.given();
        let free = random.shuffled(numbers(!inputs(&board.approved)));
        for over in free.chunks(3).take(4) {
            let at = random.below(given.len() + 1);
            given.insert(at, Given::whole(irreducible(random, over)));
        }
        if random.chance(2) {
            let how = random.one(&DAMAGES);
            damage(random, how, &board, &mut given);
        }
        let terms: usize = given.iter().map(|part| part.terms.len()).product();
        if (1025..60_000).contains(&terms) {
            check(random, &board, &given, WAYS[done % WAYS.len()]);
            done += 1;
        }
    }
}
