//! Deploy by the independent program. Expected values: boards whose parts are known, laid out by hand; the order of checks as
//! include/apfelruder.h states it.
use independent::{deploy, split, Answer};

const OLD: u64 = 77;

fn accepted(count: usize) -> Answer {
    Answer { code: 0, operand: 0, place: 0, count: count as u64 }
}

/// A deployment with these lengths and buffers of exactly so many words: answers, part terms, part lengths, work.
fn ask(words: &[u64], lengths: &[u64], room: [usize; 4]) -> (Answer, [Vec<u64>; 4]) {
    let mut buffers = room.map(|words| vec![OLD; words]);
    let [a, p, l, w] = &mut buffers;
    (deploy(words, lengths, a, p, l, w), buffers)
}

fn joined(boards: &[&[u64]]) -> (Vec<u64>, Vec<u64>) {
    (boards.concat(), boards.iter().map(|board| board.len() as u64).collect())
}

/// The words, and behind them what was there.
#[track_caller]
fn begins(buffer: &[u64], with: &[u64]) {
    assert_eq!(buffer[..with.len()], *with);
    assert!(buffer[with.len()..].iter().all(|&word| word == OLD), "{buffer:?}");
}

/// The deployment is accepted with these answers, and leaves these terms, these lengths, and a work area of these words.
#[track_caller]
fn gives(boards: &[&[u64]], room: [usize; 4], answers: &[[u64; 4]], terms: &[u64], lengths: &[u64], work: u64) {
    let (words, counts) = joined(boards);
    let (told, [a, p, l, w]) = ask(&words, &counts, room);
    assert_eq!(told, accepted(boards.len()));
    begins(&a, &answers.concat());
    begins(&p, terms);
    begins(&l, lengths);
    assert!(w.iter().all(|&word| word == work), "{w:?}");
}

#[track_caller]
fn refuses(words: &[u64], lengths: &[u64], room: [usize; 4], code: u64) {
    let (told, buffers) = ask(words, lengths, room);
    assert_eq!(told, Answer { code, operand: 0, place: 0, count: 0 });
    assert!(buffers.iter().flatten().all(|&word| word == OLD));
}

/// (x0 + x1)(1 + x2), of two parts and four terms.
const TWO: [u64; 4] = [1, 2, 5, 6];

#[test]
fn boards_one_behind_the_other() {
    let answers = [[0, 0, 0, 2], [0, 0, 0, 0], [0, 0, 0, 3]];
    let (terms, lengths) = ([1, 2, 0, 4, 0, 1, 2, 8, 4], [2, 2, 2, 2, 1]);
    gives(&[&TWO, &[0], &[6, 7, 12, 13]], [12, 201, 192, 16], &answers, &terms, &lengths, 0);
    gives(&[&TWO, &[0], &[6, 7, 12, 13]], [14, 300, 193, 40], &answers, &terms, &lengths, 0);
    gives(&[&[3]], [4, 65, 64, 4], &[[0, 0, 0, 2]], &[1, 2], &[1, 1], 0);
    // one alone: accepted, and nothing to write but the answer and the work area
    gives(&[&[0]], [4, 65, 64, 4], &[[0; 4]], &[], &[], 0);
}

#[test]
fn nothing_is_a_deployment() {
    gives(&[], [0; 4], &[], &[], &[], OLD);
    gives(&[], [3, 4, 5, 6], &[], &[], &[], OLD);
}

#[test]
fn a_refused_board_takes_no_room_and_stops_nothing() {
    let long = [7; 1025];
    let boards: [&[u64]; 5] = [&[2, 1], &TWO, &[], &long, &TWO];
    let answers = [[3, 1, 1, 0], [0, 0, 0, 2], [1, 1, 0, 0], [2, 1, 0, 0], [0, 0, 0, 2]];
    gives(&boards, [20, 72, 66, 16], &answers, &[1, 2, 0, 4, 1, 2, 0, 4], &[2, 2, 2, 2], 0);
    // all refused: the work area too is as it was
    gives(&[&[2, 1], &[], &[5, 5]], [12, 200, 200, 20], &[[3, 1, 1, 0], [1, 1, 0, 0], [3, 1, 1, 0]], &[], &[], OLD);
}

#[test]
fn room_runs_out() {
    let room = [6, 1, 0, 0];
    let two = [0, 0, 0, 2];
    // one word of part terms too few for the second; the third needs fewer
    gives(&[&TWO, &TWO, &[3]], [12, 71, 192, 16], &[two, room, two], &[1, 2, 0, 4, 1, 2], &[2, 2, 1, 1], 0);
    gives(&[&TWO, &TWO, &[3]], [12, 72, 192, 16], &[two, two, room], &[1, 2, 0, 4, 1, 2, 0, 4], &[2; 4], 0);
    // the lengths of the parts: 64 are asked for each time
    gives(&[&TWO, &TWO, &[3]], [12, 201, 65, 16], &[two, room, room], &[1, 2, 0, 4], &[2, 2], 0);
    gives(&[&TWO, &TWO, &[3]], [12, 201, 67, 16], &[two, two, room], &[1, 2, 0, 4, 1, 2, 0, 4], &[2; 4], 0);
    gives(&[&TWO, &[3]], [8, 0, 128, 16], &[room, room], &[], &[], OLD);
    gives(&[&[1 << 40], &[0], &[0, 1 << 63]], [12, 130, 64, 8], &[[0, 0, 0, 1], room, room], &[1 << 40], &[1], 0);
}

#[test]
fn a_work_area_for_some() {
    let work = [7, 1, 0, 0];
    let two = [0, 0, 0, 2];
    gives(&[&TWO, &[3], &TWO], [12, 201, 192, 15], &[work, two, work], &[1, 2], &[1, 1], 0);
    gives(&[&TWO, &TWO], [8, 200, 192, 15], &[work, work], &[], &[], OLD);
    // room is asked for before
    gives(&[&TWO, &[3]], [8, 68, 63, 0], &[[6, 1, 0, 0]; 2], &[], &[], OLD);
}

#[test]
fn refusals_of_the_whole() {
    let room = [8, 200, 192, 16];
    refuses(&[1; 65], &[1; 65], [260, 999, 999, 99], 2);
    refuses(&[], &[0; 65], [0; 4], 2);
    refuses(&TWO, &[2, 3], room, 10);
    refuses(&TWO, &[u64::MAX, 5], room, 10);
    refuses(&TWO, &[1 << 63, 1 << 63, 4], room, 10);
    refuses(&TWO, &[1 << 58; 64], room, 10);
    refuses(&TWO, &[2, 1], room, 12);
    refuses(&TWO, &[], [0; 4], 12);
    refuses(&TWO, &[2, 2], [7, 200, 192, 16], 6);
    refuses(&[], &[0], [3, 200, 192, 16], 6);
    // which comes first
    refuses(&TWO, &[u64::MAX; 65], [0; 4], 2);
    refuses(&TWO, &[5], [0; 4], 10);
    refuses(&TWO, &[3], [0; 4], 12);
}

#[test]
fn sixty_four_boards_as_if_alone() {
    let lists: Vec<Vec<u64>> = (0..64u64).map(|i| (0..=i % 7).map(|t| t << (i % 50)).collect()).collect();
    let boards: Vec<&[u64]> = lists.iter().map(|list| &list[..]).collect();
    let (words, counts) = joined(&boards);
    let (told, [a, p, l, _]) = ask(&words, &counts, [256, words.len() + 4096, 4096, 28]);
    assert_eq!(told, accepted(64));
    let (mut terms, mut lengths) = (&p[..], &l[..]);
    for (board, answer) in lists.iter().zip(a.chunks(4)) {
        let (mut alone, mut alone_lengths) = ([OLD; 71], [OLD; 64]);
        let told = split(board, &mut alone, &mut alone_lengths, &mut [0; 28]);
        assert_eq!(answer, [told.code, told.operand, told.place, told.count]);
        let parts = told.count as usize;
        let sum = alone_lengths[..parts].iter().sum::<u64>() as usize;
        assert_eq!((&terms[..sum], &lengths[..parts]), (&alone[..sum], &alone_lengths[..parts]));
        (terms, lengths) = (&terms[sum..], &lengths[parts..]);
    }
    assert!(terms.iter().chain(lengths).all(|&word| word == OLD));
}
