//! Deploy, safe and raw. Expected values: the parts of RULES 7.1 laid out by hand, board behind board; the order of checks as
//! include/apfelruder.h states it.
#![cfg(feature = "deploy")]
use apfelruder::raw::{self, Answer};
use apfelruder::{Refusal, MAX_BOARDS, MAX_TERMS};

const OLD: u64 = 77;

/// (x0 + x1)(1 + x2): four terms, two parts.
const TWO: [u64; 4] = [1, 2, 5, 6];

#[cfg(feature = "alloc")]
mod safe {
    use super::{Refusal, MAX_BOARDS, MAX_TERMS, TWO};
    use apfelruder::{deploy, Board};

    fn two() -> Board {
        Ok(vec![vec![1, 2], vec![0, 4]])
    }

    #[test]
    fn a_board_of_one_and_others() {
        assert_eq!(deploy(&[TWO]), Ok(vec![two()]));
        assert_eq!(deploy(&[[0]]), Ok(vec![Ok(vec![])]));
        let boards = [&[0][..], &TWO, &[0], &[6, 7, 12, 13], &[3], &[0]];
        let parts = vec![
            Ok(vec![]),
            two(),
            Ok(vec![]),
            Ok(vec![vec![0, 1], vec![2, 8], vec![4]]),
            Ok(vec![vec![1], vec![2]]),
            Ok(vec![]),
        ];
        assert_eq!(deploy(&boards), Ok(parts));
    }

    #[test]
    fn no_boards() {
        assert_eq!(deploy::<Vec<u64>>(&[]), Ok(vec![]));
    }

    #[test]
    fn each_reason_in_each_position() {
        let long: Vec<u64> = (0..1025).collect();
        let reasons: [(&[u64], Refusal); 6] = [
            (&[], Refusal::Zero),
            (&long, Refusal::TooMany { operand: 1 }),
            (&[5; 1025], Refusal::TooMany { operand: 1 }),
            (&[1, 1], Refusal::Order { operand: 1, place: 1 }),
            (&[0, 1, 2, 2, 1], Refusal::Order { operand: 1, place: 3 }),
            (&[2, 1], Refusal::Order { operand: 1, place: 1 }),
        ];
        for (list, refusal) in reasons {
            for place in 0..5 {
                let mut boards = [&TWO[..]; 5];
                boards[place] = list;
                let mut told = vec![two(); 5];
                told[place] = Err(refusal);
                assert_eq!(deploy(&boards), Ok(told), "{refusal:?} at {place}");
            }
            assert_eq!(deploy(&[list; 3]), Ok(vec![Err(refusal); 3]));
            // behind one another, and the last is split
            let boards: Vec<&[u64]> = reasons.iter().map(|row| row.0).chain([list, &TWO]).collect();
            let told: Vec<Board> = reasons.iter().map(|row| Err(row.1)).chain([Err(refusal), two()]).collect();
            assert_eq!(deploy(&boards), Ok(told));
        }
    }

    #[test]
    fn as_many_boards_as_there_can_be() {
        assert_eq!(deploy(&[TWO; MAX_BOARDS]), Ok(vec![two(); MAX_BOARDS]));
        let many = Err(Refusal::TooMany { operand: 0 });
        assert_eq!(deploy(&[TWO; MAX_BOARDS + 1]), many);
        assert_eq!(deploy(&vec![vec![]; MAX_BOARDS + 1]), many);
        assert_eq!(deploy(&vec![[2, 1]; 1000]), many);
    }

    #[test]
    fn the_largest() {
        // 64 boards of 1,024 terms and ten parts, each on variables of its own
        let cube = |low: u32| (0..1024).map(|term| term << low).collect::<Vec<u64>>();
        let boards: Vec<Vec<u64>> = (0..64).map(|i| cube(i % 55)).collect();
        let told = deploy(&boards).unwrap();
        assert_eq!((told.len(), boards[0].len()), (MAX_BOARDS, MAX_TERMS));
        for (i, board) in told.into_iter().enumerate() {
            assert_eq!(board, Ok((0..10).map(|v| vec![0, 1 << (v + i % 55)]).collect()));
        }
        // 64 boards of 64 parts: one word each, where 64 more are asked for
        let singles: Board = Ok((0..64).map(|v| vec![1 << v]).collect());
        assert_eq!(deploy(&[[u64::MAX]; 64]), Ok(vec![singles; 64]));
    }
}

/// The raw call with buffers of these lengths (answers, part terms, part lengths, work), and the buffers after it.
fn raw_deploy(words: &[u64], lengths: &[u64], room: [usize; 4]) -> (Answer, [Vec<u64>; 4]) {
    let mut buffers = room.map(|words| vec![OLD; words]);
    let [a, p, l, w] = &mut buffers;
    (raw::deploy(words, lengths, a, p, l, w), buffers)
}

const fn accepted(count: u64) -> Answer {
    Answer { code: 0, operand: 0, place: 0, count }
}

const fn refused(code: u64, place: u64) -> Answer {
    Answer { code, operand: 1, place, count: 0 }
}

/// The deployment of these boards is accepted. Its answers are these, the parts of the accepted boards are these, all that is
/// behind them is as it was, and every word of the work area is this.
#[track_caller]
fn gives(boards: &[&[u64]], room: [usize; 4], answers: &[Answer], parts: &[&[u64]], work: u64) {
    let lengths: Vec<u64> = boards.iter().map(|board| board.len() as u64).collect();
    let (told, [a, p, l, w]) = raw_deploy(&boards.concat(), &lengths, room);
    assert_eq!(told, accepted(boards.len() as u64));
    let (four, behind) = a.split_at(raw::deploy_answers_words(boards.len()));
    assert_eq!(raw::answers(four).collect::<Vec<_>>(), answers);
    assert!(behind.iter().all(|&word| word == OLD), "{behind:?}");
    let terms = parts.concat();
    assert_eq!(p[..terms.len()], terms);
    assert!(p[terms.len()..].iter().all(|&word| word == OLD), "{p:?}");
    assert_eq!(l[..parts.len()], parts.iter().map(|part| part.len() as u64).collect::<Vec<_>>());
    assert!(l[parts.len()..].iter().all(|&word| word == OLD), "{l:?}");
    assert!(w.iter().all(|&word| word == work), "{w:?}");
}

#[test]
fn raw_lays_the_boards_out_and_writes_no_more() {
    let parts: [&[u64]; 5] = [&[1, 2], &[0, 4], &[0, 1], &[2, 8], &[4]];
    let boards: [&[u64]; 3] = [&TWO, &[0], &[6, 7, 12, 13]];
    let answers = [accepted(2), accepted(0), accepted(3)];
    for more in [0, 1, 100] {
        gives(&boards, [12 + more, 201 + more, 192 + more, 16 + more], &answers, &parts, 0);
    }
    gives(&[], [0; 4], &[], &[], OLD);
    gives(&[], [4, 64, 64, 4], &[], &[], OLD);
}

#[test]
fn raw_goes_on_behind_a_refused_board() {
    let long = [7; MAX_TERMS + 1];
    let boards: [&[u64]; 6] = [&[], &TWO, &long, &[9, 9], &TWO, &[]];
    let answers = [refused(1, 0), accepted(2), refused(2, 0), refused(3, 1), accepted(2), refused(1, 0)];
    // just the room that the two need, one behind the other
    gives(&boards, [24, 72, 66, 16], &answers, &[&[1, 2], &[0, 4], &[1, 2], &[0, 4]], 0);
    gives(&boards[..1], [4, 72, 66, 16], &answers[..1], &[], OLD);
    gives(&boards[2..4], [8, 2000, 128, 5000], &answers[2..4], &[], OLD);
}

#[test]
fn raw_with_too_little_room_in_the_middle() {
    let room = refused(6, 0);
    let boards: [&[u64]; 4] = [&TWO, &TWO, &[3], &[0]];
    let [first, single]: [[&[u64]; 2]; 2] = [[&[1, 2], &[0, 4]], [&[1], &[2]]];
    // the second asks for 68 words of terms and has 67; the third asks for 65, the fourth too
    let answers = [accepted(2), room, accepted(2), accepted(0)];
    gives(&boards, [16, 71, 256, 16], &answers, &[first, single].concat(), 0);
    // 64 words of lengths, and the first takes two
    let answers = [accepted(2), room, room, room];
    gives(&boards, [16, 300, 65, 16], &answers, &first, 0);
    let answers = [accepted(2), accepted(2), room, room];
    gives(&boards, [16, 300, 66, 16], &answers, &[first, first].concat(), 0);
    gives(&boards, [16, 300, 63, 16], &[room; 4], &[], OLD);
    gives(&boards, [16, 64, 256, 16], &[room; 4], &[], OLD);
}

#[test]
fn raw_with_a_work_area_for_some() {
    let work = refused(7, 0);
    let boards: [&[u64]; 3] = [&TWO, &[3], &TWO];
    gives(&boards, [12, 300, 192, 15], &[work, accepted(2), work], &[&[1], &[2]], 0);
    gives(&boards, [12, 300, 192, 3], &[work; 3], &[], OLD);
    gives(&boards, [12, 300, 192, 0], &[work; 3], &[], OLD);
    // room comes before
    gives(&boards, [12, 67, 192, 3], &[refused(6, 0), work, refused(6, 0)], &[], OLD);
}

/// The whole call is refused with this, and nothing was written.
#[track_caller]
fn whole_refused(words: &[u64], lengths: &[u64], room: [usize; 4], refusal: Refusal) {
    let (told, buffers) = raw_deploy(words, lengths, room);
    assert_eq!(told.result(), Err(refusal));
    assert_eq!((told.operand, told.place, told.count), (0, 0, 0));
    assert!(buffers.iter().flatten().all(|&word| word == OLD));
}

#[test]
fn raw_refuses_lengths_that_do_not_add_up() {
    const ENOUGH: [usize; 4] = [256, 5000, 4096, 16];
    let more: [&[u64]; 7] = [
        &[2, 3],
        &[5],
        &[u64::MAX, 5],
        &[u64::MAX; 4],
        &[u64::MAX; 64],
        &[1 << 63, 1 << 63, 4],
        &[1 << 63, (1 << 63) + 4],
    ];
    for lengths in more {
        whole_refused(&TWO, lengths, ENOUGH, Refusal::Short { operand: 0 });
    }
    // they add to 2^64, and no words are lent
    whole_refused(&[], &[1 << 63, 1 << 63], ENOUGH, Refusal::Short { operand: 0 });
    let fewer: [&[u64]; 4] = [&[], &[2, 1], &[0; 64], &[0, 3]];
    for lengths in fewer {
        whole_refused(&TWO, lengths, ENOUGH, Refusal::Extra { operand: 0 });
    }
    for lengths in [&[4; 65][..], &[0; 65], &[u64::MAX; 65], &[0; 1000]] {
        whole_refused(&TWO, lengths, ENOUGH, Refusal::TooMany { operand: 0 });
    }
}

#[test]
fn raw_refuses_too_few_answers() {
    let room = Refusal::Room { operand: 0 };
    for answers in 0..8 {
        whole_refused(&[1, 2], &[1, 1], [answers, 300, 128, 16], room);
    }
    whole_refused(&[], &[0], [3, 300, 128, 16], room);
    whole_refused(&[2; 64], &[1; 64], [255, 5000, 4096, 16], room);
    // what is wrong with the lengths comes first, and what is wrong with a list comes behind
    whole_refused(&TWO, &[1; 65], [0; 4], Refusal::TooMany { operand: 0 });
    whole_refused(&TWO, &[5], [0; 4], Refusal::Short { operand: 0 });
    whole_refused(&TWO, &[3], [0; 4], Refusal::Extra { operand: 0 });
    whole_refused(&[2, 1], &[2], [3, 0, 0, 0], room);
}

#[test]
fn words_that_deploy_needs() {
    assert_eq!(raw::deploy_answers_words(MAX_BOARDS), 256);
    assert_eq!(raw::deploy_part_terms_words(MAX_BOARDS * MAX_TERMS, MAX_BOARDS), 69632);
    assert_eq!(raw::deploy_part_lengths_words(MAX_BOARDS), 4096);
    assert_eq!(raw::deploy_answers_words(usize::MAX), usize::MAX);
    assert_eq!(raw::deploy_part_terms_words(usize::MAX, 1), usize::MAX);
    assert_eq!(raw::deploy_part_terms_words(0, usize::MAX), usize::MAX);
    assert_eq!(raw::deploy_part_lengths_words(usize::MAX), usize::MAX);
}

#[test]
fn answers_are_four_words_each() {
    let told: Vec<Answer> = raw::answers(&[0, 0, 0, 2, 3, 1, 9, 0, 7, 7, 7]).collect();
    assert_eq!(told, [accepted(2), refused(3, 9)]);
    assert_eq!(raw::answers(&[]).count(), 0);
    assert_eq!(raw::answers(&[1, 1, 0]).count(), 0);
}
