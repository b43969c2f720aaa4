//! Deployments of boards whose parts are known, right and refused ones in every place, with room for all or not: what each board is
//! told follows from its own list and from what the accepted ones before it left.
use super::audits::{lists_over, shapes, whole};
use super::expected::deployed;
use super::kinds::kinds;
use super::lists::{factors, long_factors};
use super::refusals::{any_list, any_room};
use super::{deploy_room, in_order, joined};
use crate::call::{Call, Request};
use crate::run::{Oracle, Run};

/// A list, and its parts if it splits.
#[derive(Clone)]
pub struct Board {
    pub list: Vec<u64>,
    pub parts: Vec<Vec<u64>>,
}

impl Board {
    /// The board of these parts.
    pub fn of(parts: &[Vec<u64>]) -> Board {
        Board { list: whole(parts), parts: parts.to_vec() }
    }

    /// A board that is refused for its list.
    pub fn unfit(list: Vec<u64>) -> Board {
        Board { list, parts: vec![] }
    }

    /// A board of any list. Its parts are found by another method than that of the independent program's split.
    pub fn any(run: &Run, list: Vec<u64>) -> Board {
        let parts = if fit(&list) { run.asked("the parts", &list, independent::parts_by_halves) } else { vec![] };
        Board { list, parts: in_order(parts) }
    }
}

/// A few boards of all kinds: one, a variable, two parts, three, a sum, 64 parts.
pub fn small() -> Vec<Board> {
    let singles: Vec<Vec<u64>> = (0..64).map(|i| vec![1 << i]).collect();
    let parts: [&[Vec<u64>]; 6] = [
        &[],
        &[vec![1 << 40]],
        &[vec![1, 2], vec![0, 4]],
        &[vec![0, 1], vec![2, 8], vec![4]],
        &[vec![0, 1, 2, 4, 8, 16, 1 << 63]],
        &singles,
    ];
    parts.into_iter().map(Board::of).collect()
}

/// Lists that are refused: zero, out of order at the first place and later, too long, both.
pub fn unfit() -> Vec<Board> {
    let lists = [vec![], vec![2, 1], vec![0, 0], vec![0, 1, 2, 2, 1], (0..1025).collect(), vec![5; 1025]];
    lists.into_iter().map(Board::unfit).collect()
}

/// The words with which these boards have room for all.
pub fn enough(boards: &[Board]) -> [usize; 4] {
    deploy_room(&lists(boards))
}

/// The fewest words with which none of these boards is refused for room: one less of any, and one is.
fn least(boards: &[Board]) -> [usize; 4] {
    let [answers, .., work] = enough(boards);
    let (mut terms, mut lengths, mut need) = (0, 0, [0; 2]);
    for board in boards.iter().filter(|board| fit(&board.list)) {
        need = [need[0].max(terms + board.list.len() + 64), need[1].max(lengths + 64)];
        terms += board.parts.iter().map(Vec::len).sum::<usize>();
        lengths += board.parts.len();
    }
    let longest = boards.iter().filter(|board| fit(&board.list)).map(|board| board.list.len()).max();
    [answers, need[0], need[1], longest.map_or(work, |t| 4 * t)]
}

/// A list that split does not refuse.
fn fit(list: &[u64]) -> bool {
    (1..=1024).contains(&list.len()) && list.windows(2).all(|two| two[0] < two[1])
}

fn lists(boards: &[Board]) -> Vec<Vec<u64>> {
    boards.iter().map(|board| board.list.clone()).collect()
}

/// A deployment of these boards with exactly so much room, in buffers filled with anything.
pub fn told(run: &mut Run, boards: &[Board], room: [usize; 4], both: bool) {
    let (words, lengths) = joined(&lists(boards));
    let request = Request::deploy(&words, &lengths, room.map(|words| run.random.words(words)));
    let expected = deployed(&request, |i, _| boards[i].parts.clone());
    run.check(request, if both { Oracle::Both(expected) } else { Oracle::Known(expected) });
}

/// With the least room for all, with what always suffices, and with a little more.
fn with_room(run: &mut Run, boards: &[Board], both: bool) {
    let more = run.random.below(3);
    told(run, boards, least(boards), both);
    told(run, boards, enough(boards).map(|words| words + more), both);
}

pub fn all(run: &mut Run) {
    if !run.has(Call::Deploy) {
        return;
    }
    run.family("deploy: examples");
    examples(run);
    run.family("deploy: all over 2 variables, to 3 boards");
    two_variables(run);
    run.family("deploy: every kind of board in every place");
    every_kind(run);
    run.family("deploy: room that runs out");
    scarce(run);
    run.family("deploy: answers in exact room");
    answers(run);
}

/// 63 and 64 boards, long ones too.
pub fn large(run: &mut Run) {
    if !run.has(Call::Deploy) {
        return;
    }
    run.family("deploy: as many boards as there can be");
    many(run);
}

/// Boards at random, and of 1,000 terms and more.
pub fn random(run: &mut Run, how_many: usize) {
    if !run.has(Call::Deploy) {
        return;
    }
    run.family("deploy: known factors, any room");
    for _ in 0..how_many {
        by_chance(run);
    }
    run.family("deploy: 1,000 terms and more");
    for _ in 0..(how_many / 250).max(1) {
        long(run);
    }
}

/// The lists of RULES 7.1 each alone, all together, and with refused ones before, between and behind.
fn examples(run: &mut Run) {
    let parts: [&[&[u64]]; 9] = [
        &[],
        &[&[1]],
        &[&[0, 1]],
        &[&[1], &[2]],
        &[&[0, 3]],
        &[&[0, 1, 2]],
        &[&[1, 2], &[0, 4]],
        &[&[0, 1], &[2, 8], &[4]],
        &[&[0, 3], &[4, 12, 16]],
    ];
    let boards: Vec<Board> =
        parts.iter().map(|board| Board::of(&board.iter().map(|part| part.to_vec()).collect::<Vec<_>>())).collect();
    with_room(run, &[], true);
    told(run, &[], [3, 64, 64, 4], true);
    for board in &boards {
        with_room(run, std::slice::from_ref(board), true);
    }
    with_room(run, &boards, true);
    for refused in unfit() {
        with_room(run, std::slice::from_ref(&refused), true);
        for place in 0..=boards.len() {
            let mut some = boards.clone();
            some.insert(place, refused.clone());
            with_room(run, &some, true);
        }
    }
}

/// Each row of up to three lists, held to the definition of parts by trying all sets.
fn two_variables(run: &mut Run) {
    let lists = lists_over(2);
    let boards: Vec<Board> =
        lists.iter().map(|list| Board { list: list.clone(), parts: independent::parts_by_counting(list) }).collect();
    for many in 0..=3 {
        for choice in 0..16usize.pow(many) {
            let row: Vec<Board> = (0..many).map(|i| boards[choice / 16usize.pow(i) % 16].clone()).collect();
            told(run, &row, least(&row), true);
        }
    }
}

/// Each row of up to three boards of every kind: with room for all, and with room that is short by chance.
fn every_kind(run: &mut Run) {
    let boards = [small(), unfit()].concat();
    let n = boards.len();
    for many in 1..=3 {
        for choice in 0..n.pow(many) {
            let row: Vec<Board> = (0..many).map(|i| boards[choice / n.pow(i) % n].clone()).collect();
            told(run, &row, enough(&row), true);
            let [answers, others @ ..] = enough(&row);
            let [p, l, w] = others.map(|need| any_room(&mut run.random, need));
            told(run, &row, [answers, p, l, w], true);
        }
    }
    for list in kinds() {
        for other in kinds() {
            let row = [Board::any(run, list.clone()), Board::any(run, other)];
            let both = row.iter().all(|board| board.list.len() != 1024);
            told(run, &row, enough(&row), both);
        }
    }
}

/// Every size of each output, from none to more than enough: room for part terms, part lengths and work ends in the middle, and a
/// shorter board behind may still fit.
fn scarce(run: &mut Run) {
    let [one, variable, two, three, sum, singles] = &small()[..] else { panic!("six boards") };
    let [zero, order, _, _, long, _] = &unfit()[..] else { panic!("six boards") };
    let rows: [&[&Board]; 8] = [
        &[two, three, variable],
        &[sum, one, two, sum, variable],
        &[singles, two, singles, one],
        &[one, one, one],
        &[order, two, zero, two, long, sum],
        &[variable, sum, variable, sum],
        &[three],
        &[zero, order],
    ];
    for row in rows {
        let row: Vec<Board> = row.iter().map(|&board| board.clone()).collect();
        let need = enough(&row);
        for which in 1..4 {
            for words in 0..=need[which] + 2 {
                let mut room = need;
                room[which] = words;
                told(run, &row, room, true);
            }
        }
        // two or three of them short at once
        for _ in 0..300 {
            let [p, l, w] = [1, 2, 3].map(|which: usize| run.random.below(need[which] + 2));
            told(run, &row, [need[0], p, l, w], true);
        }
    }
}

/// Every size of the answers, from none to more than enough, of so many boards.
fn answers(run: &mut Run) {
    for many in (0..=5).chain([63, 64]) {
        for refused in [false, true] {
            let board = if refused { &unfit()[1] } else { &small()[2] };
            let row = vec![board.clone(); many];
            let [need, p, l, w] = enough(&row);
            for words in (0..=need + 5).filter(|words| many < 63 || words % 16 < 2 || words + 5 > need) {
                told(run, &row, [words, p, l, w], true);
            }
        }
    }
}

/// 63 and 64 boards of each shape, and of all shapes; the largest deployment.
fn many(run: &mut Run) {
    for board in small().iter().chain(&unfit()) {
        for many in [63, 64] {
            with_room(run, &vec![board.clone(); many], true);
        }
    }
    let shapes: Vec<Board> = shapes().iter().map(|parts| Board::of(parts)).collect();
    for row in shapes.chunks(64) {
        let long = row.iter().any(|board| board.list.len() > 100);
        with_room(run, row, !long);
        with_room(run, &row.iter().rev().cloned().collect::<Vec<_>>(), !long);
    }
    for shape in shapes.iter().filter(|board| board.list.len() > 1000) {
        with_room(run, &vec![shape.clone(); 64], false);
    }
    let cube = Board::of(&(0..10).map(|i| vec![0, 1 << (3 * i)]).collect::<Vec<_>>());
    told(run, &vec![cube.clone(); 64], enough(&vec![cube; 64]), true);
}

/// So many boards at random: products of known factors, and any lists, right or not.
fn by_chance(run: &mut Run) {
    let many = match run.random.below(20) {
        0 => run.random.between(60, 64),
        1 => 0,
        _ => run.random.between(1, 6),
    };
    let row: Vec<Board> = (0..many).map(|_| any_board(run)).collect();
    let both = row.iter().all(|board| board.list.len() <= 64 || board.list.len() > 1024);
    // one of them short, by one word or by any number
    let mut room = least(&row);
    let which = run.random.between(1, 3);
    match run.random.below(4) {
        0 => room[which] = room[which].saturating_sub(1),
        1 => room[which] = run.random.below(room[which] + 1),
        2 => room = enough(&row).map(|need| need + run.random.below(3)),
        _ => room = [room[0], room[1], room[2], room[3] + run.random.below(3)],
    }
    told(run, &row, room, both);
}

fn any_board(run: &mut Run) -> Board {
    match run.random.below(6) {
        0 => {
            let list = any_list(&mut run.random);
            Board::any(run, list)
        }
        1 => unfit()[run.random.below(6)].clone(),
        2 => small()[run.random.below(6)].clone(),
        _ => {
            let mut parts = Vec::new();
            for factor in factors(&mut run.random, 40) {
                parts.extend(run.asked("the parts", &factor, independent::parts_of));
            }
            Board::of(&in_order(parts))
        }
    }
}

/// Boards of long lists, in room for all and in room for some.
fn long(run: &mut Run) {
    let row: Vec<Board> = (0..run.random.between(2, 5))
        .map(|_| {
            let (left, right) = long_factors(&mut run.random);
            let mut parts = run.asked("the parts", &left, independent::parts_of);
            parts.extend(run.asked("the parts", &right, independent::parts_of));
            Board::of(&in_order(parts))
        })
        .collect();
    with_room(run, &row, false);
    let need = least(&row);
    for which in 1..4 {
        for less in [1, run.random.between(1, need[which])] {
            let mut room = need;
            room[which] -= less;
            told(run, &row, room, false);
        }
    }
}
