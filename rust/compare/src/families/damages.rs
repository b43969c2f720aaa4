//! The ways in which right parts become wrong ones. Each takes the parts of a list and gives them back with one damage of its
//! kind, or nothing if these parts cannot be damaged so.
use super::{in_order, product};
use crate::random::Random;

type Board = Vec<Vec<u64>>;
pub type Damage = fn(&mut Random, Board) -> Option<Board>;

pub const DAMAGES: [Damage; 17] = [
    term_lost,
    constant_lost_or_added,
    term_added,
    bit_turned,
    part_mirrored,
    variables_exchanged,
    two_joined,
    all_joined,
    one_cut,
    two_exchanged,
    turned_round,
    one_doubled,
    one_left_out,
    zero_added,
    one_added,
    stranger_added,
    boundary_moved,
];

fn variables(list: &[u64]) -> u64 {
    list.iter().fold(0, |all, term| all | term)
}

fn sorted(mut list: Vec<u64>) -> Vec<u64> {
    list.sort_unstable();
    list.dedup();
    list
}

/// The number of one of the parts, if there is one.
fn any(random: &mut Random, board: &Board) -> Option<usize> {
    (!board.is_empty()).then(|| random.below(board.len()))
}

/// The numbers of two parts, the lower first.
fn any_two(random: &mut Random, board: &Board) -> Option<(usize, usize)> {
    let one = any(random, board)?;
    let other = random.below(board.len());
    (one != other).then_some((one.min(other), one.max(other)))
}

fn with(random: &mut Random, mut board: Board, list: Vec<u64>) -> Option<Board> {
    board.insert(random.below(board.len() + 1), list);
    Some(board)
}

fn term_lost(random: &mut Random, mut board: Board) -> Option<Board> {
    let which = any(random, &board)?;
    let at = random.below(board[which].len());
    board[which].remove(at);
    Some(board)
}

fn constant_lost_or_added(random: &mut Random, mut board: Board) -> Option<Board> {
    let which = any(random, &board)?;
    match board[which][0] {
        0 => drop(board[which].remove(0)),
        _ => board[which].insert(0, 0),
    }
    Some(board)
}

/// A term over the part's own variables or over any.
fn term_added(random: &mut Random, mut board: Board) -> Option<Board> {
    let which = any(random, &board)?;
    let on = if random.chance(3) { u64::MAX } else { variables(&board[which]) };
    board[which].push(random.word() & on);
    board[which] = sorted(board[which].clone());
    Some(board)
}

fn bit_turned(random: &mut Random, mut board: Board) -> Option<Board> {
    let which = any(random, &board)?;
    let at = random.below(board[which].len());
    board[which][at] ^= 1 << random.below(64);
    board[which] = sorted(board[which].clone());
    Some(board)
}

/// The terms of a part without the variables that they have, with those that they lack.
fn part_mirrored(random: &mut Random, mut board: Board) -> Option<Board> {
    let which = any(random, &board)?;
    let all = variables(&board[which]);
    board[which] = sorted(board[which].iter().map(|term| term ^ all).collect());
    Some(board)
}

/// Two variables have each other's places on the whole board.
fn variables_exchanged(random: &mut Random, board: Board) -> Option<Board> {
    let (x, y) = (random.below(64), random.below(64));
    let differ = |term: u64| term >> x & 1 != term >> y & 1;
    let exchanged = |&term: &u64| if differ(term) { term ^ 1 << x ^ 1 << y } else { term };
    Some(in_order(board.iter().map(|part| sorted(part.iter().map(exchanged).collect())).collect()))
}

/// Two parts, as their product.
fn two_joined(random: &mut Random, mut board: Board) -> Option<Board> {
    let (one, other) = any_two(random, &board)?;
    let removed = board.remove(other);
    board[one] = product(&board[one], &removed);
    Some(board)
}

fn all_joined(_: &mut Random, board: Board) -> Option<Board> {
    Some(vec![board.iter().fold(vec![0], |whole, part| product(&whole, part))])
}

/// A part, as its projections onto some of its variables and onto the others.
fn one_cut(random: &mut Random, mut board: Board) -> Option<Board> {
    let which = any(random, &board)?;
    let part = board.remove(which);
    let all = variables(&part);
    let size = random.between(1, all.count_ones() as usize);
    let some = random.subset(all, size);
    board.extend([some, all & !some].map(|on| sorted(part.iter().map(|term| term & on).collect())));
    Some(in_order(board))
}

fn two_exchanged(random: &mut Random, mut board: Board) -> Option<Board> {
    let (one, other) = any_two(random, &board)?;
    board.swap(one, other);
    Some(board)
}

fn turned_round(_: &mut Random, board: Board) -> Option<Board> {
    Some(board.into_iter().rev().collect())
}

fn one_doubled(random: &mut Random, board: Board) -> Option<Board> {
    let again = board[any(random, &board)?].clone();
    if random.chance(2) {
        return with(random, board, again);
    }
    Some(in_order([board, vec![again]].concat()))
}

fn one_left_out(random: &mut Random, mut board: Board) -> Option<Board> {
    let which = any(random, &board)?;
    board.remove(which);
    Some(board)
}

fn zero_added(random: &mut Random, board: Board) -> Option<Board> {
    with(random, board, vec![])
}

fn one_added(random: &mut Random, board: Board) -> Option<Board> {
    with(random, board, vec![0])
}

/// A part of a variable that no other part has, in its place.
fn stranger_added(random: &mut Random, board: Board) -> Option<Board> {
    let free = !board.iter().fold(0, |all, part| all | variables(part));
    let x = random.subset(free, 1);
    let stranger = if random.chance(2) { vec![0, x] } else { vec![x] };
    (x != 0).then(|| in_order([board, vec![stranger]].concat()))
}

/// The same terms one behind the other, but one part is a term longer and its neighbour a term shorter.
fn boundary_moved(random: &mut Random, mut board: Board) -> Option<Board> {
    let which = any(random, &board)?;
    let next = which + 1;
    if next == board.len() {
        return None;
    }
    if random.chance(2) {
        let term = board[next].remove(0);
        board[which].push(term);
    } else {
        let term = board[which].pop()?;
        board[next].insert(0, term);
    }
    Some(board)
}

#[cfg(test)]
mod tests {
    use super::DAMAGES;
    use crate::random::Random;

    /// None of them is idle: of a board with several parts each makes another, and nearly always one of lists in order.
    #[test]
    fn each_damage_is_one() {
        let board = vec![vec![0, 1], vec![2, 8, 32], vec![4]];
        for (i, damage) in DAMAGES.iter().enumerate() {
            let damaged: Vec<_> = (0..40).filter_map(|seed| damage(&mut Random::new(seed), board.clone())).collect();
            let others = damaged.iter().filter(|other| **other != board).count();
            assert!(others >= 5, "damage {i}: {others} of 40");
            let in_order = |lists: &Vec<Vec<u64>>| lists.iter().all(|list| list.windows(2).all(|two| two[0] < two[1]));
            assert!(damaged.iter().filter(|other| in_order(other)).count() >= 5, "damage {i}");
        }
    }

    /// The list of one has no parts that could be damaged: something is added, or nothing is done.
    #[test]
    fn nothing_can_only_be_added_to() {
        for damage in DAMAGES {
            if let Some(damaged) = damage(&mut Random::new(1), vec![]) {
                assert!(damaged.len() <= 1);
            }
        }
    }
}
