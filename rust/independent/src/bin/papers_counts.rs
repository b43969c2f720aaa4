//! Makes what the program papers_check must print, all of it, by brute force: parts by the definition of RULES 2, trying all
//! sets of variables, the smallest first; the papers' rule with its four lists and both products multiplied out; the
//! refusals of RULES 8.3.
//!
//!     papers_counts | cmp - crates/papers_check/stdout

const NUMBERS: u64 = 88172645463325252;

fn variables(list: &[u64]) -> Vec<u64> {
    (0..64).filter(|i| list.iter().any(|t| t >> i & 1 == 1)).collect()
}

/// What the terms have within the set, ascending and without repetition.
fn projection(list: &[u64], onto: u64) -> Vec<u64> {
    let mut kept: Vec<u64> = list.iter().map(|t| t & onto).collect();
    kept.sort_unstable();
    kept.dedup();
    kept
}

fn product(one: &[u64], other: &[u64]) -> Vec<u64> {
    let mut unions: Vec<u64> = one.iter().flat_map(|s| other.iter().map(move |t| s | t)).collect();
    unions.sort_unstable();
    unions
}

/// Whether the list is the product of its projections onto the set and onto the other variables.
fn splits_along(list: &[u64], set: u64) -> bool {
    let (on, off) = (projection(list, set), projection(list, !set));
    on.len() * off.len() == list.len() && product(&on, &off) == list
}

/// A set along which the list splits: these variables and so many of the others.
fn with_more(list: &[u64], set: u64, others: &[u64], how_many: usize) -> Option<u64> {
    if how_many == 0 {
        return splits_along(list, set).then_some(set);
    }
    (0..others.len()).find_map(|i| with_more(list, set | 1 << others[i], &others[i + 1..], how_many - 1))
}

/// The sets of variables of the parts.
fn part_sets(list: &[u64]) -> Vec<u64> {
    let Some((&lowest, others)) = variables(list).split_first().map(|(x, rest)| (x, rest.to_vec())) else {
        return Vec::new();
    };
    let set = (0..=others.len()).find_map(|n| with_more(list, 1 << lowest, &others, n)).expect("all of them will do");
    let mut sets = vec![set];
    sets.extend(part_sets(&projection(list, !set)));
    sets
}

/// The terms that x divides, divided by x.
fn derivative(list: &[u64], x: u64) -> Vec<u64> {
    list.iter().filter(|&t| t >> x & 1 == 1).map(|t| t - (1 << x)).collect()
}

/// The four lists A, B, C, D of RULES 8.1 for x and y.
fn four_lists(list: &[u64], x: u64, y: u64) -> [Vec<u64>; 4] {
    let a = derivative(list, x);
    let b: Vec<u64> = list.iter().copied().filter(|t| t >> x & 1 == 0).collect();
    let (c, d) = (derivative(&a, y), derivative(&b, y));
    [a, b, c, d]
}

/// What the rule says: one part holds x and y exactly if AD is not BC.
fn together_by_the_rule(list: &[u64], x: u64, y: u64) -> bool {
    let [a, b, c, d] = four_lists(list, x, y);
    independent::same_products(&a, &d, &b, &c).count == 0
}

#[derive(Default)]
struct Tally {
    pairs: u64,
    one: u64,
    differ: u64,
}

impl Tally {
    /// Every two different variables, in either order.
    fn add(&mut self, list: &[u64]) {
        let sets = part_sets(list);
        for &x in &variables(list) {
            for &y in variables(list).iter().filter(|&&y| y != x) {
                let one = sets.iter().any(|set| set >> x & set >> y & 1 == 1);
                self.pairs += 1;
                self.one += one as u64;
                self.differ += (one != together_by_the_rule(list, x, y)) as u64;
            }
        }
    }

    fn print(&self, what: &str) {
        println!("{what}, pairs {}, in one part {}, differ {}", self.pairs, self.one, self.differ);
    }
}

fn compare(list: &[u64]) {
    let mut tally = Tally::default();
    tally.add(list);
    tally.print(&format!("terms {}", list.len()));
}

/// The lists of RULES 7.1 that have variables, and more with factors x and x + 1.
fn small() {
    let lists: [&[u64]; 12] = [
        &[1],
        &[0, 1],
        &[3],
        &[0, 3],
        &[0, 1, 2],
        &[1, 2, 5, 6],
        &[6, 7, 12, 13],
        &[4, 7, 12, 15, 16, 19],
        &[1, 3],
        &[0, 1, 2, 3],
        &[0, 3, 5, 6],
        &[u64::MAX],
    ];
    lists.iter().for_each(|list| compare(list));
}

/// All terms in ten variables, all but the last, and the product of ten sums of two variables.
fn large() {
    let all: Vec<u64> = (0..1024).collect();
    compare(&all);
    compare(&all[..1023]);
    compare(&(0..10).fold(vec![0], |whole, i| product(&whole, &[1 << (2 * i), 2 << (2 * i)])));
}

/// The row of numbers from which the random lists are made.
fn next(seed: u64) -> u64 {
    let a = seed ^ seed << 13;
    let b = a ^ a >> 7;
    b ^ b << 17
}

/// So many terms with steps of 1 to mask + 1, moved up by some bits.
fn scattered(terms: usize, seed: u64, mask: u64, shift: u32) -> Vec<u64> {
    let (mut list, mut last, mut now) = (Vec::new(), 0, seed);
    for _ in 0..terms {
        now = next(now);
        last += now & mask;
        list.push(last << shift);
        last += 1;
    }
    list
}

fn random(lists: usize) {
    let mut tally = Tally::default();
    let mut seed = NUMBERS;
    for _ in 0..lists {
        seed = next(seed);
        tally.add(&scattered(6, seed, 15, 0));
        tally.add(&scattered(12, seed, 3, 0));
        tally.add(&product(&scattered(3, seed, 3, 0), &scattered(4, next(next(seed)), 7, 5)));
    }
    tally.print(&format!("random, {lists} of each kind"));
}

/// A question with a room of six words, each 9: code, operand, place, count, and the room after it.
fn ask(list: &[u64], x: u64, y: u64) {
    let mut room = [9; 6];
    let occurs = |v: u64| variables(list).contains(&v);
    let unordered = (1..list.len()).find(|&i| list[i] <= list[i - 1]);
    let numbers = if list.len() > 1024 {
        [2, 1, 0, 0]
    } else if let Some(place) = unordered {
        [3, 1, place, 0]
    } else if !occurs(x) || !occurs(y) {
        [11, 1, 0, 0]
    } else if x == y {
        [4, 0, 0, 0]
    } else if room.len() < 2 * list.len() {
        [6, 1, 0, 0]
    } else {
        let laid = four_lists(list, x, y).concat();
        room[..laid.len()].copy_from_slice(&laid);
        [0, 0, 0, together_by_the_rule(list, x, y) as usize]
    };
    let [code, operand, place, count] = numbers;
    let words: String = room.iter().map(|word| format!(" {word}")).collect();
    println!("code {code} operand {operand} place {place} count {count} |{words}");
}

/// What is refused, and some questions that are not.
fn endings() {
    let many: Vec<u64> = (0..1025).collect();
    let questions: [(&[u64], u64, u64); 11] = [
        (&many, 0, 1),
        (&[2, 1], 0, 64),
        (&[1, 2], 2, 2),
        (&[1, 2], 0, 64),
        (&[], 0, 1),
        (&[1, 2, 4, 8], 1, 1),
        (&[1, 2, 4, 8], 0, 1),
        (&[1, 2], 0, 1),
        (&[1, 2, 3], 1, 0),
        (&[0, 1, 3], 0, 1),
        (&[2, 3], 0, 1),
    ];
    questions.iter().for_each(|&(list, x, y)| ask(list, x, y));
}

fn main() {
    small();
    large();
    random(300);
    endings();
}
