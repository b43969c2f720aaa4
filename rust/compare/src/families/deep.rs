//! Inputs on which the calls go deep, for the measurement of the stack: fixed ones, and any number made of factors.
use super::{audit_room, block_of, deploy_room, full_text, joined, product, text_bytes, text_of};
use crate::call::{Call, Request};
use crate::random::Random;

/// An input and what it is.
#[derive(Clone)]
pub struct Deep {
    pub name: String,
    pub request: Request,
}

const EVEN: u64 = 0x5555_5555_5555_5555;

fn request(call: Call, lists: &[&[u64]]) -> Request {
    match (call, lists) {
        (Call::Split, [f]) => Request::split(f, vec![7; f.len() + 64], vec![7; 64], vec![7; 4 * f.len()]),
        (Call::Multiply, [a, b]) => Request::multiply(a, b, vec![7; a.len() * b.len()]),
        (Call::SameProducts, [a, d, b, c]) => Request::same_products([a, d, b, c]),
        (Call::Read, [f]) => Request::read(&block_of(f), vec![7; f.len()]),
        (Call::Write, [f]) => Request::write(f, vec![7; super::block_bytes(f)]),
        (Call::ReadText, [f]) => Request::read_text(&text_of(f), vec![7; f.len()]),
        (Call::WriteText, [f]) => Request::write_text(f, vec![7; text_bytes(f)]),
        (Call::Audit, [f, given @ ..]) => {
            let lengths: Vec<u64> = given.iter().map(|list| list.len() as u64).collect();
            Request::audit(f, &given.concat(), &lengths, audit_room(f.len()).map(|words| vec![7; words]))
        }
        (Call::Deploy, boards) => {
            let boards: Vec<Vec<u64>> = boards.iter().map(|board| board.to_vec()).collect();
            let (words, lengths) = joined(&boards);
            Request::deploy(&words, &lengths, deploy_room(&boards).map(|words| vec![7; words]))
        }
        _ => panic!("lists that {} does not take", call.name()),
    }
}

/// The bits of the number, lowest first, on the variables.
fn spread(number: u64, on: u64) -> u64 {
    let mut left = on;
    (0..on.count_ones()).fold(0, |term, i| {
        let variable = left & left.wrapping_neg();
        left ^= variable;
        if number >> i & 1 == 1 {
            term | variable
        } else {
            term
        }
    })
}

fn sorted(mut list: Vec<u64>) -> Vec<u64> {
    list.sort_unstable();
    list.dedup();
    list
}

fn single(vars: u64) -> Vec<u64> {
    (0..64).map(|i| 1 << i).filter(|v| vars & v != 0).collect()
}

/// The sum of the variables.
fn sum(vars: u64, terms: usize) -> Vec<u64> {
    single(vars).into_iter().take(terms).collect()
}

/// 1 and the sum.
fn one_and_sum(vars: u64, terms: usize) -> Vec<u64> {
    [0].into_iter().chain(single(vars)).take(terms).collect()
}

/// 1, x0, x0 x1, x0 x1 x2, ..
fn chain(vars: u64, terms: usize) -> Vec<u64> {
    let mut all = 0;
    let longer = single(vars).into_iter().map(|v| {
        all |= v;
        all
    });
    [0].into_iter().chain(longer).take(terms).collect()
}

/// So many sets of the variables, counted up.
fn interval(vars: u64, terms: usize) -> Vec<u64> {
    let most = 1 << vars.count_ones().min(10);
    (0..terms.min(most) as u64).map(|i| spread(i, vars)).collect()
}

fn mirrored(list: &[u64], vars: u64) -> Vec<u64> {
    sorted(list.iter().map(|t| t ^ vars).collect())
}

/// The four lists PQ, RS, PR, QS.
fn crossed(p: &[u64], q: &[u64], r: &[u64], s: &[u64]) -> [Vec<u64>; 4] {
    [product(p, q), product(r, s), product(p, r), product(q, s)]
}

/// The inputs that are known to go deep.
pub fn fixed(call: Call, random: &mut Random) -> Vec<Deep> {
    match call {
        Call::Multiply => fixed_multiply(random),
        Call::Split => fixed_split(random).into_iter().map(|(name, f)| named(call, &name, &[&f])).collect(),
        Call::Audit => fixed_audit(random),
        Call::Deploy => fixed_deploy(random),
        Call::SameProducts => fixed_same_products(random),
        Call::Read | Call::Write => fixed_block(call, random),
        Call::ReadText | Call::WriteText => fixed_text(call, random),
    }
}

fn named(call: Call, name: &str, lists: &[&[u64]]) -> Deep {
    Deep { name: name.to_string(), request: request(call, lists) }
}

fn fixed_multiply(random: &mut Random) -> Vec<Deep> {
    let mut found = Vec::new();
    let mut both = |name: &str, a: &[u64], b: &[u64]| {
        found.push(named(Call::Multiply, name, &[a, b]));
        found.push(named(Call::Multiply, &format!("{name}, the other way round"), &[b, a]));
    };
    let twos: Vec<u64> = (0..512).map(|i| 2 * i).collect();
    both("{0, 2, .., 1022} x {0, 1}", &twos, &[0, 1]);
    both("{0, 2, .., 1022} x {0, 2 to the 40}", &twos, &[0, 1 << 40]);
    both("{0, .., 1023} x {2 to the 40}", &(0..1024).collect::<Vec<u64>>(), &[1 << 40]);
    both("cubes of even and of odd variables", &interval(EVEN, 32), &interval(!EVEN, 32));
    both("mirrored cubes of even and of odd variables", &mirrored(&interval(EVEN, 32), EVEN), &interval(!EVEN, 32));
    both("sums of even and of odd variables", &sum(EVEN, 32), &one_and_sum(!EVEN, 32));
    both("chains of even and of odd variables", &chain(EVEN, 32), &chain(!EVEN, 32));
    both("mirrored chains", &mirrored(&chain(EVEN, 32), EVEN), &mirrored(&chain(!EVEN, 32), !EVEN));
    for _ in 0..20 {
        let on = random.subset(u64::MAX, 32);
        both("32 x 32 random, even and odd variables", &random.exact_list(EVEN, 32), &random.exact_list(!EVEN, 32));
        both("32 x 32 random, any variables", &random.exact_list(on, 32), &random.exact_list(!on, 32));
    }
    found
}

fn fixed_split(random: &mut Random) -> Vec<(String, Vec<u64>)> {
    let mut found = Vec::new();
    let mut list = |name: &str, f: &[u64]| {
        found.push((name.to_string(), f.to_vec()));
        for at in [0, f.len() / 2, f.len() - 1] {
            let mut less = f.to_vec();
            less.remove(at);
            if !less.is_empty() {
                found.push((format!("{name}, without term {at}"), less));
            }
        }
    };
    let stairs = product(&sum(EVEN, 32), &one_and_sum(!EVEN, 32));
    list("staircase", &stairs);
    list("staircase mirrored", &mirrored(&stairs, u64::MAX));
    list("two chains", &product(&chain(EVEN, 32), &chain(!EVEN, 32)));
    list("{0, .., 1023}", &(0..1024).collect::<Vec<u64>>());
    list("cubes of even and of odd variables", &product(&interval(EVEN, 32), &interval(!EVEN, 32)));
    list("a cube on every sixth variable", &interval(0x1041_0410_4104_1041, 1024));
    list("1 + the sum of 64 variables", &one_and_sum(u64::MAX, 65));
    list("64 constant variables", &[u64::MAX]);
    list("54 constant variables and a cube", &product(&[u64::MAX << 10], &(0..1024).collect::<Vec<u64>>()));
    list(
        "10 constant variables times sums",
        &product(&[0x3ff], &product(&sum(EVEN & !0x3ff, 32), &one_and_sum(!EVEN & !0x3ff, 28))),
    );
    list("ten (x + y)", &(0..10).fold(vec![0], |f, i| product(&f, &[1 << (2 * i), 2 << (2 * i)])));
    for _ in 0..10 {
        let on = random.subset(u64::MAX, 32);
        list("32 x 32 random, any variables", &product(&random.exact_list(on, 32), &random.exact_list(!on, 32)));
        list("random", &random.exact_list(u64::MAX, 1024));
    }
    found
}

/// What split goes deep on, with the whole of it as the one given part; and as many given parts as there can be, right ones and
/// the longest.
fn fixed_audit(random: &mut Random) -> Vec<Deep> {
    let cube: Vec<u64> = (0..1024).collect();
    let singles: Vec<Vec<u64>> = (0..64).map(|i| vec![1 << i]).collect();
    let edges: Vec<Vec<u64>> = (0..10).map(|i| vec![0, 1 << i]).chain(singles[10..].to_vec()).collect();
    let constants = product(&[u64::MAX << 10], &cube);
    let mut found: Vec<Deep> =
        fixed_split(random).into_iter().map(|(name, f)| named(Call::Audit, &name, &[&f, &f])).collect();
    let mut board = |name: &str, f: &[u64], given: &[Vec<u64>]| {
        let lists: Vec<&[u64]> = [f].into_iter().chain(given.iter().map(|list| &list[..])).collect();
        found.push(named(Call::Audit, name, &lists));
    };
    board("64 constant variables, as 64 parts", &[u64::MAX], &singles);
    board("54 constant variables and a cube, as 64 parts", &constants, &edges);
    board("{0, .., 1023}, held against 64 times itself", &cube, &vec![cube.clone(); 64]);
    board("1, held against nothing", &[0], &[]);
    found
}

/// What split goes deep on as the one board, and as the last behind others; as many boards as there can be, of many terms and of
/// many parts.
fn fixed_deploy(random: &mut Random) -> Vec<Deep> {
    let cube: Vec<u64> = (0..1024).collect();
    let constants = product(&[u64::MAX << 10], &cube);
    let mut found = Vec::new();
    for (name, f) in fixed_split(random) {
        found.push(named(Call::Deploy, &name, &[&f]));
        found.push(named(Call::Deploy, &format!("{name}, behind two others"), &[&[u64::MAX], &[0], &f]));
    }
    let mut boards = |name: &str, lists: &[&[u64]]| found.push(named(Call::Deploy, name, lists));
    boards("64 times {0, .., 1023}", &[&cube[..]; 64]);
    boards("64 times 54 constant variables and a cube", &[&constants[..]; 64]);
    boards("64 times 64 constant variables", &[&[u64::MAX][..]; 64]);
    boards("64 times one", &[&[0][..]; 64]);
    boards("no boards", &[]);
    let staircase = product(&sum(EVEN, 32), &one_and_sum(!EVEN, 32));
    boards("63 times one and a staircase", &[vec![&[0][..]; 63], vec![&staircase]].concat());
    found
}

fn fixed_same_products(random: &mut Random) -> Vec<Deep> {
    let mut found = Vec::new();
    let mut four = |name: &str, [a, d, b, c]: &[Vec<u64>; 4]| {
        for (turn, lists) in [[a, d, b, c], [d, a, c, b], [b, c, a, d], [a, d, c, b]].iter().enumerate() {
            found.push(named(Call::SameProducts, &format!("{name}, turn {turn}"), &lists.map(|l| &l[..])));
        }
    };
    let stairs = product(&sum(EVEN, 32), &one_and_sum(!EVEN, 32));
    for (name, list) in [("staircases", stairs.clone()), ("staircases mirrored", mirrored(&stairs, u64::MAX))] {
        let mut less = list.clone();
        less.remove(500);
        four(name, &[(); 4].map(|()| list.clone()));
        four(&format!("{name}, one term less"), &[list.clone(), list.clone(), list.clone(), less.clone()]);
        four(&format!("{name}, one term less on both sides"), &[list.clone(), less.clone(), less, list]);
    }
    let dense = |vars: u64| interval(vars, 32);
    four("PQ RS = PR QS, dense", &crossed(&dense(EVEN), &dense(!EVEN), &dense(!EVEN), &mirrored(&dense(EVEN), EVEN)));
    let (p, q, r, s) = (sum(EVEN, 32), one_and_sum(!EVEN, 32), chain(!EVEN, 32), chain(EVEN, 32));
    four("PQ RS = PR QS, sums and chains", &crossed(&p, &q, &r, &s));
    four("PQ RS = PR QS, chains and sums", &crossed(&s, &r, &q, &p));
    four("PQ RS = PR QS, sums", &crossed(&p, &q, &sum(!EVEN, 32), &one_and_sum(EVEN, 32)));
    for _ in 0..5 {
        let on = random.subset(u64::MAX, 32);
        let [p, s] = [(); 2].map(|()| random.exact_list(on, 32));
        let [q, r] = [(); 2].map(|()| random.exact_list(!on, 32));
        four("PQ RS = PR QS, random", &crossed(&p, &q, &r, &s));
        four("four random lists", &[(); 4].map(|()| random.exact_list(u64::MAX, 1024)));
    }
    found
}

fn fixed_block(call: Call, random: &mut Random) -> Vec<Deep> {
    let mut largest = random.exact_list(u64::MAX >> 1, 1024);
    largest[1023] = u64::MAX;
    let cube: Vec<u64> = (0..1024).collect();
    let odd: Vec<u64> = (1..64).map(|n| u64::MAX >> n).rev().collect();
    let lists = [
        ("the largest block", &largest[..]),
        ("{0, .., 1023}", &cube),
        ("a chain", &odd),
        ("one", &[0]),
        ("zero", &[]),
    ];
    lists.iter().map(|(name, list)| named(call, name, &[list])).collect()
}

fn fixed_text(call: Call, random: &mut Random) -> Vec<Deep> {
    let cube: Vec<u64> = (0..1024).collect();
    let high: Vec<u64> = cube.iter().map(|t| t << 54).collect();
    let lists: [(&str, Vec<u64>); 7] = [
        ("a text of 65,536 bytes", full_text()),
        ("{0, .., 1023}", cube.clone()),
        ("{0, .., 1023} on the highest variables", high),
        ("266 terms of all variables but a few", (0..266).map(|t| u64::MAX - 266 + t).collect()),
        ("1 + the sum of 64 variables", one_and_sum(u64::MAX, 65)),
        ("one", vec![0]),
        ("zero", vec![]),
    ];
    let mut found: Vec<Deep> = lists.iter().map(|(name, list)| named(call, name, &[list])).collect();
    if call == Call::ReadText {
        for (name, list) in lists {
            let falling: Vec<u64> = list.iter().rev().copied().collect();
            found.push(named(call, &format!("{name}, falling"), &[&falling]));
            found.push(named(call, &format!("{name}, in any order"), &[&random.shuffled(list)]));
        }
        found.push(named(call, "1,024 times the same", &[&[7; 1024]]));
        found.push(named(call, "{0, .., 511} twice", &[&[&cube[..512], &cube[..512]].concat()]));
    }
    found
}

/// The terms of the list, from the first on, whose text is not too long.
fn fitting(list: &[u64]) -> &[u64] {
    let most = (0..=list.len()).rev().find(|&t| text_bytes(&list[..t]) <= 65536);
    &list[..most.unwrap_or(0)]
}

/// An input is made of so many numbers, so that a climb can change one of them.
pub const GENES: usize = 6;
pub type Genes = [u64; GENES];

/// A list over some of the variables, with at most so many terms, of a kind that the gene chooses.
fn factor(gene: u64, vars: u64, most: usize) -> Vec<u64> {
    let random = &mut Random::new(gene);
    let size = random.between(1, vars.count_ones().max(1) as usize);
    let on = if random.chance(2) { vars } else { random.subset(vars, size) };
    let terms = if random.chance(2) { most } else { random.between(1, most) };
    let list = match random.below(8) {
        0 => sum(on, terms),
        1 => one_and_sum(on, terms),
        2 => chain(on, terms),
        3 | 4 => interval(on, terms),
        5 if terms > 3 && on.count_ones() > 1 => {
            let some = random.subset(on, on.count_ones() as usize / 2);
            let first = factor(random.word(), some, terms / 2);
            product(&first, &factor(random.word(), on & !some, terms / first.len()))
        }
        6 => code(random, on, terms),
        _ => {
            let weight = random.between(0, 4) as i32 - 2;
            random.list(on, terms, weight)
        }
    };
    let list = if list.is_empty() { vec![on] } else { list };
    if random.chance(4) {
        mirrored(&list, on)
    } else {
        list
    }
}

/// Every exclusive or of some terms.
fn code(random: &mut Random, vars: u64, terms: usize) -> Vec<u64> {
    let mut list = vec![random.word() & vars];
    while 2 * list.len() <= terms {
        let next = random.word() & vars;
        list.extend(list.clone().iter().map(|t| t ^ next));
    }
    sorted(list)
}

/// The input that these numbers make.
pub fn structured(call: Call, genes: &Genes) -> Deep {
    let [layout, p, q, r, s, change] = *genes;
    let random = &mut Random::new(layout);
    let some = [EVEN, u64::MAX >> 32, random.subset(u64::MAX, 32), 1, 0x3ff, EVEN >> 44][random.below(6)];
    let (long, short) = [(32, 32), (512, 2), (2, 512), (16, 64), (100, 10), (1, 1024)][random.below(6)];
    let (p, s) = (factor(p, some, long), factor(s, some, long));
    let (q, r) = (factor(q, !some, short), factor(r, !some, short));
    let random = &mut Random::new(change);
    let mut lists = match call {
        Call::Multiply => vec![p, q],
        Call::SameProducts => crossed(&p, &q, &r, &s).to_vec(),
        Call::Audit | Call::Deploy => vec![product(&p, &q), p, q],
        _ => vec![product(&p, &q)],
    };
    // multiply's lists must keep their variables apart
    if call != Call::Multiply && random.chance(3) {
        for _ in 0..random.between(1, 3) {
            let which = random.below(lists.len());
            let list = &mut lists[which];
            let at = random.below(list.len());
            list[at] ^= 1 << random.below(64);
            list.sort_unstable();
            list.dedup();
        }
    }
    if call == Call::ReadText {
        lists = lists.into_iter().map(|list| random.shuffled(list)).collect();
    }
    let is_text = matches!(call, Call::ReadText | Call::WriteText);
    let lists: Vec<&[u64]> = lists.iter().map(|l| if is_text { fitting(l) } else { &l[..] }).collect();
    Deep { name: format!("the structured input {genes:x?}"), request: request(call, &lists) }
}
