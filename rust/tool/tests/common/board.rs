//! Boards made from a seed: right ones, whose parts are known because they were chosen, and the ways to damage them.
use super::poly::{inputs, numbers, parts, poly, product, text, times, Poly};

/// Numbers from a seed (SplitMix64).
pub struct Random(u64);

impl Random {
    pub fn new(seed: u64) -> Random {
        Random(seed)
    }

    pub fn word(&mut self) -> u64 {
        self.0 = self.0.wrapping_add(0x9e37_79b9_7f4a_7c15);
        let mut z = self.0;
        z = (z ^ z >> 30).wrapping_mul(0xbf58_476d_1ce4_e5b9);
        z = (z ^ z >> 27).wrapping_mul(0x94d0_49bb_1331_11eb);
        z ^ z >> 31
    }

    /// Below the bound, which is not 0.
    pub fn below(&mut self, bound: usize) -> usize {
        usize::try_from(self.word() % bound as u64).expect("below a usize")
    }

    pub fn chance(&mut self, one_in: usize) -> bool {
        self.below(one_in) == 0
    }

    /// One of them.
    pub fn one<T: Clone>(&mut self, of: &[T]) -> T {
        of[self.below(of.len())].clone()
    }

    pub fn shuffled<T>(&mut self, mut all: Vec<T>) -> Vec<T> {
        for i in (1..all.len()).rev() {
            all.swap(i, self.below(i + 1));
        }
        all
    }
}

/// An equation over some of these inputs that cannot be split, for one of these reasons.
/// - It has one input, and there is nothing to split it along.
/// - It is a sum of single inputs, with or without the constant: of degree 1, and a product of two that share no input and
///   are not constant is of degree 2 at least.
/// - It has a prime number of terms, and no input is in all of them: the lengths of its parts multiply to that prime
///   (RULES 2.6), so but for one they have a single term, and a part of a single term is an input that all terms hold. 1 and
///   a product of inputs is the smallest of these.
pub fn irreducible(random: &mut Random, over: &[u32]) -> Poly {
    let single: Vec<u64> = over.iter().map(|i| 1 << i).collect();
    let one = random.below(2);
    match (over.len(), random.below(3)) {
        (1, _) | (_, 0) => single.into_iter().chain([0].into_iter().take(one)).collect(),
        (_, 1) => poly(&[0, single.iter().sum()]),
        _ => prime(random, single.iter().sum()),
    }
}

fn prime(random: &mut Random, over: u64) -> Poly {
    let many = random.one(&[2, 3, 5, 7]).min(if over.count_ones() == 2 { 3 } else { 7 });
    loop {
        let mut equation = Poly::new();
        while equation.len() < many {
            equation.insert(random.word() & over);
        }
        if equation.iter().fold(over, |common, term| common & term) == 0 {
            return equation;
        }
    }
}

/// The lowest input, which says where a part stands.
pub fn lowest(part: &Poly) -> u32 {
    inputs(part).trailing_zeros()
}

/// The right parts of an approved equation, in order.
pub struct Board {
    pub parts: Vec<Poly>,
    pub approved: Poly,
}

impl Board {
    /// Of parts that are known to share no input and not to be splittable.
    pub fn of(mut parts: Vec<Poly>) -> Board {
        parts.sort_by_key(lowest);
        let approved = product(&parts);
        assert!(approved.len() <= 1024, "more terms than an equation may have");
        Board { parts, approved }
    }

    /// One to seven parts over up to 28 inputs, whose equation has a text.
    pub fn new(random: &mut Random) -> Board {
        loop {
            let mut free = random.shuffled((0..64).collect::<Vec<u32>>());
            let (mut parts, mut terms): (Vec<Poly>, usize) = (Vec::new(), 1);
            for _ in 0..=random.below(7) {
                let over = free.split_off(free.len() - 1 - random.below(4));
                let part = irreducible(random, &over);
                if terms * part.len() <= 1024 {
                    terms *= part.len();
                    parts.push(part);
                }
            }
            let board = Board::of(parts);
            if text(&board.approved).len() < 60_000 {
                return board;
            }
        }
    }

    /// What is loaded where nothing is wrong.
    pub fn given(&self) -> Vec<Given> {
        self.parts.iter().cloned().map(Given::whole).collect()
    }
}

/// A part as it is loaded, and what it can be split into: of a constant nothing, of one that cannot be split itself alone.
#[derive(Clone)]
pub struct Given {
    pub terms: Poly,
    pub into: Vec<Poly>,
    pub damaged: bool,
}

impl Given {
    /// One that is known not to be splittable.
    pub fn whole(terms: Poly) -> Given {
        Given { into: vec![terms.clone()], terms, damaged: false }
    }

    /// One of which no more is known than its terms.
    pub fn damaged(terms: Poly) -> Given {
        let into = if terms.is_empty() { Vec::new() } else { parts(&terms) };
        Given { terms, into, damaged: true }
    }

    /// The product of two that are known not to be splittable.
    fn joined(a: &Given, b: &Given) -> Given {
        let mut into = vec![a.terms.clone(), b.terms.clone()];
        into.sort_by_key(lowest);
        Given { terms: times(&a.terms, &b.terms), into, damaged: true }
    }
}

/// The ways in which a right board is damaged.
#[derive(Clone, Copy, Debug, PartialEq)]
pub enum Damage {
    DropConstant,
    DropTerm,
    AddTerm,
    Join,
    LeaveOut,
    ConstantOne,
    ConstantZero,
    Rename,
    Exchange,
}

/// All of them.
pub const DAMAGES: [Damage; 9] = [
    Damage::DropConstant,
    Damage::DropTerm,
    Damage::AddTerm,
    Damage::Join,
    Damage::LeaveOut,
    Damage::ConstantOne,
    Damage::ConstantZero,
    Damage::Rename,
    Damage::Exchange,
];

/// Does the damage to parts that are not damaged yet, or gives none where there is no part to do it to.
pub fn damage(random: &mut Random, how: Damage, board: &Board, given: &mut Vec<Given>) -> Option<()> {
    let sound: Vec<usize> = (0..given.len()).filter(|&k| !given[k].damaged).collect();
    match how {
        Damage::DropConstant => {
            let with: Vec<usize> = sound.into_iter().filter(|&k| given[k].terms.contains(&0)).collect();
            let k = random.some(&with)?;
            given[k] = Given::damaged(given[k].terms.iter().copied().filter(|&term| term != 0).collect());
        }
        Damage::DropTerm => {
            let k = random.some(&sound)?;
            let terms: Vec<u64> = given[k].terms.iter().copied().filter(|&term| term != 0).collect();
            let dropped = random.one(&terms);
            given[k] = Given::damaged(given[k].terms.iter().copied().filter(|&term| term != dropped).collect());
        }
        Damage::AddTerm => {
            let k = random.some(&sound)?;
            let mut terms = given[k].terms.clone();
            let added = new_term(random, &terms, board, given);
            terms.insert(added);
            given[k] = Given::damaged(terms);
        }
        Damage::Join => {
            let (j, k) = random.two(&sound)?;
            let second = given.remove(k);
            given[j] = Given::joined(&given[j], &second);
        }
        Damage::LeaveOut => {
            let k = random.some(&sound)?;
            given.remove(k);
        }
        Damage::ConstantOne => given.insert(random.below(given.len() + 1), Given::damaged(poly(&[0]))),
        Damage::ConstantZero => given.insert(random.below(given.len() + 1), Given::damaged(Poly::new())),
        Damage::Rename => rename(random, &sound, given)?,
        Damage::Exchange => {
            let (j, k) = random.two(&sound)?;
            given.swap(j, k);
        }
    }
    Some(())
}

impl Random {
    fn some(&mut self, of: &[usize]) -> Option<usize> {
        (!of.is_empty()).then(|| self.one(of))
    }

    /// Two of them, the first standing before the second.
    fn two(&mut self, of: &[usize]) -> Option<(usize, usize)> {
        let k = 1 + self.below(of.len().checked_sub(1).filter(|&pairs| pairs > 0)?);
        Some((of[self.below(k)], of[k]))
    }
}

/// A term that is not there: the constant, one over the part's own inputs, or one with an input that is nowhere yet.
fn new_term(random: &mut Random, terms: &Poly, board: &Board, given: &[Given]) -> u64 {
    let own = inputs(terms);
    let inside = [0, random.word() & own, random.word() & own];
    if let Some(term) = random.shuffled(inside.to_vec()).into_iter().find(|term| !terms.contains(term)) {
        return term;
    }
    let used = given.iter().fold(inputs(&board.approved), |used, part| used | inputs(&part.terms));
    1 << random.one(&numbers(!used)) | random.word() & own
}

/// Gives an input of one part the number of an input of another. Under another number it is the same equation, so it still
/// cannot be split.
fn rename(random: &mut Random, sound: &[usize], given: &mut [Given]) -> Option<()> {
    let (j, k) = random.two(sound)?;
    let (own, other) = (inputs(&given[k].terms), inputs(&given[j].terms) & !inputs(&given[k].terms));
    let from = random.one(&numbers(own));
    let to = random.some(&numbers(other).iter().map(|&i| i as usize).collect::<Vec<_>>())?;
    let renamed = |&term: &u64| if term >> from & 1 == 1 { term & !(1 << from) | 1 << to } else { term };
    given[k] = Given { damaged: true, ..Given::whole(given[k].terms.iter().map(renamed).collect()) };
    given[j].damaged = true;
    Some(())
}
