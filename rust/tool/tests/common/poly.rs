//! Equations as sets of terms, by the definitions of RULES 1, 2, 4 and 12 and nothing cleverer. Bit i of a term is the
//! input xi. Nothing here asks the tool or the library.
use super::board::Random;
use std::collections::BTreeSet;

/// A sum of different terms.
pub type Poly = BTreeSet<u64>;

/// The sum of these terms.
pub fn poly(terms: &[u64]) -> Poly {
    terms.iter().copied().collect()
}

/// The inputs that occur, as a set.
pub fn inputs(equation: &Poly) -> u64 {
    equation.iter().fold(0, |all, term| all | term)
}

/// The numbers of the inputs in a set, ascending.
pub fn numbers(set: u64) -> Vec<u32> {
    (0..64).filter(|i| set >> i & 1 == 1).collect()
}

/// The product of two that share no input: all unions (RULES 2.1).
pub fn times(a: &Poly, b: &Poly) -> Poly {
    assert_eq!(inputs(a) & inputs(b), 0, "these share an input");
    a.iter().flat_map(|s| b.iter().map(move |t| s | t)).collect()
}

/// The product of all; of none it is the constant 1.
pub fn product<'a>(parts: impl IntoIterator<Item = &'a Poly>) -> Poly {
    parts.into_iter().fold(poly(&[0]), |all, part| times(&all, part))
}

/// A term as it is typed, its inputs ascending: `x0*x2`, or `1`.
pub fn term_text(term: u64) -> String {
    let inputs: Vec<String> = numbers(term).iter().map(|i| format!("x{i}")).collect();
    if inputs.is_empty() {
        "1".into()
    } else {
        inputs.join("*")
    }
}

/// The one text that is printed, without its line feed (RULES 12.4).
pub fn text(equation: &Poly) -> String {
    let terms: Vec<String> = equation.iter().map(|&term| term_text(term)).collect();
    if terms.is_empty() {
        "0".into()
    } else {
        terms.join("+")
    }
}

/// One of the texts that a designer might type, with its line feed: terms, and inputs in them, in any order. Where there
/// is room some term stands there twice more, which changes nothing (RULES 12.3).
pub fn typed(random: &mut Random, equation: &Poly) -> String {
    let mut terms: Vec<u64> = equation.iter().copied().collect();
    if terms.is_empty() {
        return "0\n".into();
    }
    if terms.len() < 1000 && random.chance(3) {
        let again = random.word() & inputs(equation);
        terms.extend([again, again]);
    }
    let shown = |random: &mut Random, term: u64| match term {
        0 => "1".to_string(),
        _ => random.shuffled(numbers(term)).iter().map(|i| format!("x{i}")).collect::<Vec<_>>().join("*"),
    };
    let shuffled = random.shuffled(terms);
    shuffled.into_iter().map(|term| shown(random, term)).collect::<Vec<_>>().join("+") + "\n"
}

/// The block, field by field (RULES 4.1).
pub fn block(equation: &Poly) -> Vec<u8> {
    let n = 64 - inputs(equation).leading_zeros();
    let mut bits = Vec::new();
    let mut field = |value: u64, width: u32| bits.extend((0..width).rev().map(|i| value >> i & 1 == 1));
    field(1, 4);
    field(n.into(), 7);
    field(equation.len() as u64, 13);
    for &term in equation {
        field(term, n);
    }
    let byte = |bits: &[bool]| (0..8).fold(0, |byte, i| byte << 1 | u8::from(bits.get(i) == Some(&true)));
    bits.chunks(8).map(byte).collect()
}

/// What every term has of these inputs; of equal ones, one (RULES 2.2).
fn onto(equation: &Poly, set: u64) -> Poly {
    equation.iter().map(|term| term & set).collect()
}

/// The parts, by the definition and by trying everything: the smallest set of inputs that holds the lowest one and along
/// which the equation splits (RULES 2.3) gives the first part, since a smaller one would be inside it; then the rest. For
/// equations with few inputs, other than zero.
pub fn parts(equation: &Poly) -> Vec<Poly> {
    let all = inputs(equation);
    assert!(all.count_ones() <= 12 && !equation.is_empty(), "too many inputs to try everything, or zero");
    if all == 0 {
        return Vec::new();
    }
    let lowest = all & all.wrapping_neg();
    let others = numbers(all & !lowest);
    let set = |choice: u64| others.iter().enumerate().fold(lowest, |set, (at, i)| set | (choice >> at & 1) << i);
    let mut sets: Vec<u64> = (0..1 << others.len()).map(set).collect();
    sets.sort_by_key(|set| set.count_ones());
    let splits = |set: &u64| times(&onto(equation, *set), &onto(equation, !set)) == *equation;
    let first = sets.into_iter().find(splits).expect("it splits along all of its inputs");
    let mut found = vec![onto(equation, first)];
    found.extend(parts(&onto(equation, !first)));
    found
}
