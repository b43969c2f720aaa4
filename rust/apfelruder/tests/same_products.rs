//! Same products. Expected values: the examples of RULES 7.3, products small enough to do by hand, and the order of checks of 5.3.
#![cfg(feature = "same_products")]
use apfelruder::raw::{self, Answer};
use apfelruder::{same_products, Refusal};

#[test]
fn the_examples_of_the_rules() {
    assert_eq!(same_products(&[1], &[1], &[1], &[0]), Ok(false));
    assert_eq!(same_products(&[0, 1], &[0, 2], &[0, 1], &[0]), Ok(false));
    assert_eq!(same_products(&[0, 1], &[0], &[0], &[0, 1]), Ok(true));
}

#[test]
fn by_hand() {
    // x0 x1 and x1 x0, then x0 x1 and x0 x2
    assert_eq!(same_products(&[1], &[2], &[2], &[1]), Ok(true));
    assert_eq!(same_products(&[1], &[2], &[1], &[4]), Ok(false));
    // (1 + x0) squared is 1 + x0 squared, which is not 1 + x0
    assert_eq!(same_products(&[0, 1], &[0, 1], &[0, 1], &[0, 1]), Ok(true));
    assert_eq!(same_products(&[0, 1], &[0, 1], &[0, 1], &[0]), Ok(false));
    // zero times x0 against 1 times zero, then against 1 times 1
    assert_eq!(same_products(&[], &[1], &[0], &[]), Ok(true));
    assert_eq!(same_products(&[], &[1], &[0], &[0]), Ok(false));
    // the order is a, d, b, c: x0 (x1 x2) = (x0 x1) x2, and not x0 (x0 x1) = (x1 x2) x2
    assert_eq!(same_products(&[1], &[6], &[3], &[4]), Ok(true));
    assert_eq!(same_products(&[1], &[3], &[6], &[4]), Ok(false));
}

/// The call with this list as the given operand, and one elsewhere.
fn with(operand: usize, list: &[u64]) -> Result<bool, Refusal> {
    let mut lists: [&[u64]; 4] = [&[0]; 4];
    lists[operand - 1] = list;
    same_products(lists[0], lists[1], lists[2], lists[3])
}

#[test]
fn refusals() {
    let long: Vec<u64> = (0..1025).collect();
    for (operand, told) in [(1, 1), (2, 2), (3, 3), (4, 4)] {
        assert_eq!(with(operand, &long), Err(Refusal::TooMany { operand: told }));
        assert_eq!(with(operand, &[0, 3, 3]), Err(Refusal::Order { operand: told, place: 2 }));
        assert_eq!(with(operand, &long[..1024]), Ok(false));
        assert_eq!(with(operand, &[0]), Ok(true));
    }
}

#[test]
fn the_order_of_checks() {
    let long: Vec<u64> = (0..1025).collect();
    assert_eq!(same_products(&[2, 1], &[0], &[0], &long), Err(Refusal::TooMany { operand: 4 }));
    assert_eq!(same_products(&[0], &long, &[2, 1], &long), Err(Refusal::TooMany { operand: 2 }));
    assert_eq!(same_products(&[0], &[0, 1, 0], &[2, 1], &[0]), Err(Refusal::Order { operand: 2, place: 2 }));
}

#[test]
fn raw_gives_the_four_numbers() {
    let yes = Answer { code: 0, operand: 0, place: 0, count: 1 };
    assert_eq!(raw::same_products(&[0, 1], &[0], &[0], &[0, 1]), yes);
    let no = Answer { code: 0, operand: 0, place: 0, count: 0 };
    assert_eq!(raw::same_products(&[1], &[1], &[1], &[0]), no);
    let order = Answer { code: 3, operand: 3, place: 1, count: 0 };
    assert_eq!(raw::same_products(&[0], &[0], &[3, 3], &[0]), order);
}
