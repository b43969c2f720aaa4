//! Multiply, safe and raw. Expected values: the examples of RULES 7.2 and the order of checks of 5.3.
#![cfg(feature = "multiply")]
use apfelruder::raw::{self, Answer};
use apfelruder::Refusal;

const OLD: u64 = 77;

#[cfg(feature = "alloc")]
mod safe {
    use super::Refusal;
    use apfelruder::multiply;

    fn first(many: u64) -> Vec<u64> {
        (0..many).collect()
    }

    fn by_32(many: u64) -> Vec<u64> {
        (0..many).map(|j| 32 * j).collect()
    }

    #[test]
    fn products() {
        assert_eq!(multiply(&[0, 1], &[0, 2]), Ok(vec![0, 1, 2, 3]));
        assert_eq!(multiply(&[0, 4], &[1, 2]), Ok(vec![1, 2, 5, 6]));
        assert_eq!(multiply(&[0], &[0]), Ok(vec![0]));
        assert_eq!(multiply(&[1 << 63], &[0, 1]), Ok(vec![1 << 63, (1 << 63) + 1]));
        assert_eq!(multiply(&first(32), &by_32(32)), Ok(first(1024)));
    }

    #[test]
    fn zero_times_anything_is_zero() {
        assert_eq!(multiply(&[], &[1]), Ok(vec![]));
        assert_eq!(multiply(&[1], &[]), Ok(vec![]));
        assert_eq!(multiply(&[], &[]), Ok(vec![]));
        assert_eq!(multiply(&[], &first(1024)), Ok(vec![]));
        assert_eq!(multiply(&[], &first(1025)), Err(Refusal::TooMany { operand: 2 }));
        assert_eq!(multiply(&[], &[2, 1]), Err(Refusal::Order { operand: 2, place: 1 }));
    }

    #[test]
    fn refusals() {
        assert_eq!(multiply(&first(1025), &[1 << 20]), Err(Refusal::TooMany { operand: 1 }));
        assert_eq!(multiply(&[1 << 20], &first(1025)), Err(Refusal::TooMany { operand: 2 }));
        assert_eq!(multiply(&[0, 1, 1], &[2]), Err(Refusal::Order { operand: 1, place: 2 }));
        assert_eq!(multiply(&[1], &[0, 2, 4, 3]), Err(Refusal::Order { operand: 2, place: 3 }));
        assert_eq!(multiply(&[0, 1], &[1]), Err(Refusal::Shared));
        assert_eq!(multiply(&first(32), &by_32(33)), Err(Refusal::TooLarge { operand: 0 }));
    }

    #[test]
    fn the_order_of_checks() {
        // both lists are too long; the first out of order and the second too long; both out of order
        assert_eq!(multiply(&first(1025), &first(1025)), Err(Refusal::TooMany { operand: 1 }));
        assert_eq!(multiply(&[2, 1], &first(1025)), Err(Refusal::TooMany { operand: 2 }));
        assert_eq!(multiply(&[2, 1], &[2, 1]), Err(Refusal::Order { operand: 1, place: 1 }));
        // out of order and shared; shared and too large
        assert_eq!(multiply(&[1], &[1, 1]), Err(Refusal::Order { operand: 2, place: 1 }));
        assert_eq!(multiply(&first(1024), &first(1024)), Err(Refusal::Shared));
    }
}

#[test]
fn raw_writes_no_more_than_the_product() {
    let mut out = [OLD; 6];
    assert_eq!(raw::multiply(&[0, 4], &[1, 2], &mut out), Answer { code: 0, operand: 0, place: 0, count: 4 });
    assert_eq!(out, [1, 2, 5, 6, OLD, OLD]);
    assert_eq!(raw::multiply(&[], &[1, 2], &mut []), Answer { code: 0, operand: 0, place: 0, count: 0 });
}

#[test]
fn raw_refuses_what_is_short_and_leaves_it() {
    let room = Answer { code: 6, operand: 0, place: 0, count: 0 };
    let mut out = [OLD; 3];
    assert_eq!(raw::multiply(&[0, 1], &[0, 2], &mut out), room);
    assert_eq!(out, [OLD; 3]);
    assert_eq!(raw::multiply(&[0, 1], &[0, 2], &mut []), room);
    assert_eq!(room.result(), Err(Refusal::Room { operand: 0 }));
}

#[test]
fn raw_says_what_is_wrong_with_the_lists_first() {
    let mut out = [OLD; 2];
    assert_eq!(raw::multiply(&[0, 1], &[3, 2], &mut out), Answer { code: 3, operand: 2, place: 1, count: 0 });
    assert_eq!(raw::multiply(&[0, 1, 3], &[1], &mut out), Answer { code: 4, operand: 0, place: 0, count: 0 });
    let a: Vec<u64> = (0..32).collect();
    let b: Vec<u64> = (0..33).map(|j| 32 * j).collect();
    assert_eq!(raw::multiply(&a, &b, &mut out), Answer { code: 5, operand: 0, place: 0, count: 0 });
    assert_eq!(out, [OLD; 2]);
}
