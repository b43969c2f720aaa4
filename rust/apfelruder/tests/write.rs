//! Write, safe and raw. Expected values: the examples of RULES 7.4, blocks packed by hand, and the order of checks of 5.3.
#![cfg(feature = "write")]
use apfelruder::raw::{self, Answer};
use apfelruder::Refusal;

const OLD: u8 = 77;

#[cfg(feature = "alloc")]
mod safe {
    use super::Refusal;
    use apfelruder::{write, MAX_BLOCK_BYTES};

    #[test]
    fn blocks() {
        assert_eq!(write(&[1, 2, 5, 6]), Ok(vec![0x10, 0x60, 0x04, 0x2a, 0xe0]));
        assert_eq!(write(&[]), Ok(vec![0x10, 0x00, 0x00]));
        assert_eq!(write(&[0]), Ok(vec![0x10, 0x00, 0x01]));
        // n = 2, t = 3, then 01 10 11 and two zero bits
        assert_eq!(write(&[1, 2, 3]), Ok(vec![0x10, 0x40, 0x03, 0x6c]));
        let all = [0x18, 0x00, 0x01, 0xff, 0xff, 0xff, 0xff, 0xff, 0xff, 0xff, 0xff];
        assert_eq!(write(&[u64::MAX]), Ok(all.to_vec()));
    }

    #[test]
    fn the_longest_block() {
        let terms: Vec<u64> = (0..1024).map(|i| (1 << 63) + i).collect();
        let mut block = vec![0x18, 0x04, 0x00];
        block.extend(terms.iter().flat_map(|term| term.to_be_bytes()));
        assert_eq!(block.len(), MAX_BLOCK_BYTES);
        assert_eq!(write(&terms), Ok(block));
    }

    #[test]
    fn refusals() {
        let long: Vec<u64> = (0..1025).collect();
        assert_eq!(write(&long), Err(Refusal::TooMany { operand: 1 }));
        assert_eq!(write(&[3; 1025]), Err(Refusal::TooMany { operand: 1 }));
        assert_eq!(write(&[0, 4, 4]), Err(Refusal::Order { operand: 1, place: 2 }));
    }
}

#[test]
fn raw_writes_no_more_than_the_block() {
    let mut out = [OLD; 7];
    assert_eq!(raw::write(&[1, 2, 5, 6], &mut out), Answer { code: 0, operand: 0, place: 0, count: 5 });
    assert_eq!(out, [0x10, 0x60, 0x04, 0x2a, 0xe0, OLD, OLD]);
}

#[test]
fn raw_refuses_what_is_short_and_leaves_it() {
    let room = Answer { code: 6, operand: 1, place: 0, count: 0 };
    let mut out = [OLD; 4];
    assert_eq!(raw::write(&[1, 2, 5, 6], &mut out), room);
    assert_eq!(out, [OLD; 4]);
    assert_eq!(raw::write(&[], &mut out[..2]), room);
    assert_eq!(raw::write(&[], &mut []), room);
    assert_eq!(room.result(), Err(Refusal::Room { operand: 1 }));
    // order before room
    assert_eq!(raw::write(&[2, 1], &mut []), Answer { code: 3, operand: 1, place: 1, count: 0 });
}
