//! Read, safe and raw. Expected values: the examples of RULES 7.4, blocks packed by hand, and the order of checks of 5.3.
#![cfg(feature = "read")]
use apfelruder::raw::{self, Answer};
use apfelruder::{Refusal, MAX_TERMS};

const OLD: u64 = 77;

#[cfg(feature = "alloc")]
mod safe {
    use super::{Refusal, MAX_TERMS};
    use apfelruder::{read, MAX_BLOCK_BYTES};

    #[test]
    fn lists() {
        assert_eq!(read(&[0x10, 0x60, 0x04, 0x2a, 0xe0]), Ok(vec![1, 2, 5, 6]));
        assert_eq!(read(&[0x10, 0x00, 0x00]), Ok(vec![]));
        assert_eq!(read(&[0x10, 0x00, 0x01]), Ok(vec![0]));
        // n = 64 and t = 1: 0001 1000000 0000000000001, then the term
        let all = [0x18, 0x00, 0x01, 0xff, 0xff, 0xff, 0xff, 0xff, 0xff, 0xff, 0xff];
        assert_eq!(read(&all), Ok(vec![u64::MAX]));
    }

    #[test]
    fn the_longest_block() {
        // n = 64 and t = 1,024: 0001 1000000 0010000000000
        let terms: Vec<u64> = (0..1024).map(|i| (1 << 63) + i).collect();
        let mut block = vec![0x18, 0x04, 0x00];
        block.extend(terms.iter().flat_map(|term| term.to_be_bytes()));
        assert_eq!(block.len(), MAX_BLOCK_BYTES);
        assert_eq!(terms.len(), MAX_TERMS);
        assert_eq!(read(&block), Ok(terms));
        block.push(0);
        assert_eq!(read(&block), Err(Refusal::Extra { operand: 1 }));
    }

    #[test]
    fn refusals() {
        assert_eq!(read(&[]), Err(Refusal::Short { operand: 1 }));
        assert_eq!(read(&[0x10, 0x00]), Err(Refusal::Short { operand: 1 }));
        assert_eq!(read(&[0x10, 0x60, 0x04, 0x2a]), Err(Refusal::Short { operand: 1 }));
        assert_eq!(read(&[0x20, 0x00, 0x01]), Err(Refusal::Form));
        // n = 65, then 127: 0001 1000001 .., 0001 1111111 ..
        assert_eq!(read(&[0x18, 0x20, 0x00]), Err(Refusal::Wide));
        assert_eq!(read(&[0x1f, 0xe0, 0x00]), Err(Refusal::Wide));
        // t = 1,025, then 8,191: .. 0010000000001, .. 1111111111111
        assert_eq!(read(&[0x10, 0x04, 0x01]), Err(Refusal::TooMany { operand: 1 }));
        assert_eq!(read(&[0x10, 0x1f, 0xff]), Err(Refusal::TooMany { operand: 1 }));
        assert_eq!(read(&[0x10, 0x60, 0x04, 0x2a, 0xe0, 0x00]), Err(Refusal::Extra { operand: 1 }));
        assert_eq!(read(&[0x10, 0x00, 0x02]), Err(Refusal::Order { operand: 1, place: 1 }));
        // n = 2 and the terms 1, 3, 2: 01 11 10
        assert_eq!(read(&[0x10, 0x40, 0x03, 0x78]), Err(Refusal::Order { operand: 1, place: 2 }));
        assert_eq!(read(&[0x10, 0x20, 0x01, 0x00]), Err(Refusal::Misfit));
        assert_eq!(read(&[0x10, 0x20, 0x00]), Err(Refusal::Misfit));
        assert_eq!(read(&[0x10, 0x60, 0x04, 0x2a, 0xe1]), Err(Refusal::Pad));
    }

    #[test]
    fn the_order_of_checks() {
        // short before form; form before wide; wide before too many; too many before short
        assert_eq!(read(&[0x20, 0x00]), Err(Refusal::Short { operand: 1 }));
        assert_eq!(read(&[0x28, 0x20, 0x00]), Err(Refusal::Form));
        assert_eq!(read(&[0x18, 0x24, 0x01]), Err(Refusal::Wide));
        assert_eq!(read(&[0x10, 0x64, 0x01]), Err(Refusal::TooMany { operand: 1 }));
        // extra before order; order before misfit: n = 2, terms 0, 0; misfit before pad: n = 1, the term 0, a bit behind it
        assert_eq!(read(&[0x10, 0x00, 0x02, 0x00]), Err(Refusal::Extra { operand: 1 }));
        assert_eq!(read(&[0x10, 0x40, 0x02, 0x00]), Err(Refusal::Order { operand: 1, place: 1 }));
        assert_eq!(read(&[0x10, 0x20, 0x01, 0x01]), Err(Refusal::Misfit));
    }

    #[test]
    fn a_full_count_without_a_body_is_out_of_order() {
        // n = 0 and t = 1,024: all terms are 0, and room is never the reason
        assert_eq!(read(&[0x10, 0x04, 0x00]), Err(Refusal::Order { operand: 1, place: 1 }));
    }
}

#[test]
fn raw_writes_no_more_than_the_terms() {
    let mut out = [OLD; 6];
    let answer = raw::read(&[0x10, 0x60, 0x04, 0x2a, 0xe0], &mut out);
    assert_eq!(answer, Answer { code: 0, operand: 0, place: 0, count: 4 });
    assert_eq!(out, [1, 2, 5, 6, OLD, OLD]);
    assert_eq!(raw::read(&[0x10, 0x00, 0x00], &mut []), Answer { code: 0, operand: 0, place: 0, count: 0 });
}

#[test]
fn raw_refuses_what_is_short_and_leaves_it() {
    let room = Answer { code: 6, operand: 1, place: 0, count: 0 };
    let mut out = [OLD; 3];
    assert_eq!(raw::read(&[0x10, 0x60, 0x04, 0x2a, 0xe0], &mut out), room);
    assert_eq!(out, [OLD; 3]);
    assert_eq!(raw::read(&[0x10, 0x60, 0x04, 0x2a, 0xe0], &mut []), room);
    // room before order and pad
    assert_eq!(raw::read(&[0x10, 0x00, 0x02], &mut out[..1]), room);
    assert_eq!(raw::read(&[0x10, 0x60, 0x04, 0x2a, 0xe1], &mut out), room);
    assert_eq!(room.result(), Err(Refusal::Room { operand: 1 }));
}

#[test]
fn raw_leaves_the_output_of_a_bad_block() {
    let mut out = [OLD; MAX_TERMS];
    let bad: [(&[u8], u64, u64); 4] = [
        (&[0x10, 0x60, 0x04, 0x2a, 0xe1], 13, 0),
        (&[0x10, 0x40, 0x03, 0x78], 3, 2),
        (&[0x10, 0x20, 0x01, 0x00], 11, 0),
        (&[0x10, 0x60, 0x04, 0x2a], 10, 0),
    ];
    for (bytes, code, place) in bad {
        assert_eq!(raw::read(bytes, &mut out), Answer { code, operand: 1, place, count: 0 });
        assert_eq!(out, [OLD; MAX_TERMS]);
    }
}
