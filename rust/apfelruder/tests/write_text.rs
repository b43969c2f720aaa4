//! Write text, safe and raw. Expected values are made by hand from RULES 12.
#![cfg(feature = "write_text")]
use apfelruder::raw::{self, Answer};
use apfelruder::Refusal;

const OLD: u8 = 77;

/// 1,024 terms of 16 variables above x9, ascending: each takes 64 bytes with the sign behind it, and all of them 65,536.
fn full() -> Vec<u64> {
    let six = 0x3f << 30;
    (0..1024_u64).map(|i| (0..10).fold(six, |term, j| term | 1 << (10 + 2 * j + (i >> j & 1)))).collect()
}

/// The last of them with x36 to x39 besides: 16 bytes more.
fn longer() -> Vec<u64> {
    let mut list = full();
    list[1023] |= 0xf << 36;
    list
}

#[cfg(feature = "alloc")]
mod safe {
    use super::{full, longer, Refusal};
    use apfelruder::{write_text, MAX_TEXT_BYTES};

    #[test]
    fn texts() {
        assert_eq!(write_text(&[0, 4, 9]).as_deref(), Ok("1+x2+x0*x3\n"));
        assert_eq!(write_text(&[]).as_deref(), Ok("0\n"));
        assert_eq!(write_text(&[0]).as_deref(), Ok("1\n"));
        assert_eq!(write_text(&[1 << 9, 1 << 10, 1 << 63]).as_deref(), Ok("x9+x10+x63\n"));
        let all: Vec<String> = (0..64).map(|i| format!("x{i}")).collect();
        assert_eq!(write_text(&[u64::MAX]), Ok(all.join("*") + "\n"));
    }

    #[test]
    fn the_longest_text() {
        let text = write_text(&full()).unwrap();
        assert_eq!(text.len(), MAX_TEXT_BYTES);
        assert!(text.starts_with("x10*x12*x14*") && text.ends_with("*x33*x34*x35\n"));
        assert_eq!(write_text(&longer()), Err(Refusal::TooLarge { operand: 1 }));
    }

    #[test]
    fn refusals() {
        let long: Vec<u64> = (0..1025).collect();
        assert_eq!(write_text(&long), Err(Refusal::TooMany { operand: 1 }));
        assert_eq!(write_text(&[3; 1025]), Err(Refusal::TooMany { operand: 1 }));
        assert_eq!(write_text(&[0, 4, 4]), Err(Refusal::Order { operand: 1, place: 2 }));
        let mut unordered = longer();
        unordered.swap(8, 9);
        assert_eq!(write_text(&unordered), Err(Refusal::Order { operand: 1, place: 9 }));
    }
}

#[test]
fn raw_writes_no_more_than_the_text() {
    let mut out = [OLD; 13];
    assert_eq!(raw::write_text(&[0, 4, 9], &mut out), Answer { code: 0, operand: 0, place: 0, count: 11 });
    assert_eq!(&out, b"1+x2+x0*x3\nMM");
}

#[test]
fn raw_refuses_what_is_short_and_leaves_it() {
    let room = Answer { code: 6, operand: 1, place: 0, count: 0 };
    let mut out = [OLD; 10];
    assert_eq!(raw::write_text(&[0, 4, 9], &mut out), room);
    assert_eq!(out, [OLD; 10]);
    assert_eq!(raw::write_text(&[], &mut out[..1]), room);
    assert_eq!(raw::write_text(&full(), &mut out), room);
    assert_eq!(room.result(), Err(Refusal::Room { operand: 1 }));
    // order and too large before room
    assert_eq!(raw::write_text(&[2, 1], &mut []), Answer { code: 3, operand: 1, place: 1, count: 0 });
    assert_eq!(raw::write_text(&longer(), &mut []), Answer { code: 5, operand: 1, place: 0, count: 0 });
}
