//! Read text, safe and raw. Expected values are made by hand from RULES 12.
#![cfg(feature = "read_text")]
use apfelruder::raw::{self, Answer};
use apfelruder::{Refusal, MAX_TERMS};

const OLD: u64 = 77;

#[cfg(feature = "alloc")]
mod safe {
    use super::{Refusal, MAX_TERMS};
    use apfelruder::{read_text, MAX_TEXT_BYTES};

    #[test]
    fn lists() {
        assert_eq!(read_text(b"x0*x3+x2+1\n"), Ok(vec![0, 4, 9]));
        assert_eq!(read_text(b"x2+1+x3*x0\n"), Ok(vec![0, 4, 9]));
        assert_eq!(read_text(b"0\n"), Ok(vec![]));
        assert_eq!(read_text(b"1\n"), Ok(vec![0]));
        assert_eq!(read_text(b"x63+x10+x9\n"), Ok(vec![1 << 9, 1 << 10, 1 << 63]));
        let all: Vec<String> = (0..64).map(|i| format!("x{i}")).collect();
        assert_eq!(read_text((all.join("*") + "\n").as_bytes()), Ok(vec![u64::MAX]));
    }

    #[test]
    fn equal_terms_cancel() {
        assert_eq!(read_text(b"x0*x1+x2+x1*x0\n"), Ok(vec![4]));
        assert_eq!(read_text(b"1+1\n"), Ok(vec![]));
        assert_eq!(read_text(b"1+x5+1+x5+1\n"), Ok(vec![0]));
    }

    #[test]
    fn signs() {
        let wrong: [(&[u8], u64); 14] = [
            (b"", 0),
            (b"\n", 0),
            (b" 1\n", 0),
            (b"x\n", 1),
            (b"x64\n", 2),
            (b"x00\n", 2),
            (b"x70\n", 2),
            (b"0+1\n", 1),
            (b"1+0\n", 2),
            (b"1*x1\n", 1),
            (b"x1++1\n", 3),
            (b"x1", 2),
            (b"x1\n\n", 3),
            (b"x1\r\n", 2),
        ];
        for (text, place) in wrong {
            assert_eq!(read_text(text), Err(Refusal::Sign { place }), "{text:?}");
        }
    }

    #[test]
    fn twice_needs_the_sign_behind() {
        assert_eq!(read_text(b"x1*x1\n"), Err(Refusal::Twice { place: 5 }));
        assert_eq!(read_text(b"x1*x2*x1+1\n"), Err(Refusal::Twice { place: 8 }));
        assert_eq!(read_text(b"x1*x1*x64\n"), Err(Refusal::Twice { place: 5 }));
        assert_eq!(read_text(b"x1*x1"), Err(Refusal::Sign { place: 5 }));
        assert_eq!(read_text(b"x1*x1y"), Err(Refusal::Sign { place: 5 }));
        assert_eq!(read_text(b"x1*x10\n"), Ok(vec![2 + 1024]));
    }

    #[test]
    fn terms_are_counted_as_written() {
        let ones = |many: usize| vec!["1"; many].join("+") + "\n";
        assert_eq!(read_text(ones(MAX_TERMS).as_bytes()), Ok(vec![]));
        assert_eq!(read_text(ones(MAX_TERMS - 1).as_bytes()), Ok(vec![0]));
        assert_eq!(read_text(ones(MAX_TERMS + 1).as_bytes()), Err(Refusal::TooMany { operand: 1 }));
        // x0 to x9 in binary, highest first
        let names = |term: u64| (0..10).filter(|i| term >> i & 1 == 1).map(|i| format!("x{i}")).collect::<Vec<_>>();
        let all: Vec<String> = (1..1024).rev().map(|term| names(term).join("*")).collect();
        let text = all.join("+") + "+1\n";
        assert_eq!(read_text(text.as_bytes()), Ok((0..1024).collect()));
    }

    #[test]
    fn the_longest_text() {
        assert_eq!(read_text(&[b'y'; MAX_TEXT_BYTES + 1]), Err(Refusal::TooMany { operand: 1 }));
        assert_eq!(read_text(&[b'y'; MAX_TEXT_BYTES]), Err(Refusal::Sign { place: 0 }));
        // 16 variables above x9, each with the sign behind it, take 64 bytes
        let sixteen: Vec<String> = (20..36).map(|i| format!("x{i}")).collect();
        let term = sixteen.join("*");
        let mut text = vec![term; 1024].join("+").into_bytes();
        assert_eq!(text.len(), MAX_TEXT_BYTES - 1);
        assert_eq!(read_text(&text), Err(Refusal::Sign { place: 65535 }));
        text.push(b'\n');
        assert_eq!(read_text(&text), Ok(vec![]));
        text[65535] = b'*';
        assert_eq!(read_text(&text), Err(Refusal::Sign { place: 65536 }));
        text.push(b'\n');
        assert_eq!(read_text(&text), Err(Refusal::TooMany { operand: 1 }));
    }
}

#[test]
fn raw_writes_no_more_than_the_terms() {
    let mut out = [OLD; 5];
    let answer = raw::read_text(b"x0*x3+x2+1\n", &mut out);
    assert_eq!(answer, Answer { code: 0, operand: 0, place: 0, count: 3 });
    assert_eq!(out, [0, 4, 9, OLD, OLD]);
    assert_eq!(raw::read_text(b"0\n", &mut []), Answer { code: 0, operand: 0, place: 0, count: 0 });
}

#[test]
fn raw_asks_room_for_what_is_left() {
    let room = Answer { code: 6, operand: 1, place: 0, count: 0 };
    let mut out = [OLD; 2];
    assert_eq!(raw::read_text(b"x0*x3+x2+1\n", &mut out), room);
    assert_eq!(out, [OLD; 2]);
    assert_eq!(raw::read_text(b"1\n", &mut []), room);
    assert_eq!(raw::read_text(b"1+x0+1\n", &mut out[..1]), Answer { code: 0, operand: 0, place: 0, count: 1 });
    assert_eq!(out, [1, OLD]);
    assert_eq!(room.result(), Err(Refusal::Room { operand: 1 }));
}

#[test]
fn raw_leaves_the_output_of_a_bad_text() {
    let mut out = [OLD; MAX_TERMS];
    let bad: [(&[u8], u64, u64); 4] =
        [(b"x1+x2+y\n", 14, 6), (b"x1+x2", 14, 5), (b"x3+x1*x1\n", 15, 8), (b"x1+x2\n\n", 14, 6)];
    for (text, code, place) in bad {
        assert_eq!(raw::read_text(text, &mut out), Answer { code, operand: 1, place, count: 0 });
        assert_eq!(raw::read_text(text, &mut []), Answer { code, operand: 1, place, count: 0 });
        assert_eq!(out, [OLD; MAX_TERMS]);
    }
}
