//! Audit, safe and raw. Expected values: the examples of RULES 7.1 given as parts, and the same with a fault put in; the order of
//! checks as include/apfelruder.h states it.
#![cfg(feature = "audit")]
use apfelruder::raw::{self, Answer};
use apfelruder::{Refusal, MAX_TERMS, MAX_VARS};

const OLD: u64 = 77;

#[cfg(feature = "alloc")]
mod safe {
    use super::{Refusal, MAX_TERMS, MAX_VARS};
    use apfelruder::{audit, Audit};

    /// (1 + x0)(x1 + x3) x2, and its parts.
    const APPROVED: [u64; 4] = [6, 7, 12, 13];

    fn parts() -> Vec<Vec<u64>> {
        vec![vec![0, 1], vec![2, 8], vec![4]]
    }

    #[track_caller]
    fn says(yes: bool, approved: &[u64], given: &[Vec<u64>], parts: &[Vec<u64>]) {
        assert_eq!(audit(approved, given), Ok(Audit { yes, parts: parts.to_vec() }), "{given:?}");
    }

    #[test]
    fn the_parts_of_the_rules() {
        says(true, &APPROVED, &parts(), &parts());
        says(true, &[0], &[], &[]);
        says(true, &[1], &[vec![1]], &[vec![1]]);
        says(true, &[0, 1], &[vec![0, 1]], &[vec![0, 1]]);
        says(true, &[3], &[vec![1], vec![2]], &[vec![1], vec![2]]);
        says(true, &[0, 3], &[vec![0, 3]], &[vec![0, 3]]);
        let given = [vec![0, 3], vec![4, 12, 16]];
        says(true, &[4, 7, 12, 15, 16, 19], &given, &given);
    }

    #[test]
    fn damaged_parts() {
        let whole = vec![APPROVED.to_vec()];
        let wrong: [Vec<Vec<u64>>; 15] = [
            // the constant lost, a constant too many, a term too many, another term
            vec![vec![1], vec![2, 8], vec![4]],
            vec![vec![0, 1], vec![0, 2, 8], vec![4]],
            vec![vec![0, 1], vec![2, 8, 10], vec![4]],
            vec![vec![0, 1], vec![2, 9], vec![4]],
            // a part left out, doubled; nothing given
            vec![vec![0, 1], vec![2, 8]],
            vec![vec![2, 8], vec![4]],
            vec![vec![0, 1], vec![2, 8], vec![2, 8], vec![4]],
            vec![],
            // the right product: two parts as one, all as one, another order
            vec![vec![2, 3, 8, 9], vec![4]],
            vec![vec![0, 1], vec![6, 12]],
            whole,
            vec![vec![2, 8], vec![0, 1], vec![4]],
            // with zero and with one among them
            vec![vec![0, 1], vec![2, 8], vec![4], vec![]],
            vec![vec![], vec![0, 1], vec![2, 8], vec![4]],
            vec![vec![0], vec![0, 1], vec![2, 8], vec![4]],
        ];
        for given in wrong {
            says(false, &APPROVED, &given, &parts());
        }
        says(false, &[0], &[vec![0]], &[]);
        says(false, &[0], &[vec![]], &[]);
    }

    #[test]
    fn the_limits() {
        let single: Vec<Vec<u64>> = (0..64).map(|i| vec![1 << i]).collect();
        says(true, &[u64::MAX], &single, &single);
        let mut exchanged = single.clone();
        exchanged.swap(62, 63);
        says(false, &[u64::MAX], &exchanged, &single);
        let ten: Vec<Vec<u64>> = (0..10).map(|i| vec![0, 1 << i]).collect();
        let all: Vec<u64> = (0..1024).collect();
        says(true, &all, &ten, &ten);
        says(false, &all, std::slice::from_ref(&all), &ten);
        // 64 lists of 1,024 terms
        says(false, &all, &vec![all.clone(); MAX_VARS], &ten);
        assert_eq!(all.len(), MAX_TERMS);
    }

    #[test]
    fn refusals() {
        let long: Vec<u64> = (0..1025).collect();
        assert_eq!(audit(&[1], &vec![vec![1]; 65]), Err(Refusal::TooMany { operand: 0 }));
        assert_eq!(audit(&long, &[[1]]), Err(Refusal::TooMany { operand: 1 }));
        assert_eq!(audit(&[1], &[vec![1], long.clone()]), Err(Refusal::TooMany { operand: 3 }));
        assert_eq!(audit(&[], &[[1]]), Err(Refusal::Zero));
        assert_eq!(audit(&[1, 1], &[[1]]), Err(Refusal::Order { operand: 1, place: 1 }));
        for (operand, which) in (2..).zip(0..64) {
            let mut given = vec![vec![1, 2]; 64];
            given[which] = vec![1, 2, 2];
            assert_eq!(audit(&[1], &given), Err(Refusal::Order { operand, place: 2 }));
            given[which] = long.clone();
            assert_eq!(audit(&[1], &given), Err(Refusal::TooMany { operand }));
        }
    }

    #[test]
    fn the_order_of_checks() {
        let long: Vec<u64> = (0..1025).collect();
        // too many lists before all else; each too long before any is empty or out of order
        assert_eq!(audit(&long, &vec![long.clone(); 65]), Err(Refusal::TooMany { operand: 0 }));
        assert_eq!(audit(&[], &vec![vec![1, 1]; 1000]), Err(Refusal::TooMany { operand: 0 }));
        assert_eq!(audit(&long, &[&long]), Err(Refusal::TooMany { operand: 1 }));
        assert_eq!(audit(&[], &[&long]), Err(Refusal::TooMany { operand: 2 }));
        assert_eq!(audit(&[2, 1], &[&long[..2], &long]), Err(Refusal::TooMany { operand: 3 }));
        // zero before order; the approved list before the given ones
        assert_eq!(audit(&[], &[[2, 1]]), Err(Refusal::Zero));
        assert_eq!(audit(&[0, 2, 1], &[[2, 1]]), Err(Refusal::Order { operand: 1, place: 2 }));
        assert_eq!(
            audit(&[1], &[vec![0], vec![], vec![0, 2, 1], vec![3, 3]]),
            Err(Refusal::Order { operand: 4, place: 2 })
        );
    }
}

/// The raw call on {1,2,5,6} with buffers of these lengths, and the buffers after it.
fn raw_audit(terms: &[u64], lengths: &[u64], [p, l, w]: [usize; 3]) -> (Answer, [Vec<u64>; 3]) {
    let mut buffers = [vec![OLD; p], vec![OLD; l], vec![OLD; w]];
    let [p, l, w] = &mut buffers;
    (raw::audit(&[1, 2, 5, 6], terms, lengths, p, l, w), buffers)
}

#[test]
fn raw_leaves_the_parts_and_writes_no_more() {
    for (terms, lengths, count) in
        [(&[1, 2, 0, 4], &[2, 2], 1), (&[1, 2, 3, 4], &[2, 2], 0), (&[0, 1, 2, 4], &[1, 3], 0)]
    {
        let (answer, [part_terms, part_lengths, work]) = raw_audit(terms, lengths, [69, 65, 17]);
        assert_eq!(answer, Answer { code: 0, operand: 0, place: 0, count });
        assert_eq!(part_terms[..4], [1, 2, 0, 4]);
        assert_eq!(part_lengths[..2], [2, 2]);
        assert_eq!(part_terms[4..], [OLD; 65]);
        assert_eq!(part_lengths[2..], [OLD; 63]);
        assert_eq!(work, [0; 17]);
        assert_eq!(raw::parts(&part_terms, &part_lengths, 2).collect::<Vec<_>>(), [[1, 2], [0, 4]]);
    }
}

/// The answer with these buffers, after a look that nothing was written.
#[track_caller]
fn refused(terms: &[u64], lengths: &[u64], buffers: [usize; 3], code: u64, operand: u64) -> Refusal {
    let (answer, buffers) = raw_audit(terms, lengths, buffers);
    assert_eq!(answer, Answer { code, operand, place: 0, count: 0 });
    assert!(buffers.iter().flatten().all(|&word| word == OLD));
    answer.result().expect_err("the code is not 0")
}

#[test]
fn raw_refuses_lengths_that_do_not_add_up() {
    const ENOUGH: [usize; 3] = [68, 64, 16];
    let given = [1, 2, 0, 4];
    let short = Refusal::Short { operand: 0 };
    let more: [&[u64]; 6] = [&[2, 3], &[5], &[u64::MAX, 5], &[u64::MAX; 4], &[u64::MAX; 64], &[1 << 63, 1 << 63, 4]];
    for lengths in more {
        assert_eq!(refused(&given, lengths, ENOUGH, 10, 0), short);
    }
    let fewer: [&[u64]; 4] = [&[], &[2, 1], &[0; 64], &[0, 3]];
    for lengths in fewer {
        assert_eq!(refused(&given, lengths, ENOUGH, 12, 0), Refusal::Extra { operand: 0 });
    }
    // too many lengths first, whatever they add to
    assert_eq!(refused(&given, &[4; 65], ENOUGH, 2, 0), Refusal::TooMany { operand: 0 });
    assert_eq!(refused(&given, &[0; 1000], [0; 3], 2, 0), Refusal::TooMany { operand: 0 });
    // both before any list is looked at
    assert_eq!(refused(&[2, 1], &[3], [0; 3], 10, 0), short);
    assert_eq!(refused(&[7; 1026], &[1025], ENOUGH, 12, 0), Refusal::Extra { operand: 0 });
}

#[test]
fn raw_refuses_what_is_short_and_leaves_it() {
    let given = [1, 2, 0, 4];
    for buffers in [[67, 64, 16], [68, 63, 16], [0, 0, 0], [67, 64, 15], [68, 63, 15]] {
        assert_eq!(refused(&given, &[2, 2], buffers, 6, 1), Refusal::Room { operand: 1 });
    }
    for work in [15, 0] {
        assert_eq!(refused(&given, &[2, 2], [68, 64, work], 7, 1), Refusal::Work);
    }
    // what is wrong with the lists first; an empty part is nothing wrong
    assert_eq!(refused(&[7; 1025], &[1025], [0; 3], 2, 2), Refusal::TooMany { operand: 2 });
    assert_eq!(refused(&given, &[0, 2, 2], [0; 3], 6, 1), Refusal::Room { operand: 1 });
    let order = raw_audit(&[1, 2, 4, 0], &[2, 2], [0; 3]).0;
    assert_eq!(order, Answer { code: 3, operand: 3, place: 1, count: 0 });
}

#[test]
fn raw_speaks_of_the_approved_list_first() {
    let told = |terms: &[u64]| raw::audit(terms, &[2, 1], &[2], &mut [], &mut [], &mut []);
    assert_eq!(told(&[7; MAX_TERMS + 1]), Answer { code: 2, operand: 1, place: 0, count: 0 });
    assert_eq!(told(&[]), Answer { code: 1, operand: 1, place: 0, count: 0 });
    assert_eq!(told(&[1, 4, 3]), Answer { code: 3, operand: 1, place: 2, count: 0 });
    assert_eq!(told(&[0]), Answer { code: 3, operand: 2, place: 1, count: 0 });
    let none = raw::audit(&[0], &[], &[], &mut [OLD; 65], &mut [OLD; MAX_VARS], &mut [OLD; 4]);
    assert_eq!(none, Answer { code: 0, operand: 0, place: 0, count: 1 });
}
