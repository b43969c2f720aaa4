//! Split, safe and raw. Expected values: the examples of RULES 7.1 and the order of checks of 5.3.
#![cfg(feature = "split")]
use apfelruder::raw::{self, Answer};
use apfelruder::{Refusal, MAX_TERMS};

const OLD: u64 = 77;

#[cfg(feature = "alloc")]
mod safe {
    use super::{Refusal, MAX_TERMS};
    use apfelruder::split;

    #[test]
    fn the_examples_of_the_rules() {
        assert_eq!(split(&[0]), Ok(vec![]));
        assert_eq!(split(&[1]), Ok(vec![vec![1]]));
        assert_eq!(split(&[0, 1]), Ok(vec![vec![0, 1]]));
        assert_eq!(split(&[3]), Ok(vec![vec![1], vec![2]]));
        assert_eq!(split(&[0, 3]), Ok(vec![vec![0, 3]]));
        assert_eq!(split(&[0, 1, 2]), Ok(vec![vec![0, 1, 2]]));
        assert_eq!(split(&[1, 2, 5, 6]), Ok(vec![vec![1, 2], vec![0, 4]]));
        assert_eq!(split(&[6, 7, 12, 13]), Ok(vec![vec![0, 1], vec![2, 8], vec![4]]));
        assert_eq!(split(&[4, 7, 12, 15, 16, 19]), Ok(vec![vec![0, 3], vec![4, 12, 16]]));
    }

    #[test]
    fn the_limits() {
        let single: Vec<Vec<u64>> = (0..64).map(|i| vec![1 << i]).collect();
        assert_eq!(split(&[u64::MAX]), Ok(single));
        let all: Vec<u64> = (0..1024).collect();
        assert_eq!(all.len(), MAX_TERMS);
        let ten: Vec<Vec<u64>> = (0..10).map(|i| vec![0, 1 << i]).collect();
        assert_eq!(split(&all), Ok(ten));
    }

    #[test]
    fn refusals() {
        assert_eq!(split(&[]), Err(Refusal::Zero));
        assert_eq!(split(&[1, 1]), Err(Refusal::Order { operand: 1, place: 1 }));
        assert_eq!(split(&[2, 1]), Err(Refusal::Order { operand: 1, place: 1 }));
        assert_eq!(split(&[0, 1, 2, 2, 1]), Err(Refusal::Order { operand: 1, place: 3 }));
        let long: Vec<u64> = (0..1025).collect();
        assert_eq!(split(&long), Err(Refusal::TooMany { operand: 1 }));
    }

    #[test]
    fn too_many_comes_before_order() {
        assert_eq!(split(&[5; 1025]), Err(Refusal::TooMany { operand: 1 }));
        let mut last: Vec<u64> = (0..1024).collect();
        last[1023] = 1022;
        assert_eq!(split(&last), Err(Refusal::Order { operand: 1, place: 1023 }));
    }
}

#[test]
fn raw_writes_no_more_than_the_parts() {
    let mut part_terms = [OLD; raw::part_terms_words(4) + 1];
    let mut lengths = [OLD; raw::PART_LENGTHS_WORDS + 1];
    let mut work = [OLD; raw::work_words(4) + 1];
    let answer = raw::split(&[1, 2, 5, 6], &mut part_terms, &mut lengths, &mut work);
    assert_eq!(answer, Answer { code: 0, operand: 0, place: 0, count: 2 });
    assert_eq!(part_terms[..4], [1, 2, 0, 4]);
    assert_eq!(lengths[..2], [2, 2]);
    assert_eq!(part_terms[4..], [OLD; 65]);
    assert_eq!(lengths[2..], [OLD; 63]);
    assert_eq!(work, [0; 17]);
    let parts: Vec<&[u64]> = raw::parts(&part_terms, &lengths, 2).collect();
    assert_eq!(parts, [&[1, 2][..], &[0, 4][..]]);
}

/// The answer to {1,2,5,6} with buffers of these lengths, after a look that nothing was written.
fn refused(part_terms: usize, lengths: usize, work: usize) -> Answer {
    let mut buffers = [vec![OLD; part_terms], vec![OLD; lengths], vec![OLD; work]];
    let [p, l, w] = &mut buffers;
    let answer = raw::split(&[1, 2, 5, 6], p, l, w);
    assert!(buffers.iter().flatten().all(|&word| word == OLD));
    answer
}

#[test]
fn raw_refuses_what_is_short_and_leaves_it() {
    let room = Answer { code: 6, operand: 1, place: 0, count: 0 };
    assert_eq!(refused(67, 64, 16), room);
    assert_eq!(refused(68, 63, 16), room);
    assert_eq!(refused(0, 0, 0), room);
    assert_eq!(room.result(), Err(Refusal::Room { operand: 1 }));
    let work = Answer { code: 7, operand: 1, place: 0, count: 0 };
    assert_eq!(refused(68, 64, 15), work);
    assert_eq!(refused(68, 64, 0), work);
    assert_eq!(work.result(), Err(Refusal::Work));
}

#[test]
fn raw_says_what_is_wrong_with_the_list_first() {
    let told = |terms: &[u64]| raw::split(terms, &mut [], &mut [], &mut []);
    assert_eq!(told(&[]), Answer { code: 1, operand: 1, place: 0, count: 0 });
    assert_eq!(told(&[7; MAX_TERMS + 1]), Answer { code: 2, operand: 1, place: 0, count: 0 });
    assert_eq!(told(&[1, 4, 3]), Answer { code: 3, operand: 1, place: 2, count: 0 });
    assert_eq!(told(&[0]), Answer { code: 6, operand: 1, place: 0, count: 0 });
}

#[test]
fn words_that_split_needs() {
    assert_eq!(raw::part_terms_words(MAX_TERMS), 1088);
    assert_eq!(raw::work_words(MAX_TERMS), 4096);
    assert_eq!(raw::part_terms_words(usize::MAX), usize::MAX);
    assert_eq!(raw::work_words(usize::MAX), usize::MAX);
}

#[test]
fn parts_stay_inside_the_buffers() {
    let walked = |lengths: &[u64], count| raw::parts(&[1, 2, 3], lengths, count).map(<[u64]>::len).collect::<Vec<_>>();
    assert_eq!(walked(&[2, 1], 2), [2, 1]);
    assert_eq!(walked(&[2, 1], 1), [2]);
    assert_eq!(walked(&[2, 2], 2), [2]);
    assert_eq!(walked(&[u64::MAX], 1), [0; 0]);
    assert_eq!(walked(&[1], usize::MAX), [1]);
}
