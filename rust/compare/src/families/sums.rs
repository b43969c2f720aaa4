//! Lists lent one behind the other, with lengths that add to the words and with lengths that do not.
use super::steps;

/// Asks with so many words, and with lengths that add to that, to one less or more, or to that and some power of two; then with as
/// many lists as there may be and more, and with as many words as can be right.
pub fn sums(mut ask: impl FnMut(&[u64], &[u64])) {
    for words in [0usize, 1, 4, 5, 255, 256, 1024] {
        let lent = steps(words);
        let sum = words as u64;
        for many in [1usize, 2, 3, 63, 64] {
            // all in the first, in the last, and some in each
            let mut first = vec![0; many];
            first[0] = sum;
            let mut even = vec![sum / many as u64; many];
            even[many - 1] += sum % many as u64;
            for right in [first.iter().rev().copied().collect(), first, even] {
                ask(&lent, &right);
                for at in [0, many / 2, many - 1] {
                    for change in powers().into_iter().chain([u64::MAX]) {
                        let mut lengths = right.clone();
                        lengths[at] = lengths[at].wrapping_add(change);
                        ask(&lent, &lengths);
                    }
                }
            }
            // so that the sum in 64 bits is right: 2 to the 64, or that and the words
            for half in [1 << 63, u64::MAX - 7, u64::MAX] {
                let mut wrapped = vec![0; many + 1];
                wrapped[0] = half;
                wrapped[many] = sum.wrapping_sub(half);
                ask(&lent, &wrapped[..many.min(63) + 1]);
            }
        }
        for lengths in [vec![], vec![u64::MAX; 64], vec![1 << 58; 64], vec![(1 << 58) + sum; 64], vec![u64::MAX; 65]] {
            ask(&lent, &lengths);
        }
    }
    for many in [64usize, 65, 66, 127, 128, 129, 255, 256, 257] {
        let lent = steps(many);
        ask(&lent, &vec![1; many]);
        ask(&lent, &vec![0; many]);
        ask(&[], &vec![0; many]);
    }
    for words in [65536, 65535, 65537, 0] {
        let lent: Vec<u64> = steps(1024).into_iter().cycle().take(words).collect();
        ask(&lent, &[1024; 64]);
    }
}

fn powers() -> [u64; 12] {
    [0, 1, 2, 8, 10, 11, 16, 17, 31, 32, 33, 63].map(|bits| 1 << bits)
}
