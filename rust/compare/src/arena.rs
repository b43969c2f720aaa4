//! The memory in which a call is made: one row of words with all slices in it, and words around each that no call may
//! touch. The linked library and the one behind the bridge are given the same row.
use crate::call::{Reply, Request, Slice};

/// Words before and behind each slice.
const GUARD: usize = 8;
const UNTOUCHED: u64 = 0xa5a5_a5a5_a5a5_a5a5;

pub struct Arena {
    pub words: Vec<u64>,
    /// Where each slice begins, in bytes.
    pub starts: Vec<usize>,
}

impl Arena {
    pub fn of(request: &Request) -> Arena {
        let mut arena = Arena { words: Vec::new(), starts: Vec::new() };
        arena.guard();
        if let Some(pool) = &request.pool {
            let at = 8 * arena.words.len();
            arena.words.extend_from_slice(&pool.words);
            arena.starts.extend(pool.parts.iter().map(|part| at + 8 * part.start));
            arena.guard();
        }
        for slice in &request.slices[arena.starts.len()..] {
            let at = arena.words.len();
            let (skew, words) = match slice {
                Slice::Words(words) => (0, words.len()),
                Slice::Bytes(bytes) => (request.skew, (request.skew + bytes.len()).div_ceil(8)),
            };
            arena.starts.push(8 * at + skew);
            arena.words.resize(at + words, UNTOUCHED);
            arena.guard();
        }
        arena.fill(&request.slices);
        arena
    }

    fn guard(&mut self) {
        self.words.resize(self.words.len() + GUARD, UNTOUCHED);
    }

    fn fill(&mut self, slices: &[Slice]) {
        let starts = self.starts.clone();
        for (&start, slice) in starts.iter().zip(slices) {
            match slice {
                Slice::Words(words) => self.words[start / 8..start / 8 + words.len()].copy_from_slice(words),
                Slice::Bytes(bytes) => self.bytes_mut()[start..start + bytes.len()].copy_from_slice(bytes),
            }
        }
    }

    pub fn bytes(&self) -> &[u8] {
        // SAFETY: the same memory; any byte is a u8.
        unsafe { std::slice::from_raw_parts(self.words.as_ptr().cast(), 8 * self.words.len()) }
    }

    pub fn bytes_mut(&mut self) -> &mut [u8] {
        // SAFETY: the same memory; any byte is a u8, and any eight of them are a u64.
        unsafe { std::slice::from_raw_parts_mut(self.words.as_mut_ptr().cast(), 8 * self.words.len()) }
    }

    /// What a call left here. An error if it wrote anywhere but into a slice.
    pub fn reply(&self, request: &Request, answer: [u64; 4]) -> Result<Reply, String> {
        let mut slices = Vec::new();
        for (&start, slice) in self.starts.iter().zip(&request.slices) {
            slices.push(match slice {
                Slice::Words(words) => Slice::Words(self.words[start / 8..start / 8 + words.len()].to_vec()),
                Slice::Bytes(bytes) => Slice::Bytes(self.bytes()[start..start + bytes.len()].to_vec()),
            });
        }
        let mut again = Arena::of(request);
        again.fill(&slices);
        match again.words == self.words {
            true => Ok(Reply { answer, slices }),
            false => Err(format!("wrote outside the slices; its four numbers were {answer:?}")),
        }
    }
}

#[cfg(test)]
mod tests {
    use super::Arena;
    use crate::call::{Request, Slice};

    fn read_at(skew: usize) -> Request {
        let mut request = Request::read(&[0x10, 0, 1], vec![7, 8]);
        request.skew = skew;
        request
    }

    #[test]
    fn what_was_laid_out_comes_back() {
        for skew in 0..8 {
            let request = read_at(skew);
            let arena = Arena::of(&request);
            assert_eq!(arena.starts[0] % 8, skew);
            assert_eq!(arena.reply(&request, [0; 4]).unwrap().slices, request.slices);
        }
    }

    #[test]
    fn a_byte_beside_a_slice_is_seen() {
        for skew in 0..8 {
            let request = read_at(skew);
            for (slice, bytes) in [(0, 3), (1, 16)] {
                let start = Arena::of(&request).starts[slice];
                for at in [start - 1, start + bytes, start - 64 + skew, start + bytes + 60 - skew] {
                    let mut arena = Arena::of(&request);
                    arena.bytes_mut()[at] ^= 1;
                    assert!(arena.reply(&request, [0; 4]).is_err(), "skew {skew}, byte {at}");
                }
            }
        }
    }

    #[test]
    fn shared_inputs_lie_in_one_memory() {
        let request = Request::multiply_within(&[1, 2, 3, 4, 5], [0..3, 1..3], vec![9]);
        let mut arena = Arena::of(&request);
        assert_eq!(arena.starts[1], arena.starts[0] + 8);
        arena.words[arena.starts[1] / 8] = 6;
        let now = arena.reply(&request, [0; 4]).unwrap().slices;
        assert_eq!(now, [Slice::Words(vec![1, 6, 3]), Slice::Words(vec![6, 3]), Slice::Words(vec![9])]);
        arena.words[arena.starts[0] / 8 + 4] = 6;
        assert!(arena.reply(&request, [0; 4]).is_err());
    }
}
