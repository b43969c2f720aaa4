//! Numbers from a seed, and lists made of them.

pub struct Random(u64);

impl Random {
    pub fn new(seed: u64) -> Random {
        Random(seed)
    }

    /// SplitMix64.
    pub fn word(&mut self) -> u64 {
        self.0 = self.0.wrapping_add(0x9e37_79b9_7f4a_7c15);
        let mut z = self.0;
        z = (z ^ z >> 30).wrapping_mul(0xbf58_476d_1ce4_e5b9);
        z = (z ^ z >> 27).wrapping_mul(0x94d0_49bb_1331_11eb);
        z ^ z >> 31
    }

    /// Below the bound, which is not 0.
    pub fn below(&mut self, bound: usize) -> usize {
        ((self.word() as u128 * bound as u128) >> 64) as usize
    }

    pub fn between(&mut self, least: usize, most: usize) -> usize {
        least + self.below(most - least + 1)
    }

    pub fn chance(&mut self, one_in: usize) -> bool {
        self.below(one_in) == 0
    }

    pub fn words(&mut self, n: usize) -> Vec<u64> {
        (0..n).map(|_| self.word()).collect()
    }

    pub fn bytes(&mut self, n: usize) -> Vec<u8> {
        (0..n).map(|_| self.word() as u8).collect()
    }

    /// The same in another order.
    pub fn shuffled<T>(&mut self, mut all: Vec<T>) -> Vec<T> {
        for i in (1..all.len()).rev() {
            all.swap(i, self.below(i + 1));
        }
        all
    }

    /// A set of so many variables out of those given.
    pub fn subset(&mut self, of: u64, size: usize) -> u64 {
        let mut left: Vec<u32> = (0..64).filter(|i| of >> i & 1 == 1).collect();
        let mut set = 0;
        for _ in 0..size.min(left.len()) {
            let at = self.below(left.len());
            set |= 1 << left.swap_remove(at);
        }
        set
    }

    /// At most so many different terms over the variables, ascending; weight: ands (-) or ors (+) of random words, so
    /// that terms hold few or many of the variables.
    pub fn list(&mut self, vars: u64, terms: usize, weight: i32) -> Vec<u64> {
        let mut list: Vec<u64> = Vec::with_capacity(terms);
        let small = vars.count_ones() < 20;
        let most = if small { terms.min(1 << vars.count_ones()) } else { terms };
        for _ in 0..8 {
            while list.len() < most {
                let mut t = self.word();
                for _ in 0..weight.abs() {
                    if weight < 0 {
                        t &= self.word();
                    } else {
                        t |= self.word();
                    }
                }
                list.push(t & vars);
            }
            list.sort_unstable();
            list.dedup();
        }
        list
    }

    /// Exactly so many terms over the variables; there must be room for them.
    pub fn exact_list(&mut self, vars: u64, terms: usize) -> Vec<u64> {
        let mut list = Vec::new();
        while list.len() < terms {
            let missing = terms - list.len();
            list.extend((0..missing).map(|_| self.word() & vars));
            list.sort_unstable();
            list.dedup();
        }
        list
    }
}
