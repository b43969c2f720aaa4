//! Random cases for the tests, the same in each run.

/// Numbers that look random.
pub struct Random(pub u64);

impl Random {
    /// A number below the bound.
    pub fn below(&mut self, bound: usize) -> usize {
        self.0 ^= self.0 << 13;
        self.0 ^= self.0 >> 7;
        self.0 ^= self.0 << 17;
        usize::try_from(self.0 >> 33).expect("31 bits") % bound
    }

    /// One of these.
    pub fn pick<'a, T>(&mut self, of: &'a [T]) -> &'a T {
        &of[self.below(of.len())]
    }
}

/// The text of an equation of some terms, with inputs in any order and none twice in a term.
pub fn equation(random: &mut Random) -> Vec<u8> {
    let terms: Vec<_> = (0..1 + random.below(5)).map(|_| term(random)).collect();
    let text = if random.below(20) == 0 { "0".to_string() } else { terms.join("+") };
    (text + "\n").into_bytes()
}

fn term(random: &mut Random) -> String {
    let mut inputs: Vec<_> = (0..random.below(4)).map(|_| random.below(64)).collect();
    inputs.sort_unstable();
    inputs.dedup();
    if random.below(2) == 0 {
        inputs.reverse();
    }
    let names: Vec<_> = inputs.iter().map(|i| format!("x{i}")).collect();
    if names.is_empty() {
        "1".to_string()
    } else {
        names.join("*")
    }
}
