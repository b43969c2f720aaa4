//! The stack that each call takes, held against what include/apfelruder.h states. No proof speaks of it, so it is
//! measured, on inputs that go deep: fixed ones, structured ones by chance, and what a short climb from the deepest finds.
use crate::call::Call;
use crate::families::deep::{self, Deep, Genes, GENES};
use crate::peer::Peer;
use crate::random::Random;

const HEADER: &str = include_str!("../../../include/apfelruder.h");

/// How many structured inputs by chance, climbs, and steps of each climb.
const BY_CHANCE: usize = 2_000;
const CLIMBS: usize = 4;
const STEPS: usize = 250;

/// The number behind #define and that name.
fn defined(header: &str, name: &str) -> Option<usize> {
    header.lines().find_map(|line| match line.split_whitespace().collect::<Vec<_>>()[..] {
        ["#define", word, number, ..] if word == name => number.parse().ok(),
        _ => None,
    })
}

/// The bytes that the header states for the call.
fn stated(call: Call) -> Result<usize, String> {
    let name = match call {
        Call::SameProducts => "APFELRUDER_SAME_PRODUCTS_STACK_BYTES",
        Call::ReadText => "APFELRUDER_READ_TEXT_STACK_BYTES",
        _ => "APFELRUDER_STACK_BYTES",
    };
    defined(HEADER, name).ok_or(format!("include/apfelruder.h does not define {name}"))
}

/// The deepest input so far.
struct Deepest<'a> {
    peer: &'a mut dyn Peer,
    bytes: usize,
    name: String,
}

impl Deepest<'_> {
    fn try_one(&mut self, input: Deep) -> Result<usize, String> {
        let (bytes, answer) = self.peer.stack(&input.request).map_err(|e| format!("{}: {e}", input.name))?;
        if answer[0] != 0 {
            return Err(format!("{} is refused with {}, so it measures nothing", input.name, answer[0]));
        }
        if bytes > self.bytes {
            (self.bytes, self.name) = (bytes, input.name);
        }
        Ok(bytes)
    }

    /// One number after another is changed; a change stays unless the call becomes less deep.
    fn climb(&mut self, call: Call, from: Genes, random: &mut Random) -> Result<(), String> {
        let mut here = (from, self.try_one(deep::structured(call, &from))?);
        for _ in 0..STEPS {
            let mut genes = here.0;
            genes[random.below(GENES)] = random.word();
            let bytes = self.try_one(deep::structured(call, &genes))?;
            if bytes >= here.1 {
                here = (genes, bytes);
            }
        }
        Ok(())
    }
}

fn deepest(peer: &mut dyn Peer, call: Call, seed: u64) -> Result<(usize, String), String> {
    let random = &mut Random::new(seed);
    let mut deepest = Deepest { peer, bytes: 0, name: String::new() };
    for input in deep::fixed(call, random) {
        deepest.try_one(input)?;
    }
    let mut found: Vec<(usize, Genes)> = Vec::new();
    for _ in 0..BY_CHANCE {
        let genes = [(); GENES].map(|()| random.word());
        found.push((deepest.try_one(deep::structured(call, &genes))?, genes));
    }
    found.sort_unstable_by_key(|(bytes, _)| std::cmp::Reverse(*bytes));
    for (_, genes) in found.into_iter().take(CLIMBS) {
        deepest.climb(call, genes, random)?;
    }
    Ok((deepest.bytes, deepest.name))
}

/// Prints the most stack that each call took, and on what. Whether all stayed within what the header states.
pub fn measure(peer: &mut dyn Peer, calls: &[Call], seed: u64) -> Result<bool, String> {
    let mut within = true;
    for &call in calls {
        let (bytes, name) = deepest(peer, call, seed)?;
        let most = stated(call)?;
        let said = if bytes > most { "STACK" } else { "stack" };
        println!("{said}: {} took {bytes} bytes, of {most} that include/apfelruder.h states; on {name}", call.name());
        within &= bytes <= most;
    }
    Ok(within)
}

#[cfg(test)]
mod tests {
    use super::{defined, stated};
    use crate::call::{Call, Slice};
    use crate::families::deep;
    use crate::random::Random;

    #[test]
    fn the_header_states_a_number_for_each_call() {
        for call in Call::ALL {
            assert!(stated(call).unwrap() >= 1024, "{}", call.name());
        }
        assert_eq!(defined("#define A_B 12\n#define A 3 /* bytes */\n", "A"), Some(3));
        assert_eq!(defined("#define AB 3\n", "A"), None);
    }

    /// Every board of what deploy is measured on has parts: a list in order, with room for it.
    #[test]
    fn boards_are_lists() {
        let random = &mut Random::new(4);
        let structured =
            (0..200).map(|_| deep::structured(Call::Deploy, &[(); deep::GENES].map(|()| random.word()))).collect();
        for input in [deep::fixed(Call::Deploy, &mut Random::new(5)), structured].concat() {
            let [Slice::Words(words), Slice::Words(lengths), lent @ ..] = &input.request.slices[..] else { panic!() };
            let mut rest = &words[..];
            for &length in lengths {
                let (list, behind) = rest.split_at(length as usize);
                assert!((1..=1024).contains(&list.len()) && list.windows(2).all(|two| two[0] < two[1]), "{list:?}");
                assert!(lent[3].len() >= 4 * list.len());
                rest = behind;
            }
            assert!(rest.is_empty());
            let boards = lengths.len();
            let room = [4 * boards, words.len() + 64 * boards, 64 * boards];
            assert_eq!(room, [0, 1, 2].map(|i: usize| lent[i].len()));
        }
    }

    /// Lists in order, not too long, and for multiply without a common variable.
    #[test]
    fn structured_inputs_are_lists() {
        let random = &mut Random::new(3);
        let calls = [
            (Call::Split, 1),
            (Call::Multiply, 2),
            (Call::SameProducts, 4),
            (Call::Write, 1),
            (Call::WriteText, 1),
            (Call::Audit, 1),
        ];
        for (call, inputs) in calls {
            for _ in 0..500 {
                let request = deep::structured(call, &[(); deep::GENES].map(|()| random.word())).request;
                let mut met = 0;
                for slice in &request.slices[..inputs] {
                    let Slice::Words(list) = slice else { panic!("no list") };
                    assert!((1..=1024).contains(&list.len()) && list.windows(2).all(|two| two[0] < two[1]), "{list:?}");
                    let variables = list.iter().fold(0, |all, t| all | t);
                    assert!(call != Call::Multiply || met & variables == 0);
                    met |= variables;
                }
            }
        }
    }
}
