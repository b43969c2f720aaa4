//! One comparison: every call goes to the library and to the independent program, and what comes back is held against
//! each other; the calls are counted by family.
use crate::call::{independently, Call, Expected, Request, Slice};
use crate::peer::Peer;
use crate::random::Random;
use crate::report::{self, Said};
use crate::stack;
use std::collections::BTreeSet;
use std::time::{Duration, Instant};

/// What the library is held against.
pub enum Oracle {
    /// The independent program.
    Independent,
    /// The way in which the input was made, or the rules' own words.
    Known(Expected),
    /// Both, which must agree.
    Both(Expected),
}

/// How many calls there are.
pub const CALLS: usize = Call::ALL.len();

pub struct Family {
    pub name: &'static str,
    pub calls: [u64; CALLS],
    pub accepted: u64,
    pub took: Duration,
}

/// A refusal: call, code and operand; and from deploy which board it is of, from 1, or 0 for the whole.
pub type Refusal = (Call, u64, u64, usize);

pub struct Run {
    peer: Box<dyn Peer>,
    calls: Vec<Call>,
    families: Vec<Family>,
    refusals: BTreeSet<Refusal>,
    began: Instant,
    made: usize,
    pub random: Random,
}

impl Run {
    pub fn new(peer: Box<dyn Peer>, calls: Vec<Call>, seed: u64) -> Run {
        let (families, refusals) = (Vec::new(), BTreeSet::new());
        Run { peer, calls, families, refusals, began: Instant::now(), made: 0, random: Random::new(seed) }
    }

    pub fn has(&self, call: Call) -> bool {
        self.calls.contains(&call)
    }

    /// What follows is counted under this name.
    pub fn family(&mut self, name: &'static str) {
        self.close();
        if !self.families.iter().any(|f| f.name == name) {
            self.families.push(Family { name, calls: [0; CALLS], accepted: 0, took: Duration::ZERO });
        }
        let at = self.families.iter().position(|f| f.name == name).unwrap();
        let family = self.families.remove(at);
        self.families.push(family);
    }

    fn close(&mut self) {
        if let Some(family) = self.families.last_mut() {
            family.took += self.began.elapsed();
        }
        self.began = Instant::now();
    }

    /// Where the comparison stands, for a report: the family, and how many calls were compared before.
    pub fn place(&self) -> String {
        format!("\"{}\", after {} calls", self.families.last().map_or("", |f| f.name), self.made)
    }

    /// Ends this program at the first difference.
    pub fn check(&mut self, mut request: Request, oracle: Oracle) {
        if !self.has(request.call) {
            return;
        }
        // Every remainder comes, whatever the rhythm of the calls.
        request.skew = (self.made * 7 + self.made / 8) % 8;
        let mut said = vec![Said::by("the library", report::caught(|| self.peer.make(&request)))];
        if !matches!(oracle, Oracle::Known(_)) {
            said.push(Said::by("the independent program", report::caught(|| Ok(independently(&request)))));
        }
        if let Oracle::Known(expected) | Oracle::Both(expected) = oracle {
            said.push(Said::by("how the input was made", report::caught(|| Ok(expected.reply(&request)))));
        }
        if said.iter().any(|s| s.what.is_err() || s.what != said[0].what) {
            report::difference(&self.place(), &request, &said);
        }
        self.count(&request, &said[0]);
    }

    fn count(&mut self, request: &Request, said: &Said) {
        let Ok(reply) = &said.what else { return };
        let answer = reply.answer;
        self.made += 1;
        let family = self.families.last_mut().expect("a family is open");
        family.calls[request.call as usize] += 1;
        family.accepted += (answer[0] == 0) as u64;
        if answer[0] != 0 {
            self.refusals.insert((request.call, answer[0], answer[1], 0));
        } else if let (Call::Deploy, [_, _, Slice::Words(boards), ..]) = (request.call, &reply.slices[..]) {
            let boards = boards.chunks_exact(4).take(answer[3] as usize).zip(1..);
            let refused = boards.filter(|(told, _)| told[0] != 0);
            self.refusals.extend(refused.map(|(told, board)| (request.call, told[0], told[1], board)));
        }
    }

    /// Prints the stack that each call takes; whether it is what the header states or less.
    pub fn measure_stack(&mut self, seed: u64) -> Result<bool, String> {
        stack::measure(&mut *self.peer, &self.calls, seed)
    }

    /// What the independent program makes of a list, for the making of a case. A panic is a difference.
    pub fn asked<T>(&self, what: &str, list: &[u64], ask: impl FnOnce(&[u64]) -> T) -> T {
        match report::caught(|| Ok(ask(list))) {
            Ok(made) => made,
            Err(panic) => report::no_case(&self.place(), &format!("{what} of {list:?}"), &panic),
        }
    }

    /// Prints what was compared. An error names refusals of RULES 5.3, 12.4 and 15.3 that no call was given.
    pub fn report(&mut self) -> Result<(), String> {
        self.close();
        report::table(&self.families);
        let missing: Vec<String> = refusals()
            .filter(|refusal| self.has(refusal.0) && !self.refusals.contains(refusal))
            .map(|(call, code, operand, board)| {
                let of = if board > 0 { format!(" of board {board}") } else { String::new() };
                format!("{} {code} operand {operand}{of}", call.name())
            })
            .collect();
        if !missing.is_empty() {
            return Err(format!("no call was refused with: {}", missing.join(", ")));
        }
        println!("compared {} calls, {} kinds of refusal among them, no difference", self.made, self.refusals.len());
        Ok(())
    }
}

/// Every refusal that RULES 5.3, 12.4 and 15.3 have; those of a board for each of the 64 boards.
fn refusals() -> impl Iterator<Item = Refusal> {
    let one = |call: Call, codes: &'static [u64]| codes.iter().map(move |&code| (call, code, 1, 0));
    let none = |call: Call, codes: &'static [u64]| codes.iter().map(move |&code| (call, code, 0, 0));
    let lists = |call: Call, n: u64| (1..=n).flat_map(move |operand| [(call, 2, operand, 0), (call, 3, operand, 0)]);
    let board = |board: usize| [1, 2, 3, 6, 7].map(|code| (Call::Deploy, code, 1, board));
    one(Call::Split, &[1, 2, 3, 6, 7])
        .chain(lists(Call::Multiply, 2))
        .chain(none(Call::Multiply, &[4, 5, 6]))
        .chain(lists(Call::SameProducts, 4))
        .chain(one(Call::Read, &[2, 3, 6, 8, 9, 10, 11, 12, 13]))
        .chain(one(Call::Write, &[2, 3, 6]))
        .chain(one(Call::ReadText, &[2, 6, 14, 15]))
        .chain(one(Call::WriteText, &[2, 3, 5, 6]))
        .chain(none(Call::Audit, &[2, 10, 12]))
        .chain(lists(Call::Audit, 65))
        .chain(one(Call::Audit, &[1, 6, 7]))
        .chain(none(Call::Deploy, &[2, 6, 10, 12]))
        .chain((1..=64).flat_map(board))
}
