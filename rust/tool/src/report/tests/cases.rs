//! Audits whose answer and faults are known.
use crate::audit::{Audited, Fault, Part};
use crate::report::About;

pub fn about() -> About {
    About {
        approved_name: "approved.txt".to_string(),
        command: "apfelruder audit approved.txt loaded.txt".to_string(),
        tool_name: "apfelruder".to_string(),
        split: "apfelruder split approved.txt".to_string(),
        made: "2026-11-16 02:10 UTC".to_string(),
        tool: "1.0.0",
        library: "1.3",
        kit: "a kit",
        sources: "0123456789abcdef",
        machine: "x86_64",
    }
}

/// An audit of these lists. It is a yes exactly if no faults are named.
pub fn audited(approved: &[u64], given: &[&[u64]], parts: &[&[u64]], faults: Vec<Fault>) -> Audited {
    let named =
        |(k, terms): (usize, &&[u64])| Part { name: format!("loaded.txt, line {}", k + 2), terms: terms.to_vec() };
    Audited {
        approved: approved.to_vec(),
        given: given.iter().enumerate().map(named).collect(),
        parts: parts.iter().map(|terms| terms.to_vec()).collect(),
        yes: faults.is_empty(),
        faults,
    }
}

/// (x0+x1)(1+x2), which most cases damage.
pub const APPROVED: [u64; 4] = [1, 2, 5, 6];
pub const RIGHT: [&[u64]; 2] = [&[1, 2], &[0, 4]];

pub fn right() -> Audited {
    audited(&APPROVED, &RIGHT, &RIGHT, Vec::new())
}

pub fn damaged(given: &[&[u64]], faults: Vec<Fault>) -> Audited {
    audited(&APPROVED, given, &RIGHT, faults)
}

/// x2 in place of 1+x2: the product is x0*x2+x1*x2.
pub fn lost_constant() -> Audited {
    damaged(&[&[1, 2], &[4]], vec![Fault::Missing { shown: vec![1, 2], more: 0 }])
}

/// x0+x2 in place of x0+x1.
pub fn shared() -> Audited {
    let faults = vec![Fault::Shared { first: 0, second: 1, inputs: 4 }, Fault::NotCompared];
    damaged(&[&[1, 4], &[0, 4]], faults)
}

pub fn whole() -> Audited {
    damaged(&[&APPROVED], vec![Fault::Splits { part: 0, into: RIGHT.map(<[u64]>::to_vec).to_vec() }])
}

pub fn other_order() -> Audited {
    damaged(&[&[0, 4], &[1, 2]], vec![Fault::Order])
}

pub fn constants() -> Audited {
    let all = Fault::Missing { shown: APPROVED.to_vec(), more: 0 };
    let faults = vec![Fault::Constant { part: 1, one: true }, Fault::Constant { part: 3, one: false }, all];
    damaged(&[&[1, 2], &[0], &[0, 4], &[]], faults)
}

pub fn nothing_given() -> Audited {
    let missing = Fault::Missing { shown: APPROVED.to_vec(), more: 0 };
    damaged(&[], vec![missing, Fault::TooMany { shown: vec![0], more: Some(0) }])
}

pub fn constant_one() -> Audited {
    audited(&[0], &[], &[], Vec::new())
}

/// The product of all inputs; its parts are the inputs.
pub fn all_inputs() -> Audited {
    let parts: Vec<[u64; 1]> = (0..64).map(|i| [1 << i]).collect();
    let parts: Vec<&[u64]> = parts.iter().map(|part| &part[..]).collect();
    audited(&[u64::MAX], &parts, &parts, Vec::new())
}

/// (1+x0)(1+x1)..(1+x9): all 1,024 products of the ten inputs.
pub fn most_terms(given: &[&[u64]], faults: Vec<Fault>) -> Audited {
    let parts: Vec<[u64; 2]> = (0..10).map(|i| [0, 1 << i]).collect();
    let parts: Vec<&[u64]> = parts.iter().map(|part| &part[..]).collect();
    let approved: Vec<u64> = (0..1024).collect();
    audited(&approved, if given.is_empty() { &parts } else { given }, &parts, faults)
}

/// 64 parts, each of them all inputs.
pub fn all_shared() -> Audited {
    let mut faults = Vec::new();
    for first in 0..64 {
        faults.extend((first + 1..64).map(|second| Fault::Shared { first, second, inputs: u64::MAX }));
    }
    faults.push(Fault::NotCompared);
    let part: &[u64] = &[0, u64::MAX];
    audited(part, &[part; 64], &[part], faults)
}

pub fn samples() -> Vec<Audited> {
    vec![
        right(),
        lost_constant(),
        shared(),
        whole(),
        other_order(),
        constants(),
        nothing_given(),
        constant_one(),
        all_inputs(),
        most_terms(&[], Vec::new()),
        most_terms(&[&[0, 1]], vec![Fault::TooMany { shown: vec![], more: None }]),
        all_shared(),
    ]
}
