//! Compares the proved library with the independent program, through the C boundary.
//!
//!     compare [--bridge COMMAND ..]                fixed seeds, a few minutes
//!     compare --seed N --seconds S [--bridge ..]   random lists, products, blocks and refusals for so long
//!     compare --stack [--bridge ..]                only the stack that the calls take
//!     compare --calls read,write ..                only these calls
//!     compare --share 8 ..                         of the fixed run, an eighth of what is made by chance
//!     compare --program COMMAND ..                 the printed split of a program
//!
//! Without --bridge the archive must have been linked in (feature "linked"). --bridge and --program take the rest of the
//! line. Prints what was compared. Ends with 0 if there was no difference, with 1 at the first difference (what is
//! printed then begins with DIFFERENCE), with 2 if nothing or not all could be compared: wrong usage, no bridge, no program,
//! with 3 if a call took more stack than include/apfelruder.h states. The run by time does not measure the stack.
mod arena;
mod call;
mod families;
#[cfg(any(test, feature = "linked"))]
mod painted;
mod peer;
mod printed;
mod random;
mod report;
mod run;
mod stack;

use call::Call;
use families::{audit_refusals, audits, blocks, deploy_refusals, deployments, examples, kinds, lengths, lists};
use families::{quadruples, refusals, shared, sizes, small, texts, written};
use peer::{Bridge, Peer};
use random::Random;
use run::Run;
use std::time::{Duration, Instant};

struct Wishes {
    seed: Option<u64>,
    seconds: Option<u64>,
    calls: Vec<Call>,
    share: usize,
    stack_alone: bool,
    bridge: Vec<String>,
    program: Vec<String>,
}

fn wishes() -> Result<Wishes, String> {
    let mut wishes = Wishes {
        seed: None,
        seconds: None,
        calls: Call::ALL.to_vec(),
        share: 1,
        stack_alone: false,
        bridge: vec![],
        program: vec![],
    };
    let mut words = std::env::args().skip(1);
    while let Some(word) = words.next() {
        match word.as_str() {
            "--bridge" => wishes.bridge = words.by_ref().collect(),
            "--program" => wishes.program = words.by_ref().collect(),
            "--stack" => wishes.stack_alone = true,
            "--seed" => wishes.seed = Some(number(words.next())?),
            "--seconds" => wishes.seconds = Some(number(words.next())?),
            "--calls" => wishes.calls = calls(&words.next().unwrap_or_default())?,
            "--share" => wishes.share = number(words.next())?.clamp(1, 100) as usize,
            _ => return Err(format!("unknown word {word}; see the head of compare/src/main.rs")),
        }
    }
    Ok(wishes)
}

fn number(word: Option<String>) -> Result<u64, String> {
    let word = word.unwrap_or_default();
    word.parse().map_err(|_| format!("not a number: \"{word}\""))
}

fn calls(names: &str) -> Result<Vec<Call>, String> {
    names
        .split(',')
        .map(|name| Call::ALL.into_iter().find(|c| c.name() == name).ok_or(format!("no such call: \"{name}\"")))
        .collect()
}

#[cfg(feature = "linked")]
fn linked() -> Result<Box<dyn Peer>, String> {
    Ok(Box::new(peer::Linked::new()))
}

#[cfg(not(feature = "linked"))]
fn linked() -> Result<Box<dyn Peer>, String> {
    Err("no archive is linked in: build with the feature \"linked\", or name a --bridge".to_string())
}

fn main() {
    report::keep_panics();
    if let Err(error) = start() {
        eprintln!("compare: {error}");
        std::process::exit(2);
    }
}

fn start() -> Result<(), String> {
    let wishes = wishes()?;
    if !wishes.program.is_empty() {
        return printed::compare(&wishes.program, wishes.seed.unwrap_or(1));
    }
    let peer: Box<dyn Peer> = match wishes.bridge.is_empty() {
        true => linked()?,
        false => Box::new(Bridge::start(&wishes.bridge).map_err(|e| format!("the bridge does not start: {e}"))?),
    };
    let names: Vec<&str> = wishes.calls.iter().map(|c| c.name()).collect();
    let seed = wishes.seed.unwrap_or(1);
    let share =
        if wishes.share > 1 { format!("; of what is made by chance 1 in {}", wishes.share) } else { String::new() };
    println!("calls: {}; seed {seed}{share}", names.join(", "));
    let mut run = Run::new(peer, wishes.calls, seed);
    if !wishes.stack_alone {
        compare(&mut run, wishes.seconds, wishes.share, seed)?;
    }
    if wishes.seconds.is_none() && !run.measure_stack(seed)? {
        println!("a call took more stack than include/apfelruder.h states");
        std::process::exit(3);
    }
    Ok(())
}

fn compare(run: &mut Run, seconds: Option<u64>, share: usize, seed: u64) -> Result<(), String> {
    let ended = report::caught(|| {
        match seconds {
            None => fixed(run, share, seed),
            Some(seconds) => for_a_while(run, Duration::from_secs(seconds)),
        }
        Ok(())
    });
    if let Err(panic) = ended {
        report::no_case(&run.place(), &format!("the next case of this family by seed {seed}"), &panic);
    }
    run.report()
}

/// The run of the gate. Of what is made by chance, and of blocks and texts with every bit or byte changed, only a share if that
/// is wanted; the families are the same.
fn fixed(run: &mut Run, share: usize, seed: u64) {
    if Call::ALL.into_iter().any(|call| !matches!(call, Call::Audit | Call::Deploy) && run.has(call)) {
        fixed_others(run, share);
    }
    // from a seed of their own, so that they are the same if nothing else is made before
    run.random = Random::new(!seed);
    audits::all(run);
    audits::random(run, 6_000 / share);
    audits::long(run, 40);
    audits::cube(run);
    audit_refusals::all(run);
    audit_refusals::random(run, 10_000 / share);
    run.random = Random::new(seed.rotate_left(32) ^ u64::MAX >> 1);
    deployments::all(run);
    deploy_refusals::all(run);
    deployments::large(run);
    deployments::random(run, 10_000 / share);
    deploy_refusals::random(run, 10_000 / share);
}

fn fixed_others(run: &mut Run, share: usize) {
    examples::all(run);
    refusals::all(run);
    refusals::random(run, 20_000 / share);
    kinds::all(run);
    small::all(run);
    lengths::all(run);
    shared::all(run, 10_000 / share);
    sizes::all(run);
    blocks::random(run, 20_000 / share);
    blocks::damaged(run, 300 / share, share == 1);
    blocks::noise(run, 60_000 / share);
    lists::exhaustive(run);
    run.family("products with known factors, to 64 terms");
    lists::products(run, 120_000 / share, 64, 1);
    run.family("products with known factors, to 256 terms");
    lists::products(run, 3_000 / share, 256, 1);
    run.family("products with known factors, to 1,024 terms");
    lists::products(run, 6_000 / share, 1024, 40);
    lists::long(run, share);
    random_lists(run, share);
    quadruples::exhaustive(run);
    random_quadruples(run, share);
    quadruples::long(run);
    texts::all(run, share);
    texts::random(run, 20_000 / share);
    written::all(run);
    written::random(run, 10_000 / share);
}

fn random_lists(run: &mut Run, share: usize) {
    run.family("near-products, to 64 terms");
    lists::near_products(run, 40_000 / share, 64);
    run.family("near-products, to 300 terms");
    lists::near_products(run, 1_500 / share, 300);
    run.family("any lists, few variables");
    lists::random(run, 40_000 / share, 40, &[3, 4, 5, 6, 8]);
    run.family("any lists, many variables");
    lists::random(run, 10_000 / share, 40, &[12, 24, 64]);
    run.family("dense lists, to 256 terms");
    lists::dense(run, 3_000 / share);
    run.family("any lists, to 1,024 terms");
    lists::random(run, (20 / share).max(1), 1024, &[11, 20, 64]);
}

fn random_quadruples(run: &mut Run, share: usize) {
    run.family("same: equal by construction");
    quadruples::equal(run, 40_000 / share, 8, 4, true);
    quadruples::equal(run, 4_000 / share, 24, 12, true);
    quadruples::equal(run, 1_000 / share, 64, 32, false);
    run.family("same: one term changed");
    quadruples::nearly_equal(run, 40_000 / share, 8, 4, true);
    quadruples::nearly_equal(run, 4_000 / share, 24, 12, true);
    quadruples::nearly_equal(run, 1_000 / share, 64, 32, false);
    run.family("same: any lists");
    quadruples::random(run, 100_000 / share, 3, 4);
    quadruples::random(run, 20_000 / share, 6, 10);
}

/// The run by hand.
fn for_a_while(run: &mut Run, time: Duration) {
    let end = Instant::now() + time;
    refusals::all(run);
    texts::refusals(run);
    written::refusals(run);
    audit_refusals::refusals(run);
    deploy_refusals::refusals(run);
    while Instant::now() < end {
        refusals::random(run, 2_000);
        shared::all(run, 500);
        run.family("products with known factors, to 64 terms");
        lists::products(run, 2_000, 64, 1);
        run.family("products with known factors, to 1,024 terms");
        lists::products(run, 200, 1024, 40);
        random_lists(run, 50);
        random_quadruples(run, 50);
        blocks::random(run, 500);
        blocks::damaged(run, 10, false);
        blocks::noise(run, 1_000);
        texts::random(run, 500);
        texts::damaged(run, 5, false);
        written::random(run, 300);
        audits::random(run, 100);
        audits::long(run, 1);
        audit_refusals::random(run, 200);
        deployments::random(run, 200);
        deploy_refusals::random(run, 200);
    }
}
