//! What is printed: a difference with its input and what each side said, and the table of what was compared.
//! A panic is caught and reported like a difference.
use crate::call::{Call, Reply, Request, Slice};
use crate::run::{Family, CALLS};
use std::panic::{self, AssertUnwindSafe};
use std::sync::Mutex;

/// One side, and what it said: an answer and buffers, or why there is none.
pub struct Said {
    pub who: &'static str,
    pub what: Result<Reply, String>,
}

impl Said {
    pub fn by(who: &'static str, what: Result<Reply, String>) -> Said {
        Said { who, what }
    }
}

/// The text of the last panic.
static PANIC: Mutex<String> = Mutex::new(String::new());

/// Panics are kept for the report instead of being printed.
pub fn keep_panics() {
    panic::set_hook(Box::new(|info| {
        if let Ok(mut kept) = PANIC.lock() {
            *kept = info.to_string();
        }
    }));
}

/// What this makes, or the panic in which it ends.
pub fn caught<T>(make: impl FnOnce() -> Result<T, String>) -> Result<T, String> {
    match panic::catch_unwind(AssertUnwindSafe(make)) {
        Ok(made) => made,
        Err(_) => Err(PANIC.lock().map_or("panicked".to_string(), |kept| kept.clone())),
    }
}

pub fn difference(place: &str, request: &Request, said: &[Said]) -> ! {
    let names: Vec<&str> = said.iter().map(|s| s.who).collect();
    println!("DIFFERENCE in {place}, call {}: between {}", request.call.name(), names.join(" / "));
    match &request.pool {
        Some(pool) => println!("input: (the first slices are the parts {:?} of one piece of memory)", pool.parts),
        None => println!("input:"),
    }
    for slice in &request.slices {
        let skewed =
            matches!(slice, Slice::Bytes(_)).then(|| format!(" (at an address that leaves {} by 8)", request.skew));
        println!("  {}{}", shown(slice), skewed.unwrap_or_default());
    }
    for Said { who, what } in said {
        match what {
            Err(error) => println!("{who}: {error}"),
            Ok(reply) => show_reply(who, request, reply),
        }
    }
    std::process::exit(1)
}

fn show_reply(who: &str, request: &Request, reply: &Reply) {
    let [code, operand, place, count] = reply.answer;
    println!("{who}: code {code}, operand {operand}, place {place}, count {count}");
    for (i, (before, now)) in request.slices.iter().zip(&reply.slices).enumerate() {
        if now != before {
            println!("  slice {i} is then {}", shown(now));
        }
    }
}

/// A slice; of a very long one the beginning, the rest follows from seed and family.
fn shown(slice: &Slice) -> String {
    const MOST: usize = 1100;
    let more = slice.len().saturating_sub(MOST);
    let tail = if more > 0 { format!(" and {more} more") } else { String::new() };
    match slice {
        Slice::Words(words) => format!("{} words {:?}{tail}", words.len(), &words[..words.len() - more]),
        Slice::Bytes(bytes) => format!("{} bytes {:02x?}{tail}", bytes.len(), &bytes[..bytes.len() - more]),
    }
}

/// A case that could not be made, because of a panic.
pub fn no_case(place: &str, input: &str, panic: &str) -> ! {
    println!("DIFFERENCE in {place}: a case could not be made");
    println!("input: {input}");
    println!("the comparing program or the independent program: {panic}");
    std::process::exit(1)
}

pub fn table(families: &[Family]) {
    let names: String =
        Call::ALL.iter().map(|call| format!("{:>11}", call.name().trim_end_matches("_products"))).collect();
    println!("{:<46}{names}{:>10}{:>7}", "family", "accepted", "s");
    let mut sum = [0; CALLS];
    for f in families {
        if let Some(accepted) = (100 * f.accepted).checked_div(f.calls.iter().sum()) {
            row(f.name, f.calls, &format!("{accepted}%"), f.took.as_secs_f64());
        }
        for (all, one) in sum.iter_mut().zip(f.calls) {
            *all += one;
        }
    }
    row("all", sum, "", families.iter().map(|f| f.took.as_secs_f64()).sum());
}

fn row(name: &str, calls: [u64; CALLS], accepted: &str, seconds: f64) {
    let numbers: String = calls.iter().map(|made| format!("{made:>11}")).collect();
    println!("{name:<46}{numbers}{accepted:>10}{seconds:>7.1}");
}
