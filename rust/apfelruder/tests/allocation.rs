//! What the safe functions take from the heap: nothing to speak of for bad input, and not too much for good.
#![cfg(feature = "alloc")]
#![allow(unsafe_code)] // an allocator that counts
use std::alloc::{GlobalAlloc, Layout, System};
use std::cell::Cell;

struct Counting;

thread_local! {
    static TAKEN: Cell<usize> = const { Cell::new(0) };
}

// SAFETY: the system's allocator does the work; counting allocates nothing.
unsafe impl GlobalAlloc for Counting {
    unsafe fn alloc(&self, layout: Layout) -> *mut u8 {
        TAKEN.with(|taken| taken.set(taken.get() + layout.size()));
        // SAFETY: the caller's promise is handed on.
        unsafe { System.alloc(layout) }
    }

    unsafe fn dealloc(&self, memory: *mut u8, layout: Layout) {
        // SAFETY: the caller's promise is handed on.
        unsafe { System.dealloc(memory, layout) }
    }
}

#[global_allocator]
static COUNTING: Counting = Counting;

/// The bytes that a call takes, whether or not it gives them back.
fn taken<T>(call: impl FnOnce() -> T) -> (T, usize) {
    let before = TAKEN.with(Cell::get);
    let told = call();
    (told, TAKEN.with(Cell::get) - before)
}

#[test]
fn the_allocator_counts() {
    assert_eq!(taken(|| vec![0_u64; 1000]).1, 8000);
}

#[cfg(feature = "split")]
#[test]
fn split_of_a_long_list() {
    let long = vec![5; 1_000_000];
    let (told, bytes) = taken(|| apfelruder::split(&long));
    assert_eq!(told, Err(apfelruder::Refusal::TooMany { operand: 1 }));
    assert!(bytes <= 64 * 8, "{bytes} bytes");
    let all: Vec<u64> = (0..1024).collect();
    let (told, bytes) = taken(|| apfelruder::split(&all));
    assert_eq!(told.map(|parts| parts.len()), Ok(10));
    // the two buffers, the ten parts of two terms, the list of parts
    assert_eq!(bytes, (1088 + 4096 + 20) * 8 + 10 * size_of::<Vec<u64>>());
}

#[cfg(feature = "audit")]
#[test]
fn audit_of_long_lists() {
    let long = vec![5; 1_000_000];
    let (told, bytes) = taken(|| apfelruder::audit(&long, &[[1]]));
    assert_eq!(told, Err(apfelruder::Refusal::TooMany { operand: 1 }));
    assert!(bytes <= 65 * 8, "{bytes} bytes");
    // of lists that are too long no more is copied than shows it, and nothing if there are too many of them
    let (told, bytes) = taken(|| apfelruder::audit(&[1], &[&long, &long]));
    assert_eq!((told, bytes), (Err(apfelruder::Refusal::TooMany { operand: 2 }), (65 + 4 + 2 * 1025) * 8));
    let (told, bytes) = taken(|| apfelruder::audit(&[1], &[&long; 65]));
    assert_eq!((told, bytes), (Err(apfelruder::Refusal::TooMany { operand: 0 }), (65 + 4) * 8));
    let all: Vec<u64> = (0..1024).collect();
    let (told, bytes) = taken(|| apfelruder::audit(&all, &[&all]));
    assert_eq!(told.map(|told| (told.yes, told.parts.len())), Ok((false, 10)));
    // the given list, then as for split
    assert_eq!(bytes, (1024 + 1088 + 4096 + 20) * 8 + 10 * size_of::<Vec<u64>>());
}

#[cfg(feature = "deploy")]
#[test]
fn deploy_of_long_lists() {
    use apfelruder::{deploy, Board, Refusal};
    let long = vec![5; 1_000_000];
    // too many boards: nothing is copied and nothing is lent
    let (told, bytes) = taken(|| deploy(&[&long; 65]));
    assert_eq!((told, bytes), (Err(Refusal::TooMany { operand: 0 }), 0));
    // of boards that are too long no more is copied than shows it; four words of answer and 64 of lengths for each, no work area
    let (told, bytes) = taken(|| deploy(&[&long, &long]));
    assert_eq!(told, Ok(vec![Err(Refusal::TooMany { operand: 1 }); 2]));
    assert_eq!(bytes, 2 * ((1025 + 4 + 1089 + 64) * 8 + size_of::<Board>()));
    let all: Vec<u64> = (0..1024).collect();
    let (told, bytes) = taken(|| deploy(&vec![all.clone(); 64]));
    assert_eq!(told.map(|boards| boards.iter().flatten().map(Vec::len).sum::<usize>()), Ok(640));
    // the boards that were made here, the same one behind the other, answers, parts and lengths of all; the work area; for each
    // board its ten parts of two terms and their list
    let lent = (64 * (1024 + 1024 + 4 + 1088 + 64) + 4096) * 8;
    let parts = 64 * (10 * (size_of::<Vec<u64>>() + 2 * 8) + size_of::<Board>() + size_of::<Vec<u64>>());
    assert_eq!(bytes, lent + parts);
}

#[cfg(feature = "multiply")]
#[test]
fn multiply_of_long_lists() {
    let long = vec![5; 1_000_000];
    let (told, bytes) = taken(|| apfelruder::multiply(&long, &long));
    assert_eq!((told, bytes), (Err(apfelruder::Refusal::TooMany { operand: 1 }), 0));
    let many: Vec<u64> = (0..1024).collect();
    let (told, bytes) = taken(|| apfelruder::multiply(&many, &many));
    assert_eq!((told, bytes), (Err(apfelruder::Refusal::Shared), 0));
}

#[cfg(feature = "read")]
#[test]
fn read_of_many_bytes() {
    let (told, bytes) = taken(|| apfelruder::read(&[0x10, 0x1f, 0xff]));
    assert_eq!((told, bytes), (Err(apfelruder::Refusal::TooMany { operand: 1 }), 0));
    let (told, bytes) = taken(|| apfelruder::read(&[0x10, 0x00, 0x01]));
    assert_eq!((told, bytes), (Ok(vec![0]), 8));
}

#[cfg(feature = "read_text")]
#[test]
fn read_of_a_long_text() {
    let (told, bytes) = taken(|| apfelruder::read_text(&[b'1'; 1_000_000]));
    assert_eq!((told, bytes), (Err(apfelruder::Refusal::TooMany { operand: 1 }), 0));
    let (told, bytes) = taken(|| apfelruder::read_text(b"x0+1\n"));
    assert_eq!((told, bytes), (Ok(vec![0, 1]), 16));
}

#[cfg(feature = "write_text")]
#[test]
fn write_of_a_long_list_as_text() {
    let long = vec![5; 1_000_000];
    let (told, bytes) = taken(|| apfelruder::write_text(&long));
    assert_eq!((told, bytes), (Err(apfelruder::Refusal::TooMany { operand: 1 }), 0));
    // room for all 64 variables, and the two bytes of the text
    let (told, bytes) = taken(|| apfelruder::write_text(&[0]));
    assert_eq!((told.as_deref(), bytes), (Ok("1\n"), 246 + 2));
    let all: Vec<u64> = (0..1024).collect();
    let (told, bytes) = taken(|| apfelruder::write_text(&all));
    assert_eq!(told.map(|text| text.len() + 65536), Ok(bytes));
}

#[cfg(feature = "write")]
#[test]
fn write_of_a_long_list() {
    let long = vec![5; 1_000_000];
    let (told, bytes) = taken(|| apfelruder::write(&long));
    assert_eq!((told, bytes), (Err(apfelruder::Refusal::TooMany { operand: 1 }), 0));
    let (told, bytes) = taken(|| apfelruder::write(&[0]));
    assert_eq!((told, bytes), (Ok(vec![0x10, 0x00, 0x01]), 3));
}
