//! How much stack a call takes: it runs on a thread whose stack is memory of this program, painted before; what is no longer
//! painted afterwards was used.
use std::ffi::{c_int, c_void};
use std::ptr::{self, addr_of, addr_of_mut};

const PAINT: u64 = 0xa5a5_a5a5_a5a5_a5a5;

#[repr(C, align(4096))]
#[derive(Clone)]
struct Page([u64; 512]);

/// Half a megabyte.
const PAGES: usize = 128;

/// The attributes of a thread: 56 bytes on x86-64, 64 on aarch64.
#[repr(C, align(16))]
struct Attributes([u64; 16]);

extern "C" {
    fn pthread_attr_init(attributes: *mut Attributes) -> c_int;
    fn pthread_attr_setstack(attributes: *mut Attributes, lowest: *mut c_void, bytes: usize) -> c_int;
    fn pthread_attr_destroy(attributes: *mut Attributes) -> c_int;
    fn pthread_create(
        thread: *mut usize,
        attributes: *const Attributes,
        start: extern "C" fn(*mut c_void) -> *mut c_void,
        with: *mut c_void,
    ) -> c_int;
    fn pthread_join(thread: usize, result: *mut *mut c_void) -> c_int;
}

/// What the thread does, and where its stack stood when it began to.
struct Task<'a> {
    go: &'a mut dyn FnMut(),
    began: usize,
}

extern "C" fn run(task: *mut c_void) -> *mut c_void {
    // SAFETY: the task that was handed over; its owner waits for this thread.
    let task = unsafe { &mut *task.cast::<Task>() };
    let here = 0u8;
    task.began = std::hint::black_box(addr_of!(here)) as usize;
    (task.go)();
    ptr::null_mut()
}

pub struct Painted {
    pages: Vec<Page>,
}

impl Painted {
    pub fn new() -> Painted {
        Painted { pages: vec![Page([PAINT; 512]); PAGES] }
    }

    /// The bytes of stack that this takes, the few of the functions around it with them. An error if there was no thread, or
    /// if the stack was used up.
    pub fn bytes(&mut self, go: &mut dyn FnMut()) -> Result<usize, String> {
        let lowest: *mut u64 = self.pages.as_mut_ptr().cast();
        let words = 512 * PAGES;
        let mut task = Task { go, began: 0 };
        on_stack(lowest.cast(), 8 * words, &mut task)?;
        // SAFETY: the pages, which the thread has left.
        let word = |i: usize| unsafe { lowest.add(i) };
        let untouched = (0..words).take_while(|&i| unsafe { word(i).read_volatile() } == PAINT).count();
        for i in untouched..words {
            // SAFETY: as above.
            unsafe { word(i).write_volatile(PAINT) };
        }
        match untouched {
            0 => Err(format!("more than {} bytes of stack", 8 * words)),
            _ => Ok(task.began - word(untouched) as usize),
        }
    }
}

fn on_stack(lowest: *mut c_void, bytes: usize, task: &mut Task) -> Result<(), String> {
    let mut attributes = Attributes([0; 16]);
    let (mut thread, mut result) = (0, ptr::null_mut());
    // SAFETY: the attributes have room for what the C library keeps there; memory and task outlive the thread, which ends here.
    let status = unsafe {
        [
            pthread_attr_init(&mut attributes),
            pthread_attr_setstack(&mut attributes, lowest, bytes),
            pthread_create(&mut thread, &attributes, run, addr_of_mut!(*task).cast()),
        ]
    };
    if status != [0; 3] {
        return Err(format!("no thread on a painted stack: {status:?}"));
    }
    // SAFETY: the thread was created and is joined once.
    match unsafe { (pthread_join(thread, &mut result), pthread_attr_destroy(&mut attributes)) } {
        (0, _) => Ok(()),
        (error, _) => Err(format!("a thread on a painted stack did not end: {error}")),
    }
}

#[cfg(test)]
mod tests {
    use super::Painted;
    use std::hint::black_box;

    #[inline(never)]
    fn take<const N: usize>() {
        black_box(&mut [1u8; N]);
    }

    #[inline(never)]
    fn descend(depth: usize) -> usize {
        let room = black_box([depth; 32]);
        if depth == 0 {
            0
        } else {
            descend(depth - 1) + room[0]
        }
    }

    #[test]
    fn what_is_taken_is_seen() {
        let mut painted = Painted::new();
        for _ in 0..3 {
            let (none, some) = (painted.bytes(&mut || ()).unwrap(), painted.bytes(&mut take::<20_000>).unwrap());
            assert!(none < 1_000, "{none}");
            assert!((20_000..21_000).contains(&some), "{some}");
        }
    }

    #[test]
    fn every_level_counts() {
        let mut painted = Painted::new();
        let mut at = |depth| {
            painted
                .bytes(&mut || {
                    black_box(descend(black_box(depth)));
                })
                .unwrap()
        };
        let (one, many) = (at(1), at(101));
        assert!((many - one) % 100 == 0 && many - one >= 100 * 32 * 8, "{one} {many}");
    }
}
