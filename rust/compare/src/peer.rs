//! The library that is compared: linked into this program, or behind a bridge (bridge/bridge.c), a program of its own
//! that has the archive and is spoken to through pipes.
use crate::arena::Arena;
use crate::call::{Reply, Request};
use std::io::{self, BufReader, BufWriter, Read, Write};
use std::process::{Child, ChildStdin, ChildStdout, Command, Stdio};

/// What is added to the number of a call that the bridge is to measure: more than there are calls.
const MEASURED: usize = 16;

pub trait Peer {
    /// Makes the call in this memory and gives the four numbers. An error says that the library is gone.
    fn call(&mut self, request: &Request, arena: &mut Arena) -> Result<[u64; 4], String>;

    /// Makes the call in this memory and gives the bytes of stack that it took, with the four numbers.
    fn measured(&mut self, request: &Request, arena: &mut Arena) -> Result<(usize, [u64; 4]), String>;

    /// The bytes of stack that the call takes, with the four numbers.
    fn stack(&mut self, request: &Request) -> Result<(usize, [u64; 4]), String> {
        self.measured(request, &mut Arena::of(request))
    }

    /// Makes the call. An error says that memory around the slices was touched, or that the library is gone.
    fn make(&mut self, request: &Request) -> Result<Reply, String> {
        let mut arena = Arena::of(request);
        let answer = self.call(request, &mut arena)?;
        arena.reply(request, answer)
    }
}

pub struct Bridge {
    child: Child,
    to: BufWriter<ChildStdin>,
    from: BufReader<ChildStdout>,
}

impl Bridge {
    pub fn start(command: &[String]) -> io::Result<Bridge> {
        let mut child =
            Command::new(&command[0]).args(&command[1..]).stdin(Stdio::piped()).stdout(Stdio::piped()).spawn()?;
        let to = BufWriter::with_capacity(1 << 16, child.stdin.take().unwrap());
        let from = BufReader::with_capacity(1 << 16, child.stdout.take().unwrap());
        Ok(Bridge { child, to, from })
    }

    fn word(&mut self, word: usize) -> io::Result<()> {
        self.to.write_all(&(word as u64).to_ne_bytes())
    }

    fn send(&mut self, number: usize, request: &Request, arena: &Arena) -> io::Result<()> {
        self.word(number)?;
        for (slice, &start) in request.slices.iter().zip(&arena.starts) {
            self.word(start)?;
            self.word(slice.len())?;
        }
        self.word(arena.words.len())?;
        self.to.write_all(arena.bytes())?;
        self.to.flush()
    }

    fn number(&mut self) -> io::Result<u64> {
        let mut bytes = [0; 8];
        self.from.read_exact(&mut bytes)?;
        Ok(u64::from_ne_bytes(bytes))
    }

    fn receive(&mut self, arena: &mut Arena) -> io::Result<[u64; 4]> {
        let mut answer = [0; 4];
        for number in &mut answer {
            *number = self.number()?;
        }
        self.from.read_exact(arena.bytes_mut())?;
        Ok(answer)
    }

    fn ask(&mut self, request: &Request, arena: &mut Arena) -> io::Result<[u64; 4]> {
        self.send(request.call as usize, request, arena)?;
        self.receive(arena)
    }

    /// The bridge measures if the number of the call is raised, and says the bytes first.
    fn ask_measured(&mut self, request: &Request, arena: &mut Arena) -> io::Result<(usize, [u64; 4])> {
        self.send(request.call as usize + MEASURED, request, arena)?;
        Ok((self.number()? as usize, self.receive(arena)?))
    }
}

fn gone(error: io::Error) -> String {
    format!("no answer from the bridge: {error}")
}

impl Peer for Bridge {
    fn call(&mut self, request: &Request, arena: &mut Arena) -> Result<[u64; 4], String> {
        self.ask(request, arena).map_err(gone)
    }

    fn measured(&mut self, request: &Request, arena: &mut Arena) -> Result<(usize, [u64; 4]), String> {
        self.ask_measured(request, arena).map_err(gone)
    }
}

impl Drop for Bridge {
    fn drop(&mut self) {
        let _ = self.child.kill();
        let _ = self.child.wait();
    }
}

#[cfg(feature = "linked")]
pub use linked::Linked;

#[cfg(feature = "linked")]
mod linked {
    use super::Peer;
    use crate::arena::Arena;
    use crate::call::{Call, Request};
    use crate::painted::Painted;
    use apfelruder::raw::Answer;

    pub struct Linked {
        stack: Painted,
    }

    impl Linked {
        pub fn new() -> Linked {
            Linked { stack: Painted::new() }
        }
    }

    impl Peer for Linked {
        fn call(&mut self, request: &Request, arena: &mut Arena) -> Result<[u64; 4], String> {
            let row = Row { base: arena.words.as_mut_ptr(), starts: &arena.starts, request };
            numbers(call(request.call, &row))
        }

        fn measured(&mut self, request: &Request, arena: &mut Arena) -> Result<(usize, [u64; 4]), String> {
            let row = Row { base: arena.words.as_mut_ptr(), starts: &arena.starts, request };
            let mut answer = None;
            let bytes = self.stack.bytes(&mut || answer = call(request.call, &row))?;
            Ok((bytes, numbers(answer)?))
        }
    }

    fn numbers(answer: Option<Answer>) -> Result<[u64; 4], String> {
        let answer = answer.ok_or("this program was built without the call")?;
        Ok([answer.code, answer.operand, answer.place, answer.count])
    }

    /// The slices of a call in its memory.
    struct Row<'a> {
        base: *mut u64,
        starts: &'a [usize],
        request: &'a Request,
    }

    #[allow(dead_code)]
    impl Row<'_> {
        fn lent<T>(&self, i: usize) -> &[T] {
            // SAFETY: the arena has room for the slice at its start, and outlives the call; words start at whole words.
            unsafe {
                std::slice::from_raw_parts(self.base.byte_add(self.starts[i]).cast(), self.request.slices[i].len())
            }
        }

        #[allow(clippy::mut_from_ref)]
        fn out<T>(&self, i: usize) -> &mut [T] {
            // SAFETY: as for lent; outputs overlap no other slice, and each is taken once a call.
            unsafe {
                std::slice::from_raw_parts_mut(self.base.byte_add(self.starts[i]).cast(), self.request.slices[i].len())
            }
        }
    }

    #[allow(unused_variables)]
    fn call(call: Call, row: &Row) -> Option<Answer> {
        #[allow(unused_imports)]
        use apfelruder::raw;
        match call {
            #[cfg(feature = "split")]
            Call::Split => Some(raw::split(row.lent(0), row.out(1), row.out(2), row.out(3))),
            #[cfg(feature = "multiply")]
            Call::Multiply => Some(raw::multiply(row.lent(0), row.lent(1), row.out(2))),
            #[cfg(feature = "same_products")]
            Call::SameProducts => Some(raw::same_products(row.lent(0), row.lent(1), row.lent(2), row.lent(3))),
            #[cfg(feature = "read")]
            Call::Read => Some(raw::read(row.lent(0), row.out(1))),
            #[cfg(feature = "write")]
            Call::Write => Some(raw::write(row.lent(0), row.out(1))),
            #[cfg(feature = "read_text")]
            Call::ReadText => Some(raw::read_text(row.lent(0), row.out(1))),
            #[cfg(feature = "write_text")]
            Call::WriteText => Some(raw::write_text(row.lent(0), row.out(1))),
            #[cfg(feature = "audit")]
            Call::Audit => Some(raw::audit(row.lent(0), row.lent(1), row.lent(2), row.out(3), row.out(4), row.out(5))),
            #[cfg(feature = "deploy")]
            Call::Deploy => Some(raw::deploy(row.lent(0), row.lent(1), row.out(2), row.out(3), row.out(4), row.out(5))),
            #[allow(unreachable_patterns)]
            _ => None,
        }
    }
}
