//! The printed split of standard input, by the independent program.
use std::io::{self, Read};

fn main() -> io::Result<()> {
    let mut input = Vec::new();
    io::stdin().lock().take(8196).read_to_end(&mut input)?;
    print!("{}", independent::printed_split(&input));
    Ok(())
}
