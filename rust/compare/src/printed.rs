//! The program `split` against the independent program: what both print for the same standard input.
use crate::families::{block_of, product, steps};
use crate::random::Random;
use crate::report;
use std::io::Write;
use std::process::{Command, Stdio};

pub fn compare(command: &[String], seed: u64) -> Result<(), String> {
    let inputs = report::caught(|| Ok(inputs(&mut Random::new(seed))))
        .unwrap_or_else(|panic| report::no_case("the printed split", &format!("the inputs by seed {seed}"), &panic));
    let mut accepted = 0;
    for (i, input) in inputs.iter().enumerate() {
        let library = printed_by(command, input, [usize::MAX, 1000, 1][i % 3])?;
        let independent = report::caught(|| Ok(independent::printed_split(input)));
        if library != independent {
            println!("DIFFERENCE in the printed split: between the program / the independent program");
            println!("input: {} bytes {input:02x?}", input.len());
            println!("the program: {library:?}\nthe independent program: {independent:?}");
            std::process::exit(1);
        }
        accepted += library.is_ok_and(|text| text.starts_with("parts")) as usize;
    }
    println!("compared {} printed splits ({accepted} accepted), no difference", inputs.len());
    Ok(())
}

/// What the program prints; as an inner error that it ended badly. The input comes in pieces of so many bytes.
fn printed_by(command: &[String], input: &[u8], piece: usize) -> Result<Result<String, String>, String> {
    let failed = |e: std::io::Error| format!("the program does not run: {e}");
    let mut child = Command::new(&command[0])
        .args(&command[1..])
        .stdin(Stdio::piped())
        .stdout(Stdio::piped())
        .spawn()
        .map_err(failed)?;
    let mut to = child.stdin.take().unwrap();
    for part in input.chunks(piece.max(input.len() / 16).max(1)) {
        // A program that has read enough may leave before all is written.
        if to.write_all(part).is_err() {
            break;
        }
    }
    drop(to);
    let ended = child.wait_with_output().map_err(failed)?;
    let text = String::from_utf8_lossy(&ended.stdout).into_owned();
    Ok(if ended.status.success() { Ok(text) } else { Err(format!("{}, after printing {text:?}", ended.status)) })
}

fn inputs(random: &mut Random) -> Vec<Vec<u8>> {
    let mut inputs = refused();
    let mut lists = vec![vec![], vec![0], vec![u64::MAX], vec![0, u64::MAX], (0..1024).collect(), (0..1023).collect()];
    lists.push(random.exact_list(u64::MAX, 1024));
    lists.extend((0..64).map(|i| vec![0, 1 << i]));
    for _ in 0..80 {
        let vars = random.subset(u64::MAX, 5);
        let left = random.list(vars, 6, 0);
        let others = random.word() & !vars;
        let right = random.list(others, 7, 0);
        lists.push(product(&left, &right));
    }
    for list in lists {
        let mut block = block_of(&list);
        inputs.push(block.clone());
        if random.chance(4) {
            let at = random.below(block.len());
            block[at] ^= 1 << random.below(8);
            inputs.push(block);
        }
    }
    let mut longest = block_of(&random.exact_list(u64::MAX, 1024));
    for size in [8195, 8196, 8197, 8700, 1 << 14, (1 << 16) + 3] {
        longest.resize(size, 0);
        inputs.push(longest.clone());
    }
    inputs
}

/// Every refusal; Order at places of one to four digits.
fn refused() -> Vec<Vec<u8>> {
    let mut inputs = vec![
        vec![],
        vec![0x10],
        vec![0x10, 0x00],
        vec![0x10, 0x00, 0x00],
        vec![0x20, 0x00, 0x01],
        vec![0x10, 0x60, 0x04, 0x2a, 0xe0],
        vec![0x10, 0x60, 0x04, 0x2a, 0xe1],
        vec![0x10, 0x60, 0x04, 0x2a],
        vec![0x10, 0x60, 0x04, 0x2a, 0xe0, 0x00],
        vec![0x10, 0x20, 0x01, 0x00],
        vec![0x18, 0x20, 0x00],
        vec![0x10, 0x04, 0x01],
        vec![0x10; 9000],
    ];
    for place in [1, 9, 10, 99, 100, 999, 1000, 1023] {
        let mut list = steps(1024);
        list[place] = list[place - 1];
        inputs.push(block_of(&list));
    }
    inputs
}
