//! The calls against each other: what write packs read unpacks, what is written as text reads as the list, the parts of a
//! list multiply to it, an audit finds that they are the parts, and a deployment gives each board the parts that it has alone.
#![cfg(all(feature = "alloc", feature = "split", feature = "multiply", feature = "read", feature = "write"))]
#![cfg(all(feature = "read_text", feature = "write_text", feature = "audit", feature = "deploy"))]
use apfelruder::{audit, deploy, multiply, read, read_text, split, write, write_text, Refusal, MAX_BOARDS};

/// Lists of all shapes: constants, one term, many variables, the limits.
fn lists() -> Vec<Vec<u64>> {
    let mut lists: Vec<Vec<u64>> = vec![
        vec![0],
        vec![u64::MAX],
        vec![0, u64::MAX],
        vec![1, 2, 5, 6],
        vec![6, 7, 12, 13],
        vec![4, 7, 12, 15, 16, 19],
        vec![0, 1 << 63],
        (0..1024).collect(),
        (0..1024).map(|i| i << 54).collect(),
        (0..1024).map(|i| (1 << 63) + i).collect(),
    ];
    // every list over x0, x1, x2 but zero
    lists.extend((1..256).map(|which: u32| (0..8).filter(|&term| which >> term & 1 == 1).collect::<Vec<u64>>()));
    lists
}

#[test]
fn written_and_read() {
    for list in lists().into_iter().chain([vec![]]) {
        let block = write(&list).unwrap();
        assert_eq!(read(&block), Ok(list));
    }
}

#[test]
fn written_and_read_as_text() {
    for list in lists().into_iter().chain([vec![]]) {
        let text = write_text(&list).unwrap();
        assert_eq!(read_text(text.as_bytes()), Ok(list));
    }
}

#[test]
fn split_and_multiplied() {
    for list in lists() {
        let parts = split(&list).unwrap();
        let product = parts.iter().fold(vec![0], |product, part| multiply(&product, part).unwrap());
        assert_eq!(product, list);
        assert_eq!(parts.iter().map(Vec::len).product::<usize>(), list.len());
        for part in &parts {
            assert_eq!(split(part), Ok(vec![part.clone()]));
        }
    }
}

#[test]
fn split_and_audited() {
    for list in lists() {
        let parts = split(&list).unwrap();
        let told = audit(&list, &parts).unwrap();
        assert!(told.yes, "{list:?}");
        assert_eq!(told.parts, parts);
        // the whole in one piece is right if it is the one part
        let whole = audit(&list, &[&list]).unwrap();
        assert_eq!(whole.yes, parts.len() == 1, "{list:?}");
        assert_eq!(whole.parts, parts);
    }
}

#[test]
fn split_and_deployed() {
    let mut lists = lists();
    // some that are refused, between the others
    for (at, list) in [(0, vec![]), (3, vec![2, 1]), (70, vec![5; 1025]), (71, vec![]), (200, vec![0, 1, 1])] {
        lists.insert(at, list);
    }
    for many in [1, 2, 5, 63, MAX_BOARDS] {
        for boards in lists.chunks(many) {
            let alone: Vec<_> = boards.iter().map(|board| split(board)).collect();
            assert_eq!(deploy(boards), Ok(alone));
        }
    }
    assert_eq!(deploy(&lists[..MAX_BOARDS + 1]), Err(Refusal::TooMany { operand: 0 }));
}
