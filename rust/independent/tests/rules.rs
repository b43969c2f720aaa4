//! The independent program against itself: examples of RULES 6 and 7, and split by the definition of splitting, trying all sets.
use independent::{parts_by_counting, parts_of, printed_split, read, same_products, write};

#[test]
fn the_printed_example() {
    assert_eq!(printed_split(&[0x10, 0x60, 0x04, 0x2a, 0xe0]), "parts 2\nx0+x1\n1+x2\n");
    assert_eq!(printed_split(&[0x10, 0x00, 0x00]), "refused 1 1 0\n");
    assert_eq!(printed_split(&[0x10, 0x00, 0x01]), "parts 0\n");
    assert_eq!(printed_split(&[0x10, 0x00, 0x02]), "refused 3 1 1\n");
    assert_eq!(printed_split(&[]), "refused 10 1 0\n");
}

#[test]
fn all_lists_over_three_variables() {
    for chosen in 1u64..1 << 8 {
        let list: Vec<u64> = (0..8).filter(|i| chosen >> i & 1 == 1).collect();
        assert_eq!(parts_of(&list), parts_by_counting(&list));
    }
}

#[test]
fn lists_over_eight_variables() {
    let mut state = 7u64;
    for _ in 0..2000 {
        let mut list: Vec<u64> = Vec::new();
        for _ in 0..1 + state % 9 {
            state = state.wrapping_mul(6364136223846793005).wrapping_add(1442695040888963407);
            list.push(state >> 56);
        }
        list.sort_unstable();
        list.dedup();
        assert_eq!(parts_of(&list), parts_by_counting(&list));
    }
}

#[test]
fn the_papers_are_corrected() {
    assert_eq!(same_products(&[1], &[1], &[1], &[0]).count, 0);
    assert_eq!(same_products(&[0, 1], &[0, 2], &[0, 1], &[0]).count, 0);
    assert_eq!(same_products(&[0, 1], &[0], &[0], &[0, 1]).count, 1);
}

#[test]
fn a_block_of_the_greatest_length() {
    let list: Vec<u64> = (0..1024).map(|i| u64::MAX - 3 * (1023 - i)).collect();
    let mut block = vec![0; 8195];
    assert_eq!(write(&list, &mut block).count, 8195);
    let mut again = vec![0; 1024];
    assert_eq!(read(&block, &mut again).count, 1024);
    assert_eq!(again, list);
}
