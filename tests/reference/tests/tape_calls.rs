//! The two calls that compare tapes: what they answer, and what they put into a list of numbers.

use reference::engine::{Engine, Reference};
use reference::tape_edges::ALONE;

const OWN: &str = "(1 wrote)\n(1 went 0 -9 1)\n(1 wrote)\n(1 marked 2 -9 1)\n(1 wrote)\n(1 decided 0 -9 1)\n";

/// What the two calls answer, and what their lists hold then.
fn called(sheet: &str, first: &str, second: &str, room: usize) -> [(u8, Vec<u64>); 2] {
    let [mut sheet, mut first, mut second] = [sheet, first, second].map(|text| text.as_bytes().to_vec());
    let [mut found, mut part] = [(); 2].map(|()| vec![77; room]);
    let by_number = Reference.compare(&mut sheet, &mut first, &mut second, &mut found);
    let by_part = Reference.culprit(&mut sheet, &mut first, &mut second, &mut part);
    [(by_number, found), (by_part, part)]
}

/// The calls put two numbers into a list that has room for them, and alter nothing else.
#[test]
fn the_calls() {
    let wrong = "(1 wrote)\n(1 read 1)";
    for sheet in [ALONE.to_string(), "\n".repeat(32_769)] {
        assert_eq!(called(&sheet, OWN, wrong, 0), [(255, vec![]), (255, vec![])]);
        assert_eq!(called(&sheet, OWN, wrong, 1), [(255, vec![77]), (255, vec![77])]);
        assert_eq!(called(&sheet, "", "\n", 1), [(255, vec![77]), (255, vec![77])]);
    }
    assert_eq!(called(ALONE, OWN, wrong, 2), [(0, vec![2, 2]), (2, vec![10, 10])]);
    assert_eq!(called(ALONE, wrong, OWN, 3), [(0, vec![2, 1, 77]), (1, vec![10, 10, 77])]);
    assert_eq!(called(ALONE, OWN, OWN, 4), [(0, vec![0, 0, 77, 77]), (0, vec![0, 0, 77, 77])]);
    assert_eq!(called(ALONE, OWN, "\n", 3), [(21, vec![77; 3]), (0, vec![0, 0, 77])]);
    assert_eq!(called(&"\n".repeat(32_769), "\n", wrong, 2), [(1, vec![77; 2]), (0, vec![0, 0])]);
}
