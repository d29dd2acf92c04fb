//! Two tapes of the costliest sheets, compared by the proved engine: where they are alike, so that their lines are tested and
//! nothing is played, and where they differ behind the algorithm's last line, so that the sheet is played to its end.

use crate::sheets;
use reference::engine::Engine;
use reference::linked::Linked;
use reference::tapes::taped;
use std::hint::black_box;

/// Callgrind collects inside this function alone and writes a file at its end.
#[no_mangle]
#[inline(never)]
fn lufanelis_bench_compared(sheet: &mut [u8], first: &mut [u8], second: &mut [u8], found: &mut [u64]) -> u8 {
    Linked.compare(sheet, first, second, found)
}

/// Compares twice and says how many lines the sheet's own tape has.
pub fn compare(name: &str) {
    let mut sheet = sheets::made(name, None).into_bytes();
    let own = taped(&sheet);
    let lines = own.iter().filter(|byte| **byte == b'\n').count();
    let with = |line: &[u8]| [own.as_slice(), line].concat();
    let (mut one, mut other, mut found) = (with(b"(1 wrote)\n"), with(b"(1 read 0)\n"), [0; 2]);
    let mut again = one.clone();
    assert_eq!(black_box(lufanelis_bench_compared(&mut sheet, &mut one, &mut again, &mut found)), 0);
    assert_eq!(found, [0, 0], "a tape beside itself");
    assert_eq!(black_box(lufanelis_bench_compared(&mut sheet, &mut one, &mut other, &mut found)), 0);
    assert_eq!(found, [lines as u64 + 1, 1], "behind the algorithm's last line");
    println!("{lines}");
}
