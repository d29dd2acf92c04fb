//! The proved library by its C interface, linked with the feature `engine`.

use crate::engine::Engine;

extern "C" {
    fn lufanelis_lay(board: *mut u8, length: usize, n: u8, k: u8) -> u8;
    fn lufanelis_propose(board: *mut u8, length: usize, station: u8, figure: i32) -> u8;
    fn lufanelis_propose_all(board: *mut u8, length: usize, pairs: *const u64, count: usize) -> u8;
    fn lufanelis_check(board: *const u8, length: usize) -> u8;
    fn lufanelis_step(board: *mut u8, length: usize, station: u8) -> u64;
    fn lufanelis_standing(board: *const u8, length: usize, station: u8) -> u64;
    fn lufanelis_run(board: *mut u8, length: usize, stations: *const u8, count: usize) -> u64;
    fn lufanelis_rounds(board: *mut u8, length: usize, most: u8, named: *const u8, count: usize) -> u64;
    fn lufanelis_show(board: *const u8, length: usize, line: *mut u8, room: usize) -> u32;
    fn lufanelis_word(line: *const u8, length: usize) -> u64;
    fn lufanelis_play_line(
        line: *const u8,
        length: usize,
        laid: usize,
        memory: *mut u8,
        size: usize,
        printed: *mut u8,
        room: usize,
    ) -> u64;
    fn lufanelis_compare(
        sheet: *const u8,
        sheet_length: usize,
        first: *const u8,
        first_length: usize,
        second: *const u8,
        second_length: usize,
        found: *mut u64,
        found_length: usize,
    ) -> u8;
    fn lufanelis_culprit(
        sheet: *const u8,
        sheet_length: usize,
        first: *const u8,
        first_length: usize,
        second: *const u8,
        second_length: usize,
        part: *mut u64,
        part_length: usize,
    ) -> u8;
}

pub struct Linked;

// Each call lends memory that this side owns for the length of the call, with its true length.
impl Engine for Linked {
    fn rest(&self) -> &dyn Engine {
        unreachable!("it writes every call out")
    }

    fn lay(&self, board: &mut [u8], n: u8, k: u8) -> u8 {
        unsafe { lufanelis_lay(board.as_mut_ptr(), board.len(), n, k) }
    }

    fn propose(&self, board: &mut [u8], station: u8, figure: i32) -> u8 {
        unsafe { lufanelis_propose(board.as_mut_ptr(), board.len(), station, figure) }
    }

    fn propose_all(&self, board: &mut [u8], pairs: &mut [u64]) -> u8 {
        unsafe { lufanelis_propose_all(board.as_mut_ptr(), board.len(), pairs.as_mut_ptr(), pairs.len()) }
    }

    fn check(&self, board: &mut [u8]) -> u8 {
        unsafe { lufanelis_check(board.as_mut_ptr(), board.len()) }
    }

    fn step(&self, board: &mut [u8], station: u8) -> u64 {
        unsafe { lufanelis_step(board.as_mut_ptr(), board.len(), station) }
    }

    fn standing(&self, board: &mut [u8], station: u8) -> u64 {
        unsafe { lufanelis_standing(board.as_mut_ptr(), board.len(), station) }
    }

    fn run(&self, board: &mut [u8], stations: &mut [u8]) -> u64 {
        unsafe { lufanelis_run(board.as_mut_ptr(), board.len(), stations.as_mut_ptr(), stations.len()) }
    }

    fn rounds(&self, board: &mut [u8], most: u8, named: &mut [u8]) -> u64 {
        unsafe { lufanelis_rounds(board.as_mut_ptr(), board.len(), most, named.as_mut_ptr(), named.len()) }
    }

    fn show(&self, board: &mut [u8], line: &mut [u8]) -> u32 {
        unsafe { lufanelis_show(board.as_mut_ptr(), board.len(), line.as_mut_ptr(), line.len()) }
    }

    fn word(&self, line: &mut [u8]) -> u64 {
        unsafe { lufanelis_word(line.as_mut_ptr(), line.len()) }
    }

    fn play_line(&self, line: &mut [u8], laid: usize, memory: &mut [u8], printed: &mut [u8]) -> u64 {
        let (text, length) = (line.as_mut_ptr(), line.len());
        let (out, room) = (printed.as_mut_ptr(), printed.len());
        unsafe { lufanelis_play_line(text, length, laid, memory.as_mut_ptr(), memory.len(), out, room) }
    }

    fn compare(&self, sheet: &mut [u8], first: &mut [u8], second: &mut [u8], found: &mut [u64]) -> u8 {
        let (text, length) = (sheet.as_mut_ptr(), sheet.len());
        let (one, two) = (first.as_mut_ptr(), second.as_mut_ptr());
        let (list, room) = (found.as_mut_ptr(), found.len());
        unsafe { lufanelis_compare(text, length, one, first.len(), two, second.len(), list, room) }
    }

    fn culprit(&self, sheet: &mut [u8], first: &mut [u8], second: &mut [u8], part: &mut [u64]) -> u8 {
        let (text, length) = (sheet.as_mut_ptr(), sheet.len());
        let (one, two) = (first.as_mut_ptr(), second.as_mut_ptr());
        let (list, room) = (part.as_mut_ptr(), part.len());
        unsafe { lufanelis_culprit(text, length, one, first.len(), two, second.len(), list, room) }
    }
}
