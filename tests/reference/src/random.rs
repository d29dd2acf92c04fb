//! A small deterministic generator (splitmix64): the same seed makes the same case on every machine.

use crate::figure::Figure;
use crate::model::TOO_FEW;

#[derive(Clone)]
pub struct Random {
    state: u64,
    /// The figure that was drawn last.
    last: i32,
}

impl Random {
    pub fn new(seed: u64) -> Random {
        Random { state: seed, last: 0 }
    }

    pub fn word(&mut self) -> u64 {
        self.state = self.state.wrapping_add(0x9E37_79B9_7F4A_7C15);
        let mut z = self.state;
        z = (z ^ (z >> 30)).wrapping_mul(0xBF58_476D_1CE4_E5B9);
        z = (z ^ (z >> 27)).wrapping_mul(0x94D0_49BB_1331_11EB);
        z ^ (z >> 31)
    }

    /// A number from 0 to `count` − 1.
    pub fn below(&mut self, count: usize) -> usize {
        ((self.word() >> 32).wrapping_mul(count as u64) >> 32) as usize
    }

    /// A number from `low` to `high`, both included.
    pub fn between(&mut self, low: usize, high: usize) -> usize {
        low + self.below(high - low + 1)
    }

    pub fn byte(&mut self) -> u8 {
        self.word() as u8
    }

    /// True once in `times`.
    pub fn once_in(&mut self, times: usize) -> bool {
        self.below(times) == 0
    }

    pub fn pick<T: Copy>(&mut self, from: &[T]) -> T {
        from[self.below(from.len())]
    }

    /// Few distinct figures, so that stations meet the same ones: 0 and those around it, both ends of the range, sometimes
    /// any, and one near the figure drawn last, so that a size is met with both signs.
    pub fn figure(&mut self) -> i32 {
        const ENDS: [i32; 6] = [i32::MIN, i32::MIN, i32::MIN + 1, i32::MAX, i32::MAX, -256];
        self.last = match self.below(8) {
            0 | 1 => self.pick(&ENDS),
            2 => self.word() as i32,
            3 | 4 => self.near(self.last),
            _ => self.below(5) as i32 - 2,
        };
        self.last
    }

    /// A figure of the same size, or of one beside it, with either sign.
    pub fn near(&mut self, figure: i32) -> i32 {
        let beside = figure.wrapping_add(self.pick(&[-1, 0, 0, 1]));
        if self.once_in(2) {
            beside.wrapping_neg()
        } else {
            beside
        }
    }

    /// Two figures that differ, mostly by little, the lower one first.
    pub fn two_figures(&mut self) -> [i32; 2] {
        let one = self.figure();
        let mut two = [one, one];
        while two[0] == two[1] {
            two[1] = if self.once_in(4) { self.figure() } else { self.near(one) };
        }
        two.sort_by_key(|v| Figure::of(*v));
        two
    }

    /// Mostly small boards, where stations meet; sometimes the largest.
    pub fn size(&mut self) -> (u8, u8) {
        let n = match self.below(8) {
            0 => self.between(1, 16),
            1 => self.pick(&[1, 15, 16]),
            _ => self.between(2, 5),
        };
        let k = match self.below(8) {
            0 => self.between(2, 64),
            1 => self.pick(&[2, 63, 64]),
            _ => self.between(2, 4),
        };
        (n as u8, k as u8)
    }

    /// The same of boards that can be laid: two stations are too few.
    pub fn laid_size(&mut self) -> (u8, u8) {
        loop {
            let (n, k) = self.size();
            if n != TOO_FEW {
                return (n, k);
            }
        }
    }

    pub fn shuffle<T>(&mut self, list: &mut [T]) {
        for i in (1..list.len()).rev() {
            list.swap(i, self.below(i + 1));
        }
    }
}
