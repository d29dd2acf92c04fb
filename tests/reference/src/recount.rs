//! How many filled registers each collect met, counted once more: by the registers of the board as each step was lent it, and
//! by the answers before. No record is looked at.

/// What a station collects, or will collect once it has written, by what it was answered.
#[derive(Clone, Copy, Debug, Default)]
struct Pass {
    /// 0 m, 1 A, 2 B.
    array: usize,
    island: usize,
    read: usize,
    filled: usize,
}

impl Pass {
    /// Whether the register that is read next is filled: its mark is not 0. A row for m comes first, then two for each
    /// island.
    fn meets_filled(&self, board: &[u8]) -> bool {
        let row = if self.array == 0 { 0 } else { 2 * self.island + self.array };
        board.get(8 + 8 * (row * board[0] as usize + self.read)).is_some_and(|mark| *mark != 0)
    }

    /// What comes behind a collect that ended with this kind and in this place.
    fn after(self, kind: u64, place: usize) -> Pass {
        let (array, island) = match kind {
            3 => (1, place),
            4 => (2, self.island),
            _ => (0, place),
        };
        Pass { array, island, ..Pass::default() }
    }
}

/// All stations of a board that was laid fresh.
#[derive(Debug)]
pub struct Recount {
    passes: Vec<Pass>,
    pub reads: u64,
    pub totals: u64,
    /// The first answer that tells something else than what was counted.
    pub wrong: Option<String>,
}

impl Recount {
    pub fn new(n: u8) -> Recount {
        Recount { passes: vec![Pass::default(); n as usize], reads: 0, totals: 0, wrong: None }
    }

    /// A step that was taken, with the board as it was before and the answer as the call packs it.
    pub fn step(&mut self, board: &[u8], station: u8, answer: u64) {
        let who = station as usize - 1;
        let (n, mut pass) = (self.passes.len(), self.passes[who]);
        let (kind, place, told) = (answer >> 8 & 0xFF, answer >> 16 & 0xFF, (answer >> 24 & 0xFF) as usize);
        let right = match kind {
            1 => pass.read == 0 && told == 0,
            _ if pass.read == n => false,
            _ => {
                let filled = pass.meets_filled(board) as usize;
                pass.read += 1;
                pass.filled += filled;
                let whole = told == pass.filled && (1..=n).contains(&told);
                if kind == 2 {
                    told == filled && pass.read < n
                } else {
                    whole && pass.read == n
                }
            }
        };
        self.reads += (kind == 2) as u64;
        self.totals += (kind > 2) as u64;
        if !right && self.wrong.is_none() {
            self.wrong = Some(format!("station {station} is told {answer:#x}, where this was counted: {pass:?}"));
        }
        self.passes[who] = if kind > 2 { pass.after(kind, place as usize) } else { pass };
    }
}

#[cfg(test)]
mod tests {
    use super::*;
    use crate::bytes::length;
    use crate::engine::{Engine, Reference};

    /// Three stations, of which one takes all its steps before the second one does; each answer is bent before it is told.
    fn recounted(bent: impl Fn(u64) -> u64) -> Recount {
        let mut board = vec![0; length(3, 2)];
        assert_eq!(Reference.lay(&mut board, 3, 2), 0);
        let mut recount = Recount::new(3);
        for station in [1, 2] {
            assert_eq!(Reference.propose(&mut board, station, 7), 0);
            for _ in 0..12 {
                let before = board.clone();
                let answer = Reference.step(&mut board, station);
                recount.step(&before, station, bent(answer));
            }
        }
        recount
    }

    #[test]
    fn what_is_right_is_counted() {
        let right = recounted(|answer| answer);
        assert_eq!((right.reads, right.totals, right.wrong), (12, 6, None));
    }

    /// Each kind with one more, one less or nothing in the last field, and reads that are told otherwise.
    #[test]
    fn what_is_wrong_is_turned_down() {
        for kind in [1, 2, 3, 4, 6] {
            let bent = |to: fn(u64) -> u64| {
                let bent = |answer: u64| {
                    let last = to(answer >> 24 & 0xFF) & 0xFF;
                    if answer >> 8 & 0xFF == kind {
                        answer & !0xFF00_0000 | last << 24
                    } else {
                        answer
                    }
                };
                recounted(bent).wrong.is_some()
            };
            assert!(bent(|last| last + 1), "{kind}");
            assert!(kind == 1 || bent(|last| last.wrapping_sub(1)) && bent(|_| 0), "{kind}");
            assert!(kind != 2 || bent(|_| 1) && bent(|last| last ^ 1));
        }
        assert!(recounted(|answer| if answer >> 8 & 0xFF == 2 { 0x0100_0300 } else { answer }).wrong.is_some());
    }
}
