//! Which boards are compared for the filled registers that a collect has met: byte 6 of a record at the position, beside it
//! and far off, in every phase, also where it is not what was seen; and the totals of whole lists, counted once more.

use crate::boards::{self, Place};
use crate::bytes::{Fields, Record};
use crate::compare::{Call, Compare};
use crate::engine::SHOWN;
use crate::halts::ROUND_END;
use crate::lists;
use crate::made_lists;
use crate::pairs::word;
use crate::random::Random;

/// Boards of one station, which has no read but the last, up to those on which sixteen registers are met.
pub const FILLED_SIZES: [(u8, u8); 5] = [(1, 2), (2, 3), (3, 2), (5, 3), (16, 2)];

impl Compare<'_> {
    /// A sound board of which one record's bytes 6 and 7 are put to an edge or beyond it: one above the position as often as
    /// not, which is the board that a wrong bound lets by.
    pub fn filled_board(&mut self, seed: u64) {
        let mut r = Random::new(seed);
        let (n, k) = if r.once_in(8) { r.size() } else { (r.between(1, 5) as u8, r.between(2, 4) as u8) };
        let who = r.below(n as usize);
        let phase = r.pick(&[0, 1, 2, 2, 3, 4, 4, 5, 6, 6, 7, 8]);
        let (island, next) = (r.below(k as usize) as u8, r.below(n as usize) as u8);
        let mut f = Fields::of_bytes(&boards::standing_at(&mut r, n, k, who, Place { phase, island, next }));
        let next = f.records[who].next;
        let bytes = if r.once_in(2) { [next + 1, 0] } else { r.pick(&counts(n, next)) };
        put(&mut f.records[who], bytes);
        self.every_call(seed, &mut r, &f.to_bytes());
    }

    /// The first and the last station at every place there is, with every such pair of bytes.
    pub fn every_filled(&mut self, seed: u64, (n, k): (u8, u8)) {
        let mut r = Random::new(seed);
        for place in places(n, k) {
            for who in [0, n as usize - 1] {
                let mut f = Fields::of_bytes(&boards::standing_at(&mut r, n, k, who, place));
                self.counts_at(seed, &mut f, who);
                if place.next as usize <= who {
                    let unseen = Record { seen: 0, best_island: 0, best: 0, ..f.records[who] };
                    f.records[who] = unseen;
                    self.counts_at(seed, &mut f, who);
                }
            }
        }
    }

    fn counts_at(&mut self, seed: u64, f: &mut Fields, who: usize) {
        let (station, next) = (who as u8 + 1, f.records[who].next);
        for bytes in counts(f.n, next) {
            put(&mut f.records[who], bytes);
            let board = f.to_bytes();
            self.once(seed, Call::Check, &board);
            self.once(seed, Call::Standing(station), &board);
            self.once(seed, Call::Show(SHOWN), &board);
            self.once(seed, Call::Propose(station, 5), &board);
            self.once(seed, Call::ProposeAll(&[word((station, 5))]), &board);
            self.once(seed, Call::Run(&[station; 3]), &board);
            self.once(seed, Call::Rounds(0, &[ROUND_END]), &board);
            self.once(seed, Call::Step(station), &board);
        }
        for met in [0, next / 2, next] {
            put(&mut f.records[who], [met, 0]);
            self.collects_from(seed, &f.to_bytes(), station);
        }
    }

    /// Single steps to the end of a collect, through the next write and into what follows.
    fn collects_from(&mut self, seed: u64, board: &[u8], station: u8) {
        let (mut ours, mut theirs) = self.copies(board);
        for _ in 0..board[0] + 3 {
            self.call(seed, Call::Step(station), &mut ours, &mut theirs);
        }
    }

    /// A list played by the engine alone: what its answers tell of the registers is held against the boards that the calls
    /// were lent.
    pub fn recounted(&mut self, seed: u64) {
        let played = lists::play(self.engine, &made_lists::make(seed));
        self.counts.totals += played.recount.totals;
        self.verdict(played.wrong().is_none(), || {
            format!("seed {seed}: a made list by the engine alone: {}", played.wrong().unwrap_or_default())
        });
    }
}

fn put(record: &mut Record, [met, zero]: [u8; 2]) {
    (record.met, record.zero) = (met, zero);
}

/// Bytes 6 and 7 of a record with this position: at it and beside it, at n and beside it, with a single bit more, far off,
/// and with the byte behind the count set.
fn counts(n: u8, next: u8) -> Vec<[u8; 2]> {
    let near = [0, 1, 2, next.saturating_sub(1), next, next + 1, next + 2, n - 1, n, n + 1];
    let far = [15, 16, 17, next | 16, next | 64, next | 128, 127, 128, 254, 255];
    let mut counts: Vec<[u8; 2]> = near.into_iter().chain(far).map(|met| [met, 0]).collect();
    counts.extend([[0, 1], [next, 1], [0, 128], [next, 255], [0, next], [255, 255]]);
    counts.sort();
    counts.dedup();
    counts
}

/// Every phase on the first island and the last, a collect at each position.
fn places(n: u8, k: u8) -> Vec<Place> {
    let mut places = Vec::new();
    for phase in 0..=8 {
        let last = if matches!(phase, 2 | 4 | 6) { n - 1 } else { 0 };
        for island in [0, k - 1] {
            places.extend((0..=last).map(|next| Place { phase, island, next }));
        }
    }
    places
}
