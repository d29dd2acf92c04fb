//! Sentences of the document about a step, tried on sound boards that no run need reach.

use reference::boards::sound;
use reference::bytes::Fields;
use reference::calls;
use reference::random::Random;

const TRIES: u64 = 6000;

fn board(r: &mut Random) -> (u8, u8, Vec<u8>) {
    let (n, k) = (r.between(1, 5) as u8, r.between(2, 4) as u8);
    let board = sound(r, n, k);
    (n, k, board)
}

/// "A board that keeps all this is sound; accepted calls keep it so."
#[test]
fn accepted_calls_keep_a_board_sound() {
    let mut r = Random::new(21);
    for _ in 0..TRIES {
        let (n, _, mut board) = board(&mut r);
        for _ in 0..12 {
            let station = r.between(1, n as usize) as u8;
            let _ = calls::propose(&mut board, station, r.figure());
            let _ = calls::step(&mut board, station);
            assert!(calls::check(&board).is_ok());
        }
    }
}

/// "Each step moves one station on by a single register and touches no other station's record."
#[test]
fn a_step_alters_one_record_and_at_most_one_register() {
    let mut r = Random::new(22);
    for _ in 0..TRIES {
        let (n, _, before) = board(&mut r);
        let mut after = before.clone();
        let who = r.below(n as usize);
        if calls::step(&mut after, who as u8 + 1).is_err() {
            continue;
        }
        let (old, new) = (Fields::of_bytes(&before), Fields::of_bytes(&after));
        let records = (0..n as usize).filter(|i| old.records[*i] != new.records[*i]);
        assert!(records.eq([who]));
        let changed = |a: &[_], b: &[_]| a.iter().zip(b).filter(|(x, y)| x != y).count();
        let registers = changed(&old.m, &new.m) + changed(&old.a.all, &new.a.all) + changed(&old.b.all, &new.b.all);
        assert!(registers <= 1);
    }
}

/// "its answer and the bytes it alters follow from n, K, the station's own record .. and, where it reads, that one
/// register": another board with the same record and the same registers of the place read gives the same.
#[test]
fn a_step_follows_from_its_own_record_and_one_register() {
    let mut r = Random::new(23);
    for _ in 0..TRIES {
        let (n, k, first) = board(&mut r);
        let who = r.below(n as usize);
        let (one, mut other) = (Fields::of_bytes(&first), Fields::of_bytes(&sound(&mut r, n, k)));
        let record = one.records[who];
        other.records[who] = record;
        for place in [who, record.next as usize] {
            other.m[place] = one.m[place];
            other.a.row_mut(record.island)[place] = one.a.row(record.island)[place];
            other.b.row_mut(record.island)[place] = one.b.row(record.island)[place];
        }
        let (mut first, mut second) = (first, other.to_bytes());
        if calls::check(&second).is_err() {
            continue;
        }
        let station = who as u8 + 1;
        assert_eq!(calls::step(&mut first, station), calls::step(&mut second, station));
        let record = |board: &[u8]| Fields::of_bytes(board).records[who];
        assert_eq!(record(&first), record(&second));
    }
}

/// A run keeps all that a collect has heard, single calls only what the record sums up: both end alike.
#[test]
fn a_run_is_its_single_steps() {
    let mut r = Random::new(24);
    for _ in 0..TRIES {
        let (n, _, mut whole) = board(&mut r);
        let mut single = whole.clone();
        let stations: Vec<u8> = (0..r.below(60)).map(|_| r.between(0, n as usize + 1) as u8).collect();
        let taken = stations.iter().filter(|s| calls::step(&mut single, **s).is_ok()).count();
        assert_eq!(calls::run(&mut whole, &stations), Ok((taken, stations.len() - taken)));
        assert_eq!(whole, single);
    }
}
