//! Wrong orders of figures, and figures of one size that are taken for one: the comparison finds each.

mod fault;

use fault::{all_faults, of_reading, Fault};
use reference::bytes::{length, values, Fields};
use reference::compare;
use reference::engine::{packed_answer, Engine};
use reference::figure::EDGES;
use reference::on_values::{Apart, By, OnValues};
use reference::refusal::Refusal;
use reference::sheet::{self, Form};
use reference::{order_edges, sheets};

/// Boards are tested and stations are stepped with the fault.
struct Faulty(Fault);

impl OnValues for Faulty {
    fn opened(&self, f: Fields) -> Option<Apart> {
        self.0.sound(&f).then(|| Apart { world: values(&f), aside: vec![] })
    }

    fn stepped(&self, apart: &mut Apart, station: u8, _: By) -> Result<u64, Refusal> {
        self.0.step(&mut apart.world, station).map(packed_answer)
    }
}

fn batches_find(fault: Fault) -> bool {
    compare::differs(&Faulty(fault), 1..40, |compare, seed| compare.batch(seed))
}

fn boards_find(fault: Fault) -> bool {
    compare::differs(&Faulty(fault), 1..2000, |compare, seed| compare.ordered_board(seed))
}

fn pairs_find(fault: Fault) -> bool {
    let edges = 0..EDGES.len() as u64;
    compare::differs(&Faulty(fault), edges, |compare, seed| compare.every_pair(seed, EDGES[seed as usize]))
}

/// A whole sheet, of which only lines of steps are played wrongly.
fn played(fault: Fault, text: &[u8]) -> Vec<u8> {
    let (mut memory, mut laid, mut out) = (vec![0; length(16, 64)], 0, Vec::new());
    for line in sheet::lines(text) {
        let ran = match sheet::read(line) {
            Ok(Form::Steps(items)) if laid > 0 && sheet::expansion(&items) <= 65_536 => {
                Some(Faulty(fault).run(&mut memory[..laid], &mut sheet::expanded(&items)))
            }
            _ => None,
        };
        let (printed, after) = match ran {
            Some(ran) if ran & 0xFF == 0 => (format!("(ran {} {})", ran >> 8 & 0xFF_FFFF, ran >> 32), laid),
            _ => sheet::play_line(line, laid, &mut memory),
        };
        laid = after;
        out.extend(printed.bytes().chain([b'\n']));
    }
    out
}

fn differs(fault: Fault, text: &[u8]) -> bool {
    text.len() <= sheet::LONGEST_SHEET && played(fault, text) != sheet::play(text)
}

fn sheets_find(fault: Fault) -> bool {
    (1..=200).any(|seed| differs(fault, &sheets::sheet(seed)))
}

fn edges_find(fault: Fault) -> bool {
    order_edges::edges().iter().any(|edge| differs(fault, &edge.sheet))
}

#[test]
fn what_is_right_passes() {
    assert!(!batches_find(Fault::None) && !boards_find(Fault::None) && !pairs_find(Fault::None));
    assert!(!sheets_find(Fault::None) && !edges_find(Fault::None));
}

#[test]
fn each_fault_is_found_by_calls() {
    for fault in all_faults() {
        assert!(pairs_find(fault), "pairs: {fault:?}");
        assert!(boards_find(fault), "boards: {fault:?}");
        assert!(batches_find(fault), "batches: {fault:?}");
    }
}

#[test]
fn each_fault_of_reading_is_found_by_sheets() {
    for fault in of_reading() {
        assert!(edges_find(fault), "edges: {fault:?}");
        assert!(sheets_find(fault), "made sheets: {fault:?}");
    }
}
