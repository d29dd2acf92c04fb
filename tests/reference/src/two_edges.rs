//! Sheets with layings of two stations, which are refused with 8 before anything is said of K: the board that was laid before
//! stays in force, and no sheet comes to a board of two stations. `edges` has them among its own.

use crate::edges::Edge;

/// Behind each laying the board that is in force is shown, and everything else of a sheet is tried on it.
const TRIED: &str = "(show)\n(propose 2 4)\n(propose (1 3) (3 1))\n(steps 1 2 3)\n(rounds 1 () (3))\n(show)\n";

fn edge(name: &'static str, sheet: String) -> Edge {
    Edge { name, sheet: sheet.into_bytes() }
}

/// Every number of stations with one that lays and with others that do not, on a board of three and before any.
fn counts() -> String {
    let sizes = (0..=19).chain([98, 99]).flat_map(|n| [0, 1, 2, 64, 65].map(|k| (n, k)));
    sizes.map(|(n, k)| format!("(board {n} {k})\n(show)\n")).collect()
}

/// With every K, so that a board of two stations would come to light whatever its size.
fn islands() -> String {
    (0..=99).map(|k| format!("(board 2 {k})\n{}", if k % 16 == 2 { TRIED } else { "(show)\n" })).collect()
}

pub fn edges() -> Vec<Edge> {
    let three = "(board 3 2)\n(propose 1 -40)\n(steps 1 1)\n";
    let circling = "(propose 1 7)\n(propose 2 3)\n\
                    (steps (times 2 (times 3 2) (times 3 1) (times 3 2) (times 6 1) (times 3 2)))\n(show)\n";
    vec![
        edge("two stations and no board before", format!("(board 2 2)\n{TRIED}(board 2 1)\n(board 2 2)\n{TRIED}")),
        edge("two stations with every K", format!("{three}{}", islands())),
        edge("every number of stations", counts()),
        edge(
            "two stations behind one",
            format!("(board 1 2)\n(propose 1 4)\n(board 2 2)\n{TRIED}(board 2 64)\n(show)\n"),
        ),
        edge("two stations behind sixteen", format!("(board 16 64)\n{TRIED}(board 2 64)\n{TRIED}")),
        edge("two stations that would circle", format!("(board 2 2)\n{circling}{three}(board 2 2)\n{circling}")),
    ]
}

/// Of a sheet that is too long nothing is played.
#[test]
fn sheets_are_played() {
    for edge in edges() {
        assert!(edge.sheet.len() <= crate::sheet::LONGEST_SHEET, "{}: {}", edge.name, edge.sheet.len());
    }
}
