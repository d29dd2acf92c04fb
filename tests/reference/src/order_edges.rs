//! Sheets on which stations come with figures that stand beside each other in the order.

use crate::edges::Edge;
use crate::figure::EDGES;
use crate::sheets::{circle, meeting_lines};

/// Both have written to m before one of them reads there; and again, with the lower one on its way before the higher one
/// comes, so that they meet in A. They change places, because a collect reads in rising order. The third stays idle.
fn of_two(low: i32, high: i32, first: u8) -> String {
    let second = 3 - first;
    let head = format!("(board 3 2)\n(propose {first} {low})\n(propose {second} {high})\n");
    let in_m = "(steps 1 2 (times 3 1 2))\n(show)\n";
    let in_a = format!("(steps (times 4 {first}) (times 4 {second}) 1 2 (times 3 1 2))\n(show)\n");
    format!("{head}{in_m}{head}{in_a}")
}

/// The third has the higher one, which another one brings to B.
fn of_three(low: i32, high: i32, stations: [usize; 3]) -> String {
    format!("(board 3 2)\n{}", meeting_lines(3, stations, [0, low, high]))
}

/// Two have circled on to the next island when the third comes with a figure above theirs: "Pairs (island, figure) compare
/// by island, then by figure."
fn on_a_higher_island(few: &[i32]) -> String {
    let head = format!("(board 3 3)\n(propose 1 {})\n(propose 2 {})\n(propose 3 {})\n", few[1], few[0], few[2]);
    format!("{head}(steps {})\n(show)\n(steps (times 4 3 1 2))\n(show)\n", circle(3, 1, 1))
}

/// Each of the edges with the two above it, which are as near as figures come.
fn near() -> impl Iterator<Item = (i32, i32)> {
    let with = |width: usize| EDGES.windows(width).map(move |few| (few[0], few[width - 1]));
    with(2).chain(with(3))
}

pub fn edges() -> Vec<Edge> {
    let two: String = near().map(|(low, high)| of_two(low, high, 1) + &of_two(low, high, 2)).collect();
    let three: String =
        near().map(|(low, high)| of_three(low, high, [1, 2, 3]) + &of_three(low, high, [2, 1, 3])).collect();
    let islands: String = EDGES.windows(3).map(on_a_higher_island).collect();
    vec![
        Edge { name: "two figures beside each other", sheet: two.into_bytes() },
        Edge { name: "two figures beside each other in B", sheet: three.into_bytes() },
        Edge { name: "a figure beside those of a higher island", sheet: islands.into_bytes() },
    ]
}

/// Of a sheet that is too long nothing is played.
#[test]
fn sheets_are_played() {
    for edge in edges() {
        assert!(edge.sheet.len() <= crate::sheet::LONGEST_SHEET, "{}: {}", edge.name, edge.sheet.len());
    }
}
