//! The public document once more, in another language and in another shape.
//!
//! `model` has the two algorithms of the listing on values: a register is an `Option`, a collect is the list of what
//! was read. `figure` has the order of figures. `bytes` turns a board of bytes into fields and fields into values, and
//! back. `sound` lists the clauses of soundness, `halts` has the rounds in which stations are suspended, `pairs` the figures
//! that are put in together. `calls` are the library's calls, `sheet` the program's, and `tapes` has a sheet's own tape and who
//! is blamed where two tapes differ. `starts` has the boards that runs start from, those of two stations too. `on_values` is
//! what wrong engines are made of, which a comparison must find. The rest makes boards, lists, sheets and tapes to compare.

pub mod batches;
pub mod boards;
pub mod bytes;
pub mod calls;
pub mod compare;
pub mod count_batches;
pub mod edges;
pub mod engine;
pub mod figure;
pub mod filled_batches;
pub mod habits;
pub mod halted_lists;
pub mod halts;
pub mod left_running;
pub mod lent;
pub mod line_batches;
#[cfg(feature = "engine")]
pub mod linked;
pub mod lists;
pub mod made_lists;
pub mod made_tapes;
pub mod model;
pub mod on_values;
pub mod order_batches;
pub mod order_edges;
pub mod pair_batches;
pub mod pair_edges;
pub mod pair_lists;
pub mod pairs;
pub mod program;
pub mod random;
pub mod reach;
pub mod recount;
pub mod refusal;
pub mod round_batches;
pub mod round_edges;
pub mod sheet;
pub mod sheets;
pub mod shorten;
pub mod sound;
pub mod starts;
pub mod tape_batches;
pub mod tape_edges;
pub mod tapes;
pub mod two_edges;
pub mod two_runs;
pub mod two_stations;
pub mod verdicts;
pub mod word_batches;
pub mod word_edges;
