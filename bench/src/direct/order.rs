//! Which of two figures is the larger: "a correction counts by its size without sign; of two equal sizes the positive is
//! larger."

/// Where the sum is negative the lower number has the larger size. Else the higher one has it, or is the positive one of
/// equal sizes. The sum of two figures has up to 33 bits.
pub fn above(x: i32, y: i32) -> bool {
    if x as i64 + y as i64 >= 0 {
        x > y
    } else {
        x < y
    }
}

/// Pairs go by island, then by figure.
pub fn pair_above(x: (u8, i32), y: (u8, i32)) -> bool {
    if x.0 == y.0 {
        above(x.1, y.1)
    } else {
        x.0 > y.0
    }
}
