//! Figures, and the one place that knows how they compare.

/// A figure by what it counts by: "a correction counts by its size without sign; of two equal sizes the positive is
/// larger. So 0, −1, 1, −2, 2 rise." The order is derived, and so goes by the lines below from top to bottom.
#[derive(Clone, Copy, PartialEq, Eq, PartialOrd, Ord, Debug)]
pub enum Figure {
    /// Below every figure there is. A board may say that different figures were read of which the largest is 0, the
    /// lowest one there is. A list of readings that says so needs one lower still.
    Lower,
    Of {
        size: u32,
        positive: bool,
    },
}

impl Figure {
    /// As an unsigned number, so that the size of −2,147,483,648 is one above that of 2,147,483,647.
    pub fn of(number: i32) -> Figure {
        Figure::Of { size: number.unsigned_abs(), positive: number > 0 }
    }

    /// The number that it was made of.
    pub fn number(self) -> i32 {
        match self {
            Figure::Of { size, positive: true } => size as i32,
            Figure::Of { size, positive: false } => -(size as i64) as i32,
            Figure::Lower => unreachable!("something higher was read beside it"),
        }
    }
}

/// Figures at which a comparison may turn, as they rise: both signs of each size, around 0, where a size needs one byte
/// more, where twice the size needs all 32 bits, and at both ends.
#[rustfmt::skip]
pub const EDGES: [i32; 36] = [
    0, -1, 1, -2, 2, -3, 3, -127, 127, -128, 128, -255, 255, -256, 256, -32_767, 32_767, -32_768, 32_768,
    -65_536, 65_536, -16_777_216, 16_777_216, -1_073_741_823, 1_073_741_823, -1_073_741_824, 1_073_741_824,
    -1_073_741_825, 1_073_741_825, -2_147_483_645, 2_147_483_645, -2_147_483_646, 2_147_483_646,
    -2_147_483_647, 2_147_483_647, -2_147_483_648,
];
