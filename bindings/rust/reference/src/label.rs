//! Sets of ports as labels, one bit for each port: a word of 64 bits, and one of 128 for the second
//! edition.

use std::ops::{BitAnd, BitAndAssign, BitOr, BitOrAssign, BitXor, BitXorAssign, Not, Shl, Shr, Sub};

pub(crate) trait Label:
    Copy
    + PartialEq
    + From<bool>
    + Not<Output = Self>
    + BitAnd<Output = Self>
    + BitOr<Output = Self>
    + BitXor<Output = Self>
    + BitAndAssign
    + BitOrAssign
    + BitXorAssign
    + Shl<usize, Output = Self>
    + Shr<usize, Output = Self>
    + Sub<Output = Self>
{
    const NONE: Self;
    const ALL: Self;

    /// The lowest port of a label that is not empty.
    fn lowest(self) -> usize;

    fn bit(port: usize) -> Self {
        Self::from(true) << port
    }

    fn without_lowest(self) -> Self {
        self & (self - Self::from(true))
    }

    /// The ports below the one of this bit.
    fn below(self) -> Self {
        self - Self::from(true)
    }
}

impl Label for u64 {
    const NONE: u64 = 0;
    const ALL: u64 = u64::MAX;

    fn lowest(self) -> usize {
        self.trailing_zeros() as usize
    }
}

impl Label for u128 {
    const NONE: u128 = 0;
    const ALL: u128 = u128::MAX;

    fn lowest(self) -> usize {
        self.trailing_zeros() as usize
    }
}
