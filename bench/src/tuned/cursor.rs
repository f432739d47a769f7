//! A cursor of the strip machine.

use super::board::NO_KIND;
use super::sizes::*;

/// Where a cursor stands, and what can be read there: no argument unless it is on a row.
#[derive(Clone, Copy)]
#[repr(align(16))]
pub struct Cursor {
    pub row: u16,
    /// The row's kind and place in its kind's list.
    pub kind: u8,
    pub arity: u8,
    pub at: u16,
    pub numbers: [u16; 4],
}

/// A cursor that stands before row 0.
pub const BEFORE_ROW_0: Cursor = Cursor {
    row: OPEN,
    kind: NO_KIND,
    arity: 0,
    at: 0,
    numbers: [0; 4],
};

/// A cursor that stands past the end.
pub const PAST_THE_END: Cursor = Cursor {
    row: PAST,
    ..BEFORE_ROW_0
};

impl Cursor {
    /// An argument of the row, if there is such.
    #[inline(always)]
    pub fn argument(&self, argument: u8) -> Option<u16> {
        match argument < self.arity {
            true => Some(self.numbers[usize::from(argument) % 4]),
            false => None,
        }
    }
}
