//! Samples for comparing two programs: books that fire, boards, damaged files, strips, whole calls.
//! Everything comes from the dice, so a seed names a sample for good.

pub mod boards;
pub mod books;
pub mod calls;
pub mod damage;
pub mod dice;
pub mod strips;
