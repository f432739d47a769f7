//! The engine beside the second program: the same calls, and what each side says to them.

pub mod agreement;
pub mod calls;
pub mod longest;
pub mod report;
pub mod shrink;
pub mod sides;
pub mod summary;
pub mod writing;
