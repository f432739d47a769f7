//! Benchmarks of the Llwybrenu rule engine: a tuned and a usual implementation to compare with, and
//! the cases as files.

pub mod case_files;
pub mod cases;
pub mod programs;
pub mod tuned;
pub mod usual;
