//! All tests of the second program, one file for each part of document 01.

mod agreement;
mod entries;
mod every_choice;
mod known_boards;
mod longest;
mod machine;
mod order;
mod pieces;
mod quick_trial;
mod refusals;
mod sample_counts;
mod strip_reasons;
