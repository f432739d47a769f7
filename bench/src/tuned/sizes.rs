//! The sizes of document 01, and those of the arrays that hold rows.

pub const KINDS: usize = 32;
pub const RULES: usize = 32;
/// Body atoms, tests and head atoms of a rule, and of a sweep.
pub const RULE_GROUP: u8 = 6;
pub const SWEEP_GROUP: u8 = 4;
pub const SWEEPS: u8 = 2;
pub const ARITY: u8 = 4;
pub const VARIABLES: u16 = 12;
pub const CARDS: usize = 256;
pub const NOTICES: usize = 128;

pub const CURSORS: usize = 14;
pub const WORD_BYTES: usize = 8;
pub const LONGEST_BOARD: usize = 4_226;
pub const LONGEST_STRIP: usize = 44_808;

/// One numbering of rows: cards from 0, notices from 256.
pub const ROWS: usize = 512;
pub const FIRST_NOTICE: usize = 256;
/// Where a cursor stands on no row: before row 0, and past the end.
pub const OPEN: u16 = 510;
pub const PAST: u16 = 511;
