//! The sizes of document 01, each named once. Every other part takes them from here.

/// Kinds of a book, and KIND words of a strip.
pub const KINDS: usize = 32;
/// Rules of a book.
pub const RULES: usize = 32;
/// Body atoms of a rule.
pub const BODY_ATOMS: usize = 6;
/// Tests of a rule.
pub const TESTS: usize = 6;
/// Head atoms of a rule.
pub const HEAD_ATOMS: usize = 6;
/// Sweeps of a rule.
pub const SWEEPS: usize = 2;
/// Body atoms of a sweep.
pub const SWEEP_BODY_ATOMS: usize = 4;
/// Tests of a sweep.
pub const SWEEP_TESTS: usize = 4;
/// Head atoms of a sweep.
pub const SWEEP_HEAD_ATOMS: usize = 4;
/// Numbers of a fact.
pub const NUMBERS: usize = 4;
/// Variables of a rule: 0 to 11.
pub const VARIABLES: usize = 12;
/// Cards of a board, and made cards of one attempt.
pub const CARDS: usize = 256;
/// Notices of a board, and made notices of one attempt.
pub const NOTICES: usize = 128;

/// Cursors of the strip machine.
pub const CURSORS: usize = 14;
/// Registers of the strip machine; register and variable numbers are the same numbers.
pub const REGISTERS: usize = 12;
/// The first cursor of a rule's first sweep and of its second.
pub const SWEEP_CURSORS: [usize; SWEEPS] = [6, 10];
/// Bytes of a strip's word.
pub const WORD_BYTES: usize = 8;

/// Bytes of the longest book.
pub const LONGEST_BOOK: usize = 17_794;
/// Bytes of the longest board.
pub const LONGEST_BOARD: usize = 4_226;
/// Bytes of the longest strip.
pub const LONGEST_STRIP: usize = 44_808;

/// What is given as the last fired rule if none fired.
pub const NO_RULE: u8 = 255;
/// The firing limit of the display program.
pub const DISPLAY_LIMIT: u16 = 100;
