//! The numbers a terminal may show, the answers with them, and a refusal with its place.

use llwybrenu::Answer;

pub const CUT: u8 = 1;
pub const MARK: u8 = 2;
pub const PLACE: u8 = 3;
pub const NOCARD: u8 = 4;
pub const BARE: u8 = 5;
pub const MANY: u8 = 6;
pub const FIELD: u8 = 7;
pub const LOOSE: u8 = 8;
pub const TRAIL: u8 = 9;
pub const SHORT: u8 = 10;
pub const STRIP: u8 = 11;
pub const QUIET: u8 = 20;
pub const LIMIT: u8 = 21;
pub const FULL: u8 = 22;
pub const SPENT: u8 = 23;
pub const STUCK: u8 = 24;

/// The files that a refusal names.
pub const BOOK: u8 = 1;
pub const STRIP_FILE: u8 = 2;
pub const BOARD: u8 = 3;
pub const OUTPUT: u8 = 4;

/// What is given as the last fired rule if none fired.
pub const NO_RULE: u8 = 255;

/// The answer of a check that accepts, or of a translation of that length.
pub fn accepted(length: usize) -> Answer {
    Answer {
        number: 0,
        file: 0,
        rule: NO_RULE,
        firings: 0,
        place: 0,
        length: length as u32,
    }
}

/// The answer of a refusal.
pub fn refused(number: u8, file: u8, place: usize) -> Answer {
    Answer {
        number,
        file,
        place: place as u32,
        ..accepted(0)
    }
}

/// The answer of a run's end.
pub fn ended(number: u8, firings: u16, rule: u8, length: usize) -> Answer {
    Answer {
        number,
        rule,
        firings,
        ..accepted(length)
    }
}

/// A refusal's number and place.
#[derive(Clone, Copy, Debug, PartialEq, Eq)]
pub struct Refused {
    pub number: u8,
    pub place: usize,
}

impl Refused {
    /// The answer that names this file.
    #[cold]
    pub fn of(self, file: u8) -> Answer {
        refused(self.number, file, self.place)
    }
}

/// Refuses with that number at that place.
#[cold]
pub fn refuse<T>(number: u8, place: usize) -> Result<T, Refused> {
    Err(Refused { number, place })
}
