//! The numbers a terminal may show: refusals, ends, which file a refusal names, and the answer.

use crate::sizes::NO_RULE;

/// Why a file or an output is refused.
#[derive(Clone, Copy, Debug, PartialEq, Eq)]
pub enum Refusal {
    Cut = 1,
    Mark = 2,
    Place = 3,
    NoCard = 4,
    Bare = 5,
    Many = 6,
    Field = 7,
    Loose = 8,
    Trail = 9,
    Short = 10,
    Strip = 11,
}

/// How a run ends.
#[derive(Clone, Copy, Debug, PartialEq, Eq)]
pub enum End {
    Quiet = 20,
    Limit = 21,
    Full = 22,
    Spent = 23,
    Stuck = 24,
}

/// Which of the lent files an answer names.
#[derive(Clone, Copy, Debug, PartialEq, Eq)]
pub enum File {
    None = 0,
    Book = 1,
    Strip = 2,
    Board = 3,
    Output = 4,
}

impl File {
    /// The name that the display program prints.
    pub fn name(self) -> &'static str {
        match self {
            File::None => "none",
            File::Book => "book",
            File::Strip => "strip",
            File::Board => "board",
            File::Output => "output",
        }
    }
}

/// A refusal with the file it names and its place there.
#[derive(Clone, Copy, Debug, PartialEq, Eq)]
pub struct Refused {
    pub refusal: Refusal,
    pub file: File,
    pub place: usize,
}

/// What an entry answers.
#[derive(Clone, Copy, Debug, PartialEq, Eq)]
pub struct Answer {
    pub number: u8,
    pub file: u8,
    pub rule: u8,
    pub firings: u16,
    pub place: u32,
    pub length: u32,
}

impl Answer {
    /// The answer of a check that accepts.
    pub fn accepted() -> Answer {
        Answer::translated(0)
    }

    /// The answer of a translation that wrote a strip of that many bytes.
    pub fn translated(length: usize) -> Answer {
        Answer {
            number: 0,
            file: File::None as u8,
            rule: NO_RULE,
            firings: 0,
            place: 0,
            length: small(length),
        }
    }

    /// The answer of a refusal.
    pub fn refused(refused: Refused) -> Answer {
        Answer {
            number: refused.refusal as u8,
            file: refused.file as u8,
            rule: NO_RULE,
            firings: 0,
            place: small(refused.place),
            length: 0,
        }
    }

    /// The answer of a run's end; the length is that of the board written.
    pub fn ended(end: End, firings: u16, rule: u8, length: usize) -> Answer {
        Answer {
            number: end as u8,
            file: File::None as u8,
            rule,
            firings,
            place: 0,
            length: small(length),
        }
    }
}

/// Places and lengths are those of sized files, so they are always small enough.
fn small(number: usize) -> u32 {
    u32::try_from(number).expect("a place or length of a sized file")
}
