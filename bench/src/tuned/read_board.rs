//! The reader of a board: one pass, which hands each row on.

use super::answers::*;
use super::board::{Board, Kinds};
use super::sizes::*;

/// What becomes of the rows of a board being read.
pub trait Rows {
    fn card(&mut self, kind: u8, numbers: u64);
    fn notice(&mut self, kind: u8, numbers: u64);
}

/// Judges a board and keeps nothing.
pub struct Judge;

impl Rows for Judge {
    fn card(&mut self, _: u8, _: u64) {}
    fn notice(&mut self, _: u8, _: u64) {}
}

impl Rows for Board {
    #[inline(always)]
    fn card(&mut self, kind: u8, numbers: u64) {
        self.kinds[self.cards] = kind;
        self.numbers[self.cards] = numbers;
        self.cards += 1;
    }

    #[inline(always)]
    fn notice(&mut self, kind: u8, numbers: u64) {
        self.kinds[FIRST_NOTICE + self.notices] = kind;
        self.numbers[FIRST_NOTICE + self.notices] = numbers;
        self.notices += 1;
    }
}

/// Reads a board of these kinds in one pass, or gives the first refusal.
pub fn read_board(kinds: &Kinds, bytes: &[u8], rows: &mut impl Rows) -> Result<(), Refused> {
    let mut at = 0;
    let mut cards = 0;
    let mut notices = 0;
    loop {
        let Some(mark) = bytes.get(at..at + 2) else {
            return refuse(CUT, bytes.len());
        };
        match mark {
            b"ca" => {
                if notices > 0 {
                    return refuse(PLACE, at);
                }
                if cards == CARDS {
                    return refuse(MANY, at);
                }
                let fact = read_fact(kinds, bytes, at, true)?;
                rows.card(fact.kind, fact.numbers);
                cards += 1;
                at = fact.end;
            }
            b"no" => {
                if notices == NOTICES {
                    return refuse(MANY, at);
                }
                let fact = read_fact(kinds, bytes, at, false)?;
                rows.notice(fact.kind, fact.numbers);
                notices += 1;
                at = fact.end;
            }
            b"en" if at + 2 < bytes.len() => return refuse(TRAIL, at + 2),
            b"en" => return Ok(()),
            _ => return refuse(MARK, at),
        }
    }
}

/// A fact that was read, and where its record ends.
struct Fact {
    kind: u8,
    numbers: u64,
    end: usize,
}

/// Kind and numbers of the fact whose record starts there.
#[inline(always)]
fn read_fact(kinds: &Kinds, bytes: &[u8], at: usize, card: bool) -> Result<Fact, Refused> {
    let Some(&kind) = bytes.get(at + 2) else {
        return refuse(CUT, bytes.len());
    };
    if usize::from(kind) >= kinds.count || kinds.is_card(kind) != card {
        return refuse(FIELD, at);
    }
    let length = 2 * usize::from(kinds.arity[usize::from(kind)]);
    let start = at + 3;
    let end = start + length;
    if end > bytes.len() {
        return refuse(CUT, bytes.len());
    }
    let numbers = match bytes.get(start..start + 8) {
        Some(eight) => {
            // Eight bytes are there: those past the fact are masked out.
            let word = u64::from_le_bytes(eight.try_into().unwrap());
            word & !(u64::MAX.checked_shl(8 * length as u32).unwrap_or(0))
        }
        None => {
            let mut eight = [0; 8];
            eight[..length].copy_from_slice(&bytes[start..end]);
            u64::from_le_bytes(eight)
        }
    };
    Ok(Fact { kind, numbers, end })
}
