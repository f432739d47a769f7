//! The board as lists of rows, the index of them by kind, and the board after a firing.

use crate::tuned::board::Kinds;
use crate::tuned::read_board;
use crate::tuned::sizes::*;

/// A row.
#[derive(Clone, Copy)]
pub struct Row {
    pub kind: u8,
    pub numbers: [u16; 4],
}

/// The rows of a board.
#[derive(Default)]
pub struct Rows {
    pub cards: Vec<Row>,
    pub notices: Vec<Row>,
}

/// A row of that kind with the numbers that one word holds, the first lowest.
fn row(kind: u8, word: u64) -> Row {
    let number = |place: u32| (word >> (16 * place)) as u16;
    Row {
        kind,
        numbers: [number(0), number(1), number(2), number(3)],
    }
}

impl read_board::Rows for Rows {
    fn card(&mut self, kind: u8, word: u64) {
        self.cards.push(row(kind, word));
    }
    fn notice(&mut self, kind: u8, word: u64) {
        self.notices.push(row(kind, word));
    }
}

/// The rows of each kind, in order, in one list; where each kind's stand; and for each row its place there.
pub struct Index {
    pub list: [u16; CARDS + NOTICES],
    pub spans: [(u16, u16); KINDS],
    pub cards: [u16; CARDS],
    pub notices: [u16; NOTICES],
}

impl Index {
    /// No rows.
    pub fn new() -> Index {
        Index {
            list: [0; CARDS + NOTICES],
            spans: [(0, 0); KINDS],
            cards: [0; CARDS],
            notices: [0; NOTICES],
        }
    }

    /// Lists the rows of a board: counts those of each kind, then puts each in its place.
    pub fn fill(&mut self, rows: &Rows) {
        self.spans = [(0, 0); KINDS];
        for row in rows.cards.iter().chain(&rows.notices) {
            self.spans[usize::from(row.kind)].1 += 1;
        }
        let mut next = 0;
        for span in &mut self.spans {
            let count = span.1;
            *span = (next, next);
            next += count;
        }
        let places = [
            (&rows.cards, &mut self.cards[..]),
            (&rows.notices, &mut self.notices[..]),
        ];
        for (rows, places) in places {
            for (number, row) in rows.iter().enumerate() {
                let end = &mut self.spans[usize::from(row.kind)].1;
                self.list[usize::from(*end)] = number as u16;
                places[number] = *end;
                *end += 1;
            }
        }
    }
}

/// What a firing used and made so far.
pub struct Work {
    pub used: [bool; CARDS],
    pub made: Rows,
}

impl Work {
    /// Nothing.
    pub fn new() -> Work {
        Work {
            used: [false; CARDS],
            made: Rows::default(),
        }
    }

    /// Forgets it all.
    pub fn clear(&mut self) {
        self.used = [false; CARDS];
        self.made.cards.clear();
        self.made.notices.clear();
    }

    /// Adds a made fact; false if it's one more than a board holds.
    pub fn put(&mut self, card: bool, fact: Row) -> bool {
        let (made, most) = match card {
            true => (&mut self.made.cards, CARDS),
            false => (&mut self.made.notices, NOTICES),
        };
        made.push(fact);
        made.len() <= most
    }
}

impl Rows {
    /// The rows of a class.
    pub fn of(&self, card: bool) -> &[Row] {
        match card {
            true => &self.cards,
            false => &self.notices,
        }
    }

    /// The board after a firing; false, and no change, if that is more than it holds.
    pub fn settle(&mut self, work: &Work) -> bool {
        let used = work.used.iter().filter(|used| **used).count();
        if self.cards.len() - used + work.made.cards.len() > CARDS
            || self.notices.len() + work.made.notices.len() > NOTICES
        {
            return false;
        }
        let mut number = 0;
        self.cards.retain(|_| {
            number += 1;
            !work.used[number - 1]
        });
        self.cards.extend_from_slice(&work.made.cards);
        self.notices.extend_from_slice(&work.made.notices);
        true
    }

    /// Writes the board, keeps the bytes past it, and gives its length.
    pub fn write(&self, kinds: &Kinds, out: &mut [u8]) -> usize {
        let mut at = 0;
        for (mark, rows) in [(b"ca", &self.cards), (b"no", &self.notices)] {
            for row in rows {
                out[at..at + 2].copy_from_slice(mark);
                out[at + 2] = row.kind;
                at += 3;
                for number in &row.numbers[..usize::from(kinds.arity[usize::from(row.kind)])] {
                    out[at..at + 2].copy_from_slice(&number.to_le_bytes());
                    at += 2;
                }
            }
        }
        out[at..at + 2].copy_from_slice(b"en");
        at + 2
    }
}
