//! The rows of each kind as lists, found out as far as they are needed and kept until a firing.

use super::board::{Board, Kinds, Made, Marks};
use super::sizes::*;

/// Where the list of a kind stands: its known part, its end, and the row from which to look on.
#[derive(Clone, Copy, Default)]
pub struct List {
    pub start: u16,
    pub known: u16,
    pub end: u16,
    scanned: u16,
}

/// The lists; those of cards stand from 0, those of notices from 256. At the place past the end
/// stands the row past the end.
pub struct Index {
    pub rows: [u16; ROWS],
    pub numbers: [u64; ROWS],
    pub lists: [List; KINDS],
    /// One bit for each kind whose list has its place.
    placed: u64,
    /// Where the next list of cards and the next one of notices go.
    next_cards: u16,
    next_notices: u16,
    /// How many rows of each kind there are.
    count: [u16; 64],
    /// One bit for each kind that has a row.
    pub present: u64,
    /// One bit for each kind of cards.
    cards: u64,
}

impl Index {
    /// Counts the rows of a board.
    pub fn new(kinds: &Kinds, board: &Board) -> Index {
        let mut index = Index {
            rows: [0; ROWS],
            numbers: [0; ROWS],
            lists: [List::default(); KINDS],
            placed: 0,
            next_cards: 0,
            next_notices: FIRST_NOTICE as u16,
            count: [0; 64],
            present: 0,
            cards: kinds.cards,
        };
        index.rows[usize::from(PAST)] = PAST;
        for card in [true, false] {
            let (start, end) = board.span(card);
            index.count_in(&board.kinds[start..end]);
        }
        index
    }

    /// Counts made rows in.
    #[inline(always)]
    fn count_in(&mut self, kinds: &[u8]) {
        for kind in kinds {
            self.count[usize::from(*kind & 63)] += 1;
            self.present |= 1 << (kind & 63);
        }
    }

    /// Changes the board by a firing that used these rows. False if that is more than it holds;
    /// the run is then over.
    pub fn settle(&mut self, board: &mut Board, marks: &Marks, used: &[u16], made: &Made) -> bool {
        for row in used {
            let kind = usize::from(board.kinds[usize::from(*row) % ROWS] & 63);
            self.count[kind] -= 1;
            self.present &= !(u64::from(self.count[kind] == 0) << kind);
        }
        if !board.settle(marks, used.len(), made) {
            return false;
        }
        self.placed &= !self.cards;
        self.next_cards = 0;
        self.count_in(&made.kinds[..made.cards]);
        if made.notices > 0 {
            self.placed = 0;
            self.next_notices = FIRST_NOTICE as u16;
            self.count_in(&made.kinds[FIRST_NOTICE..FIRST_NOTICE + made.notices]);
        }
        true
    }

    /// The kind's list as far as it's known.
    #[inline(always)]
    pub fn list(&mut self, kind: u8) -> List {
        if self.placed >> (kind & 63) & 1 == 0 {
            self.place(kind);
        }
        self.lists[usize::from(kind) % KINDS]
    }

    /// Gives the kind's list its place, with nothing known.
    #[inline(never)]
    fn place(&mut self, kind: u8) {
        let (next, scanned) = match self.cards >> (kind & 63) & 1 {
            1 => (&mut self.next_cards, 0),
            _ => (&mut self.next_notices, FIRST_NOTICE as u16),
        };
        let start = *next;
        *next += self.count[usize::from(kind & 63)];
        self.lists[usize::from(kind) % KINDS] = List {
            start,
            known: start,
            end: *next,
            scanned,
        };
        self.placed |= 1 << (kind & 63);
    }

    /// The first place from there on whose numbers equal the pattern in the mask's bits, or the end.
    #[inline(always)]
    pub fn next_equal(&self, mut at: usize, end: usize, pattern: u64, mask: u64) -> usize {
        let numbers = &self.numbers[..end];
        while at + 4 <= end {
            let four = &numbers[at..at + 4];
            for (place, numbers) in four.iter().enumerate() {
                if (numbers ^ pattern) & mask == 0 {
                    return at + place;
                }
            }
            at += 4;
        }
        while at < end && (numbers[at] ^ pattern) & mask != 0 {
            at += 1;
        }
        at
    }

    /// Finds at least one more row of the kind, of which there are more. Looks at eight rows at
    /// once; gives the new end of the known part.
    #[inline(never)]
    pub fn extend(&mut self, board: &Board, kind: u8) -> u16 {
        let list = &mut self.lists[usize::from(kind) % KINDS];
        let before = list.known;
        while list.known == before {
            let from = usize::from(list.scanned);
            let mut equal = board.equal_kinds(kind, from);
            while equal != 0 && list.known < list.end {
                let row = from + (equal.trailing_zeros() / 8) as usize;
                let at = usize::from(list.known) % ROWS;
                self.rows[at] = row as u16;
                self.numbers[at] = board.numbers[row % ROWS];
                list.known += 1;
                equal &= equal - 1;
            }
            list.scanned += 8;
        }
        list.known
    }
}
