//! The board: rows in arrays, its writer, and the board after a firing.

use super::sizes::*;

/// What a kind byte holds where there is no row.
pub const NO_KIND: u8 = 63;

/// The kinds of a book or strip. Arities past the last kind are 0.
#[derive(Clone)]
pub struct Kinds {
    pub count: usize,
    /// One bit for each kind of cards.
    pub cards: u64,
    pub arity: [u8; 64],
}

impl Kinds {
    /// No kinds.
    pub fn new() -> Kinds {
        Kinds {
            count: 0,
            cards: 0,
            arity: [0; 64],
        }
    }

    /// Adds a kind.
    #[inline]
    pub fn push(&mut self, card: bool, arity: u8) {
        self.cards |= u64::from(card) << self.count;
        self.arity[self.count] = arity;
        self.count += 1;
    }

    /// Whether facts of the kind are cards.
    #[inline(always)]
    pub fn is_card(&self, kind: u8) -> bool {
        self.cards >> (kind & 63) & 1 == 1
    }
}

impl Default for Kinds {
    fn default() -> Kinds {
        Kinds::new()
    }
}

/// A board's rows: cards from 0, notices from 256. A row's numbers are one word, the first lowest.
pub struct Board {
    pub kinds: [u8; ROWS],
    pub numbers: [u64; ROWS],
    pub cards: usize,
    pub notices: usize,
}

/// The facts made in a firing so far.
pub struct Made {
    pub cards: usize,
    pub notices: usize,
    /// Made cards from 0, made notices from 256.
    pub kinds: [u8; CARDS + NOTICES],
    pub numbers: [u64; CARDS + NOTICES],
    /// Where the last made fact stands.
    pub last: usize,
}

/// The mark of a used card row.
pub const USED: u8 = 2;
/// The mark of a card row that is chosen or held.
pub const HELD: u8 = 1;
/// For each card row whether it is held and whether it is used; other rows have no mark.
pub type Marks = [u8; ROWS];

impl Board {
    /// A board without rows.
    pub fn new() -> Board {
        Board {
            kinds: [NO_KIND; ROWS],
            numbers: [0; ROWS],
            cards: 0,
            notices: 0,
        }
    }

    /// Writes the board, keeps the bytes past it, and gives its length.
    pub fn write(&self, kinds: &Kinds, out: &mut [u8]) -> usize {
        // Each record is written with eight bytes of numbers, of which the next one covers those
        // that it doesn't have; so all goes through a page of its own.
        let mut page = [0; LONGEST_BOARD + 8];
        let mut at = 0;
        let classes = [
            (b"ca", 0, self.cards),
            (b"no", FIRST_NOTICE, FIRST_NOTICE + self.notices),
        ];
        for (mark, first, end) in classes {
            for (kind, numbers) in self.kinds[first..end].iter().zip(&self.numbers[first..end]) {
                let record = &mut page[at..at + 11];
                record[..2].copy_from_slice(mark);
                record[2] = *kind;
                record[3..].copy_from_slice(&numbers.to_le_bytes());
                at += 3 + 2 * usize::from(kinds.arity[usize::from(*kind & 63)]);
            }
        }
        page[at..at + 2].copy_from_slice(b"en");
        at += 2;
        out[..at].copy_from_slice(&page[..at]);
        at
    }

    /// Where the rows of a class start and end.
    #[inline(always)]
    pub fn span(&self, card: bool) -> (usize, usize) {
        match card {
            true => (0, self.cards),
            false => (FIRST_NOTICE, FIRST_NOTICE + self.notices),
        }
    }

    /// Of the eight rows from there on those of the kind: the highest bit of each one's byte.
    #[inline(always)]
    pub fn equal_kinds(&self, kind: u8, from: usize) -> u64 {
        const LOW: u64 = 0x0101_0101_0101_0101;
        const SEVEN: u64 = 0x7F7F_7F7F_7F7F_7F7F;
        let eight = self.kinds[from..from + 8].try_into().unwrap();
        let differing = u64::from_le_bytes(eight) ^ (LOW * u64::from(kind));
        !(((differing & SEVEN) + SEVEN) | differing | SEVEN)
    }

    /// The first row of the kind from that row on, or the end.
    #[inline(always)]
    pub fn next_of_kind(&self, kind: u8, mut from: usize, end: usize) -> usize {
        while from < end {
            let equal = self.equal_kinds(kind, from);
            if equal != 0 {
                return (from + (equal.trailing_zeros() / 8) as usize).min(end);
            }
            from += 8;
        }
        end
    }

    /// Changes the board: unused cards stay in order, made facts follow. False, and no change, if
    /// that is more than a board holds.
    #[inline]
    pub fn settle(&mut self, marks: &Marks, used: usize, made: &Made) -> bool {
        let kept = self.cards - used;
        if kept + made.cards > CARDS || self.notices + made.notices > NOTICES {
            return false;
        }
        if used > 0 {
            self.close_up(marks, used);
        }
        self.kinds[kept..kept + made.cards].copy_from_slice(&made.kinds[..made.cards]);
        self.numbers[kept..kept + made.cards].copy_from_slice(&made.numbers[..made.cards]);
        self.cards = kept + made.cards;
        if made.notices > 0 {
            let to = FIRST_NOTICE + self.notices;
            let from = FIRST_NOTICE..FIRST_NOTICE + made.notices;
            self.kinds[to..to + made.notices].copy_from_slice(&made.kinds[from.clone()]);
            self.numbers[to..to + made.notices].copy_from_slice(&made.numbers[from]);
            self.notices += made.notices;
        }
        true
    }

    /// Moves each stretch of unused cards down over the used ones before it.
    fn close_up(&mut self, marks: &Marks, used: usize) {
        let mut to = next_used(marks, 0);
        let mut from = to + 1;
        for left in (0..used).rev() {
            let end = match left {
                0 => self.cards,
                _ => next_used(marks, from),
            };
            self.kinds.copy_within(from..end, to);
            self.numbers.copy_within(from..end, to);
            to += end - from;
            from = end + 1;
        }
    }
}

impl Default for Board {
    fn default() -> Board {
        Board::new()
    }
}

/// The first used row from that row on; there is one.
#[inline(always)]
fn next_used(marks: &Marks, mut from: usize) -> usize {
    loop {
        let eight = marks[from..from + 8].try_into().unwrap();
        let used = u64::from_le_bytes(eight) & (0x0101_0101_0101_0101 * u64::from(USED));
        if used != 0 {
            return from + (used.trailing_zeros() / 8) as usize;
        }
        from += 8;
    }
}

impl Made {
    /// No made facts.
    pub fn new() -> Made {
        Made {
            cards: 0,
            notices: 0,
            kinds: [NO_KIND; CARDS + NOTICES],
            numbers: [0; CARDS + NOTICES],
            last: 0,
        }
    }

    /// Forgets the made facts.
    #[inline(always)]
    pub fn clear(&mut self) {
        self.cards = 0;
        self.notices = 0;
    }

    /// Adds a made fact; false if it's one more than a board holds of its class.
    #[inline(always)]
    pub fn put(&mut self, card: bool, kind: u8, numbers: u64) -> bool {
        let at = match card {
            true if self.cards == CARDS => return false,
            true => {
                self.cards += 1;
                self.cards - 1
            }
            false if self.notices == NOTICES => return false,
            false => {
                self.notices += 1;
                FIRST_NOTICE + self.notices - 1
            }
        };
        self.kinds[at] = kind;
        self.numbers[at] = numbers;
        self.last = at;
        true
    }
}

impl Default for Made {
    fn default() -> Made {
        Made::new()
    }
}
