//! What every entry answers, laid out as c/llwybrenu.h has it.

/// An answer: a refusal, an acceptance or the end of a run.
#[repr(C)]
#[derive(Clone, Copy, Debug, PartialEq, Eq)]
pub struct Answer {
    /// 0 accepted; 1 to 11 a refusal; 20 to 24 the end of a run. [`Answer::name`] has the names.
    pub number: u8,
    /// The file that a refusal is about: 0 none, 1 book, 2 strip, 3 board, 4 output.
    pub file: u8,
    /// The last fired rule, 255 if none.
    pub rule: u8,
    /// The firings done.
    pub firings: u16,
    /// Where in the file: a byte, for a strip a word.
    pub place: u32,
    /// The bytes written.
    pub length: u32,
}

/// The names of the refusals 1 to 11 and of the ends 20 to 24, with their numbers.
const NAMES: [(u8, &str); 17] = [
    (0, "ACCEPTED"),
    (1, "CUT"),
    (2, "MARK"),
    (3, "PLACE"),
    (4, "NOCARD"),
    (5, "BARE"),
    (6, "MANY"),
    (7, "FIELD"),
    (8, "LOOSE"),
    (9, "TRAIL"),
    (10, "SHORT"),
    (11, "STRIP"),
    (20, "QUIET"),
    (21, "LIMIT"),
    (22, "FULL"),
    (23, "SPENT"),
    (24, "STUCK"),
];

impl Answer {
    /// A check or a translation that accepts.
    pub fn is_accepted(&self) -> bool {
        self.number == 0
    }

    /// A refusal: nothing was written.
    pub fn is_refusal(&self) -> bool {
        (1..=11).contains(&self.number)
    }

    /// The name of the number, as the documents have it.
    pub fn name(&self) -> &'static str {
        NAMES
            .iter()
            .find(|(number, _)| *number == self.number)
            .map_or("", |(_, name)| name)
    }

    /// The name of the file that a refusal is about; no name if it is none.
    pub fn file_name(&self) -> &'static str {
        ["", "book", "strip", "board", "output"]
            .get(usize::from(self.file))
            .unwrap_or(&"")
    }
}
