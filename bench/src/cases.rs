//! The benchmark cases: what is run, over how many rows, and what its cost is divided by.

use crate::case_files::*;

/// What the cost of a book's run is divided by; a strip's is divided by its steps.
#[derive(Clone, Copy, PartialEq, Eq)]
pub enum Unit {
    /// Rows that the search would try without early tests: those that the strip's SEEKs land on.
    Row,
    Firing,
}

/// A case: its name, the number of rows it is named for, the numbers of rows over which its growth
/// is shown, the largest eight times the smallest.
pub struct Case {
    pub name: &'static str,
    pub rows: usize,
    pub sizes: [usize; 4],
    pub unit: Unit,
    pub files: fn(usize) -> Files,
}

const CARD_SIZES: [usize; 4] = [32, 64, 128, 256];
/// A board holds 128 notices.
const NOTICE_SIZES: [usize; 4] = [16, 32, 64, 128];

/// All cases that run.
pub const CASES: [Case; 13] = [
    Case {
        name: "join of 3, fits late",
        rows: 240,
        sizes: CARD_SIZES,
        unit: Unit::Row,
        files: |rows| join_of_three(rows, true),
    },
    Case {
        name: "join of 3, never fits",
        rows: 240,
        sizes: CARD_SIZES,
        unit: Unit::Row,
        files: |rows| join_of_three(rows, false),
    },
    Case {
        name: "join of 3 by tests",
        rows: 240,
        sizes: CARD_SIZES,
        unit: Unit::Row,
        files: join_by_tests,
    },
    Case {
        name: "join of 4, never fits",
        rows: 240,
        sizes: CARD_SIZES,
        unit: Unit::Row,
        files: join_of_four,
    },
    Case {
        name: "ring of 4, quiet",
        rows: 240,
        sizes: CARD_SIZES,
        unit: Unit::Row,
        files: ring_of_four,
    },
    Case {
        name: "sweep, all taken",
        rows: 240,
        sizes: CARD_SIZES,
        unit: Unit::Row,
        files: |rows| card_sweep(rows, true),
    },
    Case {
        name: "sweep, none taken",
        rows: 240,
        sizes: CARD_SIZES,
        unit: Unit::Row,
        files: |rows| card_sweep(rows, false),
    },
    Case {
        name: "notice sweep",
        rows: 120,
        sizes: NOTICE_SIZES,
        unit: Unit::Row,
        files: notice_sweep,
    },
    Case {
        name: "firings of 1 card",
        rows: 240,
        sizes: CARD_SIZES,
        unit: Unit::Firing,
        files: one_card_firings,
    },
    Case {
        name: "firings of 2 cards",
        rows: 240,
        sizes: CARD_SIZES,
        unit: Unit::Firing,
        files: two_card_firings,
    },
    Case {
        name: "firings of card, notice",
        rows: 240,
        sizes: CARD_SIZES,
        unit: Unit::Firing,
        files: card_and_notice_firings,
    },
    Case {
        name: "short attempts",
        rows: 240,
        sizes: CARD_SIZES,
        unit: Unit::Firing,
        files: short_attempts,
    },
    Case {
        name: "hat firings",
        rows: 200,
        sizes: CARD_SIZES,
        unit: Unit::Firing,
        files: hat_firings,
    },
];
