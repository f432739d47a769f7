//! The calls that a seed stands for: its files through all six entries, with outputs of about the needed length, and allowances that are
//! just enough or one step short.

use crate::agreement::translated;
use llwybrenu::{LONGEST_BOARD, LONGEST_STRIP};
use second::board::read_board;
use second::machine::{attempt, Attempted};
use second::numbers::End;
use second::samples::calls::{call, Call, Entry, MOST_STEPS};
use second::samples::dice::Dice;
use second::strip::read_strip;

pub const ENTRIES: [Entry; 6] = [
    Entry::CheckBook,
    Entry::CheckBoard,
    Entry::CheckStrip,
    Entry::Translate,
    Entry::RunBook,
    Entry::RunStrip,
];

/// Whether the entry takes a strip, and no book.
fn takes_strip(entry: Entry) -> bool {
    matches!(entry, Entry::CheckStrip | Entry::RunStrip)
}

/// The calls of a seed that the engine and the second program must answer alike.
pub fn calls_of(seed: u64) -> Vec<Call> {
    let own = call(seed);
    let mut dice = Dice::new(!seed);
    let strip = Call {
        source: translated(&own.source).unwrap_or(own.source.clone()),
        ..own.clone()
    };
    let mut calls = Vec::new();
    for entry in ENTRIES {
        // a strip is refused by a book's entries at once: now and then that is looked at too
        if takes_strip(entry) || !takes_strip(own.entry) || dice.chance(5) {
            let files = if takes_strip(entry) { &strip } else { &own };
            calls.push(Call {
                entry,
                room: room(&mut dice, entry),
                ..files.clone()
            });
        }
    }
    if let Some(steps) = most_steps(&strip) {
        let edge = |allowance| Call {
            entry: Entry::RunStrip,
            room: LONGEST_BOARD,
            allowance,
            ..strip.clone()
        };
        calls.extend([edge(steps - 1), edge(steps)]);
    }
    calls.push(own);
    calls
}

/// The calls of a seed on which book and strip must agree: none for another file than a book.
pub fn runs_of(calls: &[Call]) -> impl Iterator<Item = Call> + '_ {
    let book = calls
        .iter()
        .find(|call| call.entry == Entry::RunBook)
        .filter(|call| translated(&call.source).is_some());
    let allowances = calls
        .iter()
        .filter(|call| call.entry == Entry::RunStrip)
        .map(|call| call.allowance);
    book.into_iter().flat_map(move |book| {
        allowances.clone().map(|allowance| Call {
            allowance,
            ..book.clone()
        })
    })
}

/// The steps of the longest attempt of a strip's run, found by the second program; none for a refused file, for a run without attempts or
/// for one that doesn't end soon.
pub fn most_steps(call: &Call) -> Option<u64> {
    let strip = read_strip(&call.source).ok()?;
    let mut board = read_board(&strip.kinds, &call.board).ok()?;
    let mut most = None;
    for _ in 0..call.limit {
        let (attempted, steps) = attempt(&strip, &board, MOST_STEPS);
        most = most.max(Some(steps));
        match attempted {
            Attempted::Fired(_, after) => board = after,
            Attempted::Ended(End::Spent) => return None,
            Attempted::Ended(_) => break,
        }
    }
    most
}

/// The output lent to an entry: mostly about the least length, sometimes far from it. A check has none.
fn room(dice: &mut Dice, entry: Entry) -> usize {
    let least = match entry {
        Entry::CheckBook | Entry::CheckBoard | Entry::CheckStrip => return 0,
        Entry::Translate => LONGEST_STRIP,
        Entry::RunBook | Entry::RunStrip => LONGEST_BOARD,
    };
    match dice.weighted(&[4, 4, 40, 20, 20, 6, 6]) {
        0 => 0,
        1 => dice.below(least),
        2 => least,
        3 => least + 1,
        4 => least + dice.below(64),
        5 => least - 1,
        _ => least - 2,
    }
}
