//! Book against strip, both by the engine: answer and board agree, unless the strip says SPENT; then they are those of so many firings.

use crate::sides::{engine, Difference};
use llwybrenu::LONGEST_STRIP;
use second::numbers::End;
use second::samples::calls::{Call, Entry};

/// Where book and strip part on the call of a book's run.
pub fn difference(call: &Call) -> Option<Difference> {
    let Some(strip) = translated(&call.source) else {
        return None; // a refused book has no strip; that both entries refuse it alike is the second program's to say
    };
    let by_strip = engine(&Call {
        entry: Entry::RunStrip,
        source: strip,
        ..call.clone()
    });
    let mut by_book = engine(call);
    if by_strip.answer.number == End::Spent as u8 {
        by_book = engine(&Call {
            limit: by_strip.answer.firings,
            ..call.clone()
        });
        if by_book.answer.number == End::Limit as u8 {
            by_book.answer.number = End::Spent as u8;
        }
    }
    let said = [by_book, by_strip];
    (said[0] != said[1]).then_some(Difference {
        names: ["book", "strip"],
        said,
    })
}

/// The strip that the engine translates a book into; none if it refuses the book.
pub fn translated(book: &[u8]) -> Option<Vec<u8>> {
    let mut strip = vec![0; LONGEST_STRIP];
    let answer = llwybrenu::translate(book, &mut strip);
    strip.truncate(answer.length as usize);
    answer.is_accepted().then_some(strip)
}
