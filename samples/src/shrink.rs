//! The smallest call that still differs: the limit, the allowance, records, words and stretches of bytes
//! are taken away as long as it does.

use crate::calls::most_steps;
use crate::sides::Difference;
use second::samples::calls::{Call, Entry};
use second::samples::strips::translated_strip;
use std::time::{Duration, Instant};

/// What finds a difference.
pub type Check = fn(&Call) -> Option<Difference>;

/// Full boards have so much to take away that it isn't worth waiting for the last byte.
const LONGEST_WAIT: Duration = Duration::from_secs(15);

/// Makes the call smaller until nothing more can be taken away, or for so long.
pub fn smallest(mut call: Call, check: Check) -> Call {
    let began = Instant::now();
    loop {
        let found = smaller(&call)
            .take_while(|_| began.elapsed() < LONGEST_WAIT)
            .find(|call| is_quick(call) && check(call).is_some());
        match found {
            Some(smaller) => call = smaller,
            None => return call,
        }
    }
}

/// Calls that are a little smaller, those that make the others quicker first.
fn smaller(call: &Call) -> impl Iterator<Item = Call> + '_ {
    let limits = fewer(call.limit.into()).map(|limit| Call {
        limit: limit as u16,
        ..call.clone()
    });
    let allowances = fewer(call.allowance).map(|allowance| Call {
        allowance,
        ..call.clone()
    });
    let words = without_words(&call.source).filter(|_| call.entry == Entry::RunStrip);
    let sources = words.chain(without(&call.source)).map(|source| Call {
        source,
        ..call.clone()
    });
    let boards = without(&call.board).map(|board| Call {
        board,
        ..call.clone()
    });
    limits.chain(allowances).chain(boards).chain(sources)
}

/// Smaller numbers: none, half, one less.
fn fewer(number: u64) -> impl Iterator<Item = u64> {
    [0, number / 2, number.saturating_sub(1)]
        .into_iter()
        .filter(move |fewer| *fewer < number)
}

/// A file without some of its bytes: long stretches, two records (a sweep isn't left without its
/// atom), one record, short stretches.
fn without(file: &[u8]) -> impl Iterator<Item = Vec<u8>> + '_ {
    let marks =
        || (0..file.len()).filter(|i| MARKS.iter().any(|mark| file[*i..].starts_with(mark)));
    let records = marks()
        .zip(marks().skip(2))
        .chain(marks().zip(marks().skip(1)));
    let long = stretches(file.len()).filter(|(start, end)| end - start > 16);
    let short = stretches(file.len()).filter(|(start, end)| end - start <= 16);
    long.chain(records)
        .chain(short)
        .map(|(start, end)| [&file[..start], &file[end..]].concat())
}

/// The marks of books and boards.
const MARKS: [&[u8]; 9] = [
    b"kd", b"ru", b"ba", b"te", b"he", b"sw", b"en", b"ca", b"no",
];

/// Halves, quarters and so on of so many bytes.
fn stretches(length: usize) -> impl Iterator<Item = (usize, usize)> {
    let sizes = std::iter::successors(Some(length.div_ceil(2)), |size| {
        (*size > 1).then(|| size.div_ceil(2))
    });
    sizes.flat_map(move |size| {
        let starts = (0..length).step_by(size.max(1));
        starts.map(move |start| (start, length.min(start + size)))
    })
}

/// A strip without some of its words, the targets moved with the words that they name.
fn without_words(strip: &[u8]) -> impl Iterator<Item = Vec<u8>> + '_ {
    let words: Vec<&[u8]> = strip.chunks_exact(8).collect();
    stretches(words.len()).map(move |(start, end)| {
        let left = words[..start].iter().chain(&words[end..]);
        left.flat_map(|word| moved(word, start, end)).collect()
    })
}

/// A word in a strip that the words from start to end are taken from.
fn moved(word: &[u8], start: usize, end: usize) -> Vec<u8> {
    let mut word = word.to_vec();
    let target = usize::from(u16::from_le_bytes([word[6], word[7]]));
    let target = match target {
        target if target >= end => target - (end - start),
        target => target.min(start),
    };
    word[6..].copy_from_slice(&(target as u16).to_le_bytes());
    word
}

/// Whether a run surely ends soon: what is left of a file may well search for hours.
fn is_quick(call: &Call) -> bool {
    let is_book = second::check_book(&call.source).number == 0;
    match call.entry {
        Entry::RunBook if is_book => {
            let strip = translated_strip(&call.source);
            let refused = second::check_board(&call.source, &call.board).number != 0;
            let as_strip = Call {
                source: strip,
                ..call.clone()
            };
            call.limit == 0 || refused || most_steps(&as_strip).is_some()
        }
        Entry::RunStrip => call.allowance < 100_000 || most_steps(call).is_some(),
        _ => true,
    }
}
