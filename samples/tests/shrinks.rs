//! A difference is made as small as it goes and written down. While the engine is right nothing else
//! runs that code, so the differences here are invented.

use samples::report;
use samples::shrink::smallest;
use samples::sides::{second, Difference};
use second::samples::calls::{call, Call, Entry};

/// A difference on every board that has a certain card.
fn on_a_card(call: &Call) -> Option<Difference> {
    let found = call.board.windows(3).any(|bytes| bytes == b"ca\x00");
    found.then(|| invented(call))
}

/// A difference on every strip that has KEEP and fires.
fn on_a_firing_keep(call: &Call) -> Option<Difference> {
    let keeps = call.source.chunks(8).any(|word| word[0] == 7);
    (keeps && second(call).answer.firings > 0).then(|| invented(call))
}

fn invented(call: &Call) -> Difference {
    Difference {
        names: ["one", "other"],
        said: [second(call), second(call)],
    }
}

/// The first call of that entry that differs.
fn first(entry: Entry, check: fn(&Call) -> Option<Difference>) -> Call {
    let mut calls = (1..).map(call);
    let found = calls.find(|call| call.entry == entry && check(call).is_some());
    found.expect("seeds without end")
}

#[test]
fn to_a_single_card() {
    let least = smallest(first(Entry::RunBook, on_a_card), on_a_card);
    assert_eq!(least.board, b"ca\x00");
    assert_eq!(
        (least.source.len(), least.limit, least.allowance),
        (0, 0, 0)
    );
}

#[test]
fn to_two_words() {
    let least = smallest(first(Entry::RunStrip, on_a_firing_keep), on_a_firing_keep);
    let codes: Vec<u8> = least.source.chunks(8).map(|word| word[0]).collect();
    assert_eq!(codes, [7, 11]);
    assert_eq!(
        (&least.board[..], least.limit, least.allowance),
        (&b"en"[..], 1, 2)
    );
}

#[test]
fn written_down() {
    let call = call(1);
    let folder = std::env::temp_dir().join(format!("llwybrenu-{}", std::process::id()));
    let page = report::write(&folder, &call, &invented(&call)).expect("a folder to write to");
    assert!(
        page.contains("one: ") && page.contains("other: ") && page.ends_with("equal outputs\n")
    );
    assert_eq!(
        std::fs::read(folder.join("board")).expect("a file"),
        call.board
    );
    std::fs::remove_dir_all(folder).expect("the folder goes");
}
