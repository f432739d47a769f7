//! Whether the samples are worth comparing: what occurs among them, and how often.

use second::board::read_board;
use second::book::read_book;
use second::run::{look, Look};
use second::samples::calls::{book_and_board, call, free_call, quick_limit, Entry};
use second::samples::dice::Dice;
use std::collections::BTreeMap;

/// What a run of an undamaged sample did.
#[derive(Default)]
struct Did {
    firings: usize,
    /// Firings of rules that have sweeps, and those among them whose sweeps took something.
    with_sweeps: usize,
    swept: usize,
    /// Choices taken by sweeps with a card atom, and by sweeps of notices alone.
    taken_with_cards: usize,
    taken_of_notices: usize,
}

/// Runs an undamaged sample firing by firing.
fn watch(seed: u64) -> Did {
    let mut dice = Dice::new(seed);
    let (book, board) = book_and_board(&mut dice);
    let limit = quick_limit(&mut dice, &book, &board);
    let book = read_book(&book).unwrap();
    let mut board = read_board(&book.kinds, &board).unwrap();
    let mut did = Did::default();
    while did.firings < usize::from(limit) {
        let Look::Fired(firing) = look(&book, &board) else {
            break;
        };
        did.firings += 1;
        let sweeps = &book.rules[firing.rule].sweeps;
        did.with_sweeps += usize::from(!sweeps.is_empty());
        did.swept += usize::from(firing.taken.iter().any(|taken| *taken > 0));
        for (sweep, taken) in sweeps.iter().zip(&firing.taken) {
            match sweep.has_card_atom(&book.kinds) {
                true => did.taken_with_cards += taken,
                false => did.taken_of_notices += taken,
            }
        }
        board = firing.board;
    }
    did
}

#[test]
fn undamaged_samples_fire_and_sweep() {
    let seeds = 2_000;
    let all: Vec<Did> = (0..seeds).map(watch).collect();
    let count = |which: fn(&Did) -> bool| all.iter().filter(|did| which(did)).count();
    let fired = count(|did| did.firings > 0);
    let fired_twice = count(|did| did.firings > 1);
    let with_sweeps = count(|did| did.with_sweeps > 0);
    let swept = count(|did| did.swept > 0);
    let with_cards = count(|did| did.taken_with_cards > 0);
    let of_notices = count(|did| did.taken_of_notices > 0);
    println!("fired {fired}, twice {fired_twice}, with sweeps {with_sweeps}, swept {swept}");
    println!("swept cards {with_cards}, notices alone {of_notices}");
    assert!(fired * 2 > seeds as usize);
    assert!(fired_twice * 4 > seeds as usize);
    assert!(swept * 2 > with_sweeps && swept * 4 > seeds as usize);
    assert!(with_cards * 10 > seeds as usize && of_notices * 20 > seeds as usize);
}

#[test]
fn every_number_occurs() {
    let mut numbers: BTreeMap<u8, usize> = BTreeMap::new();
    let mut strip_ends: BTreeMap<u8, usize> = BTreeMap::new();
    for seed in 0..2_000 {
        let call = call(seed);
        let mut out = vec![0xA5; call.room];
        let answer = call.answer(&mut out);
        *numbers.entry(answer.number).or_default() += 1;
        if call.entry == Entry::RunStrip {
            *strip_ends.entry(answer.number).or_default() += 1;
        }
        let length = answer.length as usize;
        assert!(out[length..].iter().all(|byte| *byte == 0xA5));
    }
    println!("{numbers:?}\nby strips {strip_ends:?}");
    for number in (0..=11).chain(20..=24) {
        let times = numbers.get(&number).copied().unwrap_or(0);
        assert!(times >= 5, "number {number} occurs {times} times");
    }
    for number in 20..=24 {
        assert!(strip_ends.get(&number).is_some_and(|times| *times >= 20));
    }
}

/// Strips that no translation makes end in each of the five ways, and really fire.
#[test]
fn free_strips_end_in_every_way() {
    let mut ends: BTreeMap<u8, usize> = BTreeMap::new();
    let mut fired = 0;
    for seed in 0..2_000 {
        let call = free_call(&mut Dice::new(seed));
        let answer = call.answer(&mut vec![0; call.room]);
        *ends.entry(answer.number).or_default() += 1;
        fired += usize::from(answer.firings > 0);
    }
    println!("free strips {ends:?}, fired {fired}");
    let numbers: Vec<u8> = ends.keys().copied().collect();
    assert_eq!(numbers, [20, 21, 22, 23, 24]);
    assert!(ends.values().all(|times| *times >= 20) && fired >= 300);
}

#[test]
fn a_seed_names_a_sample() {
    for seed in 0..50 {
        assert_eq!(call(seed), call(seed));
    }
}
