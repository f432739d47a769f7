//! One test for each entry of 'Errors that pass a quick trial', for book and translated strip.

use crate::pieces::*;
use second::numbers::End;

/// After a sweep takes a choice, going on from its last atom would use a card twice.
#[test]
fn a_sweep_does_not_go_on_from_its_last_atom() {
    let book = file(&[
        card(0),
        card(1),
        card(1),
        card(2),
        ru(),
        ba(0, &[]),
        sw(),
        ba(1, &[v(0)]),
        ba(2, &[v(1)]),
        he(3, &[v(0), v(1)]),
    ]);
    let before = file(&[ca(0, &[]), ca(1, &[1]), times(3, ca(2, &[5]))]);
    let after = file(&[times(2, ca(2, &[5])), ca(3, &[1, 5])]);
    ends_both(&book, &before, 9, End::Quiet, 1, 0, &after);
}

/// The same with notices around the card: each notice row before it, none after it, goes on.
#[test]
fn a_sweep_over_notice_card_notice() {
    let book = file(&[
        card(0),
        card(1),
        notice(1),
        card(3),
        ru(),
        ba(0, &[]),
        sw(),
        ba(2, &[v(0)]),
        ba(1, &[v(1)]),
        ba(2, &[v(2)]),
        he(3, &[v(0), v(1), v(2)]),
    ]);
    let before = file(&[
        ca(0, &[]),
        ca(1, &[1]),
        ca(1, &[2]),
        no(2, &[8]),
        no(2, &[9]),
    ]);
    let after = file(&[
        ca(3, &[8, 1, 8]),
        ca(3, &[8, 2, 8]),
        no(2, &[8]),
        no(2, &[9]),
    ]);
    ends_both(&book, &before, 9, End::Quiet, 1, 0, &after);
}

/// A sweep whose body is all notices takes every choice, in order.
#[test]
fn a_sweep_over_notices_alone_takes_every_choice() {
    let book = file(&[
        card(0),
        notice(1),
        card(2),
        ru(),
        ba(0, &[]),
        sw(),
        ba(1, &[v(0)]),
        ba(1, &[v(1)]),
        he(2, &[v(0), v(1)]),
    ]);
    let before = file(&[ca(0, &[]), no(1, &[1]), no(1, &[2])]);
    let after = file(&[
        ca(2, &[1, 1]),
        ca(2, &[1, 2]),
        ca(2, &[2, 1]),
        ca(2, &[2, 2]),
        no(1, &[1]),
        no(1, &[2]),
    ]);
    ends_both(&book, &before, 9, End::Quiet, 1, 0, &after);
}

/// Taking two equal cards for one: two equal starts are two cards.
#[test]
fn equal_cards_are_counted_apart() {
    let book = file(&[
        card(1),
        card(1),
        ru(),
        ba(0, &[v(0)]),
        ba(0, &[v(0)]),
        he(1, &[v(0)]),
    ]);
    let before = times(3, ca(0, &[9]));
    let before = file(&[before]);
    let after = file(&[ca(0, &[9]), ca(1, &[9])]);
    ends_both(&book, &before, 9, End::Quiet, 1, 0, &after);
    let twice = file(&[card(1), card(1), ru(), ba(0, &[v(0)]), he(1, &[v(0)])]);
    let after = file(&[times(3, ca(1, &[9]))]);
    ends_both(&twice, &before, 9, End::Quiet, 3, 0, &after);
}

/// A sweep sees no card that this firing made, neither by the rule's head nor by a sweep's.
#[test]
fn a_sweep_sees_nothing_made_in_this_firing() {
    let book = file(&[
        card(0),
        card(1),
        card(1),
        notice(1),
        ru(),
        ba(0, &[]),
        he(1, &[c(1)]),
        he(3, &[c(7)]),
        sw(),
        ba(1, &[v(0)]),
        he(2, &[v(0)]),
        he(1, &[v(0)]),
        sw(),
        ba(1, &[v(1)]),
        he(2, &[c(99)]),
    ]);
    let before = file(&[ca(0, &[]), ca(1, &[5])]);
    let after = file(&[ca(1, &[1]), ca(2, &[5]), ca(1, &[5]), no(3, &[7])]);
    ends_both(&book, &before, 9, End::Quiet, 1, 0, &after);
}

/// The same for notices: a sweep over notices doesn't see those of this firing.
#[test]
fn a_sweep_sees_no_notice_made_in_this_firing() {
    let book = file(&[
        card(0),
        notice(1),
        card(1),
        ru(),
        ba(0, &[]),
        he(1, &[c(1)]),
        sw(),
        ba(1, &[v(0)]),
        he(2, &[v(0)]),
    ]);
    let before = file(&[ca(0, &[])]);
    let after = file(&[no(1, &[1])]);
    ends_both(&book, &before, 9, End::Quiet, 1, 0, &after);
}

/// A variable's value from a choice given up isn't kept.
#[test]
fn values_of_a_choice_given_up_are_forgotten() {
    let book = file(&[
        card(2),
        card(1),
        card(2),
        ru(),
        ba(0, &[v(0), c(4)]),
        ba(1, &[v(0)]),
        te(1, v(0), c(1)),
        he(2, &[v(0), v(0)]),
    ]);
    let before = file(&[
        ca(0, &[8, 3]),
        ca(0, &[1, 4]),
        ca(0, &[3, 4]),
        ca(0, &[2, 4]),
        ca(1, &[1]),
        ca(1, &[2]),
    ]);
    let after = file(&[
        ca(0, &[8, 3]),
        ca(0, &[1, 4]),
        ca(0, &[3, 4]),
        ca(1, &[1]),
        ca(2, &[2, 2]),
    ]);
    ends_both(&book, &before, 9, End::Quiet, 1, 0, &after);
}

/// Nor is a value of a sweep's own variable, by the next choice or by the next sweep.
#[test]
fn a_sweeps_own_values_are_forgotten() {
    let book = file(&[
        card(0),
        card(1),
        card(1),
        card(1),
        ru(),
        ba(0, &[]),
        sw(),
        ba(1, &[v(0)]),
        he(3, &[v(0)]),
        sw(),
        ba(2, &[v(0)]),
        he(3, &[v(0)]),
    ]);
    let before = file(&[ca(0, &[]), ca(1, &[1]), ca(1, &[2]), ca(2, &[5])]);
    let after = file(&[ca(3, &[1]), ca(3, &[2]), ca(3, &[5])]);
    ends_both(&book, &before, 9, End::Quiet, 1, 0, &after);
}

/// After FULL the next rule isn't tried, and the firing hasn't happened.
#[test]
fn no_later_rule_after_full() {
    let book = file(&[
        card(0),
        card(0),
        ru(),
        ba(0, &[]),
        he(0, &[]),
        he(1, &[]),
        ru(),
        ba(1, &[]),
    ]);
    let before = file(&[ca(0, &[]), times(255, ca(1, &[]))]);
    ends_both(&book, &before, 9, End::Full, 0, 255, &before);
}

/// FULL of notices; and FULL by made facts alone, which the strip's PUT meets.
#[test]
fn full_of_notices_and_by_put() {
    let book = file(&[card(0), notice(0), ru(), ba(0, &[]), he(1, &[])]);
    let full = file(&[times(2, ca(0, &[])), times(127, no(1, &[]))]);
    let after = file(&[ca(0, &[]), times(128, no(1, &[]))]);
    ends_both(&book, &full, 9, End::Full, 1, 0, &after);
    let book = file(&[
        card(0),
        notice(0),
        card(1),
        ru(),
        ba(0, &[]),
        sw(),
        ba(1, &[]),
        ba(1, &[]),
        he(2, &[c(1)]),
    ]);
    let sixteen = file(&[ca(0, &[]), times(16, no(1, &[]))]);
    let after = file(&[times(256, ca(2, &[1])), times(16, no(1, &[]))]);
    ends_both(&book, &sixteen, 1, End::Limit, 1, 0, &after);
    let seventeen = file(&[ca(0, &[]), times(17, no(1, &[]))]);
    ends_both(&book, &seventeen, 1, End::Full, 0, 255, &seventeen);
    let many = file(&[ca(0, &[]), times(128, no(1, &[]))]);
    ends_both(&book, &many, 1, End::Full, 0, 255, &many);
}
