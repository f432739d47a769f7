//! Each reason for STRIP, at the lowest word that has one.

use crate::pieces::*;
use second::numbers::{Answer, Refusal};

fn strip_refused(word: usize) -> Answer {
    refused(Refusal::Strip, 2, word)
}

/// KIND card/4, KIND notice/4, the word, QUIET: four words.
fn around(word_2: Vec<u8>) -> Vec<u8> {
    [
        word(0, 0, 4, 0, 0, 0),
        word(0, 1, 4, 0, 0, 0),
        word_2,
        word(12, 0, 0, 0, 0, 0),
    ]
    .concat()
}

/// A sound word of each code with every field at its highest.
fn highest_words() -> Vec<Vec<u8>> {
    vec![
        word(0, 1, 4, 0, 0, 0),
        word(1, 13, 0, 0, 0, 0),
        word(2, 13, 1, 0, 0, 3),
        word(3, 13, 3, 11, 0, 0),
        word(4, 13, 3, 11, 0, 3),
        word(5, 13, 3, 0, 65_535, 3),
        word(6, 12, 255, 255, 65_535, 3),
        word(6, 13, 255, 255, 11, 3),
        word(6, 14, 11, 0, 65_535, 3),
        word(6, 15, 11, 0, 11, 3),
        word(7, 0, 0, 0, 0, 0),
        word(8, 1, 0, 0, 0, 0),
        word(9, 3, 0, 0, 65_535, 0),
        word(9, 3, 1, 0, 11, 0),
        word(10, 0, 0, 0, 0, 3),
        word(11, 31, 0, 0, 0, 0),
        word(12, 0, 0, 0, 0, 0),
    ]
}

#[test]
fn highest_fields_are_accepted() {
    for word in highest_words() {
        assert_eq!(second::check_strip(&around(word)), accepted());
    }
}

/// Every field above its range, and every unused byte that isn't zero.
#[test]
fn one_above_any_highest_field_is_refused() {
    for word in highest_words() {
        for byte in 1..8 {
            let mut strip = around(word.clone());
            let at = 16 + byte;
            if free_byte(&word, byte) {
                continue;
            }
            strip[at] += 1;
            let answer = second::check_strip(&strip);
            assert_eq!(answer, strip_refused(2), "{word:?} byte {byte}");
        }
    }
}

/// Bytes of a constant, which have every value.
fn free_byte(word: &[u8], byte: usize) -> bool {
    let left_constant = word[0] == 6 && word[1] & 2 == 0 && (byte == 2 || byte == 3);
    let right_constant = word[0] == 6 && word[1] & 1 == 0;
    let literal = word[0] == 5 || (word[0] == 9 && word[2] == 0);
    // ARG's tag and TEST's code one higher are words of another row of the list above.
    let tag = (word[0] == 9 && byte == 2 && word[2] == 0) || (word[0] == 6 && byte == 1);
    let tag = tag && word[1] != 15;
    left_constant || ((right_constant || literal) && (byte == 4 || byte == 5)) || tag
}

#[test]
fn fields_far_out_of_range() {
    let words = [
        word(0, 2, 0, 0, 0, 0),
        word(0, 0, 5, 0, 0, 0),
        word(1, 14, 0, 0, 0, 0),
        word(2, 0, 2, 0, 0, 0),
        word(2, 0, 0, 0, 0, 4),
        word(2, 0, 0, 0, 0, 65_535),
        word(3, 0, 4, 0, 0, 0),
        word(3, 0, 0, 12, 0, 0),
        word(4, 0, 0, 12, 0, 0),
        word(5, 0, 4, 0, 0, 0),
        word(6, 16, 0, 0, 0, 0),
        word(6, 2, 0, 1, 0, 0),
        word(6, 1, 0, 0, 12, 0),
        word(6, 1, 0, 0, 256, 0),
        word(8, 2, 0, 0, 0, 0),
        word(9, 4, 0, 0, 0, 0),
        word(9, 0, 2, 0, 0, 0),
        word(9, 0, 1, 0, 12, 0),
        word(10, 0, 0, 0, 0, 4),
        word(11, 32, 0, 0, 0, 0),
        word(13, 0, 0, 0, 0, 0),
        word(255, 0, 0, 0, 0, 0),
    ];
    for word in words {
        let answer = second::check_strip(&around(word.clone()));
        assert_eq!(answer, strip_refused(2), "{word:?}");
    }
}

#[test]
fn lengths() {
    assert_eq!(second::check_strip(b""), strip_refused(0));
    let sound = around(word(7, 0, 0, 0, 0, 0));
    for length in 1..sound.len() {
        if length % 8 != 0 {
            let answer = second::check_strip(&sound[..length]);
            assert_eq!(answer, strip_refused(0));
        }
    }
    let longest = word(12, 0, 0, 0, 0, 0).repeat(5_601);
    assert_eq!(second::check_strip(&longest), accepted());
    let longer = word(12, 0, 0, 0, 0, 0).repeat(5_602);
    assert_eq!(second::check_strip(&longer), strip_refused(0));
}

/// A kind is declared by an earlier KIND only.
#[test]
fn a_kind_must_be_declared_earlier() {
    let strip = [
        word(8, 0, 0, 0, 0, 0),
        word(0, 0, 0, 0, 0, 0),
        word(12, 0, 0, 0, 0, 0),
    ];
    assert_eq!(second::check_strip(&strip.concat()), strip_refused(0));
}

#[test]
fn a_kind_after_another_code() {
    let strip = [
        word(0, 0, 0, 0, 0, 0),
        word(7, 0, 0, 0, 0, 0),
        word(0, 0, 0, 0, 0, 0),
        word(12, 0, 0, 0, 0, 0),
    ];
    assert_eq!(second::check_strip(&strip.concat()), strip_refused(2));
}

#[test]
fn the_last_word_must_lead_on_or_end() {
    for last in highest_words() {
        let mut strip = around(word(7, 0, 0, 0, 0, 0));
        strip.truncate(24);
        strip.extend(&last);
        let may_be_last = [10, 11, 12].contains(&last[0]);
        let expected = match may_be_last {
            true => accepted(),
            false => strip_refused(3),
        };
        assert_eq!(second::check_strip(&strip), expected);
    }
    let kinds = word(0, 0, 0, 0, 0, 0).repeat(3);
    assert_eq!(second::check_strip(&kinds), strip_refused(2));
}

#[test]
fn the_lowest_faulty_word_is_named() {
    let strip = [
        word(12, 0, 0, 0, 0, 0),
        word(13, 0, 0, 0, 0, 0),
        word(1, 14, 0, 0, 0, 0),
        word(7, 0, 0, 0, 0, 0),
    ]
    .concat();
    assert_eq!(second::check_strip(&strip), strip_refused(1));
    assert_eq!(second::check_strip(&strip[..31]), strip_refused(0));
}

/// A KIND word may be a target, and the word itself too.
#[test]
fn any_word_may_be_a_target() {
    for target in 0..4 {
        let strip = around(word(10, 0, 0, 0, 0, target));
        assert_eq!(second::check_strip(&strip), accepted());
    }
}
