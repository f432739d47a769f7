//! Strips: translated ones, bent ones, free ones that no translation makes, and faulty ones.

use super::books::{book, invent_kinds};
use super::damage::{cut, flip_bits};
use super::dice::Dice;
use crate::book::{read_book, Comparison, Kind, Term, Test};
use crate::sizes::*;
use crate::strip::{read_strip, write_strip, write_word, Strip, Word};
use crate::translate::translate;

/// The strip of a sound book.
pub fn translated_strip(book: &[u8]) -> Vec<u8> {
    write_strip(&translate(&read_book(book).expect("a sound book")))
}

/// A sound strip that no translation makes: loose words with cursors that mostly stand on rows.
pub fn free_strip(dice: &mut Dice) -> Vec<u8> {
    let kinds = invent_kinds(dice);
    let number = kinds.len() + dice.between(1, 40);
    let mut writer = WordWriter::new(dice, &kinds, number);
    let mut words: Vec<Word> = kinds.iter().map(|kind| Word::Kind(*kind)).collect();
    while words.len() + 1 < number {
        words.push(writer.any_word(words.len()));
    }
    words.push(writer.last_word());
    write_strip(&words)
}

/// A translated strip with one to four words changed for other sound ones.
pub fn bent_strip(dice: &mut Dice, book: &[u8]) -> Vec<u8> {
    let strip = read_strip(&translated_strip(book)).expect("a translated strip");
    let Strip { kinds, mut words } = strip;
    let first = kinds.len();
    let last = words.len() - 1;
    let mut writer = WordWriter::new(dice, &kinds, words.len());
    for _ in 0..writer.dice.between(1, 4) {
        if first == last {
            break;
        }
        let at = writer.dice.between(first, last - 1);
        match writer.dice.below(4) {
            0 => words[at] = writer.any_word(at),
            1 => words.swap(at, writer.dice.between(first, last - 1)),
            _ => words[at] = writer.bend(words[at]),
        }
    }
    write_strip(&words)
}

/// A strip with a fault; now and then it's sound all the same.
pub fn faulty_strip(dice: &mut Dice) -> Vec<u8> {
    let mut strip = match dice.chance(50) {
        true => free_strip(dice),
        false => translated_strip(&book(dice)),
    };
    let words = strip.len() / WORD_BYTES;
    match dice.below(8) {
        0 => return cut(dice, strip),
        1 => return flip_bits(dice, strip),
        2 => strip.truncate(dice.below(words + 1) * WORD_BYTES),
        3 => return strip.repeat(LONGEST_STRIP / strip.len() + dice.below(2)),
        4 => return one_kind_more(dice, strip),
        5 => {
            let (from, to) = (dice.below(words), dice.below(words));
            for byte in 0..WORD_BYTES {
                strip.swap(from * WORD_BYTES + byte, to * WORD_BYTES + byte);
            }
        }
        _ => {
            let at = dice.below(strip.len());
            let any = dice.roll() as u8;
            let highest = [1, 2, 4, 5, 11, 12, 13, 14, 16, 31, 32, 255, any];
            strip[at] = dice.one_of(&highest);
        }
    }
    strip
}

/// KIND words put in anywhere, or so many that there is one over.
fn one_kind_more(dice: &mut Dice, mut strip: Vec<u8>) -> Vec<u8> {
    let kind = strip[..WORD_BYTES].to_vec();
    if dice.chance(50) {
        return [kind.repeat(KINDS + dice.below(2)), strip].concat();
    }
    let at = dice.below(strip.len() / WORD_BYTES) * WORD_BYTES;
    strip.splice(at..at, kind);
    strip
}

/// The dice with what a sound word needs to know.
struct WordWriter<'a> {
    dice: &'a mut Dice,
    kinds: &'a [Kind],
    /// How many words the strip has.
    words: usize,
    /// Cursors with the kind last sought by them.
    sought: Vec<(u8, u8)>,
    /// The kind last put.
    put: Option<u8>,
}

impl<'a> WordWriter<'a> {
    /// A writer of words for a strip of these kinds and of that many words.
    fn new(dice: &'a mut Dice, kinds: &'a [Kind], words: usize) -> WordWriter<'a> {
        WordWriter {
            dice,
            kinds,
            words,
            sought: Vec::new(),
            put: None,
        }
    }

    /// A sound word for that place; its target is mostly further on.
    fn any_word(&mut self, at: usize) -> Word {
        let target = self.target(at);
        match self.dice.weighted(&[6, 24, 8, 5, 8, 8, 8, 12, 10, 3, 5, 3]) {
            0 => Word::Open {
                cursor: self.cursor(),
            },
            1 => self.seek(target),
            2..=4 => self.reading_word(target),
            5 => Word::Test {
                test: self.test(),
                target,
            },
            6 => Word::Keep,
            7 => self.put_word(),
            8 => self.arg(),
            9 => Word::Jump { target },
            10 => Word::Fire {
                rule: self.dice.below(RULES) as u8,
            },
            _ => Word::Quiet,
        }
    }

    /// JUMP, FIRE or QUIET.
    fn last_word(&mut self) -> Word {
        match self.dice.weighted(&[30, 50, 20]) {
            0 => Word::Jump {
                target: self.dice.below(self.words) as u16,
            },
            1 => Word::Fire {
                rule: self.dice.below(RULES) as u8,
            },
            _ => Word::Quiet,
        }
    }

    /// The same word with another target, cursor, kind, argument or register, if one is found soon.
    fn bend(&mut self, word: Word) -> Word {
        for _ in 0..20 {
            let mut bytes = write_word(word);
            match self.dice.below(4) {
                0 => {
                    let target = self.dice.below(self.words) as u16;
                    bytes[6..].copy_from_slice(&target.to_le_bytes());
                }
                field => bytes[field] = self.dice.below(CURSORS) as u8,
            }
            match self.read_alone(bytes) {
                Some(bent) if bent != word => return bent,
                _ => {}
            }
        }
        word
    }

    /// The word of these bytes, read in a strip of the same kinds and length.
    fn read_alone(&self, bytes: [u8; WORD_BYTES]) -> Option<Word> {
        let mut words: Vec<Word> = self.kinds.iter().map(|kind| Word::Kind(*kind)).collect();
        words.resize(self.words, Word::Quiet);
        let mut strip = write_strip(&words);
        let at = self.kinds.len() * WORD_BYTES;
        strip[at..at + WORD_BYTES].copy_from_slice(&bytes);
        Some(read_strip(&strip).ok()?.words[self.kinds.len()])
    }

    /// A target, mostly not before the word.
    fn target(&mut self, at: usize) -> u16 {
        match self.dice.chance(70) {
            true => self.dice.between(at.min(self.words - 1), self.words - 1) as u16,
            false => self.dice.below(self.words) as u16,
        }
    }

    /// A cursor, mostly one of the first few.
    fn cursor(&mut self) -> u8 {
        match self.dice.chance(80) {
            true => self.dice.below(4) as u8,
            false => self.dice.below(CURSORS) as u8,
        }
    }

    /// A declared kind.
    fn kind(&mut self) -> u8 {
        self.dice.below(self.kinds.len()) as u8
    }

    /// A register, mostly one of the first few.
    fn register(&mut self) -> u8 {
        match self.dice.chance(80) {
            true => self.dice.below(3) as u8,
            false => self.dice.below(REGISTERS) as u8,
        }
    }

    /// SEEK of any cursor and kind.
    fn seek(&mut self, target: u16) -> Word {
        let (cursor, kind) = (self.cursor(), self.kind());
        self.sought.push((cursor, kind));
        Word::Seek {
            cursor,
            kind,
            target,
        }
    }

    /// BIND, SAME or LIT, mostly of an argument that the sought row has; else KEEP.
    fn reading_word(&mut self, target: u16) -> Word {
        let mut cursor = self.cursor();
        let mut argument = self.dice.below(NUMBERS) as u8;
        if self.dice.chance(93) {
            let kinds = self.kinds;
            let arity = |sought: &(u8, u8)| kinds[usize::from(sought.1)].arity;
            let mut readable = self.sought.iter().rev().filter(|sought| arity(sought) > 0);
            let Some(sought) = readable.next().copied() else {
                return Word::Keep;
            };
            cursor = sought.0;
            argument = self.dice.below(usize::from(arity(&sought))) as u8;
        }
        match self.dice.below(3) {
            0 => Word::Bind {
                cursor,
                argument,
                register: self.register(),
            },
            1 => Word::Same {
                cursor,
                argument,
                register: self.register(),
                target,
            },
            _ => Word::Lit {
                cursor,
                argument,
                value: self.dice.number(),
                target,
            },
        }
    }

    /// A test of any two terms.
    fn test(&mut self) -> Test {
        let number = self.dice.below(4) as u8;
        Test {
            comparison: Comparison::from_number(number).expect("0 to 3"),
            left: self.term(),
            right: self.term(),
        }
    }

    /// A register or a constant.
    fn term(&mut self) -> Term {
        match self.dice.chance(60) {
            true => Term::Variable(self.register().into()),
            false => Term::Constant(self.dice.number()),
        }
    }

    /// PUT of any kind.
    fn put_word(&mut self) -> Word {
        let kind = self.kind();
        self.put = Some(kind);
        Word::Put { kind }
    }

    /// ARG, mostly at a position that the last put kind has; else PUT.
    fn arg(&mut self) -> Word {
        let arity = self.put.map(|kind| self.kinds[usize::from(kind)].arity);
        let position = match arity {
            _ if self.dice.chance(5) => self.dice.below(NUMBERS),
            None | Some(0) => return self.put_word(),
            Some(arity) => self.dice.below(arity.into()),
        };
        Word::Arg {
            position: position as u8,
            term: self.term(),
        }
    }
}
