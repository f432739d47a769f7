//! The paragraph 'Translation' of document 01: from an accepted book to its strip.

use crate::book::{Atom, Book, Bound, Class, Kind, Part, Rule, Term};
use crate::sizes::*;
use crate::strip::Word;

/// The words of a book's strip: KINDs, the rules in order, QUIET.
pub fn translate(book: &Book) -> Vec<Word> {
    let kinds = book.kinds.iter().map(|kind| Word::Kind(*kind));
    let mut tape = Tape {
        kinds: &book.kinds,
        words: kinds.collect(),
    };
    for (number, rule) in book.rules.iter().enumerate() {
        tape.write_rule(number, rule);
    }
    tape.words.push(Word::Quiet);
    tape.words
}

/// The words written so far.
struct Tape<'a> {
    kinds: &'a [Kind],
    words: Vec<Word>,
}

impl Tape<'_> {
    /// A rule: its own part, its sweeps, FIRE.
    fn write_rule(&mut self, number: usize, rule: &Rule) {
        let next_rule = self.here() + rule_length(rule);
        let mut bound = [false; VARIABLES];
        self.write_part(&rule.own, 0, &mut bound, next_rule);
        for (sweep, first_cursor) in rule.sweeps.iter().zip(SWEEP_CURSORS) {
            self.write_sweep(sweep, first_cursor, bound);
        }
        self.words.push(Word::Fire { rule: number as u8 });
        assert_eq!(self.here(), next_rule, "a rule's length");
    }

    /// A sweep: its part, then JUMP to the SEEK of its first card atom, or else of its last atom.
    fn write_sweep(&mut self, sweep: &Part, first_cursor: usize, mut bound: Bound) {
        let after = self.here() + sweep_length(sweep);
        let seeks = self.write_part(sweep, first_cursor, &mut bound, after);
        let is_card = |atom: &Atom| self.kinds[usize::from(atom.kind)].class == Class::Card;
        let again = match sweep.body.iter().position(is_card) {
            Some(first_card_atom) => seeks[first_card_atom],
            None => seeks[sweep.body.len() - 1],
        };
        self.words.push(Word::Jump {
            target: word_number(again),
        });
        assert_eq!(self.here(), after, "a sweep's length");
    }

    /// Body, tests, KEEP and heads; gives the word number of each atom's SEEK.
    fn write_part(
        &mut self,
        part: &Part,
        first_cursor: usize,
        bound: &mut Bound,
        way_out: usize,
    ) -> Vec<usize> {
        let mut seeks = Vec::new();
        for (number, atom) in part.body.iter().enumerate() {
            let target = seeks.last().copied().unwrap_or(way_out);
            let cursor = (first_cursor + number) as u8;
            self.words.push(Word::Open { cursor });
            seeks.push(self.here());
            self.words.push(Word::Seek {
                cursor,
                kind: atom.kind,
                target: word_number(target),
            });
            self.write_arguments(cursor, atom, bound);
        }
        let last_seek = *seeks.last().expect("an accepted body has an atom");
        for test in &part.tests {
            self.words.push(Word::Test {
                test: *test,
                target: word_number(last_seek),
            });
        }
        self.words.push(Word::Keep);
        for head in &part.heads {
            self.write_head(head);
        }
        seeks
    }

    /// For each argument LIT, or BIND at a variable's first occurrence, or SAME. The SEEK of the
    /// atom is the last word written before.
    fn write_arguments(&mut self, cursor: u8, atom: &Atom, bound: &mut Bound) {
        let target = word_number(self.here() - 1);
        for (argument, term) in atom.terms.iter().enumerate() {
            let argument = argument as u8;
            self.words.push(match *term {
                Term::Constant(value) => Word::Lit {
                    cursor,
                    argument,
                    value,
                    target,
                },
                Term::Variable(variable) if bound[usize::from(variable)] => Word::Same {
                    cursor,
                    argument,
                    register: variable as u8,
                    target,
                },
                Term::Variable(variable) => {
                    bound[usize::from(variable)] = true;
                    Word::Bind {
                        cursor,
                        argument,
                        register: variable as u8,
                    }
                }
            });
        }
    }

    /// PUT and its ARGs in order.
    fn write_head(&mut self, head: &Atom) {
        self.words.push(Word::Put { kind: head.kind });
        for (position, term) in head.terms.iter().enumerate() {
            self.words.push(Word::Arg {
                position: position as u8,
                term: *term,
            });
        }
    }

    /// The number of the word written next.
    fn here(&self) -> usize {
        self.words.len()
    }
}

/// How many words a rule becomes: its part, its sweeps and FIRE.
fn rule_length(rule: &Rule) -> usize {
    part_length(&rule.own) + rule.sweeps.iter().map(sweep_length).sum::<usize>() + 1
}

/// How many words a sweep becomes: its part and JUMP.
fn sweep_length(sweep: &Part) -> usize {
    part_length(sweep) + 1
}

/// How many words body, tests, KEEP and heads become.
fn part_length(part: &Part) -> usize {
    let body: usize = part.body.iter().map(|atom| 2 + atom.terms.len()).sum();
    let heads: usize = part.heads.iter().map(|atom| 1 + atom.terms.len()).sum();
    body + part.tests.len() + 1 + heads
}

/// A word's number as a target.
fn word_number(number: usize) -> u16 {
    u16::try_from(number).expect("a strip has fewer than 65,536 words")
}
