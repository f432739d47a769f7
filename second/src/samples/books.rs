//! Books that really fire: few kinds and values, shared variables, tests, sweeps, heads.

use super::dice::Dice;
use crate::book::{write_book, Atom, Book, Class, Comparison, Kind, Part, Rule, Term, Test};
use crate::sizes::*;

/// A sound book.
pub fn book(dice: &mut Dice) -> Vec<u8> {
    write_book(&invent_book(dice))
}

/// A sound book, as the types have it.
pub fn invent_book(dice: &mut Dice) -> Book {
    let kinds = invent_kinds(dice);
    let rules = match dice.weighted(&[2, 50, 25, 20, 3]) {
        4 => dice.between(4, RULES),
        few => few,
    };
    let mut author = Author::new(dice, &kinds);
    let rules = (0..rules).map(|_| author.rule()).collect();
    Book { kinds, rules }
}

/// Kinds of both classes; the first is a card.
pub fn invent_kinds(dice: &mut Dice) -> Vec<Kind> {
    let number = match dice.weighted(&[5, 25, 30, 20, 15, 5]) {
        5 => dice.between(6, KINDS),
        few => few + 1,
    };
    let mut kinds = Vec::new();
    for kind in 0..number {
        let class = match kind == 0 || dice.chance(55) {
            true => Class::Card,
            false => Class::Notice,
        };
        let arity = dice.weighted(&[15, 35, 30, 12, 8]) as u8;
        kinds.push(Kind { class, arity });
    }
    kinds
}

/// Which classes the atoms of a body have.
#[derive(Clone, Copy)]
enum Classes {
    SomeCard,
    NoCard,
    Any,
}

/// The dice with what the rules of one book have in common.
struct Author<'a> {
    dice: &'a mut Dice,
    kinds: &'a [Kind],
    /// The constants the book uses.
    constants: Vec<u16>,
    /// The variables the rule being written uses.
    variables: Vec<u16>,
}

impl<'a> Author<'a> {
    /// An author of rules over these kinds.
    fn new(dice: &'a mut Dice, kinds: &'a [Kind]) -> Author<'a> {
        let constants = (0..dice.between(1, 3)).map(|_| dice.number()).collect();
        Author {
            dice,
            kinds,
            constants,
            variables: Vec::new(),
        }
    }

    /// A rule with 0 to 2 sweeps.
    fn rule(&mut self) -> Rule {
        let number = self.dice.between(1, 4);
        let mut all: Vec<u16> = (0..VARIABLES as u16).collect();
        self.dice.shuffle(&mut all);
        self.variables = all[..number].to_vec();
        let atoms = match self.dice.weighted(&[35, 35, 20, 10]) {
            3 => self.dice.between(4, BODY_ATOMS),
            few => few + 1,
        };
        let own = self.part(atoms, Classes::SomeCard, &[]);
        let bound = variables_of(&own.body);
        let sweeps = self.dice.weighted(&[35, 40, 25]);
        let sweeps = (0..sweeps).map(|_| self.sweep(&bound)).collect();
        Rule { own, sweeps }
    }

    /// A sweep that may use the rule's variables and some more.
    fn sweep(&mut self, bound: &[u16]) -> Part {
        if self.dice.chance(60) {
            self.variables.push(self.dice.below(VARIABLES) as u16);
        }
        let atoms = self.dice.weighted(&[45, 35, 15, 5]) + 1;
        let has_notices = self.kinds.iter().any(|kind| kind.class == Class::Notice);
        let classes = match self.dice.weighted(&[45, 20, 35]) {
            0 => Classes::SomeCard,
            2 if has_notices => Classes::NoCard,
            _ => Classes::Any,
        };
        self.part(atoms, classes, bound)
    }

    /// Body, tests and heads; where a card atom is needed, it stands anywhere in the body.
    fn part(&mut self, atoms: usize, classes: Classes, bound: &[u16]) -> Part {
        let card_atom = self.dice.below(atoms);
        let mut body = Vec::new();
        for atom in 0..atoms {
            body.push(self.body_atom(match classes {
                Classes::SomeCard if atom == card_atom => Some(Class::Card),
                Classes::NoCard => Some(Class::Notice),
                _ => None,
            }));
        }
        let mut known = variables_of(&body);
        known.extend(bound);
        let tests = match self.dice.weighted(&[55, 25, 15, 5]) {
            3 => self.dice.between(3, SWEEP_TESTS),
            few => few,
        };
        let heads = match self.dice.weighted(&[15, 40, 30, 15]) {
            3 => self.dice.between(3, SWEEP_HEAD_ATOMS),
            few => few,
        };
        Part {
            body,
            tests: (0..tests).map(|_| self.test(&known)).collect(),
            heads: (0..heads).map(|_| self.head_atom(&known)).collect(),
        }
    }

    /// An atom of a kind of the class, if one is given.
    fn body_atom(&mut self, class: Option<Class>) -> Atom {
        let mut kind = self.dice.below(self.kinds.len());
        while class.is_some_and(|class| self.kinds[kind].class != class) {
            kind = self.dice.below(self.kinds.len());
        }
        let terms = (0..self.kinds[kind].arity).map(|_| match self.dice.chance(75) {
            true => Term::Variable(self.dice.one_of(&self.variables)),
            false => Term::Constant(self.dice.one_of(&self.constants)),
        });
        Atom {
            terms: terms.collect(),
            kind: kind as u8,
        }
    }

    /// A head atom of any kind, over known variables.
    fn head_atom(&mut self, known: &[u16]) -> Atom {
        let kind = self.dice.below(self.kinds.len());
        let terms = (0..self.kinds[kind].arity).map(|_| self.known_term(known));
        Atom {
            terms: terms.collect(),
            kind: kind as u8,
        }
    }

    /// A test over known variables.
    fn test(&mut self, known: &[u16]) -> Test {
        let comparisons = [
            Comparison::Equal,
            Comparison::Unequal,
            Comparison::Less,
            Comparison::LessOrEqual,
        ];
        Test {
            comparison: comparisons[self.dice.weighted(&[15, 35, 20, 30])],
            left: self.known_term(known),
            right: self.known_term(known),
        }
    }

    /// A bound variable or a constant.
    fn known_term(&mut self, known: &[u16]) -> Term {
        if !known.is_empty() && self.dice.chance(70) {
            return Term::Variable(self.dice.one_of(known));
        }
        match self.dice.chance(60) {
            true => Term::Constant(self.dice.one_of(&self.constants)),
            false => Term::Constant(self.dice.number()),
        }
    }
}

/// The variables of a body, with repeats.
fn variables_of(body: &[Atom]) -> Vec<u16> {
    let terms = body.iter().flat_map(|atom| &atom.terms);
    let variables = terms.filter_map(|term| match term {
        Term::Variable(variable) => Some(*variable),
        Term::Constant(_) => None,
    });
    variables.collect()
}
