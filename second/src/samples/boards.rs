//! Boards of a book: rows planted so that rules fit, other rows among them, up to full boards.

use super::dice::Dice;
use crate::board::{write_board, Board, Fact};
use crate::book::{read_book, Atom, Book, Class, Kind, Part, Rule, Term};
use crate::sizes::*;

/// A sound board of a sound book.
pub fn board(dice: &mut Dice, book: &[u8]) -> Vec<u8> {
    let book = read_book(book).expect("a sound book");
    write_board(&invent_board(dice, &book))
}

/// A sound board of facts of these kinds.
pub fn board_of_kinds(dice: &mut Dice, kinds: &[Kind]) -> Vec<u8> {
    let book = Book {
        kinds: kinds.to_vec(),
        rules: Vec::new(),
    };
    write_board(&invent_board(dice, &book))
}

/// A sound board of a sound book, as the types have it.
pub fn invent_board(dice: &mut Dice, book: &Book) -> Board {
    let mut numbers = constants_of(book);
    numbers.truncate(4);
    while numbers.len() < 3 {
        numbers.push(dice.number());
    }
    let mut planter = Planter {
        dice,
        book,
        numbers,
        board: Board::default(),
    };
    if !book.rules.is_empty() {
        for _ in 0..planter.dice.weighted(&[5, 40, 35, 20]) {
            let rule = &book.rules[planter.dice.below(book.rules.len())];
            planter.plant_rule(rule);
        }
    }
    planter.scatter();
    planter.dice.shuffle(&mut planter.board.cards);
    planter.dice.shuffle(&mut planter.board.notices);
    planter.board
}

/// The constants of a book's rules.
fn constants_of(book: &Book) -> Vec<u16> {
    let parts = |rule: &Rule| [vec![rule.own.clone()], rule.sweeps.clone()].concat();
    let mut constants = Vec::new();
    for part in book.rules.iter().flat_map(parts) {
        for term in part.body.iter().flat_map(|atom| &atom.terms) {
            if let Term::Constant(value) = term {
                constants.push(*value);
            }
        }
    }
    constants.sort();
    constants.dedup();
    constants
}

/// The numbers given to the variables.
type Numbers = [u16; VARIABLES];

/// The dice with the board being filled.
struct Planter<'a> {
    dice: &'a mut Dice,
    book: &'a Book,
    numbers: Vec<u16>,
    board: Board,
}

impl Planter<'_> {
    /// Puts rows on the board that fit the rule's body, and mostly some for its sweeps.
    fn plant_rule(&mut self, rule: &Rule) {
        let values = self.invent_values(&rule.own, None);
        self.plant_body(&rule.own.body, &values);
        let mut bound = [false; VARIABLES];
        rule.own.bind_body(&mut bound);
        for sweep in &rule.sweeps {
            for _ in 0..self.dice.weighted(&[20, 30, 30, 20]) {
                let values = self.invent_values(sweep, Some((bound, values)));
                self.plant_body(&sweep.body, &values);
            }
        }
    }

    /// Values for all variables, the bound ones as given; of some tries the first that passes.
    fn invent_values(
        &mut self,
        part: &Part,
        given: Option<([bool; VARIABLES], Numbers)>,
    ) -> Numbers {
        let mut values = [0; VARIABLES];
        for _ in 0..30 {
            for (variable, value) in values.iter_mut().enumerate() {
                *value = match given {
                    Some((bound, given)) if bound[variable] => given[variable],
                    _ => invent_number(self.dice, &self.numbers),
                };
            }
            let number = |term| number_of(term, &values);
            let mut tests = part.tests.iter();
            if tests.all(|test| test.comparison.holds(number(test.left), number(test.right))) {
                break;
            }
        }
        values
    }

    /// Puts a row on the board for each body atom.
    fn plant_body(&mut self, body: &[Atom], values: &Numbers) {
        for atom in body {
            let numbers = atom.terms.iter().map(|term| number_of(*term, values));
            self.put(Fact {
                kind: atom.kind,
                numbers: numbers.collect(),
            });
        }
    }

    /// Other rows among the planted ones: mostly few, sometimes up to a full board.
    fn scatter(&mut self) {
        let rows = match self.dice.weighted(&[20, 50, 18, 12]) {
            0 => 0,
            1 => self.dice.below(10),
            2 => self.dice.below(60),
            _ => self.dice.between(200, 600),
        };
        if self.book.kinds.is_empty() {
            return;
        }
        for _ in 0..rows {
            let kind = self.dice.below(self.book.kinds.len());
            let arity = self.book.kinds[kind].arity;
            let numbers = (0..arity).map(|_| invent_number(self.dice, &self.numbers));
            let numbers = numbers.collect();
            self.put(Fact {
                kind: kind as u8,
                numbers,
            });
        }
    }

    /// Adds a row if its class has room.
    fn put(&mut self, fact: Fact) {
        let class = self.book.kinds[usize::from(fact.kind)].class;
        let (rows, most) = match class {
            Class::Card => (&mut self.board.cards, CARDS),
            Class::Notice => (&mut self.board.notices, NOTICES),
        };
        if rows.len() < most {
            rows.push(fact);
        }
    }
}

/// One of the book's numbers, seldom another.
fn invent_number(dice: &mut Dice, numbers: &[u16]) -> u16 {
    match dice.chance(92) {
        true => dice.one_of(numbers),
        false => dice.number(),
    }
}

/// A term's number under the values.
fn number_of(term: Term, values: &Numbers) -> u16 {
    match term {
        Term::Constant(value) => value,
        Term::Variable(variable) => values[usize::from(variable)],
    }
}
