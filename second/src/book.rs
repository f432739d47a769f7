//! The rule book: its types, the reader that judges a file in document 01's order, and the writer.

use crate::numbers::{File, Refusal, Refused};
use crate::records::RecordReader;
use crate::sizes::*;

/// Whether facts of a kind are cards, used once, or notices, never used.
#[derive(Clone, Copy, Debug, PartialEq, Eq)]
pub enum Class {
    Card = 0,
    Notice = 1,
}

/// A kind of fact: its class and how many numbers each fact has.
#[derive(Clone, Copy, Debug, PartialEq, Eq)]
pub struct Kind {
    pub class: Class,
    pub arity: u8,
}

/// A term: a number that stands there, or a variable.
#[derive(Clone, Copy, Debug, PartialEq, Eq)]
pub enum Term {
    Constant(u16),
    Variable(u16),
}

/// An atom of a body or head: a kind and one term for each argument.
#[derive(Clone, Debug, PartialEq, Eq)]
pub struct Atom {
    pub kind: u8,
    pub terms: Vec<Term>,
}

/// How a test compares its two terms.
#[derive(Clone, Copy, Debug, PartialEq, Eq)]
pub enum Comparison {
    Equal = 0,
    Unequal = 1,
    Less = 2,
    LessOrEqual = 3,
}

/// A test of two terms.
#[derive(Clone, Copy, Debug, PartialEq, Eq)]
pub struct Test {
    pub comparison: Comparison,
    pub left: Term,
    pub right: Term,
}

/// Body, tests and heads: what a sweep is, and what a rule is besides its sweeps.
#[derive(Clone, Debug, Default, PartialEq, Eq)]
pub struct Part {
    pub body: Vec<Atom>,
    pub tests: Vec<Test>,
    pub heads: Vec<Atom>,
}

/// A rule: its own part and its sweeps.
#[derive(Clone, Debug, Default, PartialEq, Eq)]
pub struct Rule {
    pub own: Part,
    pub sweeps: Vec<Part>,
}

/// A rule book. Kinds and rules are numbered from 0 in file order.
#[derive(Clone, Debug, Default, PartialEq, Eq)]
pub struct Book {
    pub kinds: Vec<Kind>,
    pub rules: Vec<Rule>,
}

/// For each variable whether it is bound.
pub type Bound = [bool; VARIABLES];

impl Class {
    /// The class of that number.
    pub fn from_number(number: u8) -> Option<Class> {
        match number {
            0 => Some(Class::Card),
            1 => Some(Class::Notice),
            _ => None,
        }
    }
}

impl Comparison {
    /// The test of that number.
    pub fn from_number(number: u8) -> Option<Comparison> {
        match number {
            0 => Some(Comparison::Equal),
            1 => Some(Comparison::Unequal),
            2 => Some(Comparison::Less),
            3 => Some(Comparison::LessOrEqual),
            _ => None,
        }
    }

    /// Whether the test holds of two numbers.
    pub fn holds(self, left: u16, right: u16) -> bool {
        match self {
            Comparison::Equal => left == right,
            Comparison::Unequal => left != right,
            Comparison::Less => left < right,
            Comparison::LessOrEqual => left <= right,
        }
    }
}

impl Part {
    /// Whether the body has a card atom.
    pub fn has_card_atom(&self, kinds: &[Kind]) -> bool {
        let is_card = |atom: &Atom| kinds[usize::from(atom.kind)].class == Class::Card;
        self.body.iter().any(is_card)
    }

    /// Marks the variables that occur in the body as bound.
    pub fn bind_body(&self, bound: &mut Bound) {
        for term in self.body.iter().flat_map(|atom| &atom.terms) {
            if let Term::Variable(variable) = term {
                bound[usize::from(*variable)] = true;
            }
        }
    }
}

impl Rule {
    /// The part being read: the last sweep once one is open, else the rule's own.
    fn open_part(&mut self) -> &mut Part {
        match self.sweeps.last_mut() {
            Some(sweep) => sweep,
            None => &mut self.own,
        }
    }
}

// ---------------------------------------------------------------- reading

/// The marks of a book.
#[derive(Clone, Copy, PartialEq, Eq)]
enum Mark {
    Kind,
    Rule,
    Body,
    Test,
    Head,
    Sweep,
    End,
}

/// Where the reading of a book stands: before the first rule, or in which group of a part.
#[derive(Clone, Copy, PartialEq, Eq)]
enum Group {
    Kinds,
    Body,
    Tests,
    Heads,
}

/// The book read so far, and where the reading stands.
struct BookReader<'a> {
    records: RecordReader<'a>,
    book: Book,
    group: Group,
}

/// Reads a book, or gives the first refusal in document 01's order.
pub fn read_book(bytes: &[u8]) -> Result<Book, Refused> {
    let mut reader = BookReader {
        records: RecordReader::new(bytes, File::Book),
        book: Book::default(),
        group: Group::Kinds,
    };
    loop {
        let letters = reader.records.mark()?;
        let mark = reader.judge_mark(letters)?;
        reader.judge_place(mark)?;
        reader.judge_body(mark)?;
        reader.judge_many(mark)?;
        if mark == Mark::End {
            reader.records.finish()?;
            return Ok(reader.book);
        }
        reader.read_fields(mark)?;
    }
}

impl BookReader<'_> {
    /// MARK: a mark that books don't have.
    fn judge_mark(&self, letters: [u8; 2]) -> Result<Mark, Refused> {
        match &letters {
            b"kd" => Ok(Mark::Kind),
            b"ru" => Ok(Mark::Rule),
            b"ba" => Ok(Mark::Body),
            b"te" => Ok(Mark::Test),
            b"he" => Ok(Mark::Head),
            b"sw" => Ok(Mark::Sweep),
            b"en" => Ok(Mark::End),
            _ => Err(self.records.refuse(Refusal::Mark)),
        }
    }

    /// PLACE: a mark that may not follow the records before it.
    fn judge_place(&self, mark: Mark) -> Result<(), Refused> {
        let allowed = match mark {
            Mark::Rule | Mark::End => true,
            Mark::Kind => self.group == Group::Kinds,
            Mark::Body => self.group == Group::Body,
            Mark::Test => matches!(self.group, Group::Body | Group::Tests),
            Mark::Head | Mark::Sweep => self.group != Group::Kinds,
        };
        self.records.refuse_if(!allowed, Refusal::Place)
    }

    /// NOCARD or BARE: the first record after a body that lacks what it needs.
    fn judge_body(&mut self, mark: Mark) -> Result<(), Refused> {
        if self.group != Group::Body || mark == Mark::Body {
            return Ok(());
        }
        let rule = self.book.rules.last().expect("a body stands in a rule");
        match rule.sweeps.last() {
            Some(sweep) => {
                let bare = sweep.body.is_empty();
                self.records.refuse_if(bare, Refusal::Bare)
            }
            None => {
                let no_card = !rule.own.has_card_atom(&self.book.kinds);
                self.records.refuse_if(no_card, Refusal::NoCard)
            }
        }
    }

    /// MANY: one record over the size of its group.
    fn judge_many(&mut self, mark: Mark) -> Result<(), Refused> {
        let (before, most) = match mark {
            Mark::End => return Ok(()),
            Mark::Kind => (self.book.kinds.len(), KINDS),
            Mark::Rule => (self.book.rules.len(), RULES),
            Mark::Sweep => (self.open_rule().sweeps.len(), SWEEPS),
            Mark::Body | Mark::Test | Mark::Head => self.atoms_or_tests(mark),
        };
        self.records.refuse_if(before >= most, Refusal::Many)
    }

    /// How many records of that mark the open part has, and how many it may have.
    fn atoms_or_tests(&mut self, mark: Mark) -> (usize, usize) {
        let rule = self.open_rule();
        let sizes = match rule.sweeps.is_empty() {
            true => [BODY_ATOMS, TESTS, HEAD_ATOMS],
            false => [SWEEP_BODY_ATOMS, SWEEP_TESTS, SWEEP_HEAD_ATOMS],
        };
        let part = rule.open_part();
        match mark {
            Mark::Body => (part.body.len(), sizes[0]),
            Mark::Test => (part.tests.len(), sizes[1]),
            _ => (part.heads.len(), sizes[2]),
        }
    }

    /// The record's fields from left to right; then the record joins the book.
    fn read_fields(&mut self, mark: Mark) -> Result<(), Refused> {
        match mark {
            Mark::End => {}
            Mark::Kind => {
                let kind = self.read_kind()?;
                self.book.kinds.push(kind);
            }
            Mark::Rule => {
                self.book.rules.push(Rule::default());
                self.group = Group::Body;
            }
            Mark::Sweep => {
                self.open_rule().sweeps.push(Part::default());
                self.group = Group::Body;
            }
            Mark::Body => {
                let atom = self.read_atom(None)?;
                self.open_rule().open_part().body.push(atom);
            }
            Mark::Test => {
                let test = self.read_test()?;
                self.open_rule().open_part().tests.push(test);
                self.group = Group::Tests;
            }
            Mark::Head => {
                let bound = self.bound();
                let atom = self.read_atom(Some(bound))?;
                self.open_rule().open_part().heads.push(atom);
                self.group = Group::Heads;
            }
        }
        Ok(())
    }

    /// Class and arity of a kind.
    fn read_kind(&mut self) -> Result<Kind, Refused> {
        let number = self.records.byte()?;
        let class = Class::from_number(number).ok_or(self.records.refuse(Refusal::Field))?;
        let arity = self.records.byte()?;
        let out_of_range = usize::from(arity) > NUMBERS;
        self.records.refuse_if(out_of_range, Refusal::Field)?;
        Ok(Kind { class, arity })
    }

    /// Kind and terms of an atom; a head's variables must be among the bound ones.
    fn read_atom(&mut self, bound: Option<Bound>) -> Result<Atom, Refused> {
        let kind = self.records.byte()?;
        let declared = self.book.kinds.get(usize::from(kind)).copied();
        let declared = declared.ok_or(self.records.refuse(Refusal::Field))?;
        let mut terms = Vec::new();
        for _ in 0..declared.arity {
            terms.push(self.read_term(bound)?);
        }
        Ok(Atom { kind, terms })
    }

    /// Number and terms of a test.
    fn read_test(&mut self) -> Result<Test, Refused> {
        let number = self.records.byte()?;
        let comparison = Comparison::from_number(number);
        let comparison = comparison.ok_or(self.records.refuse(Refusal::Field))?;
        let bound = Some(self.bound());
        let left = self.read_term(bound)?;
        let right = self.read_term(bound)?;
        Ok(Test {
            comparison,
            left,
            right,
        })
    }

    /// A term's tag and value; LOOSE if bound variables are given and it is none of them.
    fn read_term(&mut self, bound: Option<Bound>) -> Result<Term, Refused> {
        let tag = self.records.byte()?;
        self.records.refuse_if(tag > 1, Refusal::Field)?;
        let value = self.records.value()?;
        if tag == 0 {
            return Ok(Term::Constant(value));
        }
        let out_of_range = usize::from(value) >= VARIABLES;
        self.records.refuse_if(out_of_range, Refusal::Field)?;
        let loose = bound.is_some_and(|bound| !bound[usize::from(value)]);
        self.records.refuse_if(loose, Refusal::Loose)?;
        Ok(Term::Variable(value))
    }

    /// The variables of the rule's body and, in a sweep, of that sweep's.
    fn bound(&mut self) -> Bound {
        let mut bound = [false; VARIABLES];
        let rule = self.open_rule();
        rule.own.bind_body(&mut bound);
        rule.open_part().bind_body(&mut bound);
        bound
    }

    /// The rule being read.
    fn open_rule(&mut self) -> &mut Rule {
        self.book.rules.last_mut().expect("PLACE passed in a rule")
    }
}

// ---------------------------------------------------------------- writing

/// The book's bytes.
pub fn write_book(book: &Book) -> Vec<u8> {
    book_records(book).concat()
}

/// The book's records, each as its own bytes, `en` last.
pub fn book_records(book: &Book) -> Vec<Vec<u8>> {
    let mut records = Vec::new();
    for kind in &book.kinds {
        records.push(vec![b'k', b'd', kind.class as u8, kind.arity]);
    }
    for rule in &book.rules {
        records.push(b"ru".to_vec());
        write_part(&mut records, &rule.own);
        for sweep in &rule.sweeps {
            records.push(b"sw".to_vec());
            write_part(&mut records, sweep);
        }
    }
    records.push(b"en".to_vec());
    records
}

/// The records of body, tests and heads.
fn write_part(records: &mut Vec<Vec<u8>>, part: &Part) {
    records.extend(part.body.iter().map(|atom| write_atom(b"ba", atom)));
    records.extend(part.tests.iter().map(write_test));
    records.extend(part.heads.iter().map(|atom| write_atom(b"he", atom)));
}

/// An atom's record.
fn write_atom(mark: &[u8; 2], atom: &Atom) -> Vec<u8> {
    let mut record = mark.to_vec();
    record.push(atom.kind);
    for term in &atom.terms {
        write_term(&mut record, *term);
    }
    record
}

/// A test's record.
fn write_test(test: &Test) -> Vec<u8> {
    let mut record = b"te".to_vec();
    record.push(test.comparison as u8);
    write_term(&mut record, test.left);
    write_term(&mut record, test.right);
    record
}

/// A term's tag and value.
fn write_term(record: &mut Vec<u8>, term: Term) {
    let (tag, value) = match term {
        Term::Constant(value) => (0, value),
        Term::Variable(variable) => (1, variable),
    };
    record.push(tag);
    record.extend(value.to_le_bytes());
}
