//! The board: its types, its reader and writer, and how a firing changes it.

use crate::book::{Class, Kind};
use crate::numbers::{File, Refusal, Refused};
use crate::records::RecordReader;
use crate::sizes::*;

/// A fact: its kind and its numbers.
#[derive(Clone, Debug, PartialEq, Eq)]
pub struct Fact {
    pub kind: u8,
    pub numbers: Vec<u16>,
}

/// A board. Rows are numbered from 0, cards and notices apart.
#[derive(Clone, Debug, Default, PartialEq, Eq)]
pub struct Board {
    pub cards: Vec<Fact>,
    pub notices: Vec<Fact>,
}

impl Board {
    /// The rows of a class.
    pub fn rows(&self, class: Class) -> &[Fact] {
        match class {
            Class::Card => &self.cards,
            Class::Notice => &self.notices,
        }
    }

    /// The board after a firing: unused cards in old order, then made cards; old notices, then
    /// made ones. None if that is more than a board holds.
    pub fn after(&self, used: &[bool], made: &[Fact], kinds: &[Kind]) -> Option<Board> {
        let mut board = Board::default();
        for (row, card) in self.cards.iter().enumerate() {
            if !used[row] {
                board.cards.push(card.clone());
            }
        }
        board.notices = self.notices.clone();
        for fact in made {
            match kinds[usize::from(fact.kind)].class {
                Class::Card => board.cards.push(fact.clone()),
                Class::Notice => board.notices.push(fact.clone()),
            }
        }
        if board.cards.len() > CARDS || board.notices.len() > NOTICES {
            return None;
        }
        Some(board)
    }
}

/// Reads a board of facts of these kinds, or gives the first refusal in document 01's order.
pub fn read_board(kinds: &[Kind], bytes: &[u8]) -> Result<Board, Refused> {
    let mut records = RecordReader::new(bytes, File::Board);
    let mut board = Board::default();
    let mut notices_begun = false;
    loop {
        match &records.mark()? {
            b"ca" => {
                records.refuse_if(notices_begun, Refusal::Place)?;
                records.refuse_if(board.cards.len() >= CARDS, Refusal::Many)?;
                board
                    .cards
                    .push(read_fact(&mut records, kinds, Class::Card)?);
            }
            b"no" => {
                notices_begun = true;
                records.refuse_if(board.notices.len() >= NOTICES, Refusal::Many)?;
                let notice = read_fact(&mut records, kinds, Class::Notice)?;
                board.notices.push(notice);
            }
            b"en" => {
                records.finish()?;
                return Ok(board);
            }
            _ => return Err(records.refuse(Refusal::Mark)),
        }
    }
}

/// Kind and numbers of a fact; the kind must be declared and of the class.
fn read_fact(
    records: &mut RecordReader<'_>,
    kinds: &[Kind],
    class: Class,
) -> Result<Fact, Refused> {
    let kind = records.byte()?;
    let declared = kinds.get(usize::from(kind)).copied();
    let declared = declared.ok_or(records.refuse(Refusal::Field))?;
    records.refuse_if(declared.class != class, Refusal::Field)?;
    let mut numbers = Vec::new();
    for _ in 0..declared.arity {
        numbers.push(records.value()?);
    }
    Ok(Fact { kind, numbers })
}

/// The board's bytes.
pub fn write_board(board: &Board) -> Vec<u8> {
    board_records(board).concat()
}

/// The board's records, each as its own bytes, `en` last.
pub fn board_records(board: &Board) -> Vec<Vec<u8>> {
    let mut records = Vec::new();
    records.extend(board.cards.iter().map(|card| write_fact(b"ca", card)));
    records.extend(board.notices.iter().map(|notice| write_fact(b"no", notice)));
    records.push(b"en".to_vec());
    records
}

/// A fact's record.
fn write_fact(mark: &[u8; 2], fact: &Fact) -> Vec<u8> {
    let mut record = mark.to_vec();
    record.push(fact.kind);
    for number in &fact.numbers {
        record.extend(number.to_le_bytes());
    }
    record
}
