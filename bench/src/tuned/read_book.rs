//! The reader of a rule book: one pass, which hands each record on.

use super::answers::*;
use super::board::Kinds;
use super::sizes::*;

/// What becomes of the records of a book being read. Terms are their bytes, three for each.
pub trait Pages {
    fn rule(&mut self);
    fn sweep(&mut self);
    fn body(&mut self, card: bool, kind: u8, terms: &[u8]);
    fn test(&mut self, number: u8, terms: &[u8]);
    fn head(&mut self, card: bool, kind: u8, terms: &[u8]);
    fn end(&mut self);
}

/// Judges a book and keeps nothing.
pub struct Judge;

impl Pages for Judge {
    fn rule(&mut self) {}
    fn sweep(&mut self) {}
    fn body(&mut self, _: bool, _: u8, _: &[u8]) {}
    fn test(&mut self, _: u8, _: &[u8]) {}
    fn head(&mut self, _: bool, _: u8, _: &[u8]) {}
    fn end(&mut self) {}
}

/// Where the reading stands: before the first rule, or in which group of a part.
#[derive(Clone, Copy, PartialEq, PartialOrd)]
enum Group {
    Kinds,
    Body,
    Tests,
    Heads,
}

/// The variables that a body atom may have.
const ANY_VARIABLE: u16 = (1 << VARIABLES) - 1;

/// Reads a book in one pass and gives its kinds, or the first refusal.
pub fn read_book(bytes: &[u8], pages: &mut impl Pages) -> Result<Kinds, Refused> {
    let mut kinds = Kinds::new();
    let mut group = Group::Kinds;
    let mut at = 0;
    let mut rules = 0;
    // Of the open rule: its sweeps, and the variables of its own body.
    let mut sweeps = 0;
    let mut outer = 0;
    // Of the open part: records of the open group, its size, a card atom seen, variables bound.
    let mut records = 0;
    let mut most = RULE_GROUP;
    let mut card_atom = false;
    let mut bound = 0;
    loop {
        let Some(mark) = bytes.get(at..at + 2) else {
            return refuse(CUT, bytes.len());
        };
        if mark == b"ba" {
            if group != Group::Body {
                return refuse(PLACE, at);
            }
            if records == most {
                return refuse(MANY, at);
            }
            let atom = read_atom(&kinds, bytes, at, ANY_VARIABLE)?;
            let card = kinds.is_card(atom.kind);
            pages.body(card, atom.kind, atom.terms);
            card_atom |= card;
            bound |= atom.variables;
            records += 1;
            at += 3 + atom.terms.len();
            continue;
        }
        match mark {
            b"kd" if group != Group::Kinds => return refuse(PLACE, at),
            b"te" if group != Group::Body && group != Group::Tests => return refuse(PLACE, at),
            b"he" | b"sw" if group == Group::Kinds => return refuse(PLACE, at),
            b"kd" | b"ru" | b"te" | b"he" | b"sw" | b"en" => {}
            _ => return refuse(MARK, at),
        }
        if group == Group::Body {
            if sweeps == 0 && !card_atom {
                return refuse(NOCARD, at);
            }
            if sweeps > 0 && records == 0 {
                return refuse(BARE, at);
            }
        }
        match mark {
            b"he" => {
                if group != Group::Heads {
                    group = Group::Heads;
                    records = 0;
                }
                if records == most {
                    return refuse(MANY, at);
                }
                let atom = read_atom(&kinds, bytes, at, bound)?;
                pages.head(kinds.is_card(atom.kind), atom.kind, atom.terms);
                records += 1;
                at += 3 + atom.terms.len();
            }
            b"te" => {
                if group != Group::Tests {
                    group = Group::Tests;
                    records = 0;
                }
                if records == most {
                    return refuse(MANY, at);
                }
                let Some(&number) = bytes.get(at + 2) else {
                    return refuse(CUT, bytes.len());
                };
                if number > 3 {
                    return refuse(FIELD, at);
                }
                let (terms, _) = read_terms(bytes, at, 2, bound)?;
                pages.test(number, terms);
                records += 1;
                at += 9;
            }
            b"kd" => {
                if kinds.count == KINDS {
                    return refuse(MANY, at);
                }
                match bytes.get(at + 2..at + 4) {
                    Some([class, _]) if *class > 1 => return refuse(FIELD, at),
                    Some([_, arity]) if *arity > ARITY => return refuse(FIELD, at),
                    Some(fields) => kinds.push(fields[0] == 0, fields[1]),
                    None => match bytes.get(at + 2) {
                        Some(class) if *class > 1 => return refuse(FIELD, at),
                        _ => return refuse(CUT, bytes.len()),
                    },
                }
                at += 4;
            }
            b"ru" => {
                if rules == RULES {
                    return refuse(MANY, at);
                }
                rules += 1;
                group = Group::Body;
                (sweeps, records, most) = (0, 0, RULE_GROUP);
                (card_atom, bound) = (false, 0);
                pages.rule();
                at += 2;
            }
            b"sw" => {
                if sweeps == SWEEPS {
                    return refuse(MANY, at);
                }
                if sweeps == 0 {
                    outer = bound;
                }
                sweeps += 1;
                group = Group::Body;
                (records, most) = (0, SWEEP_GROUP);
                bound = outer;
                pages.sweep();
                at += 2;
            }
            _ => {
                if at + 2 < bytes.len() {
                    return refuse(TRAIL, at + 2);
                }
                pages.end();
                return Ok(kinds);
            }
        }
    }
}

/// An atom's record: kind, the bytes of its terms, the variables in them.
struct AtomRecord<'a> {
    kind: u8,
    terms: &'a [u8],
    variables: u16,
}

/// Kind and terms of the atom whose record starts there, with variables among those allowed.
#[inline(always)]
fn read_atom<'a>(
    kinds: &Kinds,
    bytes: &'a [u8],
    at: usize,
    allowed: u16,
) -> Result<AtomRecord<'a>, Refused> {
    let Some(&kind) = bytes.get(at + 2) else {
        return refuse(CUT, bytes.len());
    };
    if usize::from(kind) >= kinds.count {
        return refuse(FIELD, at);
    }
    let arity = usize::from(kinds.arity[usize::from(kind & 63)]);
    let (terms, variables) = read_terms(bytes, at, arity, allowed)?;
    Ok(AtomRecord {
        kind,
        terms,
        variables,
    })
}

/// So many terms from the record's fourth byte on, and the variables in them.
#[inline(always)]
fn read_terms(
    bytes: &[u8],
    record: usize,
    count: usize,
    allowed: u16,
) -> Result<(&[u8], u16), Refused> {
    let start = record + 3;
    let Some(terms) = bytes.get(start..start + 3 * count) else {
        return refuse_terms(bytes, record, allowed);
    };
    let mut variables = 0;
    let mut fault = false;
    for term in terms.chunks_exact(3) {
        let value = u16::from_le_bytes([term[1], term[2]]);
        let bit = 1_u16 << (value & 15);
        fault |= term[0] > 1 || (term[0] == 1 && (value > 15 || bit & allowed == 0));
        variables |= match term[0] {
            0 => 0,
            _ => bit,
        };
    }
    if fault {
        return refuse_terms(bytes, record, allowed);
    }
    Ok((terms, variables))
}

/// The refusal of terms of which one is cut or faulty: field by field.
#[cold]
fn refuse_terms<T>(bytes: &[u8], record: usize, allowed: u16) -> Result<T, Refused> {
    for term in bytes[record + 3..].chunks(3) {
        if term[0] > 1 {
            return refuse(FIELD, record);
        }
        if term.len() == 3 && term[0] == 1 {
            let value = u16::from_le_bytes([term[1], term[2]]);
            if value >= VARIABLES {
                return refuse(FIELD, record);
            }
            if allowed >> value & 1 == 0 {
                return refuse(LOOSE, record);
            }
        }
    }
    refuse(CUT, bytes.len())
}
