//! The strip: its one-pass reader, which judges each word by a table of bounds.

use super::answers::*;
use super::board::Kinds;
use super::sizes::*;

/// The codes of the thirteen words.
#[derive(Clone, Copy, PartialEq, Eq)]
#[repr(u8)]
pub enum Code {
    Kind = 0,
    Open = 1,
    Seek = 2,
    Bind = 3,
    Same = 4,
    Lit = 5,
    Test = 6,
    Keep = 7,
    Put = 8,
    Arg = 9,
    Jump = 10,
    Fire = 11,
    Quiet = 12,
}

/// The codes in the order of their numbers.
const CODES: [Code; 13] = [
    Code::Kind,
    Code::Open,
    Code::Seek,
    Code::Bind,
    Code::Same,
    Code::Lit,
    Code::Test,
    Code::Keep,
    Code::Put,
    Code::Arg,
    Code::Jump,
    Code::Fire,
    Code::Quiet,
];

/// A word of the strip. A SEEK that was read has its kind's class in c and its arity in the value.
#[derive(Clone, Copy)]
pub struct Word {
    pub code: Code,
    pub a: u8,
    pub b: u8,
    pub c: u8,
    pub value: u16,
    pub target: u16,
}

/// For each code what a, b, c and the value must be below; 1 where the field is unused.
const BOUNDS: [[u32; 4]; 13] = [
    [2, 5, 1, 1],
    [14, 1, 1, 1],
    [14, 0, 1, 1],
    [14, 4, 12, 1],
    [14, 4, 12, 1],
    [14, 4, 1, 65_536],
    [16, 256, 256, 65_536],
    [1, 1, 1, 1],
    [0, 1, 1, 1],
    [4, 2, 1, 65_536],
    [1, 1, 1, 1],
    [32, 1, 1, 1],
    [1, 1, 1, 1],
];
/// One bit for each code that has a target: SEEK, SAME, LIT, TEST, JUMP.
const WITH_TARGET: u32 = 1 << 2 | 1 << 4 | 1 << 5 | 1 << 6 | 1 << 10;

/// Judges a strip in one pass and hands each word on; gives the kinds.
pub fn read_strip(bytes: &[u8], mut each: impl FnMut(Word)) -> Result<Kinds, Refused> {
    if bytes.is_empty() || bytes.len() > LONGEST_STRIP || !bytes.len().is_multiple_of(WORD_BYTES) {
        return refuse(STRIP, 0);
    }
    let words = (bytes.len() / WORD_BYTES) as u32;
    let mut kinds = Kinds::new();
    let mut bounds = BOUNDS;
    for (number, bytes) in bytes.chunks_exact(WORD_BYTES).enumerate() {
        let Some(&code) = CODES.get(usize::from(bytes[0])) else {
            return refuse(STRIP, number);
        };
        let mut word = Word {
            code,
            a: bytes[1],
            b: bytes[2],
            c: bytes[3],
            value: u16::from_le_bytes([bytes[4], bytes[5]]),
            target: u16::from_le_bytes([bytes[6], bytes[7]]),
        };
        let [a, b, c, value] = &bounds[code as usize];
        let targets = match WITH_TARGET >> code as u32 & 1 {
            0 => 1,
            _ => words,
        };
        let sound = (u32::from(word.a) < *a)
            & (u32::from(word.b) < *b)
            & (u32::from(word.c) < *c)
            & (u32::from(word.value) < *value)
            & (u32::from(word.target) < targets);
        if !sound {
            return refuse(STRIP, number);
        }
        match code {
            Code::Kind => {
                if number != kinds.count || number == KINDS {
                    return refuse(STRIP, number);
                }
                kinds.push(word.a == 0, word.b);
                bounds[Code::Seek as usize][1] += 1;
                bounds[Code::Put as usize][0] += 1;
            }
            Code::Test => {
                let left = u16::from_le_bytes([word.b, word.c]);
                let loose_left = word.a & 2 != 0 && left >= VARIABLES;
                let loose_right = word.a & 1 != 0 && word.value >= VARIABLES;
                if loose_left | loose_right {
                    return refuse(STRIP, number);
                }
            }
            Code::Seek => {
                word.c = u8::from(!kinds.is_card(word.b));
                word.value = kinds.arity[usize::from(word.b)].into();
            }
            Code::Arg if word.b == 1 && word.value >= VARIABLES => return refuse(STRIP, number),
            _ => {}
        }
        each(word);
    }
    match bytes[bytes.len() - WORD_BYTES] {
        10..=12 => Ok(kinds),
        _ => refuse(STRIP, words as usize - 1),
    }
}
