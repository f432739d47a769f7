//! A call of the engine on guarded pages, beside the second program's answer to the same call.

use crate::fault;
use crate::pages::{Edge, Pages};
use llwybrenu::LONGEST_STRIP;
use samples::sides::{ask_engine, told, Difference, Said};
use second::samples::calls::Call;

/// More than any file or output of a trial has.
const ROOM: usize = LONGEST_STRIP + 4_096;
/// More than an output for a board has; smaller pages are compared sooner.
const BOARD_ROOM: usize = 8_000;

/// Pages for the two files and for outputs, small and large: every byte of the pages is compared.
pub struct Guarded {
    source: Pages,
    board: Pages,
    outputs: [Pages; 2],
    /// What is in an output before the call, each byte made from its place.
    canaries: Vec<u8>,
    calls: u64,
}

/// What calls a job: at once, or on another stack.
pub type On<'a> = &'a mut dyn FnMut(&mut dyn FnMut());

impl Guarded {
    pub fn new() -> Guarded {
        let outputs = [BOARD_ROOM, ROOM].map(Pages::new);
        let canaries = (0..outputs[1].length()).map(|at| at as u8 ^ (at >> 8) as u8 ^ 0xA5);
        Guarded {
            source: Pages::new(ROOM),
            board: Pages::new(ROOM),
            canaries: canaries.collect(),
            outputs,
            calls: 0,
        }
    }

    /// The calls made so far.
    pub fn calls(&self) -> u64 {
        self.calls
    }

    /// Makes a call, by turns at the end of the pages and at their start; gives what differs from the second program.
    pub fn try_call(&mut self, call: &Call, on: On) -> Option<Difference> {
        self.calls += 1;
        let edge = match self.calls % 3 {
            0 => Edge::Start,
            _ => Edge::End,
        };
        let said = [self.engine(call, edge, on), self.second(call, edge)];
        (said[0] != said[1]).then_some(Difference {
            names: ["engine", "second"],
            said,
        })
    }

    /// The engine's side, on the pages.
    fn engine(&mut self, call: &Call, edge: Edge, on: On) -> Said {
        let pages = &mut self.outputs[usize::from(call.room > BOARD_ROOM)];
        let place = pages.place(edge, call.room);
        let length = pages.length();
        pages.bytes().copy_from_slice(&self.canaries[..length]);
        let source = self.source.lend(edge, &call.source);
        let board = self.board.lend(edge, &call.board);
        let out = &mut pages.bytes()[place];
        let mut answer = None;
        fault::about_to(call);
        on(&mut || answer = Some(ask_engine(call, source, board, out)));
        Said {
            answer: answer.expect("the call was made"),
            out: pages.bytes().to_vec(),
            // they are on pages that may only be read
            files_kept: true,
        }
    }

    /// The second program's side, on a copy of what the pages had.
    fn second(&self, call: &Call, edge: Edge) -> Said {
        let pages = &self.outputs[usize::from(call.room > BOARD_ROOM)];
        let mut out = self.canaries[..pages.length()].to_vec();
        let answer = told(call.answer(&mut out[pages.place(edge, call.room)]));
        Said {
            answer,
            out,
            files_kept: true,
        }
    }
}
