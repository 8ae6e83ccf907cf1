//! The product's exported library: its types and functions as they look from C, all in this one file.
//! Every yes or no is declared as a byte, so that a byte other than 0 and 1 would be seen and not
//! trusted.

use crate::board::{self, PLACES};
use crate::port;

#[repr(C)]
#[derive(Clone, Copy, Debug, PartialEq, Eq)]
pub struct Port {
    pub mode: u8,
    pub out: u8,
    pub input: u8,
    pub lines: u8,
    pub strobe: u8,
    pub ready: u8,
    pub vector: u8,
    pub select: u8,
    pub mask: u8,
    pub all: u8,
    pub high: u8,
    pub asked: u8,
    pub live: u8,
    pub waiting: u8,
    pub service: u8,
    pub awaiting: u8,
    pub matched: u8,
}

#[repr(C)]
#[derive(Clone, Copy, Debug, PartialEq, Eq)]
pub struct Chip {
    pub a: Port,
    pub b: Port,
}

#[repr(C)]
#[derive(Clone, Copy, Debug, PartialEq, Eq)]
pub struct Board {
    pub size: u8,
    pub chips: [Chip; PLACES / 2],
    pub prefix: u8,
}

const _: () = assert!(std::mem::size_of::<Port>() == 17);
const _: () = assert!(std::mem::size_of::<Board>() == 138);

extern "C" {
    fn pio_fresh(board: *mut Board, size: usize) -> u8;
    fn pio_step(
        board: *mut Board,
        event: *const u8,
        event_len: usize,
        answer: *mut u8,
        answer_len: usize,
    ) -> u8;
    fn pio_run(
        board: *mut Board,
        events: *const u8,
        events_len: usize,
        answers: *mut u8,
        answers_len: usize,
        start: usize,
        records: *mut usize,
    ) -> u8;
    fn pio_lines(board: *mut Board, place: usize, lines: *mut u8, lines_len: usize) -> u8;
    fn pio_wave(
        board: *mut Board,
        events: *const u8,
        events_len: usize,
        stamps: *const u8,
        stamps_len: usize,
        text: *mut u8,
        text_len: usize,
        written: *mut usize,
    ) -> u8;
}

/// The functions work on one board at a time and keep nothing, so lending them these references is all
/// they need.
pub fn fresh(board: &mut Board, size: usize) -> u8 {
    unsafe { pio_fresh(board, size) }
}

pub fn step(board: &mut Board, event: &[u8], answer: &mut [u8]) -> u8 {
    unsafe {
        pio_step(
            board,
            event.as_ptr(),
            event.len(),
            answer.as_mut_ptr(),
            answer.len(),
        )
    }
}

pub fn run(
    board: &mut Board,
    events: &[u8],
    answers: &mut [u8],
    start: usize,
    records: &mut usize,
) -> u8 {
    let (length, room) = (events.len(), answers.len());
    unsafe {
        pio_run(
            board,
            events.as_ptr(),
            length,
            answers.as_mut_ptr(),
            room,
            start,
            records,
        )
    }
}

pub fn lines(board: &mut Board, place: usize, lines: &mut [u8]) -> u8 {
    unsafe { pio_lines(board, place, lines.as_mut_ptr(), lines.len()) }
}

pub fn wave(
    board: &mut Board,
    events: &[u8],
    stamps: &[u8],
    text: &mut [u8],
    written: &mut usize,
) -> u8 {
    unsafe {
        pio_wave(
            board,
            events.as_ptr(),
            events.len(),
            stamps.as_ptr(),
            stamps.len(),
            text.as_mut_ptr(),
            text.len(),
            written,
        )
    }
}

fn encode_port(port: &port::Port) -> Port {
    Port {
        mode: port.mode,
        out: port.out,
        input: port.input,
        lines: port.lines,
        strobe: port.strobe as u8,
        ready: port.ready as u8,
        vector: port.vector,
        select: port.select,
        mask: port.mask,
        all: port.all as u8,
        high: port.high as u8,
        asked: port.asked as u8,
        live: port.live as u8,
        waiting: port.waiting as u8,
        service: port.service as u8,
        awaiting: port.awaiting,
        matched: port.matched as u8,
    }
}

/// The rival's board in the library's form.
pub fn encode(board: &board::Board) -> Board {
    let chip = |number: usize| Chip {
        a: encode_port(&board.ports[2 * number]),
        b: encode_port(&board.ports[2 * number + 1]),
    };
    Board {
        size: board.size,
        chips: [chip(0), chip(1), chip(2), chip(3)],
        prefix: board.prefix,
    }
}

/// Every field of a library's board with its name, in the order of the declaration.
pub fn fields(board: &Board) -> Vec<(String, u8)> {
    let mut fields = vec![("size".to_string(), board.size)];
    for place in 0..PLACES {
        let chip = &board.chips[place / 2];
        let port = if place % 2 == 0 { &chip.a } else { &chip.b };
        for (name, value) in [
            ("mode", port.mode),
            ("out", port.out),
            ("input", port.input),
            ("lines", port.lines),
            ("strobe", port.strobe),
            ("ready", port.ready),
            ("vector", port.vector),
            ("select", port.select),
            ("mask", port.mask),
            ("all", port.all),
            ("high", port.high),
            ("asked", port.asked),
            ("live", port.live),
            ("waiting", port.waiting),
            ("service", port.service),
            ("awaiting", port.awaiting),
            ("matched", port.matched),
        ] {
            fields.push((format!("{place}.{name}"), value));
        }
    }
    fields.push(("prefix".to_string(), board.prefix));
    fields
}
