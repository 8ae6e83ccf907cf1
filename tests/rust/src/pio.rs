//! libpio.a for Rust: the board's layout and the five functions. include/pio.h says what each answers and refuses.

use std::mem::{offset_of, size_of};

#[repr(C)]
#[derive(Clone, Copy, Debug, Default, PartialEq, Eq)]
pub struct Port {
    pub mode: u8,
    pub out: u8,
    pub input: u8,
    pub lines: u8,
    pub strobe: bool,
    pub ready: bool,
    pub vector: u8,
    pub select: u8,
    pub mask: u8,
    pub all: bool,
    pub high: bool,
    pub asked: bool,
    pub live: bool,
    pub waiting: bool,
    pub service: bool,
    pub awaiting: u8,
    pub matched: bool,
}

#[repr(C)]
#[derive(Clone, Copy, Debug, Default, PartialEq, Eq)]
pub struct Chip {
    pub a: Port,
    pub b: Port,
}

#[repr(C)]
#[derive(Clone, Copy, Debug, Default, PartialEq, Eq)]
pub struct Decoder {
    pub prefix: u8,
}

#[repr(C)]
#[derive(Clone, Copy, Debug, Default, PartialEq, Eq)]
pub struct Board {
    pub size: u8,
    pub chips: [Chip; 4],
    pub decoder: Decoder,
}

// The library's layout: every field is one byte, so there is no padding.
const _: () = {
    assert!(size_of::<Port>() == 17);
    assert!(offset_of!(Port, mode) == 0);
    assert!(offset_of!(Port, out) == 1);
    assert!(offset_of!(Port, input) == 2);
    assert!(offset_of!(Port, lines) == 3);
    assert!(offset_of!(Port, strobe) == 4);
    assert!(offset_of!(Port, ready) == 5);
    assert!(offset_of!(Port, vector) == 6);
    assert!(offset_of!(Port, select) == 7);
    assert!(offset_of!(Port, mask) == 8);
    assert!(offset_of!(Port, all) == 9);
    assert!(offset_of!(Port, high) == 10);
    assert!(offset_of!(Port, asked) == 11);
    assert!(offset_of!(Port, live) == 12);
    assert!(offset_of!(Port, waiting) == 13);
    assert!(offset_of!(Port, service) == 14);
    assert!(offset_of!(Port, awaiting) == 15);
    assert!(offset_of!(Port, matched) == 16);
    assert!(size_of::<Chip>() == 34);
    assert!(offset_of!(Chip, a) == 0);
    assert!(offset_of!(Chip, b) == 17);
    assert!(size_of::<Board>() == 138);
    assert!(offset_of!(Board, size) == 0);
    assert!(offset_of!(Board, chips) == 1);
    assert!(offset_of!(Board, decoder) == 137);
};

mod library {
    use super::Board;

    extern "C" {
        pub fn pio_fresh(board: *mut Board, size: usize) -> u8;
        pub fn pio_step(
            board: *mut Board,
            event: *const u8,
            event_length: usize,
            answer: *mut u8,
            answer_length: usize,
        ) -> u8;
        pub fn pio_run(
            board: *mut Board,
            events: *const u8,
            events_length: usize,
            answers: *mut u8,
            answers_length: usize,
            start: usize,
            records: *mut usize,
        ) -> u8;
        pub fn pio_lines(
            board: *const Board,
            place: usize,
            lines: *mut u8,
            lines_length: usize,
        ) -> u8;
        pub fn pio_wave(
            board: *mut Board,
            events: *const u8,
            events_length: usize,
            stamps: *const u8,
            stamps_length: usize,
            text: *mut u8,
            text_length: usize,
            written: *mut usize,
        ) -> u8;
    }
}

// A Rust reference is all that the library asks for: it points to a board whose flags are 0 or 1, a slice to as many bytes as it
// says, and no two that are lent at once overlap. So these five are safe to call.

pub fn fresh(board: &mut Board, size: usize) -> u8 {
    unsafe { library::pio_fresh(board, size) }
}

pub fn step(board: &mut Board, event: &[u8], answer: &mut [u8]) -> u8 {
    let (to, room) = (answer.as_mut_ptr(), answer.len());
    unsafe { library::pio_step(board, event.as_ptr(), event.len(), to, room) }
}

/// The code, and the number of records.
pub fn run(board: &mut Board, events: &[u8], answers: &mut [u8], start: usize) -> (u8, usize) {
    let mut records = usize::MAX;
    let (from, length) = (events.as_ptr(), events.len());
    let (to, room) = (answers.as_mut_ptr(), answers.len());
    let code = unsafe { library::pio_run(board, from, length, to, room, start, &mut records) };
    (code, records)
}

pub fn lines(board: &Board, place: usize, lines: &mut [u8]) -> u8 {
    unsafe { library::pio_lines(board, place, lines.as_mut_ptr(), lines.len()) }
}

/// The code, and the length of the text.
pub fn wave(board: &mut Board, events: &[u8], stamps: &[u8], text: &mut [u8]) -> (u8, usize) {
    let mut written = usize::MAX;
    let (from, length) = (events.as_ptr(), events.len());
    let (beside, stamps) = (stamps.as_ptr(), stamps.len());
    let (to, room) = (text.as_mut_ptr(), text.len());
    let code =
        unsafe { library::pio_wave(board, from, length, beside, stamps, to, room, &mut written) };
    (code, written)
}
