//! The library's functions given by the rival itself. With them the comparison runs without the product,
//! and a copy of the rival with a broken rule shows whether the comparison would notice.

use std::slice;

use crate::board::{self, PLACES};
use crate::library::{encode, Board, Port};
use crate::step::{self, DONE};
use crate::{port, wave};

fn decode_port(port: &Port) -> port::Port {
    port::Port {
        mode: port.mode,
        out: port.out,
        input: port.input,
        lines: port.lines,
        strobe: port.strobe != 0,
        ready: port.ready != 0,
        vector: port.vector,
        select: port.select,
        mask: port.mask,
        all: port.all != 0,
        high: port.high != 0,
        asked: port.asked != 0,
        live: port.live != 0,
        waiting: port.waiting != 0,
        service: port.service != 0,
        awaiting: port.awaiting,
        matched: port.matched != 0,
    }
}

fn decode(board: &Board) -> board::Board {
    let mut ports = [port::Port::fresh(); PLACES];
    for (number, chip) in board.chips.iter().enumerate() {
        ports[2 * number] = decode_port(&chip.a);
        ports[2 * number + 1] = decode_port(&chip.b);
    }
    board::Board {
        size: board.size,
        ports,
        prefix: board.prefix,
    }
}

#[no_mangle]
unsafe extern "C" fn pio_fresh(board: *mut Board, size: usize) -> u8 {
    let (code, made) = step::fresh(size);
    *board = encode(&made);
    code
}

#[no_mangle]
unsafe extern "C" fn pio_step(
    board: *mut Board,
    event: *const u8,
    event_len: usize,
    answer: *mut u8,
    answer_len: usize,
) -> u8 {
    let mut stepped = decode(&*board);
    let given = step::step(&mut stepped, slice::from_raw_parts(event, event_len));
    *board = encode(&stepped);
    slice::from_raw_parts_mut(answer, answer_len)[..4].copy_from_slice(&given);
    given[0]
}

#[no_mangle]
unsafe extern "C" fn pio_run(
    board: *mut Board,
    events: *const u8,
    events_len: usize,
    answers: *mut u8,
    answers_len: usize,
    start: usize,
    records: *mut usize,
) -> u8 {
    let mut stepped = decode(&*board);
    let events = slice::from_raw_parts(events, events_len);
    let answers = slice::from_raw_parts_mut(answers, answers_len);
    let (code, number) = step::run(&mut stepped, events, answers, start);
    *board = encode(&stepped);
    *records = number;
    code
}

#[no_mangle]
unsafe extern "C" fn pio_lines(
    board: *mut Board,
    place: usize,
    lines: *mut u8,
    lines_len: usize,
) -> u8 {
    let (code, levels, mask) = step::driven(&decode(&*board), place);
    slice::from_raw_parts_mut(lines, lines_len)[..2].copy_from_slice(&[levels, mask]);
    code
}

#[no_mangle]
unsafe extern "C" fn pio_wave(
    board: *mut Board,
    events: *const u8,
    events_len: usize,
    stamps: *const u8,
    stamps_len: usize,
    text: *mut u8,
    text_len: usize,
    written: *mut usize,
) -> u8 {
    let mut moved = decode(&*board);
    let events = slice::from_raw_parts(events, events_len);
    let stamps = slice::from_raw_parts(stamps, stamps_len);
    let text = slice::from_raw_parts_mut(text, text_len);
    match wave::wave(&mut moved, events, stamps, text_len) {
        Ok(given) => {
            text[..given.len()].copy_from_slice(given.as_bytes());
            *board = encode(&moved);
            *written = given.len();
            DONE
        }
        Err(code) => {
            *written = 0;
            code
        }
    }
}
