//! The events and their answers, the fresh board, the run and the question for driven lines
//! (document 01, "Records", with the effects from the sections after it).

use crate::board::{Board, CHIPS, NO_PREFIX, PLACES};
use crate::port::{Port, BIDIRECTIONAL, BIT_CONTROL, INPUT, MASK, NOTHING, OUTPUT, SELECT};

/// The kinds of events.
pub const RESET: u8 = 0;
pub const FETCH: u8 = 1;
pub const ACKNOWLEDGE: u8 = 2;
pub const CONTROL: u8 = 3;
pub const WRITE: u8 = 4;
pub const READ: u8 = 5;
pub const STROBE: u8 = 6;
pub const LINES: u8 = 7;

/// The codes of answers.
pub const DONE: u8 = 0;
pub const DATA: u8 = 1;
pub const ANSWERED: u8 = 2;
pub const NOBODY: u8 = 3;
pub const NO_KIND: u8 = 16;
pub const NO_PLACE: u8 = 17;
pub const NO_VALUE: u8 = 18;
pub const NO_WORD: u8 = 19;
pub const NO_MODE: u8 = 20;
pub const LENGTH: u8 = 32;
pub const SIZE: u8 = 33;
pub const ROOM: u8 = 34;
pub const UNSOUND: u8 = 35;

pub fn fresh(size: usize) -> (u8, Board) {
    let mut board = Board {
        size: 0,
        ports: [Port::fresh(); PLACES],
        prefix: NO_PREFIX,
    };
    if size < 1 || size > CHIPS {
        return (SIZE, board);
    }
    board.size = size as u8;
    (DONE, board)
}

pub fn driven(board: &Board, place: usize) -> (u8, u8, u8) {
    if !board.sound() {
        return (UNSOUND, 0, 0);
    }
    if place >= board.places() {
        return (NO_PLACE, 0, 0);
    }
    let (levels, mask) = board.ports[place].driven();
    (DONE, levels, mask)
}

pub fn run(board: &mut Board, events: &[u8], answers: &mut [u8], start: usize) -> (u8, usize) {
    if !board.sound() {
        return (UNSOUND, 0);
    }
    if events.len() % 4 != 0 {
        return (LENGTH, 0);
    }
    let records = events.len() / 4;
    let room = answers.len() / 4;
    // Asked this way round because a huge start must not overflow.
    if start > room || records > room - start {
        return (ROOM, 0);
    }
    for record in 0..records {
        let answer = step(board, &events[4 * record..4 * record + 4]);
        let at = 4 * (start + record);
        answers[at..at + 4].copy_from_slice(&answer);
    }
    (DONE, records)
}

pub fn step(board: &mut Board, event: &[u8]) -> [u8; 4] {
    if event.len() != 4 {
        return [LENGTH, 0, 0, 0];
    }
    let [kind, place, value, fourth] = [event[0], event[1], event[2], event[3]];
    if !board.sound() {
        return [UNSOUND, place, value, 0];
    }
    if let Some(code) = refusal(board, kind, place, value, fourth) {
        return [code, place, value, board.request()];
    }
    let port = place as usize;
    let (code, place, value) = match kind {
        RESET => {
            reset(board);
            (DONE, place, value)
        }
        FETCH => {
            fetch(board, value);
            (DONE, place, value)
        }
        ACKNOWLEDGE => acknowledge(board),
        CONTROL => {
            control(board, port, value);
            (DONE, place, value)
        }
        WRITE => {
            write(board, port, value);
            (DONE, place, value)
        }
        READ => (DATA, place, read(board, port)),
        STROBE => {
            strobe(board, port, value == 1);
            (DONE, place, value)
        }
        _ => {
            board.ports[port].lines = value;
            (DONE, place, value)
        }
    };
    board.settle();
    [code, place, value, board.request()]
}

/// The refusals of an event on a sound board, in their order.
fn refusal(board: &Board, kind: u8, place: u8, value: u8, fourth: u8) -> Option<u8> {
    if kind > LINES {
        return Some(NO_KIND);
    }
    let whole_board = kind <= ACKNOWLEDGE;
    if whole_board && place != 0 || !whole_board && place as usize >= board.places() {
        return Some(NO_PLACE);
    }
    let value_allowed = match kind {
        RESET | ACKNOWLEDGE | READ => value == 0,
        STROBE => value <= 1,
        _ => true,
    };
    if !value_allowed || fourth != 0 {
        return Some(NO_VALUE);
    }
    if kind == CONTROL && board.ports[place as usize].awaiting == NOTHING {
        if matches!(value & 0x0F, 0b0001 | 0b0101 | 0b1001 | 0b1011 | 0b1101) {
            return Some(NO_WORD);
        }
        if value & 0x0F == 0b1111 && value >> 6 == BIDIRECTIONAL && place % 2 == 1 {
            return Some(NO_MODE);
        }
    }
    None
}

fn reset(board: &mut Board) {
    for place in 0..board.places() {
        board.ports[place].reset();
    }
    board.prefix = NO_PREFIX;
}

fn fetch(board: &mut Board, opcode: u8) {
    board.decode(opcode);
    for place in 0..board.places() {
        let port = &mut board.ports[place];
        if port.asked && port.awaiting != MASK {
            port.live = true;
        }
    }
}

fn acknowledge(board: &mut Board) -> (u8, u8, u8) {
    board.prefix = NO_PREFIX;
    match board.asking() {
        Some(place) => {
            let port = &mut board.ports[place];
            port.waiting = false;
            port.service = true;
            (ANSWERED, place as u8, port.vector)
        }
        None => (NOBODY, 0, 255),
    }
}

fn control(board: &mut Board, place: usize, word: u8) {
    let port = &mut board.ports[place];
    if port.awaiting == SELECT {
        port.select = word;
        port.awaiting = NOTHING;
    } else if port.awaiting == MASK {
        port.mask = word;
        port.awaiting = NOTHING;
    } else if word & 1 == 0 {
        port.vector = word;
    } else if word & 0x0F == 0b1111 {
        mode_word(board, place, word >> 6);
    } else if word & 0x0F == 0b0111 {
        port.interrupt_control(word);
    } else {
        port.enable(word & 0x80 != 0);
    }
}

fn mode_word(board: &mut Board, place: usize, mode: u8) {
    // B's Ready speaks for A's input register while A is in mode 2, so B's own mode leaves it alone.
    if !board.serves_a(place) {
        board.ports[place].ready = false;
    }
    let before = board.ports[place].mode;
    if (before == BIDIRECTIONAL) != (mode == BIDIRECTIONAL) {
        board.ports[place + 1].ready = false;
    }
    board.ports[place].mode = mode;
    if mode == BIT_CONTROL {
        board.ports[place].awaiting = SELECT;
    }
}

fn write(board: &mut Board, place: usize, byte: u8) {
    let own_handshake = !board.serves_a(place);
    let port = &mut board.ports[place];
    port.out = byte;
    if own_handshake && (port.mode == OUTPUT || port.mode == BIDIRECTIONAL) {
        port.ready = true;
    }
}

fn read(board: &mut Board, place: usize) -> u8 {
    let byte = board.ports[place].read();
    if board.ports[place].mode == BIDIRECTIONAL {
        board.ports[place + 1].ready = true;
    } else if board.ports[place].mode == INPUT && !board.serves_a(place) {
        board.ports[place].ready = true;
    }
    byte
}

fn strobe(board: &mut Board, place: usize, level: bool) {
    let rise = level && !board.ports[place].strobe;
    board.ports[place].strobe = level;
    // In mode 3 only the level is kept, unless the strobe is B's and serves A.
    if rise && (board.serves_a(place) || board.ports[place].mode != BIT_CONTROL) {
        board.ports[place].ready = false;
        board.ports[place].waiting = true;
    }
}
