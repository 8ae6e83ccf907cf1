//! A recording as Value Change Dump text for the wave viewer (document 02, ask 1): first the values at
//! every time are collected, then what changes between them is printed.

use std::collections::BTreeMap;

use crate::board::Board;
use crate::step::{step, LENGTH, UNSOUND};

/// The refusals that come up in an export alone.
pub const TOO_MANY: u8 = 36;
pub const NO_TEXT_ROOM: u8 = 40;
pub const OTHER_STAMPS: u8 = 41;

pub const MOST_RECORDS: usize = 16_384;

/// What no text is longer than: the header, and for each record a time of ten digits and nine values.
pub fn longest(records: usize) -> usize {
    257 + 39 * records
}

/// How many microseconds the counter takes to come round.
const ROUND: i32 = 65_536;

/// The lines of the text: whether a place asks, then Ready of the first eight places.
const READIES: usize = 8;
const LINES: usize = 1 + READIES;

/// What the lines show at one time.
type Values = [bool; LINES];

/// The text, with the board moved on; or a refusal's number, with the board as it was.
pub fn wave(board: &mut Board, events: &[u8], stamps: &[u8], room: usize) -> Result<String, u8> {
    if !board.sound() {
        return Err(UNSOUND);
    }
    if events.len() % 4 != 0 {
        return Err(LENGTH);
    }
    let records = events.len() / 4;
    if records > MOST_RECORDS {
        return Err(TOO_MANY);
    }
    if stamps.len() != 2 * records {
        return Err(OTHER_STAMPS);
    }
    let mut moved = *board;
    let text = header() + &changes(&values_by_time(&mut moved, events, stamps));
    if text.len() > room {
        return Err(NO_TEXT_ROOM);
    }
    *board = moved;
    Ok(text)
}

fn identifier(line: usize) -> char {
    char::from(b'!' + line as u8)
}

fn header() -> String {
    let mut text = String::from("$timescale 1 us $end\n");
    for line in 0..LINES {
        let name = match line.checked_sub(1) {
            None => String::from("int"),
            Some(place) => format!("rdy{place}"),
        };
        text += &format!("$var wire 1 {} {name} $end\n", identifier(line));
    }
    text + "$enddefinitions $end\n"
}

/// Runs the records. A later record at the same time takes the earlier one's entry.
fn values_by_time(board: &mut Board, events: &[u8], stamps: &[u8]) -> BTreeMap<u64, Values> {
    let counter: Vec<i32> = stamps
        .chunks_exact(2)
        .map(|bytes| i32::from(bytes[0]) + 256 * i32::from(bytes[1]))
        .collect();
    let mut by_time = BTreeMap::new();
    let mut time = 0;
    for (record, event) in events.chunks_exact(4).enumerate() {
        if record > 0 {
            time += (counter[record] - counter[record - 1]).rem_euclid(ROUND) as u64;
        }
        let answer = step(board, event);
        by_time.insert(time, values(board, answer[3]));
    }
    by_time
}

fn values(board: &Board, request: u8) -> Values {
    let mut values = [false; LINES];
    values[0] = request != 0;
    for place in 0..READIES.min(board.places()) {
        values[1 + place] = board.ports[place].ready;
    }
    values
}

fn changes(by_time: &BTreeMap<u64, Values>) -> String {
    let mut text = String::new();
    let mut shown: Option<Values> = None;
    for (time, values) in by_time {
        let changed: Vec<usize> = (0..LINES)
            .filter(|line| shown.map(|shown| shown[*line]) != Some(values[*line]))
            .collect();
        if !changed.is_empty() {
            text += &format!("#{time}\n");
        }
        for line in changed {
            text += &format!("{}{}\n", u8::from(values[line]), identifier(line));
        }
        shown = Some(*values);
    }
    text
}
