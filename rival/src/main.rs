//! The comparison with the product's library:
//!
//!     rival sessions [COUNT [SEED]]   random sessions on both, event by event
//!     rival recordings [COUNT [SEED]] random recordings exported by both
//!     rival bench                     how long an event and a record of an export take
//!     rival library SIZE < events     what the library gives on the board that a fresh call with any size
//!                                     hands back; an event is a line of bytes in decimal, with commas

use std::io::{self, BufRead};
use std::process::ExitCode;

use rival::{bench, fresh, library, recordings, sessions, PLACES};

const USAGE: &str = "usage: rival sessions [COUNT [SEED]] | rival recordings [COUNT [SEED]] | \
                     rival bench | rival library SIZE < events";

const USUAL_SEED: u64 = 1;

fn main() -> ExitCode {
    let arguments: Vec<String> = std::env::args().skip(1).collect();
    let numbers: Vec<Option<u64>> = arguments
        .iter()
        .skip(1)
        .map(|word| word.parse().ok())
        .collect();
    let outcome = match (arguments.first().map(String::as_str), &numbers[..]) {
        (Some("sessions"), []) => compare_sessions(sessions::USUAL_COUNT, USUAL_SEED),
        (Some("sessions"), [Some(count)]) => compare_sessions(*count, USUAL_SEED),
        (Some("sessions"), [Some(count), Some(seed)]) => compare_sessions(*count, *seed),
        (Some("recordings"), []) => compare_recordings(recordings::USUAL_COUNT, USUAL_SEED),
        (Some("recordings"), [Some(count)]) => compare_recordings(*count, USUAL_SEED),
        (Some("recordings"), [Some(count), Some(seed)]) => compare_recordings(*count, *seed),
        (Some("bench"), []) => bench::bench(),
        (Some("library"), [Some(size)]) => show_library(*size as usize),
        _ => {
            eprintln!("{USAGE}");
            return ExitCode::from(2);
        }
    };
    match outcome {
        Ok(()) => ExitCode::SUCCESS,
        Err(what) => {
            println!("{what}");
            ExitCode::FAILURE
        }
    }
}

fn compare_sessions(count: u64, seed: u64) -> Result<(), String> {
    let events = sessions::sessions(count, seed)?;
    println!("sessions: {count} sessions, {events} events agree");
    Ok(())
}

fn compare_recordings(count: u64, seed: u64) -> Result<(), String> {
    let tally = recordings::recordings(count, seed)?;
    for (code, times) in &tally.refused {
        println!("refused with {code}: {times}");
    }
    let refused: u64 = tally.refused.values().sum();
    println!(
        "recordings: {count} recordings, {} records, {refused} refused agree",
        tally.records
    );
    Ok(())
}

/// First the code of the fresh call and the size of the board; then for each event a line as the listing has
/// it, and one for each of the eight places as the panel has it, with the code of the question for driven
/// lines at its end.
fn show_library(size: usize) -> Result<(), String> {
    let mut board = library::encode(&fresh(1).1);
    let code = library::fresh(&mut board, size);
    println!("fresh {code} {}", board.size);
    for (number, line) in io::stdin().lock().lines().enumerate() {
        let line = line.map_err(|error| error.to_string())?;
        let event: Result<Vec<u8>, _> = line.split_terminator(',').map(str::parse).collect();
        let event = event.map_err(|error| format!("{line}: {error}"))?;
        let mut answer = [0; 4];
        library::step(&mut board, &event, &mut answer);
        let [code, place, value, request] = answer;
        println!("{} {code} {place} {value} {request}", number + 1);
        for place in 0..PLACES {
            show_place(&mut board, place);
        }
    }
    Ok(())
}

fn show_place(board: &mut library::Board, place: usize) {
    let chip = &board.chips[place / 2];
    let port = if place % 2 == 0 { chip.a } else { chip.b };
    let mut lines = [0; 2];
    let code = library::lines(board, place, &mut lines);
    let columns = [
        place as u8,
        port.mode,
        port.ready,
        port.out,
        port.input,
        port.lines,
        port.strobe,
        port.vector,
        port.select,
        port.mask,
        port.all,
        port.high,
        port.asked,
        port.live,
        port.waiting,
        port.service,
        port.awaiting,
        port.matched,
        lines[0],
        lines[1],
        code,
    ];
    let words: Vec<String> = columns.iter().map(u8::to_string).collect();
    println!("{}", words.join(" "));
}
