//! How long an event takes, and how long a record of an export: for each a table of two workloads, with
//! the cost of merely hashing the bytes as the floor, the product in its several ways, and the rival.

use std::hint::black_box;
use std::time::Instant;

use crate::board::{Board, CHIPS, ED_OPEN};
use crate::generator::Generator;
use crate::library;
use crate::random::Random;
use crate::step::{fresh, step, DONE, FETCH};
use crate::wave::{longest, wave, MOST_RECORDS};

const RECORDS: usize = 1 << 20;
const PASSES: usize = 7;

/// An export is short, so it is tried more often.
const EXPORT_PASSES: usize = 200;

/// The most microseconds between two records of an export.
const LARGEST_GAP: usize = 200;

/// Opcodes of an ordinary program: loads, jumps, arithmetic, calls.
const OPCODES: [u8; 24] = [
    0x00, 0x01, 0x06, 0x10, 0x18, 0x20, 0x21, 0x23, 0x28, 0x32, 0x3A, 0x3E, 0x77, 0x78, 0x7E, 0xA7,
    0xB7, 0xC3, 0xC9, 0xCD, 0xD3, 0xDB, 0xE6, 0xFE,
];

/// The records of a workload are made with the rival at their side, so that the generator sees a board.
fn records(mut next: impl FnMut(&Board) -> [u8; 4]) -> Vec<u8> {
    let mut board = fresh(CHIPS).1;
    let mut records = Vec::with_capacity(4 * RECORDS);
    for _ in 0..RECORDS {
        let event = next(&board);
        step(&mut board, &event);
        records.extend(event);
    }
    records
}

/// About 95 opcode fetches in 100, the rest real traffic on four chips.
fn stations_day() -> Vec<u8> {
    let mut random = Random::new(95);
    let mut generator = Generator::new(1, 0);
    records(|board| {
        // A RETI is fetched in one piece. The traffic has fetches of its own, hence 94.
        if board.prefix != ED_OPEN && random.percent(94) {
            [FETCH, 0, random.pick(&OPCODES), 0]
        } else {
            generator.next(board)
        }
    })
}

/// The generator's mix as it is.
fn storm() -> Vec<u8> {
    let mut generator = Generator::new(2, 3);
    records(|board| generator.next(board))
}

/// FNV-1a, byte by byte.
fn hash(bytes: &[u8]) -> u64 {
    let mut hash: u64 = 0xCBF2_9CE4_8422_2325;
    for byte in bytes {
        hash ^= u64::from(*byte);
        hash = hash.wrapping_mul(0x0000_0100_0000_01B3);
    }
    hash
}

/// The best of several passes over that many records, in nanoseconds a record.
fn best(passes: usize, records: usize, mut pass: impl FnMut()) -> f64 {
    let mut best = f64::INFINITY;
    for _ in 0..passes {
        let begin = Instant::now();
        pass();
        best = best.min(begin.elapsed().as_nanos() as f64 / records as f64);
    }
    best
}

/// Prints the tables; gives an error when the product's answers or texts are not the rival's.
pub fn bench() -> Result<(), String> {
    let workloads = [("station's day", stations_day()), ("storm", storm())];
    head("ns/event");
    for (name, records) in &workloads {
        events(name, records)?;
    }
    head("ns/record");
    for (name, records) in &workloads {
        export(name, &records[..4 * MOST_RECORDS])?;
    }
    Ok(())
}

fn head(unit: &str) {
    println!("{:<14} {:<27} {unit:>9} {:>8}", "workload", "what", "ratio");
}

/// One line for each way; the first is the floor.
fn print(name: &str, times: &[(&str, f64)]) {
    let floor = times[0].1;
    for (what, time) in times {
        println!("{name:<14} {what:<27} {time:>9.2} {:>8.2}", time / floor);
    }
}

fn events(name: &str, records: &[u8]) -> Result<(), String> {
    let start = library::encode(&fresh(CHIPS).1);
    // Filled with something, so that every page of the buffers is there before the clock runs.
    let mut by_run = vec![1; records.len()];
    let mut by_step = vec![1; records.len()];
    let mut by_rival = vec![1; records.len()];

    let floor = best(PASSES, RECORDS, || {
        black_box(hash(black_box(records)));
    });
    let run = best(PASSES, RECORDS, || {
        let mut board = start;
        let mut count = 0;
        library::run(&mut board, black_box(records), &mut by_run, 0, &mut count);
        black_box(&by_run);
    });
    let steps = best(PASSES, RECORDS, || {
        let mut board = start;
        for (event, answer) in black_box(records)
            .chunks_exact(4)
            .zip(by_step.chunks_exact_mut(4))
        {
            library::step(&mut board, event, answer);
        }
        black_box(&by_step);
    });
    let rival = best(PASSES, RECORDS, || {
        let mut board = fresh(CHIPS).1;
        for (event, answer) in black_box(records)
            .chunks_exact(4)
            .zip(by_rival.chunks_exact_mut(4))
        {
            answer.copy_from_slice(&step(&mut board, event));
        }
        black_box(&by_rival);
    });

    let times = [
        ("hash of the bytes (floor)", floor),
        ("product, one run", run),
        ("product, step by step", steps),
        ("rival, step by step", rival),
    ];
    print(name, &times);
    if by_run != by_rival || by_step != by_rival {
        return Err(format!(
            "{name}: the answers of the product are not those of the rival"
        ));
    }
    Ok(())
}

/// A stamp for each record, low byte first, from a counter that goes on by random gaps.
fn stamps(count: usize) -> Vec<u8> {
    let mut random = Random::new(200);
    let mut stamp: u16 = 0;
    let mut stamps = Vec::with_capacity(2 * count);
    for _ in 0..count {
        stamp = stamp.wrapping_add(random.below(LARGEST_GAP + 1) as u16);
        stamps.extend(stamp.to_le_bytes());
    }
    stamps
}

fn export(name: &str, records: &[u8]) -> Result<(), String> {
    let count = records.len() / 4;
    let stamps = stamps(count);
    let mut text = Ok(String::new());
    let rival = best(EXPORT_PASSES, count, || {
        let mut board = fresh(CHIPS).1;
        text = wave(&mut board, black_box(records), &stamps, longest(count));
    });
    let text = text.map_err(|code| format!("{name}: the rival refuses the export with {code}"))?;

    let floor = best(EXPORT_PASSES, count, || {
        black_box((hash(black_box(records)), hash(black_box(&stamps))));
    });
    let roomy = product_export(name, records, &stamps, &text, longest(count))?;
    let exact = product_export(name, records, &stamps, &text, text.len())?;
    let times = [
        ("hash of the bytes (floor)", floor),
        ("product, export", roomy),
        ("product, export, exact room", exact),
        ("rival, export", rival),
    ];
    print(name, &times);
    Ok(())
}

/// The product's export into a buffer of that length, compared with the rival's text.
fn product_export(
    name: &str,
    records: &[u8],
    stamps: &[u8],
    text: &str,
    room: usize,
) -> Result<f64, String> {
    let start = library::encode(&fresh(CHIPS).1);
    let mut buffer = vec![1; room];
    let mut given = (DONE, 0);
    let time = best(EXPORT_PASSES, records.len() / 4, || {
        let mut board = start;
        let records = black_box(records);
        given.0 = library::wave(&mut board, records, stamps, &mut buffer, &mut given.1);
        black_box(&buffer);
    });
    if given != (DONE, text.len()) || buffer[..given.1] != *text.as_bytes() {
        return Err(format!(
            "{name}: the text of the product with room for {room} bytes is not that of the rival"
        ));
    }
    Ok(time)
}
