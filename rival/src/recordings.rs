//! Random recordings through the export of the rival and of the product: the code, the length, every byte
//! of the lent buffer and the whole board afterwards must agree, whether the export is accepted or refused.

use std::collections::BTreeMap;

use crate::agreement::{
    board_text, event_text, fewer, same, same_board, Agreement, BEHIND, FILLING,
};
use crate::board::{Board, CHIPS};
use crate::generator::{self, Generator};
use crate::library;
use crate::port::OUTPUT;
use crate::random::Random;
use crate::step::{fresh, step, CONTROL, DONE, LENGTH, RESET, UNSOUND, WRITE};
use crate::wave::{longest, wave, MOST_RECORDS, NO_TEXT_ROOM, OTHER_STAMPS, TOO_MANY};

/// How many recordings take about five seconds.
pub const USUAL_COUNT: u64 = 50_000;

/// The refusals of an export in their order.
const REFUSALS: [u8; 5] = [UNSOUND, LENGTH, TOO_MANY, OTHER_STAMPS, NO_TEXT_ROOM];

/// The share of refused events, in a hundred.
const REFUSED: usize = 3;

/// Stamps where the counter, its low byte or a sign bit turns over.
const EDGES: [u16; 8] = [0, 1, 0xFF, 0x100, 0x7FFF, 0x8000, 0xFFFE, 0xFFFF];

/// Recordings up to this length are brought down to fewer records when they differ; longer ones would
/// take too long.
const SHORT_ENOUGH: usize = 2_000;

/// What was compared.
#[derive(Default)]
pub struct Tally {
    /// Those of the accepted recordings.
    pub records: u64,
    /// By the refusal's number.
    pub refused: BTreeMap<u8, u64>,
}

/// All that is lent to one export.
struct Recording {
    start: Board,
    events: Vec<u8>,
    stamps: Vec<u8>,
    /// The length of the buffer.
    room: usize,
}

/// Compares that many recordings; gives what they were, or the first difference as text.
pub fn recordings(count: u64, seed: u64) -> Result<Tally, String> {
    let mut tally = Tally::default();
    let first = Random::new(seed).number();
    for number in 0..count {
        let recording = random_recording(&mut Random::new(first.wrapping_add(number)));
        match recording.compare() {
            Ok(DONE) => tally.records += recording.events.len() as u64 / 4,
            Ok(code) => *tally.refused.entry(code).or_default() += 1,
            Err(what) => {
                let head = format!("recording {} of seed {seed}", number + 1);
                return Err(format!("{head}\n{}", report(&recording, &what)));
            }
        }
    }
    let missing = REFUSALS
        .iter()
        .find(|code| !tally.refused.contains_key(code));
    match missing {
        Some(code) if count >= USUAL_COUNT => Err(format!(
            "no recording of seed {seed} is refused with {code}"
        )),
        _ => Ok(tally),
    }
}

impl Recording {
    /// The export in both programs; gives the code on which they agree.
    fn compare(&self) -> Result<u8, String> {
        let mut rival = self.start;
        let wanted = wave(&mut rival, &self.events, &self.stamps, self.room);
        let (code, text) = match &wanted {
            Ok(text) => (DONE, text.as_bytes()),
            Err(code) => (*code, &[][..]),
        };
        let records = self.events.len() / 4;
        if text.len() > longest(records) {
            let length = text.len();
            return Err(format!("{records} records give a text of {length} bytes"));
        }
        let mut product = library::encode(&self.start);
        // The last bytes are not lent.
        let mut buffer = filled(self.room + BEHIND);
        let mut written = usize::MAX;
        let given = library::wave(
            &mut product,
            &self.events,
            &self.stamps,
            &mut buffer[..self.room],
            &mut written,
        );
        same("code and length", (code, text.len()), (given, written))?;
        let mut wanted = filled(self.room + BEHIND);
        wanted[..text.len()].copy_from_slice(text);
        same_bytes(&wanted, &buffer)?;
        same_board("after the export", &rival, &product)?;
        Ok(code)
    }

    /// Event and stamp of every record that has both.
    fn records(&self) -> Vec<([u8; 4], [u8; 2])> {
        let events = self.events.chunks_exact(4);
        let stamps = self.stamps.chunks_exact(2);
        events
            .zip(stamps)
            .map(|(event, stamp)| {
                let event = [event[0], event[1], event[2], event[3]];
                (event, [stamp[0], stamp[1]])
            })
            .collect()
    }

    fn with(&self, records: &[([u8; 4], [u8; 2])]) -> Recording {
        Recording {
            start: self.start,
            events: records.iter().flat_map(|record| record.0).collect(),
            stamps: records.iter().flat_map(|record| record.1).collect(),
            room: self.room,
        }
    }
}

/// Every byte differs from its neighbours, so that a byte moved from elsewhere in the buffer shows too.
fn filled(length: usize) -> Vec<u8> {
    (0..length).map(|at| FILLING ^ at as u8).collect()
}

fn same_bytes(wanted: &[u8], buffer: &[u8]) -> Agreement {
    let Some(at) = (0..buffer.len()).find(|at| wanted[*at] != buffer[*at]) else {
        return Ok(());
    };
    let from = at.saturating_sub(24);
    let until = buffer.len().min(at + 8);
    Err(format!(
        "byte {at} of the buffer, with those from {from} on: rival {}, product {}",
        wanted[from..until].escape_ascii(),
        buffer[from..until].escape_ascii(),
    ))
}

fn random_recording(random: &mut Random) -> Recording {
    // Where one thing is wrong others often are as well, so that the order of the refusals shows.
    let share = if random.percent(10) { 40 } else { 2 };
    let [unsound, tail, many, other_stamps] = [(); 4].map(|_| random.percent(share));
    let short = random.percent(share.max(12));

    let start = if unsound {
        generator::unsound_board(random)
    } else {
        sound_start(random)
    };
    // The events need a board that has places.
    let seen = if unsound { fresh(CHIPS).1 } else { start };
    let length = length(random);
    let mut events = events(random, &seen, length);
    if many {
        events.extend([0; 4]);
        let records = MOST_RECORDS + 1 + random.below(3);
        events = events.iter().copied().cycle().take(4 * records).collect();
    }
    let records = events.len() / 4;
    let mut stamps = stamps(random, records);
    // What is refused without a look at the buffer is lent one as for an empty recording.
    let text = wave(&mut start.clone(), &events, &stamps, usize::MAX);
    let text_length = text.map_or(longest(0), |text| text.len());
    if tail {
        add_tail(random, &mut events);
    }
    if other_stamps {
        change_length(random, &mut stamps);
    }
    let room = if short {
        let any = random.below(text_length);
        random.pick(&[text_length - 1, text_length - 1, longest(0), 256, any, 0])
    } else {
        let more = text_length + random.below(100);
        random.pick(&[text_length, text_length, more, longest(records)])
    };
    Recording {
        start,
        events,
        stamps,
        room,
    }
}

/// Fresh, after some events, or any sound board: only on the last do places beyond the size hold anything
/// that a text could show.
fn sound_start(random: &mut Random) -> Board {
    let mut board = fresh(generator::size(random)).1;
    match random.below(4) {
        0 => board,
        1 => generator::sound_board(random),
        _ => {
            let count = random.below(200);
            for event in events(random, &board, count).chunks_exact(4) {
                step(&mut board, event);
            }
            board
        }
    }
}

/// The number of records, mostly a few hundred.
fn length(random: &mut Random) -> usize {
    match random.below(1000) {
        0 => MOST_RECORDS,
        1..=15 => 300 + random.below(3000),
        16..=60 => 0,
        61..=140 => 1,
        141..=240 => 2 + random.below(8),
        _ => 1 + random.below(300),
    }
}

/// Most events of a session move no line that a text shows, so in some recordings most events do.
fn events(random: &mut Random, start: &Board, count: usize) -> Vec<u8> {
    let mut generator = Generator::new(random.number(), REFUSED);
    let lively = random.percent(25);
    let mut board = *start;
    let mut events = Vec::with_capacity(4 * count);
    for _ in 0..count {
        let event = if lively && random.percent(90) {
            move_of_ready(random, &board)
        } else {
            generator.next(&board)
        };
        step(&mut board, &event);
        events.extend(event);
    }
    events
}

/// Brings a port to mode 0 or lowers its Ready with the same word; a write raises it, a reset lowers all.
fn move_of_ready(random: &mut Random, board: &Board) -> [u8; 4] {
    let place = random.below(board.places());
    let port = &board.ports[place];
    if random.percent(1) {
        [RESET, 0, 0, 0]
    } else if port.mode == OUTPUT && !port.ready {
        [WRITE, place as u8, random.byte(), 0]
    } else {
        [CONTROL, place as u8, 0x0F, 0]
    }
}

/// How far one stamp is from the last.
#[derive(Clone, Copy)]
enum Pace {
    Standing,
    Groups,
    Slow,
    Quick,
    Bytes,
    Half,
    /// Nearly a whole round of the counter each time.
    Round,
    Anywhere,
    Edges,
}

const PACES: [Pace; 9] = [
    Pace::Standing,
    Pace::Groups,
    Pace::Slow,
    Pace::Quick,
    Pace::Bytes,
    Pace::Half,
    Pace::Round,
    Pace::Anywhere,
    Pace::Edges,
];

fn stamps(random: &mut Random, count: usize) -> Vec<u8> {
    let mut pace = random.pick(&PACES);
    // The largest times come from long recordings of one pace.
    let changing = random.yes();
    let mut stamp = random.pick(&EDGES);
    let mut stamps = Vec::with_capacity(2 * count);
    for _ in 0..count {
        if changing && random.percent(1) {
            pace = random.pick(&PACES);
        }
        stamp = next_stamp(random, pace, stamp);
        stamps.extend(stamp.to_le_bytes());
    }
    stamps
}

fn next_stamp(random: &mut Random, pace: Pace, stamp: u16) -> u16 {
    let gap = match pace {
        Pace::Standing => 0,
        Pace::Groups if random.percent(75) => 0,
        Pace::Groups => 1 + random.below(40),
        Pace::Slow => random.below(3),
        Pace::Quick => random.below(400),
        Pace::Bytes => random.pick(&[1, 255, 256, 257, 512]),
        Pace::Half => random.pick(&[0, 0x7FFF, 0x8000, 0x8001]),
        Pace::Round => 0xFFFF - random.below(2),
        Pace::Anywhere => random.below(0x1_0000),
        Pace::Edges => return random.pick(&EDGES),
    };
    stamp.wrapping_add(gap as u16)
}

/// No whole number of records any more.
fn add_tail(random: &mut Random, events: &mut Vec<u8>) {
    let over = 1 + random.below(3);
    if events.is_empty() || random.yes() {
        events.extend(&[0; 3][..over]);
    } else {
        events.truncate(events.len() - over);
    }
}

/// A length near the right one, or far from it.
fn change_length(random: &mut Random, stamps: &mut Vec<u8>) {
    let right = stamps.len();
    let length = random.pick(&[
        right.saturating_sub(1),
        right + 1,
        right.saturating_sub(2),
        right + 2,
        0,
        right / 2,
        2 * right,
    ]);
    stamps.resize(length, 0);
}

fn report(recording: &Recording, what: &str) -> String {
    let mut report = format!(
        "{}\n{} event bytes, {} stamp bytes, room for {} bytes of text\n{what}\n",
        board_text(&recording.start),
        recording.events.len(),
        recording.stamps.len(),
        recording.room,
    );
    let records = recording.records();
    if records.len() <= SHORT_ENOUGH && recording.with(&records).compare().is_err() {
        let short = fewer(&records, |records| {
            let differs = recording.with(records).compare().is_err();
            differs.then_some(records.len())
        });
        let text: Vec<String> = short
            .iter()
            .map(|(event, stamp)| format!("{}@{}", event_text(event), u16::from_le_bytes(*stamp)))
            .collect();
        report += &format!("fewer records, {}: {}\n", short.len(), text.join(" "));
        let what = recording.with(&short).compare();
        report += &what.expect_err("kept while leaving out");
    }
    report
}
