//! Random sessions on the rival and the product side by side: after every event the answer, every field
//! of every place, the decoder and the driven lines must agree; runs must agree with steps; and boards
//! that are not sound, wrong lengths and wrong sizes must be refused alike.

use crate::agreement::{
    board_text, event_text, fewer, same, same_board, Agreement, BEHIND, FILLING,
};
use crate::board::{Board, PLACES};
use crate::generator::{self, Generator, SIZES};
use crate::library;
use crate::random::Random;
use crate::step::{driven, fresh, run, step};

/// How many sessions take about twenty seconds.
pub const USUAL_COUNT: u64 = 50_000;

/// The share of refused events, in a hundred.
const REFUSED: usize = 3;

/// Places that are on no board.
const FAR_PLACES: [usize; 6] = [PLACES, PLACES + 1, 255, 256, 1 << 16, usize::MAX];

/// The bytes lent to one step: four, but for a few that must be refused with 32.
#[derive(Clone, Copy)]
struct Lent {
    bytes: [u8; 8],
    length: usize,
}

impl Lent {
    fn event(event: [u8; 4]) -> Lent {
        let mut bytes = [0; 8];
        bytes[..4].copy_from_slice(&event);
        Lent { bytes, length: 4 }
    }

    fn other_length(random: &mut Random) -> Lent {
        let length = random.pick(&[0, 1, 2, 3, 5, 6, 7, 8]);
        Lent {
            bytes: [(); 8].map(|_| random.byte() & 7),
            length,
        }
    }

    fn bytes(&self) -> &[u8] {
        &self.bytes[..self.length]
    }
}

/// One board in both programs.
struct Pair {
    rival: Board,
    product: library::Board,
    steps: usize,
}

impl Pair {
    fn new(start: &Board) -> Pair {
        Pair {
            rival: *start,
            product: library::encode(start),
            steps: 0,
        }
    }

    fn step(&mut self, event: &[u8]) -> Result<[u8; 4], String> {
        let wanted = step(&mut self.rival, event);
        let mut answer = [FILLING; 4 + BEHIND];
        let code = library::step(&mut self.product, event, &mut answer[..4]);
        same("answer", &wanted[..], &answer[..4])?;
        same("returned code", wanted[0], code)?;
        same(
            "bytes behind the answer",
            &[FILLING; BEHIND][..],
            &answer[4..],
        )?;
        self.same_board("after the step")?;
        self.same_lines()?;
        self.steps += 1;
        Ok(wanted)
    }

    fn same_board(&self, when: &str) -> Agreement {
        same_board(when, &self.rival, &self.product)
    }

    fn same_lines(&mut self) -> Agreement {
        for place in 0..PLACES {
            self.same_lines_at(place)?;
        }
        self.same_lines_at(FAR_PLACES[self.steps % FAR_PLACES.len()])?;
        self.same_board("after the question for driven lines")
    }

    fn same_lines_at(&mut self, place: usize) -> Agreement {
        let (code, levels, mask) = driven(&self.rival, place);
        let mut given = [FILLING; 2 + BEHIND];
        let product = library::lines(&mut self.product, place, &mut given[..2]);
        if (code, levels, mask) != (product, given[0], given[1]) {
            let what = format!("driven lines at place {place}");
            return same(&what, (code, levels, mask), (product, given[0], given[1]));
        }
        same(
            "bytes behind the driven lines",
            &[FILLING; BEHIND][..],
            &given[2..],
        )
    }

    /// A run in both programs, refused or not, with everything that it was lent.
    fn run(&mut self, events: &[u8], room: usize, start: usize) -> Result<Vec<u8>, String> {
        // The last bytes are not lent.
        let mut wanted = vec![FILLING; room + BEHIND];
        let (code, records) = run(&mut self.rival, events, &mut wanted[..room], start);
        let mut answers = vec![FILLING; room + BEHIND];
        let mut counted = usize::MAX;
        let lent = &mut answers[..room];
        let product = library::run(&mut self.product, events, lent, start, &mut counted);
        let what = format!(
            "run of {} bytes into {room} bytes from record {start}",
            events.len()
        );
        same(
            &format!("{what}: code and records"),
            (code, records),
            (product, counted),
        )?;
        if let Some(at) = (0..answers.len()).find(|at| wanted[*at] != answers[*at]) {
            same(
                &format!("{what}: byte {at} of the buffer"),
                wanted[at],
                answers[at],
            )?;
        }
        self.same_board(&format!("after {what}"))?;
        Ok(wanted)
    }
}

/// A difference, ready to be printed.
struct Finding {
    start: Board,
    /// The events since that board, up to the one that shows the difference.
    events: Vec<Lent>,
    /// How many events of the session, on this board or others, agreed before.
    agreed: u64,
    what: String,
}

/// Compares that many sessions; gives the number of events, or the first difference as text.
pub fn sessions(count: u64, seed: u64) -> Result<u64, String> {
    let mut events = 0;
    let first = Random::new(seed).number();
    for number in 0..count {
        let mut random = Random::new(first.wrapping_add(number));
        let session = match number % 8 {
            0..=4 => from_fresh(&mut random),
            5..=6 => from_sound(&mut random),
            _ => refusals(&mut random),
        };
        match session {
            Ok(compared) => events += compared,
            Err(finding) => {
                let agreed = events + finding.agreed;
                let head = format!("session {} of seed {seed}", number + 1);
                return Err(format!(
                    "{head}, after {agreed} events that agree\n{}",
                    report(&finding)
                ));
            }
        }
    }
    Ok(events)
}

fn from_fresh(random: &mut Random) -> Result<u64, Finding> {
    let start = fresh(generator::size(random)).1;
    let count = 100 + random.below(700);
    stepped(&start, count, random)
}

fn from_sound(random: &mut Random) -> Result<u64, Finding> {
    let start = generator::sound_board(random);
    let count = 10 + random.below(200);
    stepped(&start, count, random)
}

/// A session from a sound board: first step by step, then as runs.
fn stepped(start: &Board, count: usize, random: &mut Random) -> Result<u64, Finding> {
    let mut pair = Pair::new(start);
    let mut generator = Generator::new(random.number(), REFUSED);
    let mut events = Vec::with_capacity(count);
    let mut answers = Vec::with_capacity(4 * count);
    for _ in 0..count {
        let event = if random.below(150) == 0 {
            Lent::other_length(random)
        } else {
            Lent::event(generator.next(&pair.rival))
        };
        events.push(event);
        match pair.step(event.bytes()) {
            Ok(answer) if event.length == 4 => answers.extend(answer),
            Ok(_) => {}
            Err(what) => {
                let agreed = events.len() as u64 - 1;
                return Err(Finding {
                    start: *start,
                    events,
                    agreed,
                    what,
                });
            }
        }
    }
    events.retain(|event| event.length == 4);
    match as_runs(start, &events, &answers, &pair.rival, random) {
        Ok(()) => Ok(count as u64),
        Err(what) => Err(Finding {
            start: *start,
            events,
            agreed: count as u64,
            what,
        }),
    }
}

/// The same records in runs of several lengths, with refused runs between them.
fn as_runs(
    start: &Board,
    events: &[Lent],
    answers: &[u8],
    end: &Board,
    random: &mut Random,
) -> Agreement {
    let records: Vec<u8> = events
        .iter()
        .flat_map(|event| event.bytes().to_vec())
        .collect();
    let mut pair = Pair::new(start);
    let mut done = 0;
    while done < events.len() {
        let left = events.len() - done;
        let count = if random.percent(10) {
            left
        } else {
            random.below(left.min(64) + 1)
        };
        let part = &records[4 * done..4 * (done + count)];
        let first = random.below(6);
        let room = 4 * (first + count + random.below(3)) + random.below(4);
        if random.percent(20) {
            refused_run(&mut pair, part, first, room, random)?;
        }
        let given = pair.run(part, room, first)?;
        same(
            &format!("steps and run from record {done}"),
            &answers[4 * done..4 * (done + count)],
            &given[4 * first..4 * (first + count)],
        )?;
        done += count;
    }
    same("boards after steps and runs", end, &pair.rival)
}

/// A run that is refused, unless it has no records; both programs must leave everything as it is.
fn refused_run(
    pair: &mut Pair,
    part: &[u8],
    first: usize,
    room: usize,
    random: &mut Random,
) -> Agreement {
    let count = part.len() / 4;
    let cut = if count > 0 {
        part.len() - 1 - random.below(3)
    } else {
        0
    };
    let (part, room, first) = match random.below(6) {
        0 => (&part[..cut], room, first),
        1 => (&part[..cut], 0, usize::MAX),
        2 => (part, room, room / 4 + 1 - count),
        3 => (part, room, usize::MAX),
        // Start and records together are one more than a word holds.
        4 => (part, room, usize::MAX - count.saturating_sub(1)),
        _ => (part, (4 * (first + count)).saturating_sub(1), first),
    };
    pair.run(part, room, first)?;
    Ok(())
}

/// Boards that are not sound, and fresh boards of every size.
fn refusals(random: &mut Random) -> Result<u64, Finding> {
    let mut agreed = 0;
    for size in SIZES {
        if let Err(what) = same_fresh(size, random) {
            let start = generator::any_board(random);
            return Err(Finding {
                start,
                events: Vec::new(),
                agreed,
                what,
            });
        }
    }
    for _ in 0..60 {
        let start = generator::unsound_board(random);
        let mut pair = Pair::new(&start);
        // The events need a board that has places.
        let mut generator = Generator::new(random.number(), 20);
        let other = fresh(4).1;
        let mut events = Vec::new();
        for _ in 0..3 {
            let event = if random.percent(20) {
                Lent::other_length(random)
            } else {
                Lent::event(generator.next(&other))
            };
            events.push(event);
            if let Err(what) = pair.step(event.bytes()) {
                return Err(Finding {
                    start,
                    events,
                    agreed,
                    what,
                });
            }
            agreed += 1;
        }
        let records = [0; 12];
        let length = random.pick(&[0, 4, 8, 11, 12]);
        let room = random.below(14);
        let first = random.pick(&[0, 1, 3, usize::MAX]);
        if let Err(what) = pair.run(&records[..length], room, first) {
            return Err(Finding {
                start,
                events,
                agreed,
                what,
            });
        }
    }
    Ok(agreed)
}

/// A fresh board is written over whatever was there.
fn same_fresh(size: usize, random: &mut Random) -> Agreement {
    let (code, rival) = fresh(size);
    let mut product = library::encode(&generator::any_board(random));
    let given = library::fresh(&mut product, size);
    same(
        &format!("code of a fresh board of size {size}"),
        code,
        given,
    )?;
    same_board(&format!("made fresh with size {size}"), &rival, &product)
}

fn first_difference(start: &Board, events: &[Lent]) -> Option<(usize, String)> {
    let mut pair = Pair::new(start);
    for (number, event) in events.iter().enumerate() {
        if let Err(what) = pair.step(event.bytes()) {
            return Some((number, what));
        }
    }
    None
}

fn report(finding: &Finding) -> String {
    let board = board_text(&finding.start);
    let text = |events: &[Lent]| {
        let words: Vec<String> = events
            .iter()
            .map(|event| event_text(event.bytes()))
            .collect();
        words.join(" ")
    };
    let mut report = format!(
        "{board}\n{} events: {}\n",
        finding.events.len(),
        text(&finding.events)
    );
    report += &format!("{}\n", finding.what);
    if first_difference(&finding.start, &finding.events).is_some() {
        let short = fewer(&finding.events, |events| {
            first_difference(&finding.start, events).map(|(last, _)| last + 1)
        });
        let (_, what) = first_difference(&finding.start, &short).expect("kept while leaving out");
        report += &format!("fewer events, {}: {}\n{what}\n", short.len(), text(&short));
    }
    report
}
