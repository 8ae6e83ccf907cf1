//! The reader of `tests/cases.txt`; the head of that file explains its format.

use crate::board::Board;
use crate::step::{driven, fresh, step, DONE, SIZE};

const FIELDS: &str =
    "mode ready out input lines strobe vector select mask and high asked live waiting \
                      service awaiting matched code levels driven";

pub struct Case {
    pub name: String,
    pub size: usize,
    /// What the fresh call must give; the board is of the size asked for where this is 0, else of size 0.
    pub code: u8,
    /// The bytes of each event and, where the case says something about it, its answer.
    pub events: Vec<(Vec<u8>, Option<[u8; 4]>)>,
    /// Place, field and number after the last event.
    pub fields: Vec<(usize, String, u8)>,
}

pub fn read(text: &str) -> Vec<Case> {
    let mut cases = Vec::new();
    for line in text.lines() {
        if !line.is_empty() && !line.starts_with('#') {
            cases.push(case(line, &cases));
        }
    }
    cases
}

fn case(line: &str, earlier: &[Case]) -> Case {
    let (head, rest) = line.split_once(": ").expect(line);
    let (name, size) = head.split_once(' ').expect(line);
    let (events, wanted) = rest.split_once(" => ").expect(line);
    let mut case = Case {
        name: name.to_string(),
        size: size.parse().expect(line),
        code: DONE,
        events: Vec::new(),
        fields: Vec::new(),
    };
    for word in events.split_whitespace() {
        match word
            .strip_prefix('(')
            .and_then(|rest| rest.strip_suffix(')'))
        {
            Some(name) => {
                let start = earlier.iter().find(|case| case.name == name).expect(word);
                assert_eq!(start.size, case.size, "{line}");
                case.events.extend_from_slice(&start.events);
            }
            None => case.events.push(event(word)),
        }
    }
    for word in wanted.split_whitespace() {
        case.want(word);
    }
    case
}

fn event(word: &str) -> (Vec<u8>, Option<[u8; 4]>) {
    let (event, answer) = match word.split_once('>') {
        Some((event, answer)) => (event, Some(record(answer))),
        None => (word, None),
    };
    let raw = event
        .strip_prefix('[')
        .and_then(|rest| rest.strip_suffix(']'));
    let bytes = match raw {
        Some(raw) => raw
            .split_terminator(',')
            .map(|number| number.parse().expect(word))
            .collect(),
        None => record(event).to_vec(),
    };
    (bytes, answer)
}

pub fn record(word: &str) -> [u8; 4] {
    let mut bytes = [0; 4];
    for (at, number) in word.split(',').enumerate() {
        bytes[at] = number.parse().expect(word);
    }
    bytes
}

impl Case {
    fn want(&mut self, word: &str) {
        if let Some((place, named)) = word.split_once('{') {
            self.want_whole(place, named.strip_suffix('}').expect(word));
        } else if let Some(code) = word.strip_prefix("fresh=") {
            self.code = code.parse().expect(word);
        } else if let Some((place, field)) = word.split_once('.') {
            let (field, number) = field.split_once('=').expect(word);
            self.want_field(place, field, number);
        } else {
            let last = self.events.last_mut().expect(word);
            assert!(last.1.replace(record(word)).is_none(), "{word}");
        }
    }

    fn want_field(&mut self, place: &str, field: &str, number: &str) {
        let place = place.parse().expect(place);
        let number = number.parse().expect(number);
        self.fields.push((place, field.to_string(), number));
    }

    /// Every field of a place: those not named are as on a fresh board.
    fn want_whole(&mut self, place: &str, named: &str) {
        let named: Vec<(&str, &str)> = named
            .split_terminator(',')
            .map(|pair| pair.split_once('=').expect(pair))
            .collect();
        for field in FIELDS.split_whitespace() {
            let otherwise = match field {
                "mode" | "strobe" => "1",
                "mask" => "255",
                _ => "0",
            };
            let number = named.iter().find(|(name, _)| *name == field);
            self.want_field(place, field, number.map_or(otherwise, |(_, number)| number));
        }
        for (name, _) in named {
            assert!(FIELDS.split_whitespace().any(|field| field == name));
        }
    }

    /// Runs the case and gives every wanted thing that did not come out.
    pub fn failures(&self) -> Vec<String> {
        let name = &self.name;
        let mut failures = Vec::new();
        let (code, mut board) = fresh(self.size);
        let size = if self.code == DONE { self.size } else { 0 };
        assert!(self.code == DONE || self.code == SIZE, "{name}");
        if (code, board.size as usize) != (self.code, size) {
            failures.push(format!("{name}: fresh gives {code}, size {}", board.size));
        }
        for (number, (event, wanted)) in self.events.iter().enumerate() {
            let given = step(&mut board, event);
            if wanted.is_some_and(|wanted| wanted != given) {
                failures.push(format!(
                    "{name}: event {}: wanted {wanted:?}, got {given:?}",
                    number + 1
                ));
            }
        }
        for (place, field, wanted) in &self.fields {
            let got = seen(&board, *place, field);
            if got != *wanted {
                failures.push(format!(
                    "{name}: wanted {place}.{field}={wanted}, got {got}"
                ));
            }
        }
        failures
    }
}

fn seen(board: &Board, place: usize, field: &str) -> u8 {
    let port = &board.ports[place];
    match field {
        "mode" => port.mode,
        "ready" => port.ready as u8,
        "out" => port.out,
        "input" => port.input,
        "lines" => port.lines,
        "strobe" => port.strobe as u8,
        "vector" => port.vector,
        "select" => port.select,
        "mask" => port.mask,
        "and" => port.all as u8,
        "high" => port.high as u8,
        "asked" => port.asked as u8,
        "live" => port.live as u8,
        "waiting" => port.waiting as u8,
        "service" => port.service as u8,
        "awaiting" => port.awaiting,
        "matched" => port.matched as u8,
        "code" => driven(board, place).0,
        "levels" => driven(board, place).1,
        "driven" => driven(board, place).2,
        _ => panic!("no field is called {field}"),
    }
}
