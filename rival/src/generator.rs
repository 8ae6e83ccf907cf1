//! Random sessions that look like real ones, and random boards. Evenly random bytes would be refused
//! most of the time and would hardly ever bring an interrupt to its acknowledge; so the generator plans
//! short sequences as a driver program or a peripheral would send them, looks at the board to find what
//! could happen next, and lets other events come in between.

use std::collections::VecDeque;

use crate::board::{Board, CHIPS, ED_OPEN, NO_PREFIX, PLACES};
use crate::port::{Port, BIDIRECTIONAL, BIT_CONTROL, INPUT, MASK, NOTHING, OUTPUT, SELECT};
use crate::random::Random;
use crate::step::{ACKNOWLEDGE, CONTROL, FETCH, LINES, READ, RESET, STROBE, WRITE};

pub struct Generator {
    random: Random,
    planned: VecDeque<[u8; 4]>,
    /// How many events in a hundred are meant to be refused.
    refused: usize,
}

impl Generator {
    pub fn new(seed: u64, refused: usize) -> Generator {
        Generator {
            random: Random::new(seed),
            planned: VecDeque::new(),
            refused,
        }
    }

    /// The next event for a board with at least one chip.
    pub fn next(&mut self, board: &Board) -> [u8; 4] {
        if self.random.percent(self.refused) {
            return self.refused_event(board);
        }
        if self.random.percent(9) {
            return self.any_event(board);
        }
        while self.planned.is_empty() {
            self.plan(board);
        }
        self.planned
            .pop_front()
            .expect("a plan is never empty here")
    }

    fn plan(&mut self, board: &Board) {
        let place = self.place(board);
        let blank = board.ports[place].mode == INPUT && !board.ports[place].asked;
        if blank && self.random.percent(25) {
            // After a reset the ports must be set up again before much can happen.
            return self.program(place);
        }
        if self.random.below(300) == 0 {
            return self.send(RESET, 0, 0);
        }
        match self.random.below(100) {
            0..=11 => self.program(place),
            12..=17 => self.program_bidirectional(place & !1),
            18..=21 => self.interrupts(place),
            22..=23 => self.interrupts_everywhere(board),
            24..=59 => self.traffic(board, place),
            60..=69 => self.answer_request(board),
            70..=73 => self.nested_services(board),
            74..=83 => self.return_from_interrupt(board),
            84..=87 => self.strobe_over_mode_word(board, place),
            88..=91 => self.change_of_match(board, place),
            _ => {
                let opcode = self.opcode();
                self.send(FETCH, 0, opcode);
            }
        }
    }

    fn send(&mut self, kind: u8, place: usize, value: u8) {
        self.planned.push_back([kind, place as u8, value, 0]);
    }

    fn place(&mut self, board: &Board) -> usize {
        self.random.below(board.places())
    }

    /// A byte in which single bits stand out as often as crowds of them.
    fn byte(&mut self) -> u8 {
        let bit = 1u8 << self.random.below(8);
        match self.random.below(8) {
            0 => 0,
            1 => 255,
            2 => bit,
            3 => !bit,
            _ => self.random.byte(),
        }
    }

    /// An opcode byte; the two bytes of RETI come up often enough to meet by chance.
    fn opcode(&mut self) -> u8 {
        match self.random.below(8) {
            0 => 0xED,
            1 => 0x4D,
            2 => self.random.pick(&[0xCB, 0xDD, 0xFD, 0xEC, 0x45, 0xFB]),
            _ => self.random.byte(),
        }
    }

    fn mode_word(&mut self, mode: u8) -> u8 {
        mode << 6 | self.random.byte() & 0x30 | 0x0F
    }

    fn mode_of(&mut self, place: usize) -> u8 {
        if place % 2 == 0 {
            self.random
                .pick(&[OUTPUT, INPUT, BIDIRECTIONAL, BIT_CONTROL, BIT_CONTROL])
        } else {
            self.random.pick(&[OUTPUT, INPUT, BIT_CONTROL, BIT_CONTROL])
        }
    }

    fn send_mode(&mut self, place: usize, mode: u8) {
        let word = self.mode_word(mode);
        self.send(CONTROL, place, word);
        if mode == BIT_CONTROL {
            if self.random.percent(12) {
                self.send(FETCH, 0, 0);
            }
            let select = self.byte();
            self.send(CONTROL, place, select);
        }
    }

    fn send_vector(&mut self, place: usize) {
        let vector = self.random.byte() & !1;
        self.send(CONTROL, place, vector);
    }

    /// A whole set-up of one port: mode, vector, interrupts, in one of the usual orders.
    fn program(&mut self, place: usize) {
        if self.random.percent(30) {
            self.send_vector(place);
        }
        if self.random.percent(15) {
            let byte = self.byte();
            self.send(WRITE, place, byte);
        }
        if self.random.percent(20) {
            self.send(CONTROL, place, 0x83);
        }
        let mode = self.mode_of(place);
        self.send_mode(place, mode);
        if self.random.percent(30) {
            self.send_vector(place);
        }
        self.interrupts(place);
    }

    /// A in mode 2 with B in one of its modes, set up before or after A.
    fn program_bidirectional(&mut self, a: usize) {
        let b = a + 1;
        let b_mode = self.mode_of(b);
        let b_first = self.random.yes();
        if b_first {
            self.send_mode(b, b_mode);
        }
        self.send_mode(a, BIDIRECTIONAL);
        if !b_first && self.random.percent(70) {
            self.send_mode(b, b_mode);
        }
        for place in [a, b] {
            if self.random.percent(60) {
                self.interrupts(place);
            }
        }
    }

    /// Interrupts on or off by one of the two words, with the mask where it is announced, and mostly a
    /// fetch after it.
    fn interrupts(&mut self, place: usize) {
        let enable = if self.random.percent(80) { 0x80 } else { 0 };
        let others = self.random.byte() & 0x70;
        if self.random.percent(35) {
            self.send(CONTROL, place, enable | others | 0x03);
        } else {
            self.send(CONTROL, place, enable | others | 0x07);
            if others & 0x10 != 0 {
                if self.random.percent(15) {
                    self.send(FETCH, 0, 0);
                }
                let mask = self.byte();
                self.send(CONTROL, place, mask);
            }
        }
        if self.random.percent(70) {
            let opcode = self.opcode();
            self.send(FETCH, 0, opcode);
        }
    }

    fn interrupts_everywhere(&mut self, board: &Board) {
        for place in 0..board.places() {
            if self.random.percent(80) {
                self.send(CONTROL, place, 0x83);
            }
        }
        self.send(FETCH, 0, 0);
    }

    /// What a peripheral and its driver do with a port that is in the mode it is in.
    fn traffic(&mut self, board: &Board, place: usize) {
        match board.ports[place].mode {
            OUTPUT => self.output(place),
            INPUT => self.input(place, place),
            BIDIRECTIONAL => {
                if self.random.yes() {
                    self.output(place)
                } else {
                    self.input(place, place + 1)
                }
            }
            _ => {
                self.change_of_match(board, place);
                if self.random.percent(30) {
                    let byte = self.byte();
                    self.send(WRITE, place, byte);
                }
                if self.random.percent(40) {
                    self.send(READ, place, 0);
                }
                if self.random.percent(15) {
                    self.pulse(place);
                }
            }
        }
    }

    fn output(&mut self, place: usize) {
        let byte = self.byte();
        if self.random.percent(85) {
            self.send(WRITE, place, byte);
        }
        self.pulse(place);
        if self.random.percent(20) {
            self.send(READ, place, 0);
        }
    }

    /// Data goes into the register of one place by the strobe of the same or of the next one.
    fn input(&mut self, place: usize, strobe: usize) {
        if self.random.percent(40) {
            self.send(READ, place, 0);
        }
        let before = self.byte();
        let within = self.byte();
        let after = self.byte();
        self.send(LINES, place, before);
        self.send(STROBE, strobe, 0);
        if self.random.yes() {
            self.send(LINES, place, within);
        }
        if self.random.percent(90) {
            self.send(STROBE, strobe, 1);
        }
        if self.random.percent(30) {
            self.send(LINES, place, after);
        }
        if self.random.percent(60) {
            self.send(READ, place, 0);
        }
    }

    fn pulse(&mut self, place: usize) {
        self.send(STROBE, place, 0);
        if self.random.percent(10) {
            self.send(STROBE, place, 0);
        }
        if self.random.percent(90) {
            self.send(STROBE, place, 1);
        }
    }

    /// The mode may change between the fall of a strobe and its rise.
    fn strobe_over_mode_word(&mut self, board: &Board, place: usize) {
        let other = if self.random.yes() { place } else { place ^ 1 };
        let lines = self.byte();
        self.send(STROBE, place, 0);
        if self.random.yes() {
            self.send(LINES, place, lines);
        }
        if board.ports[other].mode == BIDIRECTIONAL || self.random.percent(60) {
            let mode = self.mode_of(other);
            self.send_mode(other, mode);
        } else {
            self.send_mode(other & !1, BIDIRECTIONAL);
        }
        if self.random.percent(30) {
            self.send(READ, place, 0);
        }
        self.send(STROBE, place, 1);
    }

    /// Lines that make the match come or go, by one bit or by many. Where no line is watched a new
    /// mask comes first, mostly.
    fn change_of_match(&mut self, board: &Board, place: usize) {
        let mut port = board.ports[place];
        if port.select & !port.mask == 0 && self.random.percent(70) {
            let word = self.random.byte() & 0xE0 | 0x17;
            port.mask = self.byte();
            port.interrupt_control(word);
            self.send(CONTROL, place, word);
            self.send(CONTROL, place, port.mask);
        }
        let watched = port.select & !port.mask;
        let mut active = self.random.byte();
        if port.matched {
            active &= !watched;
        } else if port.all {
            active |= watched;
        } else {
            active &= !watched;
            for bit in 0..8 {
                if watched & 1 << bit != 0 && self.random.percent(40) {
                    active |= 1 << bit;
                }
            }
        }
        if self.random.percent(20) {
            active ^= 1 << self.random.below(8);
        }
        let lines = if port.high { active } else { !active };
        self.send(LINES, place, lines);
    }

    /// The CPU answers a request; now and then it does so where there is none.
    fn answer_request(&mut self, board: &Board) {
        if board.asking().is_some() || self.random.percent(30) {
            self.send(ACKNOWLEDGE, 0, 0);
            if self.random.percent(30) {
                self.send(FETCH, 0, 0xED);
                self.send(FETCH, 0, 0x4D);
            }
        } else {
            let place = self.place(board);
            self.send(CONTROL, place, 0x83);
            self.send(FETCH, 0, 0);
            self.pulse(place);
        }
    }

    /// Farther ports first, so that each nearer one may interrupt the service before it.
    fn nested_services(&mut self, board: &Board) {
        let mut places: Vec<usize> = (0..board.places()).filter(|_| self.random.yes()).collect();
        if self.random.percent(80) {
            places.reverse();
        }
        for place in &places {
            self.send(CONTROL, *place, 0x83);
        }
        self.send(FETCH, 0, 0);
        for place in &places {
            self.pulse(*place);
            self.send(ACKNOWLEDGE, 0, 0);
        }
        for _ in 0..self.random.below(places.len() + 2) {
            self.send(FETCH, 0, 0xED);
            self.send(FETCH, 0, 0x4D);
        }
    }

    /// RETI, also with something between its two bytes.
    fn return_from_interrupt(&mut self, board: &Board) {
        self.send(FETCH, 0, 0xED);
        match self.random.below(14) {
            0 => self.send(FETCH, 0, 0xED),
            1 => {
                let opcode = self.opcode();
                self.send(FETCH, 0, opcode);
            }
            2 => self.send(ACKNOWLEDGE, 0, 0),
            3 => self.planned.push_back([FETCH, 0, 0x4D, 1]),
            4 => self.planned.push_back([ACKNOWLEDGE, 0, 1, 0]),
            5 => {
                let place = self.place(board);
                self.send(CONTROL, place, 0x83);
            }
            6 => {
                let event = self.any_event(board);
                self.planned.push_back(event);
            }
            7 if self.random.percent(30) => self.send(RESET, 0, 0),
            _ => {}
        }
        self.send(FETCH, 0, 0x4D);
    }

    /// One event by itself, of any kind, with a value that its kind allows.
    fn any_event(&mut self, board: &Board) -> [u8; 4] {
        let place = self.place(board);
        let byte = self.byte();
        let (kind, place, value) = match self.random.below(40) {
            0 if self.random.yes() => (RESET, 0, 0),
            0 => (READ, place, 0),
            1..=5 => (FETCH, 0, self.opcode()),
            6..=8 => (ACKNOWLEDGE, 0, 0),
            9..=16 => (CONTROL, place, self.control_word(place)),
            17..=20 => (WRITE, place, byte),
            21..=25 => (READ, place, 0),
            26..=34 => (STROBE, place, self.random.below(2) as u8),
            _ => (LINES, place, byte),
        };
        [kind, place as u8, value, 0]
    }

    fn control_word(&mut self, place: usize) -> u8 {
        let upper = self.random.byte() & 0xF0;
        match self.random.below(10) {
            0..=1 => self.random.byte() & !1,
            2..=4 => {
                let mode = self.mode_of(place);
                self.mode_word(mode)
            }
            5..=7 => upper | 0x07,
            8 => upper | 0x03,
            _ => self.byte() & !1,
        }
    }

    /// An event that is refused on most boards. Several reasons may meet, so that their order shows.
    fn refused_event(&mut self, board: &Board) -> [u8; 4] {
        let mut event = self.any_event(board);
        for _ in 0..1 + self.random.below(2) {
            match self.random.below(9) {
                0 => event[0] = self.random.pick(&[8, 9, 16, 128, 255]),
                1 => event[0] = 8 + self.random.below(248) as u8,
                2 => {
                    event[0] = self.random.below(3) as u8;
                    event[1] = self.random.pick(&[1, 2, 7, 8, 255]);
                }
                3 => {
                    event[0] = 3 + self.random.below(5) as u8;
                    event[1] = board.places() as u8 + self.random.pick(&[0, 0, 1, 2, 8, 64, 200]);
                }
                4 => {
                    event[0] = self.random.pick(&[RESET, ACKNOWLEDGE, READ]);
                    event[2] = self.random.pick(&[1, 2, 128, 255]);
                }
                5 => {
                    event[0] = STROBE;
                    event[2] = self.random.pick(&[2, 3, 128, 254, 255]);
                }
                6 => event[3] = self.random.pick(&[1, 2, 128, 255]),
                7 => {
                    event[0] = CONTROL;
                    event[1] = self.place(board) as u8;
                    event[2] = self.random.byte() & 0xF0 | self.random.pick(&[1, 5, 9, 11, 13]);
                }
                _ => {
                    event[0] = CONTROL;
                    event[1] = self.place(board) as u8 | 1;
                    event[2] = self.mode_word(BIDIRECTIONAL);
                }
            }
        }
        event
    }
}

/// A size, mostly one or two chips.
pub fn size(random: &mut Random) -> usize {
    random.pick(&[1, 1, 1, 1, 2, 2, 2, 2, 3, 4])
}

/// A port with anything in its fields.
fn any_port(random: &mut Random) -> Port {
    Port {
        mode: if random.percent(90) {
            random.below(4) as u8
        } else {
            random.byte()
        },
        out: random.byte(),
        input: random.byte(),
        lines: random.byte(),
        strobe: random.yes(),
        ready: random.yes(),
        vector: random.byte(),
        select: random.byte(),
        mask: random.byte(),
        all: random.yes(),
        high: random.yes(),
        asked: random.yes(),
        live: random.yes(),
        waiting: random.yes(),
        service: random.percent(20),
        awaiting: if random.percent(90) {
            random.below(3) as u8
        } else {
            random.byte()
        },
        matched: random.yes(),
    }
}

/// A board with anything in its fields; hardly ever sound.
pub fn any_board(random: &mut Random) -> Board {
    Board {
        size: size(random) as u8,
        ports: [(); PLACES].map(|_| any_port(random)),
        prefix: if random.yes() { ED_OPEN } else { NO_PREFIX },
    }
}

/// A sound board, whether or not a session could reach it. Places beyond the size hold anything.
pub fn sound_board(random: &mut Random) -> Board {
    let mut board = any_board(random);
    for place in 0..board.places() {
        let port = &mut board.ports[place];
        port.mode %= 4;
        if place % 2 == 1 && port.mode == BIDIRECTIONAL {
            port.mode = BIT_CONTROL;
        }
        port.vector &= !1;
        port.live &= port.asked;
        port.awaiting %= 3;
        let select = port.awaiting == SELECT && port.mode != BIT_CONTROL;
        let mask = port.awaiting == MASK && port.live;
        if select || mask || random.yes() {
            port.awaiting = NOTHING;
        }
        if random.percent(30) {
            // With few lines watched a match comes and goes more often.
            port.mask |= random.byte() | random.byte();
        }
    }
    // The two things that hang together with the neighbour come last.
    for place in 0..board.places() {
        if board.follows(place) {
            board.ports[place].input = board.ports[place].lines;
        }
        board.ports[place].matched = board.matches(place);
    }
    board
}

/// A board that breaks one line of the list of soundness, or many. Where one line is broken the others
/// are mostly kept, so that a program that forgot that line is found out.
pub fn unsound_board(random: &mut Random) -> Board {
    loop {
        let mut board = sound_board(random);
        let place = random.below(board.places());
        let odd = place | 1;
        let follows = board.follows(place);
        let port = &mut board.ports[place];
        match random.below(12) {
            0 => board.size = 0,
            1 => board.size = random.pick(&[5, 6, 8, 64, 128, 129, 132, 255]),
            2 => {
                port.mode = random.pick(&[4, 5, 6, 7, 67, 128, 255]);
                port.awaiting = NOTHING;
                port.matched = false;
            }
            3 => {
                board.ports[odd].mode = BIDIRECTIONAL;
                board.ports[odd].awaiting = NOTHING;
                board.ports[odd].matched = false;
            }
            4 => port.vector |= 1,
            5 => {
                port.asked = false;
                port.live = true;
                port.awaiting = NOTHING;
                board.ports[place].matched = board.matches(place);
            }
            6 => {
                port.awaiting = random.pick(&[3, 4, 129, 130, 255]);
                port.matched = false;
            }
            7 => {
                port.awaiting = SELECT;
                port.matched = false;
            }
            8 => {
                port.awaiting = MASK;
                port.asked = true;
                port.live = true;
                port.matched = false;
            }
            9 => port.matched = !port.matched,
            10 if follows => port.input ^= 1 << random.below(8),
            11 => board = any_board(random),
            _ => {}
        }
        if !board.sound() {
            return board;
        }
    }
}

/// The sizes that a fresh board is tried with: all good ones and the bad ones near and far.
pub const SIZES: [usize; 10] = [0, 1, 2, 3, CHIPS, 5, 8, 255, 257, usize::MAX];
