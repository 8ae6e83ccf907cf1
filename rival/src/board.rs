//! The board: one to four chips of two ports, the chain and the decoder that watches the opcodes
//! (document 01, "Sound board", the mode 2 lines of "Data, handshake, bits", and "Chain and RETI").

use crate::port::{Port, BIDIRECTIONAL, BIT_CONTROL, INPUT, MASK, SELECT};

/// The most chips that chain without look-ahead logic, and their ports.
pub const CHIPS: usize = 4;
pub const PLACES: usize = 2 * CHIPS;

/// What the decoder remembers.
pub const NO_PREFIX: u8 = 0;
pub const ED_OPEN: u8 = 1;

#[derive(Clone, Copy, Debug, PartialEq, Eq)]
pub struct Board {
    /// The number of chips.
    pub size: u8,
    /// By place: 2 x chip for A, and one more for B.
    pub ports: [Port; PLACES],
    pub prefix: u8,
}

impl Board {
    /// How many places are on the board.
    pub fn places(&self) -> usize {
        2 * self.size as usize
    }

    /// Whether the port is a B whose handshake lines serve A, because A is in mode 2.
    pub fn serves_a(&self, place: usize) -> bool {
        place % 2 == 1 && self.ports[place - 1].mode == BIDIRECTIONAL
    }

    /// Whether the input register is transparent now.
    pub fn follows(&self, place: usize) -> bool {
        let port = &self.ports[place];
        if self.serves_a(place) {
            false
        } else if port.mode == BIDIRECTIONAL {
            // Only A reaches this mode, so the next place is B of the same chip.
            place % 2 == 0 && !self.ports[place + 1].strobe
        } else {
            port.mode == INPUT && !port.strobe
        }
    }

    /// Whether the port's lines match now; a B that serves A has no match.
    pub fn matches(&self, place: usize) -> bool {
        !self.serves_a(place) && self.ports[place].lines_match()
    }

    pub fn sound(&self) -> bool {
        if self.size < 1 || self.size as usize > CHIPS {
            return false;
        }
        (0..self.places()).all(|place| self.sound_at(place))
    }

    fn sound_at(&self, place: usize) -> bool {
        let port = &self.ports[place];
        let mode = port.mode <= BIT_CONTROL && !(port.mode == BIDIRECTIONAL && place % 2 == 1);
        let vector = port.vector % 2 == 0;
        let live = port.asked || !port.live;
        let awaiting = port.awaiting <= MASK;
        let select = port.awaiting != SELECT || port.mode == BIT_CONTROL;
        let mask = port.awaiting != MASK || !port.live;
        let memory = port.matched == self.matches(place);
        let register = !self.follows(place) || port.input == port.lines;
        mode && vector && live && awaiting && select && mask && memory && register
    }

    /// What every accepted event ends with: transparent registers follow, and a match that was no and
    /// is yes makes its port wait.
    pub fn settle(&mut self) {
        for place in 0..self.places() {
            if self.follows(place) {
                self.ports[place].input = self.ports[place].lines;
            }
            let now = self.matches(place);
            if now && !self.ports[place].matched {
                self.ports[place].waiting = true;
            }
            self.ports[place].matched = now;
        }
    }

    /// The nearest place that asks the CPU for an interrupt. Service of a nearer port keeps the farther
    /// ones back; waiting without being live keeps nobody back.
    pub fn asking(&self) -> Option<usize> {
        for place in 0..self.places() {
            if self.ports[place].service {
                return None;
            }
            if self.ports[place].waiting && self.ports[place].live {
                return Some(place);
            }
        }
        None
    }

    /// The fourth byte of an answer (document 02, ask 2): who is asking. 0 is nobody, otherwise it is the
    /// nearest asking place + 1.
    pub fn request(&self) -> u8 {
        match self.asking() {
            Some(place) => place as u8 + 1,
            None => 0,
        }
    }

    /// The decoder takes the next opcode byte. Only ED opens it, and whatever comes next closes it.
    pub fn decode(&mut self, opcode: u8) {
        if self.prefix == ED_OPEN {
            self.prefix = NO_PREFIX;
            if opcode == 0x4D {
                self.release();
            }
        } else if opcode == 0xED {
            self.prefix = ED_OPEN;
        }
    }

    /// RETI: the nearest port under service is released, and no other.
    fn release(&mut self) {
        for place in 0..self.places() {
            if self.ports[place].service {
                self.ports[place].service = false;
                return;
            }
        }
    }
}
