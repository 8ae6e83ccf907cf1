//! One port of a Z80 PIO: its registers, its two handshake lines and its part of the interrupt logic.
//! What a port can do without knowing its neighbour is here (document 01, "Control words" and "Data,
//! handshake, bits").

/// The four modes; the numbers are those of the mode word's bits 7 and 6.
pub const OUTPUT: u8 = 0;
pub const INPUT: u8 = 1;
pub const BIDIRECTIONAL: u8 = 2;
pub const BIT_CONTROL: u8 = 3;

/// What the next control byte will be taken for.
pub const NOTHING: u8 = 0;
pub const SELECT: u8 = 1;
pub const MASK: u8 = 2;

#[derive(Clone, Copy, Debug, PartialEq, Eq)]
pub struct Port {
    pub mode: u8,
    /// The output register.
    pub out: u8,
    /// The input register.
    pub input: u8,
    /// The levels that the outside puts on the eight lines, also where the port drives them.
    pub lines: u8,
    /// The level of Strobe; the active level is low.
    pub strobe: bool,
    pub ready: bool,
    pub vector: u8,
    /// Mode 3: a 1 makes the line an input.
    pub select: u8,
    /// Mode 3: a 0 lets the line take part in the match.
    pub mask: u8,
    /// AND, otherwise OR.
    pub all: bool,
    /// Active High, otherwise Low.
    pub high: bool,
    /// The CPU wants interrupts of this port.
    pub asked: bool,
    /// Interrupts are really on: a fetch has come since they were asked for.
    pub live: bool,
    /// An interrupt waits for its acknowledge.
    pub waiting: bool,
    /// An interrupt was acknowledged and its RETI has not come.
    pub service: bool,
    pub awaiting: u8,
    /// Whether the lines matched after the last event.
    pub matched: bool,
}

impl Port {
    /// A port when the power has come on: as after a reset, with everything that a reset keeps 0 and
    /// Strobe at rest.
    pub fn fresh() -> Port {
        Port {
            mode: INPUT,
            out: 0,
            input: 0,
            lines: 0,
            strobe: true,
            ready: false,
            vector: 0,
            select: 0,
            mask: 255,
            all: false,
            high: false,
            asked: false,
            live: false,
            waiting: false,
            service: false,
            awaiting: NOTHING,
            matched: false,
        }
    }

    pub fn reset(&mut self) {
        self.mode = INPUT;
        self.ready = false;
        self.mask = 255;
        self.out = 0;
        self.asked = false;
        self.live = false;
        self.waiting = false;
        self.service = false;
        self.awaiting = NOTHING;
        self.matched = false;
    }

    /// Bit 7 of the two words that enable. Off works at once; on waits for a fetch to become live.
    pub fn enable(&mut self, on: bool) {
        if on {
            self.asked = true;
        } else {
            self.asked = false;
            self.live = false;
        }
    }

    /// The word with the low bits 0111, from the enable bit down to "mask follows".
    pub fn interrupt_control(&mut self, word: u8) {
        self.enable(word & 0x80 != 0);
        self.all = word & 0x40 != 0;
        self.high = word & 0x20 != 0;
        if word & 0x10 != 0 {
            self.waiting = false;
            self.live = false;
            self.awaiting = MASK;
        }
    }

    /// What a data read gives, before the read has any effect.
    pub fn read(&self) -> u8 {
        match self.mode {
            OUTPUT => self.out,
            INPUT | BIDIRECTIONAL => self.input,
            _ => (self.lines & self.select) | (self.out & !self.select),
        }
    }

    /// Whether the watched lines stand at the active level, taken by themselves: mode 3, nothing
    /// awaited, and at least one line watched.
    pub fn lines_match(&self) -> bool {
        if self.mode != BIT_CONTROL || self.awaiting != NOTHING {
            return false;
        }
        let watched = self.select & !self.mask;
        let active = if self.high { self.lines } else { !self.lines };
        if watched == 0 {
            false
        } else if self.all {
            active & watched == watched
        } else {
            active & watched != 0
        }
    }

    /// The levels on the driven lines and a 1 for each driven line.
    pub fn driven(&self) -> (u8, u8) {
        let mask = match self.mode {
            OUTPUT => 255,
            INPUT => 0,
            BIDIRECTIONAL => {
                if self.strobe {
                    0
                } else {
                    255
                }
            }
            _ => !self.select,
        };
        (self.out & mask, mask)
    }
}
