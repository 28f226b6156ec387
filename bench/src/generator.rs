//! Made inputs: pseudo-random numbers, messages of every kind, frames, damage and noise.
//! The same seed gives the same inputs on every machine.

use crate::reference::{days_in, frame_checksum, DLE, ETX, KINDS, SUM};

/// Bytes that stand at the end of some range or have a meaning on the line.
const NOTABLE: [u8; 32] = [
    0x00, 0x01, 0x02, 0x03, 0x04, 0x05, 0x0C, 0x0D, 0x0E, 0x10, 0x18, 0x19, 0x1F, 0x20, 0x21, 0x3B,
    0x3C, 0x40, 0x5A, 0x5B, 0x77, 0x78, 0x7F, 0x80, 0x8A, 0x8B, 0xC4, 0xC5, 0xF2, 0xF8, 0xF9, 0xFF,
];

/// Lengths that some kind allows, and their neighbours.
const LENGTHS: [usize; 42] = [
    0, 1, 2, 3, 5, 6, 7, 8, 9, 10, 11, 14, 25, 26, 27, 28, 32, 33, 34, 41, 42, 43, 56, 57, 58, 92,
    93, 94, 129, 130, 131, 167, 168, 169, 518, 525, 526, 532, 986, 987, 988, 1017,
];

/// xorshift64*.
pub struct Random(u64);

impl Random {
    pub fn new(seed: u64) -> Random {
        // 0 is the one state that xorshift never leaves.
        Random(if seed == 0 { 1 } else { seed })
    }

    pub fn word(&mut self) -> u64 {
        self.0 ^= self.0 >> 12;
        self.0 ^= self.0 << 25;
        self.0 ^= self.0 >> 27;
        self.0.wrapping_mul(0x2545_F491_4F6C_DD1D)
    }

    /// From 0 up to but not including `n`, which is small beside 2^32.
    pub fn below(&mut self, n: usize) -> usize {
        ((self.word() >> 32) as usize) % n
    }

    pub fn between(&mut self, low: usize, high: usize) -> usize {
        low + self.below(high - low + 1)
    }

    pub fn byte(&mut self) -> u8 {
        (self.word() >> 56) as u8
    }

    pub fn pick<T: Copy>(&mut self, from: &[T]) -> T {
        from[self.below(from.len())]
    }

    /// True once in `n`.
    pub fn once_in(&mut self, n: usize) -> bool {
        self.below(n) == 0
    }

    /// A value of a range, every other time one of its ends.
    fn field(&mut self, low: i32, high: i32) -> i32 {
        match self.below(4) {
            0 => low,
            1 => high,
            _ => low + self.below((high - low + 1) as usize) as i32,
        }
    }

    fn field8(&mut self, low: i32, high: i32, body: &mut Vec<u8>) {
        body.push(self.field(low, high) as u8);
    }

    fn field16(&mut self, low: i32, high: i32, body: &mut Vec<u8>) {
        body.extend((self.field(low, high) as u16).to_le_bytes());
    }

    fn field32(&mut self, low: i32, high: i32, body: &mut Vec<u8>) {
        body.extend((self.field(low, high) as u32).to_le_bytes());
    }

    /// Free bytes, sometimes rich in service codes.
    pub fn free(&mut self, count: usize, body: &mut Vec<u8>) {
        match self.below(4) {
            0 | 1 => body.extend((0..count).map(|_| self.byte())),
            2 => self.rich_noise(count, body),
            _ => body.extend((0..count).map(|_| DLE)),
        }
    }

    pub fn noise(&mut self, count: usize, out: &mut Vec<u8>) {
        out.extend((0..count).map(|_| self.byte()));
    }

    /// Noise in which starts, ends and checksum marks meet often.
    pub fn rich_noise(&mut self, count: usize, out: &mut Vec<u8>) {
        out.extend((0..count).map(|_| match self.below(16) {
            0..=6 => DLE,
            7..=9 => ETX,
            10..=11 => SUM,
            12..=13 => self.pick(&KINDS),
            _ => self.byte(),
        }));
    }

    fn zone(&mut self, body: &mut Vec<u8>) {
        self.field8(-13, 13, body);
        self.field8(-59, 59, body);
    }

    /// Entries of 52h.
    pub fn in_view(&mut self, entries: usize, body: &mut Vec<u8>) {
        for _ in 0..entries {
            match self.below(3) {
                0 => {
                    body.push(1);
                    self.field8(1, 32, body);
                    body.push(0xFF);
                }
                1 => {
                    body.push(2);
                    self.field8(1, 24, body);
                    self.field8(-7, 13, body);
                }
                _ => {
                    body.push(4);
                    self.field8(120, 158, body);
                    body.push(0xFF);
                }
            }
            self.field8(0, 90, body);
            self.field16(0, 359, body);
            body.push(self.byte());
        }
    }

    /// The 56 satellites of 47h in any order.
    fn in_use(&mut self, body: &mut Vec<u8>) {
        let mut satellites = [(0, 0); 56];
        for (place, satellite) in (0..).zip(&mut satellites) {
            *satellite = if place < 32 {
                (1, place + 1)
            } else {
                (2, place - 31)
            };
        }
        for last in (1..satellites.len()).rev() {
            satellites.swap(last, self.below(last + 1));
        }
        for (system, number) in satellites {
            body.extend([system, number]);
            self.field8(1, 2, body);
        }
    }

    /// The data of an acceptable message of one of the twenty-one kinds.
    pub fn acceptable(&mut self, id: u8) -> Vec<u8> {
        let mut body = Vec::new();
        match id {
            0x1B | 0x1E | 0x26 | 0x54 => {}
            0x21 | 0x24 | 0x27 | 0x2A => {
                let count = self.below(2);
                self.free(count, &mut body);
            }
            0x1F => {
                if !self.once_in(3) {
                    self.field8(0, 1, &mut body);
                }
            }
            0xF4 => self.free(1, &mut body),
            0x20 => {
                if self.once_in(2) {
                    body.push(1);
                    self.field8(1, 32, &mut body);
                } else {
                    body.push(2);
                    self.field8(1, 24, &mut body);
                }
            }
            0x23 => {
                if !self.once_in(4) {
                    self.zone(&mut body);
                }
            }
            0x43 => {
                let antenna = self.pick(&[0, 1, 3]);
                body.extend([2, antenna << 6 | self.byte() & 0x3F, 0, 0, 0, 0]);
            }
            0x46 => {
                self.field32(0, 604_799, &mut body);
                let mut month = Vec::new();
                self.field8(1, 12, &mut month);
                self.field16(2000, 65_535, &mut month);
                let last = days_in(month[0], u16::from_le_bytes([month[1], month[2]]));
                self.field8(1, last.into(), &mut body);
                body.extend(month);
                self.zone(&mut body);
            }
            0x47 => self.in_use(&mut body),
            0x49 => {
                if self.once_in(2) {
                    body.push(1);
                    self.field8(1, 32, &mut body);
                    self.free(128, &mut body);
                } else {
                    body.push(2);
                    self.field8(0, 24, &mut body);
                    self.field8(-7, 13, &mut body);
                    self.free(90, &mut body);
                }
            }
            0x4A => self.free(33, &mut body),
            0x4B => self.free(42, &mut body),
            0xEB => {
                self.free(16, &mut body);
                self.field8(0, 3, &mut body);
                self.free(9, &mut body);
            }
            0x52 => {
                // Long ones are dear, so most are short; both ends do come.
                let entries = match self.below(8) {
                    0 => 75,
                    1 => self.below(76),
                    _ => self.below(8),
                };
                self.in_view(entries, &mut body);
            }
            0xF5 => {
                let channels = match self.below(8) {
                    0 => 32,
                    1 => self.below(33),
                    _ => self.below(4),
                };
                self.free(27 + 30 * channels, &mut body);
            }
            _ => unreachable!("not one of the twenty-one"),
        }
        body
    }

    /// A little off: a value moved over the end of its range, or a length off by some bytes.
    pub fn disturb(&mut self, body: &mut Vec<u8>) {
        for _ in 0..self.between(1, 2) {
            let at = self.below(body.len().max(1));
            match (self.below(10), body.get_mut(at)) {
                (0 | 1, Some(byte)) => *byte = byte.wrapping_add(1),
                (2 | 3, Some(byte)) => *byte = byte.wrapping_sub(1),
                (4 | 5, Some(byte)) => *byte = self.pick(&NOTABLE),
                (6, Some(byte)) => *byte = self.byte(),
                (7, Some(_)) => {
                    body.pop();
                }
                (8, _) => {
                    let length = self.pick(&LENGTHS);
                    body.resize(length, 0);
                }
                _ => body.push(self.byte()),
            }
        }
    }

    /// Noise of about any kind's length.
    pub fn any_body(&mut self) -> Vec<u8> {
        let mut body = Vec::new();
        let count = match self.below(4) {
            0 => self.below(600),
            _ => self.pick(&LENGTHS),
        };
        self.free(count, &mut body);
        body
    }

    /// What a line does to a frame.
    pub fn damage(&mut self, mode: u8, frame: &mut Vec<u8>) {
        if frame.len() < 4 {
            return; // damaged enough
        }
        // Where c1 is in mode 1, if the frame is whole.
        let sum_at = frame.len() - 4;
        let at = self.below(frame.len());
        match self.below(11) {
            0 => frame[at] ^= 1 << self.below(8),
            1 => frame[at] = self.byte(),
            2 => frame[at] = self.pick(&[DLE, ETX, SUM]),
            3 => {
                frame.remove(at);
            }
            4 => frame.insert(at, self.byte()),
            5 => frame.insert(at, DLE),
            6 => frame.truncate(at),
            7 => {
                for _ in 0..self.between(1, 6) {
                    let at = self.below(frame.len() + 1);
                    frame.insert(at, DLE);
                }
            }
            8 if mode == 1 => frame[sum_at + self.below(2)] ^= 1 << self.below(8),
            9 if mode == 1 => frame.swap(sum_at, sum_at + 1),
            // A slip of the trade: 10h in the checksum doubled, here also where it isn't 10h.
            10 if mode == 1 => frame.insert(sum_at, frame[sum_at]),
            _ => frame.insert(at, frame[at]),
        }
    }
}

/// The frame of any data, also of data that a writer would refuse.
pub fn frame(mode: u8, id: u8, body: &[u8]) -> Vec<u8> {
    frame_with(mode, id, body, frame_checksum(id, body))
}

/// The same with a given checksum.
pub fn frame_with(mode: u8, id: u8, body: &[u8], sum: u16) -> Vec<u8> {
    let mut frame = Vec::with_capacity(2 * body.len() + 8);
    frame.extend([DLE, id]);
    for &b in body {
        frame.push(b);
        if b == DLE {
            frame.push(b);
        }
    }
    if mode == 1 {
        frame.extend([DLE, SUM]);
        frame.extend(sum.to_le_bytes());
    }
    frame.extend([DLE, ETX]);
    frame
}
