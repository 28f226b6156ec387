//! The BINR line of an NV08C receiver: reader, checksum, the twenty-one kinds, writer, listing.
//!
//! Written from the scope paper alone, so that it can disagree with the library. Numbers of
//! places, refusals and questions are those of the paper.

use std::fmt::Write;

pub const DLE: u8 = 0x10;
pub const ETX: u8 = 0x03;
pub const SUM: u8 = 0xFF;

/// The most unstuffed data bytes that a reader holds.
pub const CAPACITY: usize = 1024;

#[derive(Clone, Copy, Debug, PartialEq, Eq)]
#[repr(u8)]
pub enum Refusal {
    Mode = 1,
    Record = 2,
    Full = 3,
    TooLong = 4,
    CutByStart = 5,
    ChecksumMissing = 6,
    ChecksumInMode0 = 7,
    EndMissing = 8,
    ChecksumWrong = 9,
    Unlisted = 10,
    Length = 11,
    Range = 12,
    BufferShort = 13,
}

// ---------------------------------------------------------------------------------------
// Checksum

/// Entry v is the register that byte v alone leaves from 0: divisor 1021h, highest bit first.
static TABLE: [u16; 256] = {
    let mut table = [0; 256];
    let mut v = 0;
    while v < 256 {
        let mut register = (v as u16) << 8;
        let mut bit = 0;
        while bit < 8 {
            let carry = register & 0x8000 != 0;
            register <<= 1;
            if carry {
                register ^= 0x1021;
            }
            bit += 1;
        }
        table[v] = register;
        v += 1;
    }
    table
};

#[inline(always)]
fn add(register: u16, b: u8) -> u16 {
    register << 8 ^ TABLE[usize::from(register >> 8 ^ u16::from(b))]
}

/// The checksum of bytes as they stand on the line.
pub fn checksum(bytes: &[u8]) -> u16 {
    bytes.iter().fold(0, |register, &b| add(register, b))
}

/// The checksum of a frame: over the identifier and the data with each 10h twice.
pub fn frame_checksum(id: u8, data: &[u8]) -> u16 {
    data.iter().fold(add(0, id), |register, &b| {
        let register = add(register, b);
        if b == DLE {
            add(register, b)
        } else {
            register
        }
    })
}

// ---------------------------------------------------------------------------------------
// Kinds

/// The twenty-one identifiers, in the order of the papers.
pub const KINDS: [u8; 21] = [
    0x1B, 0x1E, 0x26, 0x54, 0x21, 0x24, 0x27, 0x2A, 0x1F, 0xF4, 0x20, 0x23, 0x43, 0x46, 0x47, 0x49,
    0x4A, 0x4B, 0xEB, 0x52, 0xF5,
];

/// Questions 10 to 12 about a message.
pub fn judge(id: u8, data: &[u8]) -> Result<(), Refusal> {
    let n = data.len();
    let length_allowed = match id {
        0x1B | 0x1E | 0x26 | 0x54 => n == 0,
        0x1F | 0x21 | 0x24 | 0x27 | 0x2A => n <= 1,
        0xF4 => n == 1,
        0x20 => n == 2,
        0x23 => n == 0 || n == 2,
        0x43 => n == 6,
        0x46 => n == 10,
        0x47 => n == 168,
        0x49 => match data.first() {
            Some(1) => n == 130,
            Some(2) => n == 93,
            Some(_) => n == 130 || n == 93,
            None => false,
        },
        0x4A => n == 33,
        0x4B => n == 42,
        0x52 => n.is_multiple_of(7) && n / 7 <= 75,
        0xEB => n == 26,
        0xF5 => n >= 27 && (n - 27).is_multiple_of(30) && (n - 27) / 30 <= 32,
        _ => return Err(Refusal::Unlisted),
    };
    if !length_allowed {
        return Err(Refusal::Length);
    }
    let in_range = match id {
        0x1F => data.iter().all(|&value| value <= 1),
        0x20 => satellite(data[0], data[1]).is_some(),
        0x23 => data.is_empty() || zone(data[0], data[1]),
        0x43 => data[0] == 2 && data[1] >> 6 != 2 && data[2..] == [0; 4],
        0x46 => {
            let second = u32::from_le_bytes([data[0], data[1], data[2], data[3]]);
            let year = u16::from_le_bytes([data[6], data[7]]);
            second <= 604_799
                && (1..=days_in(data[5], year)).contains(&data[4])
                && year > 1999
                && zone(data[8], data[9])
        }
        0x47 => each_satellite_once(data),
        0x49 => match data[0] {
            1 => (1..=32).contains(&data[1]),
            2 => data[1] <= 24 && carrier(data[2]),
            _ => false,
        },
        0x52 => data.chunks_exact(7).all(in_view),
        0xEB => data[16] <= 3,
        _ => true,
    };
    if in_range {
        Ok(())
    } else {
        Err(Refusal::Range)
    }
}

/// The place of a satellite of 20h among the 56, if there is such a one.
fn satellite(system: u8, number: u8) -> Option<u8> {
    match (system, number) {
        (1, 1..=32) => Some(number - 1),
        (2, 1..=24) => Some(31 + number),
        _ => None,
    }
}

/// The days of a month by the Gregorian calendar, 0 where there is no such month.
pub fn days_in(month: u8, year: u16) -> u8 {
    let century = year.is_multiple_of(100);
    let leap = year.is_multiple_of(if century { 400 } else { 4 });
    match month {
        2 => 28 + u8::from(leap),
        // 31 and 30 in turn, which begins anew in August.
        1..=7 => 30 + month % 2,
        8..=12 => 31 - month % 2,
        _ => 0,
    }
}

fn zone(hours: u8, minutes: u8) -> bool {
    (-13..=13).contains(&(hours as i8)) && (-59..=59).contains(&(minutes as i8))
}

fn carrier(byte: u8) -> bool {
    (-7..=13).contains(&(byte as i8))
}

/// 56 triples over 56 satellites: each is there once exactly if none is there twice.
fn each_satellite_once(triples: &[u8]) -> bool {
    let mut seen = 0u64;
    triples.chunks_exact(3).all(|triple| {
        let Some(place) = satellite(triple[0], triple[1]) else {
            return false;
        };
        let bit = 1 << place;
        let first = seen & bit == 0;
        seen |= bit;
        first && (1..=2).contains(&triple[2])
    })
}

/// One entry of 52h. Its last byte, the signal, is free.
fn in_view(entry: &[u8]) -> bool {
    let who = match (entry[0], entry[1]) {
        (1, 1..=32) | (4, 120..=158) => entry[2] == 0xFF,
        (2, 1..=24) => carrier(entry[2]),
        _ => false,
    };
    who && entry[3] <= 90 && u16::from_le_bytes([entry[4], entry[5]]) <= 359
}

// ---------------------------------------------------------------------------------------
// Reader

#[derive(Clone, Copy, Debug, PartialEq, Eq)]
enum Place {
    W,
    Wd,
    F,
    Fd,
    C0,
    C1,
    E,
    Ed,
}

/// The last message of each standing kind that was given.
#[derive(Clone, Debug, Default, PartialEq, Eq)]
pub struct Standing {
    pub test_43: Option<[u8; 6]>,
    pub time_46: Option<[u8; 10]>,
    pub ionosphere_4a: Option<[u8; 33]>,
    pub scales_4b: Option<[u8; 42]>,
    pub glonass_eb: Option<[u8; 26]>,
}

impl Standing {
    /// Takes over an acceptable message; other kinds don't stand.
    fn replace(&mut self, id: u8, data: &[u8]) {
        match id {
            0x43 => self.test_43 = data.try_into().ok(),
            0x46 => self.time_46 = data.try_into().ok(),
            0x4A => self.ionosphere_4a = data.try_into().ok(),
            0x4B => self.scales_4b = data.try_into().ok(),
            0xEB => self.glonass_eb = data.try_into().ok(),
            _ => {}
        }
    }

    /// 4Ah and 4Bh are not asked: their length is in the type and their fields are free.
    fn acceptable(&self) -> bool {
        self.test_43.is_none_or(|r| judge(0x43, &r).is_ok())
            && self.time_46.is_none_or(|r| judge(0x46, &r).is_ok())
            && self.glonass_eb.is_none_or(|r| judge(0xEB, &r).is_ok())
    }
}

#[derive(Clone, Copy, Debug, PartialEq, Eq)]
pub enum Event {
    Nothing,
    Message,
    Refusal(Refusal),
}

#[derive(Clone, Copy, Debug, PartialEq, Eq)]
pub struct Answer<'a> {
    pub event: Event,
    pub id: u8,
    /// Lent from the reader, so that giving a message copies nothing.
    pub data: &'a [u8],
    pub closed: u64,
}

impl Answer<'_> {
    const NOTHING: Answer<'static> = Answer {
        event: Event::Nothing,
        id: 0,
        data: &[],
        closed: 0,
    };

    /// A call that was refused before it took a byte.
    fn untaken(refusal: Refusal) -> Answer<'static> {
        Answer {
            event: Event::Refusal(refusal),
            ..Answer::NOTHING
        }
    }
}

/// What the table says of a byte that closes the open frame.
enum Close {
    End,
    Refuse(Refusal),
    /// Refused, and the last two bytes, DLE and this one, open a new frame.
    Reopen(Refusal, u8),
}

/// The parts that nearly every byte alters. They are apart from the data array so that the
/// loop of `feed` can hold them in registers while it stores into the array.
#[derive(Clone, Copy, Debug, PartialEq, Eq)]
struct Line {
    place: Place,
    id: u8,
    c1: u8,
    c2: u8,
    /// From F on, in mode 1: the checksum of identifier and stuffed data so far. Not a part
    /// of the paper's record, for it follows from identifier and data; kept to spare a
    /// second pass over the data.
    sum: u16,
    len: usize,
    hand: u64,
    outside: u64,
}

impl Line {
    /// The step table. `SUMMED` is mode 1.
    #[inline(always)]
    fn take<const SUMMED: bool>(&mut self, data: &mut [u8; CAPACITY], b: u8) -> Option<Close> {
        // Most bytes of a line are data: they come first.
        if self.place == Place::F && b != DLE {
            self.hand += 1;
            return self.join::<SUMMED>(data, b);
        }
        match self.place {
            Place::W if b == DLE => {
                self.place = Place::Wd;
                self.hand = 1;
                return None;
            }
            Place::W => {
                self.outside += 1;
                return None;
            }
            Place::Wd => {
                match b {
                    DLE | ETX | SUM => {
                        self.outside += 2;
                        self.wait();
                    }
                    _ => self.open(b),
                }
                return None;
            }
            _ => self.hand += 1,
        }
        match (self.place, b) {
            (Place::F, _) => self.place = Place::Fd,
            (Place::Fd, DLE) => {
                self.place = Place::F;
                if SUMMED {
                    // The first of the two; `join` adds the second.
                    self.sum = add(self.sum, b);
                }
                return self.join::<SUMMED>(data, b);
            }
            (Place::Fd, ETX) if SUMMED => return Some(Close::Refuse(Refusal::ChecksumMissing)),
            (Place::Fd, ETX) => return Some(Close::End),
            (Place::Fd, SUM) if SUMMED => self.place = Place::C0,
            (Place::Fd, SUM) => return Some(Close::Refuse(Refusal::ChecksumInMode0)),
            (Place::Fd, _) => return Some(Close::Reopen(Refusal::CutByStart, b)),
            (Place::C0, _) => {
                self.c1 = b;
                self.place = Place::C1;
            }
            (Place::C1, _) => {
                self.c2 = b;
                self.place = Place::E;
            }
            (Place::E, DLE) => self.place = Place::Ed,
            (Place::E, _) => return Some(Close::Refuse(Refusal::EndMissing)),
            (Place::Ed, ETX) => return Some(Close::End),
            (Place::Ed, DLE | SUM) => return Some(Close::Refuse(Refusal::EndMissing)),
            (Place::Ed, _) => return Some(Close::Reopen(Refusal::EndMissing, b)),
            (Place::W | Place::Wd, _) => unreachable!("answered above"),
        }
        None
    }

    #[inline(always)]
    fn join<const SUMMED: bool>(&mut self, data: &mut [u8; CAPACITY], b: u8) -> Option<Close> {
        let Some(slot) = data.get_mut(self.len) else {
            return Some(Close::Refuse(Refusal::TooLong));
        };
        *slot = b;
        self.len += 1;
        if SUMMED {
            self.sum = add(self.sum, b);
        }
        None
    }

    fn open(&mut self, id: u8) {
        self.place = Place::F;
        self.id = id;
        self.len = 0;
        self.sum = add(0, id);
        self.hand = 2;
    }

    fn wait(&mut self) {
        self.place = Place::W;
        self.hand = 0;
    }
}

#[derive(Clone, Debug)]
pub struct Reader {
    mode: u8,
    line: Line,
    data: [u8; CAPACITY],
    accepted: u64,
    refused: u64,
    fed: u64,
    standing: Standing,
}

impl Reader {
    pub fn fresh(mode: u8) -> Result<Reader, Refusal> {
        if mode > 1 {
            return Err(Refusal::Mode);
        }
        Ok(Reader {
            mode,
            line: Line {
                place: Place::W,
                id: 0,
                c1: 0,
                c2: 0,
                sum: 0,
                len: 0,
                hand: 0,
                outside: 0,
            },
            data: [0; CAPACITY],
            accepted: 0,
            refused: 0,
            fed: 0,
            standing: Standing::default(),
        })
    }

    pub fn standing(&self) -> &Standing {
        &self.standing
    }

    /// One byte.
    pub fn step(&mut self, b: u8) -> Answer<'_> {
        self.feed(&[b]).0
    }

    /// Bytes until the first event or the end, and how many were taken.
    pub fn feed(&mut self, bytes: &[u8]) -> (Answer<'_>, usize) {
        if let Err(refusal) = self.ask() {
            return (Answer::untaken(refusal), 0);
        }
        let room = usize::try_from(u64::MAX - self.fed).unwrap_or(usize::MAX);
        if room == 0 && !bytes.is_empty() {
            return (Answer::untaken(Refusal::Full), 0);
        }
        let bytes = &bytes[..bytes.len().min(room)];
        if self.mode == 1 {
            self.run::<true>(bytes)
        } else {
            self.run::<false>(bytes)
        }
    }

    /// The loop of `feed`. No count overflows in it: the other four add up to `fed`, which has
    /// room for all the bytes.
    #[inline]
    fn run<const SUMMED: bool>(&mut self, bytes: &[u8]) -> (Answer<'_>, usize) {
        let mut line = self.line;
        for (i, &b) in bytes.iter().enumerate() {
            if let Some(close) = line.take::<SUMMED>(&mut self.data, b) {
                self.line = line;
                self.fed += i as u64 + 1;
                return (self.close(close), i + 1);
            }
        }
        self.line = line;
        self.fed += bytes.len() as u64;
        (Answer::NOTHING, bytes.len())
    }

    /// Moves the frame out of hand and answers.
    fn close(&mut self, close: Close) -> Answer<'_> {
        let Line { id, len, .. } = self.line;
        let mut closed = self.line.hand;
        let verdict = match close {
            Close::End => self.verdict(),
            Close::Refuse(refusal) | Close::Reopen(refusal, _) => Err(refusal),
        };
        if let Close::Reopen(_, next) = close {
            closed -= 2;
            self.line.open(next);
        } else {
            self.line.wait();
        }
        let (event, data) = match verdict {
            Ok(()) => {
                self.accepted += closed;
                let data = &self.data[..len];
                self.standing.replace(id, data);
                (Event::Message, data)
            }
            Err(refusal) => {
                self.refused += closed;
                (Event::Refusal(refusal), &[][..])
            }
        };
        Answer {
            event,
            id,
            data,
            closed,
        }
    }

    /// Questions 9 to 12 about a frame that ends.
    fn verdict(&self) -> Result<(), Refusal> {
        let line = &self.line;
        if self.mode == 1 && line.sum != u16::from_le_bytes([line.c1, line.c2]) {
            return Err(Refusal::ChecksumWrong);
        }
        judge(line.id, &self.data[..line.len])
    }

    /// Questions 1 and 2.
    fn ask(&self) -> Result<(), Refusal> {
        if self.mode > 1 {
            Err(Refusal::Mode)
        } else if self.possible() {
            Ok(())
        } else {
            Err(Refusal::Record)
        }
    }

    fn possible(&self) -> bool {
        let line = &self.line;
        let frame = match line.place {
            Place::W => line.hand == 0,
            Place::Wd => line.hand == 1,
            Place::F => self.open_frame(0),
            Place::Fd => self.open_frame(1),
            Place::C0 => self.mode == 1 && self.open_frame(2),
            Place::C1 => self.mode == 1 && self.open_frame(3),
            Place::E => self.mode == 1 && self.open_frame(4),
            Place::Ed => self.mode == 1 && self.open_frame(5),
        };
        let counts = [self.accepted, self.refused, line.outside, line.hand];
        frame
            && counts.into_iter().try_fold(0, u64::checked_add) == Some(self.fed)
            && self.standing.acceptable()
    }

    /// Whether the parts of an open frame fit together, with so many bytes after the data.
    fn open_frame(&self, after_data: usize) -> bool {
        let line = &self.line;
        let Some(data) = self.data.get(..line.len) else {
            return false;
        };
        !matches!(line.id, DLE | ETX | SUM)
            && line.hand as usize == 2 + stuffed_len(data) + after_data
            && (self.mode == 0 || line.sum == frame_checksum(line.id, data))
    }
}

// ---------------------------------------------------------------------------------------
// Writer

fn stuffed_len(data: &[u8]) -> usize {
    data.len() + data.iter().filter(|&&b| b == DLE).count()
}

/// Fills the frame of a message from the start of the buffer and gives its length. Refused,
/// it writes no byte.
pub fn write(mode: u8, id: u8, data: &[u8], out: &mut [u8]) -> Result<usize, Refusal> {
    if mode > 1 {
        return Err(Refusal::Mode);
    }
    judge(id, data)?;
    let length = stuffed_len(data) + if mode == 1 { 8 } else { 4 };
    let frame = out.get_mut(..length).ok_or(Refusal::BufferShort)?;
    let mut at = 0;
    let mut put = |b| {
        frame[at] = b;
        at += 1;
    };
    put(DLE);
    put(id);
    for &b in data {
        put(b);
        if b == DLE {
            put(b);
        }
    }
    if mode == 1 {
        let [c1, c2] = frame_checksum(id, data).to_le_bytes();
        put(DLE);
        put(SUM);
        put(c1);
        put(c2);
    }
    put(DLE);
    put(ETX);
    Ok(length)
}

// ---------------------------------------------------------------------------------------
// Listing

/// Appends what listoff (mode 0) or liston (mode 1) prints for the bytes.
pub fn list(mode: u8, bytes: &[u8], out: &mut String) -> Result<(), Refusal> {
    let mut reader = Reader::fresh(mode)?;
    let mut taken = 0;
    while taken < bytes.len() {
        let (answer, more) = reader.feed(&bytes[taken..]);
        if more == 0 {
            break; // refusal 3
        }
        taken += more;
        let number = match answer.event {
            Event::Nothing => continue,
            Event::Message => 0,
            Event::Refusal(refusal) => refusal as u8,
        };
        let (id, closed) = (answer.id, answer.closed);
        // Writing into a string doesn't fail.
        let _ = writeln!(out, "{} {id:02X} {number} {closed}", taken - 1);
    }
    let Reader {
        fed,
        accepted,
        refused,
        line: Line { outside, hand, .. },
        ..
    } = reader;
    let _ = writeln!(out, "total {fed} {accepted} {refused} {outside} {hand}");
    Ok(())
}

/// The number of events of the bytes, read through `feed` from a fresh reader; 0 for a bad
/// mode.
pub fn count(mode: u8, bytes: &[u8]) -> u64 {
    let Ok(mut reader) = Reader::fresh(mode) else {
        return 0;
    };
    let mut events = 0;
    let mut rest = bytes;
    while !rest.is_empty() {
        let (answer, taken) = reader.feed(rest);
        if taken == 0 {
            break; // refusal 3
        }
        events += u64::from(answer.event != Event::Nothing);
        rest = &rest[taken..];
    }
    events
}

#[cfg(test)]
mod tests;
