//! Compares the library with the reference over many made inputs.
//!
//! Usage: differential [bytes] [seed]
//!
//! Exits with 0 and "no difference", or with 1 and the first difference.

use std::fmt::Write;
use std::ops::Range;
use std::process::exit;

use binr_bench::generator::{frame, frame_with, Random};
use binr_bench::library::{self, Filled};
use binr_bench::reference::{self, checksum, Refusal, DLE, KINDS};

const SEED: u64 = 0x2545_F491_4F6C_DD1D;

/// What a buffer holds before a call; bytes that shall stay must still hold it afterwards.
const UNTOUCHED: u8 = 0xA5;

/// Bytes lent beyond what is needed, to see that they stay.
const MARGIN: usize = 64;

/// Lengths that become allowed ones if a count is cut to 8 or 16 bits.
const WRAPPED: [usize; 16] = [
    256,
    256 + 1,
    256 + 2,
    256 + 6,
    256 + 10,
    256 + 93,
    512 + 130,
    1024 + 27,
    65_536,
    65_536 + 1,
    65_536 + 2,
    65_536 + 10,
    65_536 + 33,
    65_536 + 27,
    65_536 + 525,
    65_536 + 987,
];

fn main() {
    let mut arguments = std::env::args().skip(1);
    let bytes = number(arguments.next(), 100_000_000);
    let seed = number(arguments.next(), SEED);
    let mut comparison = Comparison::new(seed);
    let outcome = comparison
        .judge_all()
        .and_then(|()| comparison.write_all())
        .and_then(|()| comparison.list_known())
        .and_then(|()| comparison.list_made(bytes));
    comparison.report_work();
    match outcome {
        Ok(()) => {
            comparison.report_reach();
            println!("no difference");
        }
        Err(difference) => {
            println!("DIFFERENCE in {}", difference.0);
            exit(1);
        }
    }
}

fn number(argument: Option<String>, default: u64) -> u64 {
    let Some(text) = argument else {
        return default;
    };
    text.replace(['_', ','], "").parse().unwrap_or_else(|_| {
        eprintln!("usage: differential [bytes] [seed]");
        exit(2);
    })
}

/// The first difference, told in full.
struct Difference(String);

type Same = Result<(), Difference>;

struct Comparison {
    random: Random,
    /// Lent to the library.
    buffer: Vec<u8>,
    /// The reference's text.
    text: String,
    bytes: u64,
    inputs: u64,
    judged: u64,
    written: u64,
    /// Messages given, by identifier, and refusals, by number.
    given: [u64; 256],
    refused: [u64; 14],
}

impl Comparison {
    fn new(seed: u64) -> Comparison {
        Comparison {
            random: Random::new(seed),
            buffer: Vec::new(),
            text: String::new(),
            bytes: 0,
            inputs: 0,
            judged: 0,
            written: 0,
            given: [0; 256],
            refused: [0; 14],
        }
    }

    fn report_work(&self) {
        println!(
            "{} messages judged, {} writer calls, {} bytes read in {} inputs",
            self.judged, self.written, self.bytes, self.inputs
        );
    }

    /// What the inputs led to. A kind or a refusal that never came would make the agreement
    /// worth less.
    fn report_reach(&self) {
        let mut given = String::from("messages given:");
        for id in KINDS {
            let _ = write!(given, " {id:02X} {}", self.given[usize::from(id)]);
        }
        let mut refused = String::from("refusals:");
        for number in 4..=12 {
            let _ = write!(refused, " {number} {}", self.refused[number]);
        }
        println!("{given}\n{refused}");
    }

    // -----------------------------------------------------------------------------------
    // binr_judge

    fn judge(&mut self, id: u8, body: &[u8]) -> Same {
        self.judged += 1;
        let expected = reference::judge(id, body).map_or_else(|refusal| refusal as u8, |()| 0);
        let found = library::judge(id, body);
        if found == expected {
            return Ok(());
        }
        Err(Difference(format!(
            "judge\nidentifier {id:02X}, body ({} bytes): {}\nreference: {expected}\nlibrary:   {found}",
            body.len(),
            hex(body)
        )))
    }

    fn judge_all(&mut self) -> Same {
        // Every identifier with every length that a reader can hold, and some.
        let mut body = Vec::new();
        self.random.noise(1100, &mut body);
        for id in 0..=255 {
            for length in 0..=1030 {
                self.judge(id, &body[..length])?;
                self.judge(id, &[0; 1030][..length])?;
            }
        }
        for id in 0..=255 {
            for length in WRAPPED {
                self.judge(id, &vec![0; length])?;
            }
        }
        for id in KINDS {
            for round in 0..6 {
                let mut body = self.random.acceptable(id);
                assert!(
                    reference::judge(id, &body).is_ok(),
                    "the generator and the reference disagree about {id:02X} {}",
                    hex(&body)
                );
                // Each byte through all its values, the others left.
                for at in 0..body.len() {
                    let kept = body[at];
                    for value in 0..=255 {
                        body[at] = value;
                        self.judge(id, &body)?;
                    }
                    body[at] = kept;
                }
                if round < 2 && body.len() <= 200 {
                    self.judge_pairs(id, &mut body, 0..10)?;
                }
            }
        }
        // 52h: an entry of each system, alone and as the last of several.
        for entry in [
            [1, 32, 0xFF, 90, 0x67, 0x01, 0],
            [2, 24, 13, 0, 0, 0, 0],
            [4, 120, 0xFF, 45, 0, 0, 0],
        ] {
            for before in [0, 3] {
                let mut body = Vec::new();
                self.random.in_view(before, &mut body);
                body.extend(entry);
                self.judge_pairs(0x52, &mut body, 7 * before..7 * before + 7)?;
            }
        }
        // 49h: the first three bytes at both lengths.
        for length in [93, 130] {
            let mut body = vec![0; length];
            for system in [0, 1, 2, 3, 255] {
                for value in 0..=u16::MAX {
                    body[0] = system;
                    body[1..3].copy_from_slice(&value.to_le_bytes());
                    self.judge(0x49, &body)?;
                }
            }
        }
        // 46h: seconds about the end of the week, each carry among them.
        let mut body = [0, 0, 0, 0, 1, 1, 0xD0, 0x07, 0, 0];
        for second in (604_000..606_000).chain((0..32).map(|shift| 1 << shift)) {
            body[..4].copy_from_slice(&u32::to_le_bytes(second));
            self.judge(0x46, &body)?;
        }
        self.judge_dates()?;
        for _ in 0..500_000 {
            let (id, body) = self.message();
            self.judge(id, &body)?;
        }
        Ok(())
    }

    /// 46h: the end of every month of every year, and every day and month of some years.
    fn judge_dates(&mut self) -> Same {
        let mut body = [0; 10];
        for year in 0..=u16::MAX {
            body[6..8].copy_from_slice(&year.to_le_bytes());
            for month in 0..=13 {
                for day in 28..=32 {
                    body[4..6].copy_from_slice(&[day, month]);
                    self.judge(0x46, &body)?;
                }
            }
        }
        for year in [2000u16, 2001, 2004, 2100, 2400, 65_535] {
            body[6..8].copy_from_slice(&year.to_le_bytes());
            self.judge_pairs(0x46, &mut body, 4..5)?;
        }
        Ok(())
    }

    /// Neighbours through all their values, the others left: system and number, hours and
    /// minutes, two-byte fields.
    fn judge_pairs(&mut self, id: u8, body: &mut [u8], places: Range<usize>) -> Same {
        for at in places {
            let Some(pair) = body.get(at..at + 2) else {
                break;
            };
            let kept = [pair[0], pair[1]];
            for value in 0..=u16::MAX {
                body[at..at + 2].copy_from_slice(&value.to_le_bytes());
                self.judge(id, body)?;
            }
            body[at..at + 2].copy_from_slice(&kept);
        }
        Ok(())
    }

    /// A message, acceptable about every other time.
    fn message(&mut self) -> (u8, Vec<u8>) {
        let random = &mut self.random;
        let id = random.pick(&KINDS);
        match random.below(10) {
            0 => (random.byte(), random.any_body()),
            1 => (id, random.any_body()),
            2 => (random.byte(), random.acceptable(id)),
            3..=5 => {
                let mut body = random.acceptable(id);
                random.disturb(&mut body);
                (id, body)
            }
            _ => (id, random.acceptable(id)),
        }
    }

    // -----------------------------------------------------------------------------------
    // binr_write

    fn write(&mut self, mode: u8, id: u8, body: &[u8], room: usize) -> Same {
        self.written += 1;
        let mut expected = vec![UNTOUCHED; room];
        let filled = match reference::write(mode, id, body, &mut expected) {
            Ok(length) => Filled { refusal: 0, length },
            Err(refusal) => refused(refusal),
        };
        self.buffer.clear();
        self.buffer.resize(room, UNTOUCHED);
        let found = library::write(mode, id, body, &mut self.buffer);
        // The whole buffer: the frame, and every byte that shall stay.
        if found == filled && self.buffer == expected {
            return Ok(());
        }
        Err(Difference(format!(
            "write\nmode {mode}, identifier {id:02X}, body ({} bytes): {}\n\
             buffer of {room} bytes, {UNTOUCHED:02X} before the call\n\
             reference: refusal {}, length {}, buffer {}\n\
             library:   refusal {}, length {}, buffer {}",
            body.len(),
            hex(body),
            filled.refusal,
            filled.length,
            hex(&expected),
            found.refusal,
            found.length,
            hex(&self.buffer)
        )))
    }

    /// One message in buffers that are long enough, just long enough and too short.
    fn write_in_rooms(&mut self, mode: u8, id: u8, body: &[u8]) -> Same {
        let length = frame(mode, id, body).len();
        let shorter = self.random.below(length);
        let longer = length + self.random.below(MARGIN);
        for room in [length, longer, length - 1, shorter, 0] {
            self.write(mode, id, body, room)?;
        }
        Ok(())
    }

    fn write_all(&mut self) -> Same {
        // Every room of every kind, for the kinds are few and frames short.
        for id in KINDS {
            for mode in [0, 1] {
                let body = self.random.acceptable(id);
                for room in 0..=frame(mode, id, &body).len() + 2 {
                    self.write(mode, id, &body, room)?;
                }
            }
        }
        for id in KINDS {
            for length in WRAPPED {
                self.write(0, id, &vec![0; length], 2000)?;
            }
        }
        for _ in 0..100_000 {
            let mode = match self.random.below(16) {
                0 => self.random.byte(),
                1 => 2,
                other => (other & 1) as u8,
            };
            let (id, body) = self.message();
            self.write_in_rooms(mode, id, &body)?;
        }
        Ok(())
    }

    // -----------------------------------------------------------------------------------
    // binr_list and binr_count

    /// The cases of the paper and edges, so that they are there whatever the seed.
    fn list_known(&mut self) -> Same {
        let known: [&[u8]; 12] = [
            &[],
            &[0x10, 0x26, 0x10, 0x03],
            &[0x10, 0x26, 0x10, 0xFF, 0xA4, 0x44, 0x10, 0x03],
            &[0x10, 0x26, 0x10, 0xFF, 0xA5, 0x44, 0x10, 0x03],
            &[0x10, 0x21, 0x10, 0x10, 0x10, 0x03],
            &[0x10, 0x01, 0x10, 0xFF, 0x21, 0x10, 0x10, 0x03],
            &[0x10, 0x26, 0x10, 0x54, 0x10, 0x03],
            &[0x10, 0x10, 0x26, 0x10, 0x03],
            &[0x10, 0x26, 0x10, 0x03, 0xAA, 0x10, 0x54, 0x10, 0x03],
            &[0x10, 0x26, 0x10, 0xFF, 0xA4, 0x44, 0x10, 0x54, 0x10, 0x03],
            &[0x10, 0x26, 0x10, 0xFF, 0xA4, 0x44, 0x10, 0x10, 0x10, 0x03],
            &[
                0x10, 0x88, 0x10, 0xFF, 0x10, 0x26, 0x10, 0xFF, 0xA4, 0x44, 0x10, 0x03, 0x10, 0x26,
                0x10, 0xFF, 0xA4, 0x44, 0x10, 0x03,
            ],
        ];
        for mode in [0, 1] {
            for input in known {
                self.list(mode, input)?;
                self.list_in_rooms(mode, input)?;
            }
            // About the most data that a reader holds, with and without doubled bytes at and
            // past the limit.
            for id in [0x88, 0x52, 0x4B, 0xF5] {
                for length in 1020..=1030 {
                    for (filler, tail) in [(0x00, 0x00), (0x00, DLE), (DLE, 0x00), (DLE, DLE)] {
                        let mut body = vec![filler; length];
                        body[1019..].fill(tail);
                        self.list(mode, &frame(mode, id, &body))?;
                        body[length - 1] = filler;
                        self.list(mode, &frame(mode, id, &body))?;
                    }
                }
            }
            for entries in [74, 75, 76] {
                let mut body = Vec::new();
                self.random.in_view(entries, &mut body);
                self.list(mode, &frame(mode, 0x52, &body))?;
            }
            for channels in [0, 1, 31, 32, 33] {
                for length in 26 + 30 * channels..=28 + 30 * channels {
                    for filler in [0x00, DLE] {
                        self.list(mode, &frame(mode, 0xF5, &vec![filler; length]))?;
                    }
                }
            }
        }
        // Every byte at every place, from every short start.
        let starts: [&[u8]; 10] = [
            &[],
            &[0x10],
            &[0x10, 0x26],
            &[0x10, 0x26, 0x55],
            &[0x10, 0x26, 0x10],
            &[0x10, 0x26, 0x10, 0xFF],
            &[0x10, 0x26, 0x10, 0xFF, 0xA4],
            &[0x10, 0x26, 0x10, 0xFF, 0xA4, 0x44],
            &[0x10, 0x26, 0x10, 0xFF, 0xA4, 0x44, 0x10],
            &[0x10, 0x26, 0x10, 0x10],
        ];
        for mode in [0, 1] {
            for start in starts {
                for pair in 0..=u16::MAX {
                    let mut input = start.to_vec();
                    input.extend(pair.to_le_bytes());
                    self.list(mode, &input)?;
                }
            }
        }
        Ok(())
    }

    fn list_made(&mut self, bytes: u64) -> Same {
        let goal = self.bytes + bytes;
        let mut input = Vec::new();
        while self.bytes < goal {
            let mode = self.random.below(2) as u8;
            input.clear();
            self.make(mode, &mut input);
            self.list(mode, &input)?;
            if self.random.once_in(16) {
                self.list_in_rooms(mode, &input)?;
            }
            if self.random.once_in(4) {
                let (id, body) = self.message();
                self.write_in_rooms(mode, id, &body)?;
                self.judge(id, &body)?;
            }
        }
        Ok(())
    }

    /// A whole input: many short ones, some long, a few very long.
    fn make(&mut self, mode: u8, input: &mut Vec<u8>) {
        let length = match self.random.below(10_000) {
            0 => 1_000_000 + self.random.below(1_000_000),
            1..=100 => self.random.below(65_536),
            101..=1000 => self.random.below(2000),
            _ => self.random.below(48),
        };
        match self.random.below(8) {
            0 => self.random.noise(length, input),
            1 => self.random.rich_noise(length, input),
            2 => {
                // A clean line.
                while input.len() < length {
                    let id = self.random.pick(&KINDS);
                    let body = self.random.acceptable(id);
                    input.extend(frame(mode, id, &body));
                }
            }
            _ => {
                while input.len() < length {
                    self.piece(mode, input);
                }
                // Whole at the end or cut anywhere.
                if self.random.once_in(2) {
                    input.truncate(length);
                }
            }
        }
    }

    fn piece(&mut self, mode: u8, input: &mut Vec<u8>) {
        let kind = self.random.below(20);
        let (id, body) = self.message();
        let random = &mut self.random;
        match kind {
            0..=7 => input.extend(frame(mode, id, &body)),
            8 => input.extend(frame(1 - mode, id, &body)),
            9 => {
                // About the most data that a reader holds.
                let mut body = Vec::new();
                let count = random.between(1020, 1030);
                random.free(count, &mut body);
                input.extend(frame(mode, id, &body));
            }
            10 => {
                // A slip of the trade: the sum of the data before doubling.
                let sum = checksum(&[&[id], &body[..]].concat());
                input.extend(frame_with(mode, id, &body, sum));
            }
            11 => {
                let sum = random.word() as u16;
                input.extend(frame_with(mode, id, &body, sum));
            }
            12..=15 => {
                let mut frame = frame(mode, id, &body);
                for _ in 0..random.between(1, 3) {
                    random.damage(mode, &mut frame);
                }
                input.extend(frame);
            }
            16 => {
                // Starts in a row.
                for _ in 0..random.below(12) {
                    input.extend([DLE, random.byte()]);
                }
            }
            17 => {
                let count = random.below(300);
                random.noise(count, input);
            }
            _ => {
                let count = random.below(60);
                random.rich_noise(count, input);
            }
        }
    }

    fn list(&mut self, mode: u8, input: &[u8]) -> Same {
        self.bytes += input.len() as u64;
        self.inputs += 1;
        if !self.same_list(mode, input) {
            let least = self.shrink(mode, input);
            return Err(self.list_difference(mode, input.len(), &least));
        }
        // A line is: offset, identifier, number, closed.
        for line in self.text.lines() {
            let mut words = line.split(' ').skip(1);
            if let (Some(id), Some(number), Some(_), None) =
                (words.next(), words.next(), words.next(), words.next())
            {
                match number.parse().unwrap_or(0) {
                    0 => self.given[usize::from_str_radix(id, 16).unwrap_or(0)] += 1,
                    refusal => self.refused[refusal] += 1,
                }
            }
        }
        Ok(())
    }

    /// Whether text, length, the bytes after the text, and the count of events agree.
    fn same_list(&mut self, mode: u8, input: &[u8]) -> bool {
        self.text.clear();
        let length = match reference::list(mode, input, &mut self.text) {
            Ok(()) => self.text.len(),
            Err(_) => return false, // the mode is 0 or 1 here
        };
        // The last line is the total.
        let events = self.text.lines().count() as u64 - 1;
        self.buffer.resize(length + MARGIN, UNTOUCHED);
        self.buffer[length..].fill(UNTOUCHED);
        let found = library::list(mode, input, &mut self.buffer);
        found == Filled { refusal: 0, length }
            && self.buffer[..length] == *self.text.as_bytes()
            && self.buffer[length..].iter().all(|&b| b == UNTOUCHED)
            && library::count(mode, input) == events
    }

    /// Takes parts away while the difference stays.
    fn shrink(&mut self, mode: u8, input: &[u8]) -> Vec<u8> {
        let mut least = input.to_vec();
        let mut part = least.len() / 2;
        while part > 0 {
            let mut at = 0;
            let mut shorter = false;
            while at < least.len() {
                let mut rest = least[..at].to_vec();
                rest.extend(least.iter().skip(at + part));
                if self.same_list(mode, &rest) {
                    at += part;
                } else {
                    least = rest;
                    shorter = true;
                }
            }
            if !shorter || part > 1 {
                part /= 2;
            }
        }
        least
    }

    fn list_difference(&mut self, mode: u8, length: usize, least: &[u8]) -> Difference {
        let mut expected = String::new();
        let _ = reference::list(mode, least, &mut expected);
        let mut buffer = vec![UNTOUCHED; 1000 + 40 * least.len()];
        let found = library::list(mode, least, &mut buffer);
        let (text, rest) = buffer.split_at(found.length.min(buffer.len()));
        let after = if rest.iter().all(|&b| b == UNTOUCHED) {
            "no byte after it altered"
        } else {
            "BYTES AFTER IT ALTERED"
        };
        Difference(format!(
            "list, found in an input of {length} bytes and shortened\n\
             mode {mode}, input ({} bytes): {}\n\
             reference: refusal 0, length {}, {} events counted\n{expected}\
             library:   refusal {}, length {}, {after}, {} events counted\n{}",
            least.len(),
            hex(least),
            expected.len(),
            reference::count(mode, least),
            found.refusal,
            found.length,
            library::count(mode, least),
            String::from_utf8_lossy(text).trim_end()
        ))
    }

    /// Exact room, too little room and modes that don't exist.
    fn list_in_rooms(&mut self, mode: u8, input: &[u8]) -> Same {
        self.text.clear();
        let _ = reference::list(mode, input, &mut self.text);
        let text = self.text.as_bytes();
        let short = [0, text.len() - 1, self.random.below(text.len())];
        let bad_mode = 2 + self.random.below(254) as u8;
        let calls = [
            (
                mode,
                text.len(),
                Filled {
                    refusal: 0,
                    length: text.len(),
                },
            ),
            (mode, short[0], refused(Refusal::BufferShort)),
            (mode, short[1], refused(Refusal::BufferShort)),
            (mode, short[2], refused(Refusal::BufferShort)),
            (bad_mode, text.len(), refused(Refusal::Mode)),
            (bad_mode, 0, refused(Refusal::Mode)),
        ];
        for (mode, room, filled) in calls {
            self.buffer.clear();
            self.buffer.resize(room, UNTOUCHED);
            let found = library::list(mode, input, &mut self.buffer);
            let same = if filled.refusal == 0 {
                self.buffer == text
            } else {
                self.buffer.iter().all(|&b| b == UNTOUCHED)
            };
            let counted = mode < 2 || library::count(mode, input) == 0;
            if found != filled || !same || !counted {
                return Err(Difference(format!(
                    "list with a buffer of {room} bytes, {UNTOUCHED:02X} before the call\n\
                     mode {mode}, input ({} bytes): {}\n\
                     reference: refusal {}, length {}\n\
                     library:   refusal {}, length {}, buffer {}",
                    input.len(),
                    hex(input),
                    filled.refusal,
                    filled.length,
                    found.refusal,
                    found.length,
                    hex(&self.buffer)
                )));
            }
        }
        Ok(())
    }
}

/// What a refused call answers.
fn refused(refusal: Refusal) -> Filled {
    Filled {
        refusal: refusal as u32,
        length: 0,
    }
}

fn hex(bytes: &[u8]) -> String {
    let pairs: Vec<String> = bytes.iter().map(|b| format!("{b:02X}")).collect();
    pairs.join(" ")
}
