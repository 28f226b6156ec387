//! Nanoseconds per byte of the library's slice call beside those of the reference's `feed`.
//!
//! Each side is called once per repetition, and counts the events of the whole input by
//! feeding it to a fresh reader, slice after slice, up to each event.
//!
//! Usage: benchmark [bytes per input] [repetitions]
//!        benchmark once SIDE ROW MODE REPETITIONS
//!
//! The second form runs one side on one row (from 0), so many times and without a clock: for a
//! program that counts instructions.

use std::hint::black_box;
use std::process::exit;
use std::time::Instant;

use binr_bench::generator::{frame, Random};
use binr_bench::{library, reference};

const SEED: u64 = 0x0B1A_5EED_0B1A_5EED;

type Fill = fn(&mut Random, u8, &mut Vec<u8>);

fn main() {
    let mut arguments = std::env::args().skip(1).peekable();
    if arguments.peek().is_some_and(|word| word == "once") {
        let words: Vec<String> = arguments.skip(1).collect();
        once(&words);
        return;
    }
    let bytes = number(arguments.next(), 1_000_000);
    let repetitions = number(arguments.next(), 201);

    println!("best of {repetitions} interleaved repetitions, ns per byte");
    println!(
        "{:<26} {:>4} {:>8} {:>9} {:>8} {:>6}",
        "input", "mode", "events", "reference", "library", "ratio"
    );
    for (name, fill) in ROWS {
        for mode in [0, 1] {
            let input = filled(fill, mode, bytes);
            let events = reference::count(mode, &input);
            let counted = library::count(mode, &input);
            if counted != events {
                eprintln!("{name}, mode {mode}: the library counts {counted} events, not {events}");
                exit(1);
            }
            let [reference, library] = compare(mode, &input, repetitions);
            println!(
                "{name:<26} {mode:>4} {events:>8} {reference:>9.3} {library:>8.3} {:>6.2}",
                library / reference
            );
        }
    }
}

const ROWS: [(&str, Fill); 5] = [
    ("shortest frames", shortest_frame),
    ("frames of about 35 bytes", short_frame),
    ("frames of about 500 bytes", long_frame),
    ("a clock's mix", mix),
    ("pure noise", |random, _, out| random.noise(1, out)),
];

fn filled(fill: Fill, mode: u8, bytes: usize) -> Vec<u8> {
    let mut random = Random::new(SEED);
    let mut input = Vec::with_capacity(bytes + 1200);
    while input.len() < bytes {
        fill(&mut random, mode, &mut input);
    }
    input
}

/// One side on one row, and the bytes of its input on standard output.
fn once(words: &[String]) {
    let word = |i: usize| words.get(i).cloned();
    let count = match word(0).as_deref() {
        Some("reference") => reference::count,
        Some("library") => library::count,
        _ => usage(),
    };
    let row: usize = word(1)
        .and_then(|w| w.parse().ok())
        .unwrap_or_else(|| usage());
    let mode: u8 = word(2)
        .and_then(|w| w.parse().ok())
        .unwrap_or_else(|| usage());
    let Some((_, fill)) = ROWS.get(row) else {
        usage()
    };
    let input = filled(*fill, mode, 200_000);
    for _ in 0..number(word(3), 1) {
        black_box(count(black_box(mode), black_box(&input)));
    }
    println!("{}", input.len());
}

fn usage() -> ! {
    eprintln!("usage: benchmark [bytes per input] [repetitions] | once reference|library ROW MODE REPETITIONS");
    exit(2);
}

fn number(argument: Option<String>, default: usize) -> usize {
    let Some(text) = argument else {
        return default;
    };
    match text.replace(['_', ','], "").parse() {
        Ok(number) if number > 0 => number,
        _ => usage(),
    }
}

/// The best time of each side. The sides take turns, and take turns at going first, so that
/// whatever else the machine does falls on both.
fn compare(mode: u8, input: &[u8], repetitions: usize) -> [f64; 2] {
    let sides: [fn(u8, &[u8]) -> u64; 2] = [reference::count, library::count];
    let mut best = [f64::MAX; 2];
    for repetition in 0..repetitions {
        for turn in 0..2 {
            let side = (repetition + turn) % 2;
            best[side] = best[side].min(time(sides[side], mode, input));
        }
    }
    best
}

fn time(count: fn(u8, &[u8]) -> u64, mode: u8, input: &[u8]) -> f64 {
    let start = Instant::now();
    black_box(black_box(count)(black_box(mode), black_box(input)));
    start.elapsed().as_nanos() as f64 / input.len() as f64
}

/// A message without data: 4 bytes, 8 in mode 1.
fn shortest_frame(_: &mut Random, mode: u8, out: &mut Vec<u8>) {
    out.extend(frame(mode, 0x26, &[]));
}

/// What a clock's receiver sends in a second: time, satellites in view and GLONASS time; and, once
/// in two minutes, ionosphere, time scales and the receiver's test.
fn mix(random: &mut Random, mode: u8, out: &mut Vec<u8>) {
    let second = random.below(604_800) as u32;
    let mut time = second.to_le_bytes().to_vec();
    time.extend([16, 11, 0xEA, 0x07, 3, 0]);
    out.extend(frame(mode, 0x46, &time));
    let entries = random.between(14, 20);
    let body = in_view(random, entries);
    out.extend(frame(mode, 0x52, &body));
    let mut glonass = Vec::new();
    random.noise(26, &mut glonass);
    glonass[16] &= 3;
    out.extend(frame(mode, 0xEB, &glonass));
    if random.below(120) == 0 {
        for (id, length) in [(0x4A, 33), (0x4B, 42)] {
            let mut body = Vec::new();
            random.noise(length, &mut body);
            out.extend(frame(mode, id, &body));
        }
        out.extend(frame(mode, 0x43, &[2, 0x30, 0, 0, 0, 0]));
    }
}

/// 30 to 39 bytes and now and then a doubled one; 4 more in mode 1.
fn short_frame(random: &mut Random, mode: u8, out: &mut Vec<u8>) {
    let mut body = Vec::new();
    let id = match random.below(4) {
        0 => {
            random.noise(33, &mut body);
            0x4A
        }
        1 => {
            random.noise(26, &mut body);
            body[16] &= 3;
            0xEB
        }
        _ => {
            let entries = random.between(4, 5);
            body = in_view(random, entries);
            0x52
        }
    };
    out.extend(frame(mode, id, &body));
}

/// 67 to 75 satellites in view: 473 to 529 bytes before doubling and checksum.
fn long_frame(random: &mut Random, mode: u8, out: &mut Vec<u8>) {
    let entries = random.between(67, 75);
    let body = in_view(random, entries);
    out.extend(frame(mode, 0x52, &body));
}

/// Entries of 52h as a receiver lists them, one system after the other. In random order the
/// processor would mispredict each entry's system, on both sides alike, and hide the rest.
fn in_view(random: &mut Random, entries: usize) -> Vec<u8> {
    let mut body = Vec::new();
    random.in_view(entries, &mut body);
    let mut list: Vec<&[u8]> = body.chunks(7).collect();
    list.sort_by_key(|entry| entry[0]);
    list.concat()
}
