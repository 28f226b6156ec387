use super::*;
use crate::generator::{self, Random};

/// A 26h in mode 1, as in case 2.
const SUMMED_26: [u8; 8] = [0x10, 0x26, 0x10, 0xFF, 0xA4, 0x44, 0x10, 0x03];

fn listed(mode: u8, bytes: &[u8]) -> String {
    let mut text = String::new();
    list(mode, bytes, &mut text).unwrap();
    text
}

fn judged(id: u8, data: &[u8]) -> u8 {
    judge(id, data).map_or_else(|refusal| refusal as u8, |()| 0)
}

/// An answer without its lifetime.
fn told(answer: Answer) -> (Event, u8, Vec<u8>, u64) {
    (answer.event, answer.id, answer.data.to_vec(), answer.closed)
}

fn in_view(entries: usize) -> Vec<u8> {
    [1, 32, 0xFF, 90, 0x67, 0x01, 0].repeat(entries)
}

// The proved cases.

#[test]
fn case_1() {
    assert_eq!(
        listed(0, &[0x10, 0x26, 0x10, 0x03]),
        "3 26 0 4\ntotal 4 4 0 0 0\n"
    );
}

#[test]
fn case_2() {
    assert_eq!(listed(1, &SUMMED_26), "7 26 0 8\ntotal 8 8 0 0 0\n");
    let mut wrong = SUMMED_26;
    wrong[4] = 0xA5;
    assert_eq!(listed(1, &wrong), "7 26 9 8\ntotal 8 0 8 0 0\n");
    assert_eq!(
        listed(1, &[0x10, 0x26, 0x10, 0x03]),
        "3 26 6 4\ntotal 4 0 4 0 0\n"
    );
}

#[test]
fn case_3() {
    let mut reader = Reader::fresh(0).unwrap();
    let (answer, taken) = reader.feed(&[0x10, 0x21, 0x10, 0x10, 0x10, 0x03]);
    assert_eq!(taken, 6);
    assert_eq!(told(answer), (Event::Message, 0x21, vec![0x10], 6));
}

#[test]
fn case_4() {
    assert_eq!(
        listed(1, &[0x10, 0x01, 0x10, 0xFF, 0x21, 0x10, 0x10, 0x03]),
        "7 01 10 8\ntotal 8 0 8 0 0\n"
    );
}

#[test]
fn case_5() {
    assert_eq!(
        listed(0, &[0x10, 0x26, 0x10, 0x54, 0x10, 0x03]),
        "3 26 5 2\n5 54 0 4\ntotal 6 4 2 0 0\n"
    );
}

#[test]
fn case_6() {
    assert_eq!(
        listed(0, &[0x10, 0x10, 0x26, 0x10, 0x03]),
        "total 5 0 0 5 0\n"
    );
}

#[test]
fn case_7() {
    assert_eq!(judged(0x23, &[0xF3, 0xC5]), 0);
    assert_eq!(judged(0x23, &[0xF2, 0x00]), 12);
}

#[test]
fn case_8() {
    assert_eq!(judged(0x43, &[0x02, 0xC0, 0, 0, 0, 0]), 0);
    assert_eq!(judged(0x43, &[0x02, 0x80, 0, 0, 0, 0]), 12);
}

#[test]
fn case_9() {
    assert_eq!(judged(0x20, &[0x02, 0x18]), 0);
    assert_eq!(judged(0x20, &[0x02, 0x19]), 12);
}

#[test]
fn case_10() {
    let bytes = [&[0x10, 0x88, 0x10, 0xFF][..], &SUMMED_26, &SUMMED_26].concat();
    assert_eq!(listed(1, &bytes), "7 88 8 8\n19 26 0 8\ntotal 20 8 8 4 0\n");
}

#[test]
fn example_of_listoff() {
    assert_eq!(
        listed(0, &[0x10, 0x26, 0x10, 0x03, 0xAA, 0x10, 0x54, 0x10, 0x03]),
        "3 26 0 4\n8 54 0 4\ntotal 9 8 0 1 0\n"
    );
}

// Checksum.

#[test]
fn published_checksum() {
    assert_eq!(checksum(b"123456789"), 0x31C3);
    assert_eq!(checksum(b""), 0);
    assert_eq!(frame_checksum(0x26, &[]), 0x44A4);
    // Over the doubled byte, not the single one.
    assert_eq!(frame_checksum(0x21, &[DLE]), checksum(&[0x21, DLE, DLE]));
}

// Edges.

#[test]
fn most_data() {
    for mode in [0, 1] {
        let bytes = generator::frame(mode, 0x88, &[0; 1024]);
        let n = bytes.len();
        assert_eq!(
            listed(mode, &bytes),
            format!("{} 88 10 {n}\ntotal {n} 0 {n} 0 0\n", n - 1)
        );
        // Refused at byte 1,025 of the data; the start that the rest seems to be isn't one.
        let bytes = generator::frame(0, 0x88, &[0; 1025]);
        assert_eq!(
            listed(mode, &bytes),
            "1026 88 4 1027\ntotal 1029 0 1027 2 0\n"
        );
        // The last one doubled: held after both, refused after both.
        let mut data = [0; 1025];
        data[1023] = DLE;
        let bytes = generator::frame(0, 0x88, &data[..1024]);
        assert!(listed(0, &bytes).starts_with("1028 88 10 1029\n"));
        data[1023] = 0;
        data[1024] = DLE;
        let bytes = generator::frame(0, 0x88, &data);
        assert!(listed(mode, &bytes).starts_with("1027 88 4 1028\n"));
    }
}

#[test]
fn most_entries() {
    assert_eq!(judged(0x52, &in_view(0)), 0);
    assert_eq!(judged(0x52, &in_view(75)), 0);
    assert_eq!(judged(0x52, &in_view(76)), 11);
    assert_eq!(judged(0x52, &in_view(75)[1..]), 11);
    for (entries, number) in [(75, 0), (76, 11)] {
        let bytes = generator::frame(0, 0x52, &in_view(entries));
        let n = bytes.len();
        assert!(listed(0, &bytes).starts_with(&format!("{} 52 {number} {n}\n", n - 1)));
    }
}

#[test]
fn most_channels() {
    for (length, number) in [
        (0, 11),
        (26, 11),
        (27, 0),
        (28, 11),
        (56, 11),
        (57, 0),
        (58, 11),
        (986, 11),
        (987, 0),
        (988, 11),
        (1017, 11),
    ] {
        for filler in [0x00, DLE, 0xFF] {
            assert_eq!(judged(0xF5, &vec![filler; length]), number);
            for mode in [0, 1] {
                let bytes = generator::frame(mode, 0xF5, &vec![filler; length]);
                let n = bytes.len();
                assert!(listed(mode, &bytes).starts_with(&format!("{} F5 {number} {n}\n", n - 1)));
            }
        }
    }
}

#[test]
fn refusals_of_the_table() {
    assert_eq!(
        listed(0, &[0x10, 0x26, 0x10, 0xFF, 0x10, 0x54, 0x10, 0x03]),
        "3 26 7 4\n7 54 0 4\ntotal 8 4 4 0 0\n"
    );
    // At ED a start opens a frame, the service codes don't.
    let mut bytes = SUMMED_26.to_vec();
    bytes[7] = 0x54;
    assert_eq!(listed(1, &bytes), "7 26 8 6\ntotal 8 0 6 0 2\n");
    for service in [DLE, SUM] {
        bytes[7] = service;
        assert_eq!(listed(1, &bytes), "7 26 8 8\ntotal 8 0 8 0 0\n");
    }
    // A DLE SUM outside a frame swallows nothing.
    assert_eq!(
        listed(1, &[&[0x10, 0xFF][..], &SUMMED_26].concat()),
        "9 26 0 8\ntotal 10 8 0 2 0\n"
    );
}

#[test]
fn ranges() {
    let good_46 = [0x7F, 0x3A, 0x09, 0x00, 31, 12, 0xD0, 0x07, 0xF3, 0x3B];
    let mut satellites = Vec::new();
    for number in 1..=32 {
        satellites.extend([1, number, 1]);
    }
    for number in 1..=24 {
        satellites.extend([2, number, 2]);
    }
    let with = |data: &[u8], at: usize, value: u8| {
        let mut data = data.to_vec();
        data[at] = value;
        data
    };
    assert_eq!(judged(0x46, &good_46), 0);
    for (at, value) in [
        (0, 0x80),
        (4, 0),
        (4, 32),
        (5, 0),
        (5, 13),
        (6, 0xCF),
        (8, 14),
    ] {
        assert_eq!(judged(0x46, &with(&good_46, at, value)), 12);
    }
    assert_eq!(judged(0x47, &satellites), 0);
    assert_eq!(judged(0x47, &satellites[3..]), 11);
    for (at, value) in [(1, 2), (2, 0), (2, 3), (0, 2), (97, 2), (97, 25)] {
        assert_eq!(judged(0x47, &with(&satellites, at, value)), 12);
    }
    assert_eq!(judged(0x49, &[]), 11);
    for (first, length, number) in [
        (1, 130, 12),
        (1, 93, 11),
        (2, 93, 0),
        (2, 130, 11),
        (0, 130, 12),
        (0, 93, 12),
        (3, 92, 11),
    ] {
        let mut data = vec![0; length];
        data[0] = first;
        assert_eq!(judged(0x49, &data), number);
    }
    for (carrier, number) in [(0xF9, 0), (0xF8, 12), (13, 0), (14, 12)] {
        let mut data = [0; 93];
        (data[0], data[2]) = (2, carrier);
        assert_eq!(judged(0x49, &data), number);
        assert_eq!(judged(0x52, &[2, 24, carrier, 0, 0, 0, 0]), number);
    }
    for (entry, number) in [
        ([4, 120, 0xFF, 0, 0, 0, 0], 0),
        ([4, 138, 0xFF, 0, 0, 0, 0], 0),
        ([4, 139, 0xFF, 0, 0, 0, 0], 0),
        ([4, 158, 0xFF, 0, 0, 0, 0], 0),
        ([4, 159, 0xFF, 0, 0, 0, 0], 12),
        ([4, 119, 0xFF, 0, 0, 0, 0], 12),
        ([1, 1, 0xFE, 0, 0, 0, 0], 12),
        ([3, 1, 0xFF, 0, 0, 0, 0], 12),
        ([1, 33, 0xFF, 0, 0, 0, 0], 12),
        ([1, 32, 0xFF, 91, 0, 0, 0], 12),
        ([1, 32, 0xFF, 90, 0x68, 0x01, 0], 12),
    ] {
        assert_eq!(judged(0x52, &entry), number);
    }
    assert_eq!(judged(0xEB, &with(&[0xFF; 26], 16, 3)), 0);
    assert_eq!(judged(0xEB, &with(&[0x00; 26], 16, 4)), 12);
    assert_eq!(judged(0x1F, &[2]), 12);
    assert_eq!(judged(0xF4, &[]), 11);
    assert_eq!(judged(0x00, &[]), 10);
}

// Questions 1 to 3.

#[test]
fn modes() {
    assert_eq!(Reader::fresh(2).err(), Some(Refusal::Mode));
    assert_eq!(list(2, &[], &mut String::new()), Err(Refusal::Mode));
    assert_eq!(count(2, &SUMMED_26), 0);
    let mut reader = Reader::fresh(1).unwrap();
    reader.mode = 2;
    let untaken = (Event::Refusal(Refusal::Mode), 0, vec![], 0);
    assert_eq!(told(reader.step(0)), untaken);
    let (answer, taken) = reader.feed(&[]);
    assert_eq!((told(answer), taken), (untaken, 0));
}

#[test]
fn dates() {
    const LENGTHS: [u8; 12] = [31, 28, 31, 30, 31, 30, 31, 31, 30, 31, 30, 31];
    let dated = |day: u8, month: u8, year: u16| {
        let [low, high] = year.to_le_bytes();
        judged(0x46, &[0, 0, 0, 0, day, month, low, high, 0, 0])
    };
    for (year, leap) in [
        (2000, true),
        (2001, false),
        (2004, true),
        (2100, false),
        (2400, true),
        (65_535, false),
    ] {
        for (month, length) in (1..).zip(LENGTHS) {
            let last = if leap && month == 2 { 29 } else { length };
            let answers = [0, 1, last, last + 1].map(|day| dated(day, month, year));
            assert_eq!(answers, [12, 0, 0, 12], "month {month} of {year}");
        }
        assert_eq!([dated(1, 0, year), dated(1, 13, year)], [12, 12]);
    }
}

#[test]
fn impossible_records() {
    type Spoil = fn(&mut Reader);
    // After DLE, an identifier, one doubled byte and DLE SUM: place C0, hand 6.
    let mut open = Reader::fresh(1).unwrap();
    open.feed(&[0x10, 0x21, 0x10, 0x10, 0x10, 0xFF]);
    assert_eq!((open.line.place, open.line.hand), (Place::C0, 6));
    assert_eq!(open.ask(), Ok(()));
    let spoils: [Spoil; 12] = [
        |r| r.mode = 0,
        |r| r.line.id = ETX,
        |r| r.line.len = CAPACITY + 1,
        |r| r.line.place = Place::W,
        |r| r.line.place = Place::C1,
        |r| r.line.hand = 5,
        |r| r.fed += 1,
        |r| r.standing.time_46 = Some([0; 10]),
        |r| r.standing.time_46 = Some([0, 0, 0, 0, 31, 4, 0xD0, 0x07, 0, 0]),
        |r| (r.accepted, r.refused) = (u64::MAX, 1),
        |r| (r.accepted, r.refused) = (u64::MAX, u64::MAX),
        |r| (r.accepted, r.fed) = (1 << 32, 6),
    ];
    for spoil in spoils {
        let mut reader = open.clone();
        spoil(&mut reader);
        let before = (reader.line, reader.fed);
        for bytes in [&[][..], &[0x03]] {
            let (answer, taken) = reader.feed(bytes);
            let event = answer.event;
            assert_eq!((event, taken), (Event::Refusal(Refusal::Record), 0));
        }
        assert_eq!((reader.line, reader.fed), before);
    }
}

#[test]
fn past_32_bits() {
    let mut reader = Reader::fresh(0).unwrap();
    reader.line.outside = u64::from(u32::MAX);
    reader.fed = u64::from(u32::MAX);
    let (answer, taken) = reader.feed(&[0x10, 0x26, 0x10, 0x03]);
    assert_eq!(
        (told(answer), taken),
        ((Event::Message, 0x26, vec![], 4), 4)
    );
    assert_eq!(reader.fed, u64::from(u32::MAX) + 4);
}

#[test]
fn full_counter() {
    let mut reader = Reader::fresh(0).unwrap();
    reader.line.outside = u64::MAX - 2;
    reader.fed = u64::MAX - 2;
    let (answer, taken) = reader.feed(&[0x10, 0x26, 0x10, 0x03]);
    assert_eq!((answer, taken), (Answer::NOTHING, 2));
    assert_eq!((reader.fed, reader.line.hand), (u64::MAX, 2));
    let (answer, taken) = reader.feed(&[0x10]);
    let untaken = (Event::Refusal(Refusal::Full), 0, vec![], 0);
    assert_eq!((told(answer), taken), (untaken, 0));
    assert_eq!(reader.feed(&[]), (Answer::NOTHING, 0));
}

// Writer.

#[test]
fn writer() {
    let mut out = [0xA5; 10];
    assert_eq!(write(1, 0x26, &[], &mut out), Ok(8));
    assert_eq!(out[..8], SUMMED_26);
    assert_eq!(out[8..], [0xA5; 2]);
    assert_eq!(write(0, 0x21, &[DLE], &mut out), Ok(6));
    assert_eq!(out[..6], [0x10, 0x21, 0x10, 0x10, 0x10, 0x03]);
    let mut out = [0xA5; 7];
    for (mode, id, data, refusal) in [
        (2, 0x00, &[][..], Refusal::Mode),
        (1, 0x00, &[], Refusal::Unlisted),
        (1, 0x26, &[0], Refusal::Length),
        (1, 0x1F, &[2], Refusal::Range),
        (1, 0x26, &[], Refusal::BufferShort),
    ] {
        assert_eq!(write(mode, id, data, &mut out), Err(refusal));
        assert_eq!(out, [0xA5; 7]);
    }
}

// Over many made inputs.

#[test]
fn written_and_read() {
    let mut random = Random::new(1);
    let mut out = [0; 2100];
    for id in KINDS {
        for round in 0..200 {
            let mode = round % 2;
            let data = random.acceptable(id);
            let length = write(mode, id, &data, &mut out).unwrap();
            let mut reader = Reader::fresh(mode).unwrap();
            let (answer, taken) = reader.feed(&out[..length]);
            assert_eq!(taken, length);
            assert_eq!(told(answer), (Event::Message, id, data, length as u64));
        }
    }
}

#[test]
fn standing_readings() {
    let mut random = Random::new(2);
    let mut reader = Reader::fresh(0).unwrap();
    assert_eq!(*reader.standing(), Standing::default());
    for _ in 0..20 {
        for id in KINDS {
            let data = random.acceptable(id);
            let before = reader.standing().clone();
            reader.feed(&generator::frame(0, id, &data));
            let mut after = before;
            match id {
                0x43 => after.test_43 = Some(data.try_into().unwrap()),
                0x46 => after.time_46 = Some(data.try_into().unwrap()),
                0x4A => after.ionosphere_4a = Some(data.try_into().unwrap()),
                0x4B => after.scales_4b = Some(data.try_into().unwrap()),
                0xEB => after.glonass_eb = Some(data.try_into().unwrap()),
                _ => {}
            }
            assert_eq!(*reader.standing(), after);
            // A refused message leaves them.
            reader.feed(&generator::frame(0, id, &[0xFF; 600]));
            assert_eq!(*reader.standing(), after);
        }
    }
}

#[test]
fn slices_are_steps() {
    let mut random = Random::new(3);
    for round in 0..400 {
        let mode = (round % 2) as u8;
        let mut bytes = Vec::new();
        while bytes.len() < 300 {
            let id = random.pick(&KINDS);
            let mut frame = generator::frame(mode, id, &random.acceptable(id));
            if random.once_in(2) {
                random.damage(mode, &mut frame);
            }
            bytes.extend(frame);
            random.rich_noise(5, &mut bytes);
        }
        let mut by_slice = Reader::fresh(mode).unwrap();
        let mut by_step = Reader::fresh(mode).unwrap();
        let mut rest = &bytes[..];
        while !rest.is_empty() {
            let lent = random.between(1, rest.len());
            let (answer, taken) = by_slice.feed(&rest[..lent]);
            for &b in &rest[..taken - 1] {
                assert_eq!(by_step.step(b), Answer::NOTHING);
            }
            assert_eq!(by_step.step(rest[taken - 1]), answer);
            if answer.event == Event::Nothing {
                assert_eq!(taken, lent);
            }
            assert_eq!(by_slice.ask(), Ok(()));
            assert_eq!(by_slice.fed, by_step.fed);
            rest = &rest[taken..];
        }
    }
}

/// Whatever came before, the second and later of a row of frames are given.
#[test]
fn noise_costs_one_frame_at_most() {
    let mut random = Random::new(4);
    for round in 0..1000 {
        let mode = (round % 2) as u8;
        let mut bytes = Vec::new();
        let count = random.below(1200);
        if random.once_in(2) {
            random.noise(count, &mut bytes);
        } else {
            random.rich_noise(count, &mut bytes);
        }
        let mut due = String::new();
        for place in 0..4 {
            let id = random.pick(&KINDS);
            let frame = generator::frame(mode, id, &random.acceptable(id));
            bytes.extend(&frame);
            if place > 0 {
                let (at, closed) = (bytes.len() - 1, frame.len());
                writeln!(due, "{at} {id:02X} 0 {closed}").unwrap();
            }
        }
        let text = listed(mode, &bytes);
        let (events, _) = text.split_once("total").unwrap();
        assert!(events.ends_with(&due), "{due} at the end of {text}");
    }
}
