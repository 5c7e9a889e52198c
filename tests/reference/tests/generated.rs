//! Generated texts: what is known of them, round trips, and the histogram.

mod common;

use reference::generate::*;
use reference::read::{judge, read, read_into};
use reference::tables::*;
use reference::write::write;
use std::ops::Range;

const CASES: u64 = 20_000;

/// How many cases of some seeds are known to be accepted and refused.
fn check_known(seeds: Range<u64>) -> (u32, u32) {
    let (mut accepted, mut refused) = (0, 0);
    for seed in seeds {
        let case = case(seed);
        match case.expected {
            Expected::Accepted(tables) => {
                assert_eq!(read(&case.text, &case.room), Ok(*tables), "seed {seed}");
                accepted += 1;
            }
            Expected::Refused(refusal) => {
                assert_eq!(judge(&case.text, &case.room), Err(refusal), "seed {seed}");
                refused += 1;
            }
            Expected::Unknown => {}
        }
    }
    (accepted, refused)
}

#[test]
fn what_is_known_comes_true() {
    let (accepted, refused) = check_known(0..CASES);
    println!("known: {accepted} accepted, {refused} refused");
}

/// Takes a few minutes.
#[test]
#[ignore]
fn many_more_seeds() {
    let (accepted, refused) = check_known(CASES..30 * CASES);
    let trips = check_round_trips(CASES..30 * CASES);
    println!("known: {accepted} accepted, {refused} refused; {trips} round trips");
}

#[test]
fn every_number_is_reached() {
    let mut histogram = [0u32; 18];
    for seed in 0..CASES {
        let case = case(seed);
        let number = judge(&case.text, &case.room).err().map_or(0, |refusal| refusal.number);
        histogram[number as usize] += 1;
    }
    println!("accepted: {}", histogram[0]);
    for (number, &times) in histogram.iter().enumerate().skip(1) {
        println!("number {number:>2}: {times}");
    }
    for (number, &times) in histogram.iter().enumerate().take(17).skip(1) {
        assert!(times >= 50, "number {number}: {times}");
    }
    assert!(histogram[0] >= CASES as u32 / 5, "accepted: {}", histogram[0]);
}

/// That a case is refused as it must be.
fn check_refused(case: &Case) {
    let judged = judge(&case.text, &case.room).expect_err("accepted");
    let text = String::from_utf8_lossy(&case.text);
    assert_eq!(Expected::Refused(judged), case.expected, "{text}");
}

#[test]
fn each_aim_hits() {
    for number in 1..=16 {
        let mut random = Random::new(1_000 + u64::from(number));
        for _ in 0..1_000 {
            check_refused(&aimed_at(number, &mut random));
        }
    }
}

/// An unlisted code is 6, unless the same line comes to a lower number.
#[test]
fn unlisted_codes_beside_other_faults() {
    for second in FAULTS_OF_LISTS {
        let mut random = Random::new(2_000 + u64::from(second));
        for _ in 0..1_000 {
            check_refused(&unlisted_and(second, &mut random));
        }
    }
}

/// The fault of the earlier line is reported, for each pair of numbers.
#[test]
fn each_pair_of_aims() {
    let (mut known, mut texts) = (0, 0);
    for pair in 0..256 {
        let mut random = Random::new(50_000 + pair);
        let [first, second] = [1 + pair as u32 / 16, 1 + pair as u32 % 16];
        for _ in 0..40 {
            let case = paired_at(first, second, &mut random);
            texts += 1;
            if let Expected::Refused(refusal) = case.expected {
                let text = String::from_utf8_lossy(&case.text);
                assert_eq!(judge(&case.text, &case.room), Err(refusal), "{first} {second}\n{text}");
                known += 1;
            }
        }
    }
    println!("{known} of {texts} pairs known");
    assert!(known > texts / 2);
}

/// The normal text of tables that were read.
fn normal(tables: &Tables) -> Vec<u8> {
    let codes = tables.lent_codes();
    write(&tables.lent(&codes), u64::MAX).unwrap()
}

/// Text to tables to normal text to the same tables, and once more.
fn check_round_trips(seeds: Range<u64>) -> u32 {
    let mut trips = 0;
    for seed in seeds {
        let case = case(seed);
        let Ok(tables) = read(&case.text, &case.room) else {
            continue;
        };
        let text = normal(&tables);
        let again = read(&text, &case.room);
        assert_eq!(again.as_ref(), Ok(&tables), "seed {seed}");
        assert_eq!(normal(&again.unwrap()), text, "seed {seed}");
        trips += 1;
    }
    trips
}

#[test]
fn round_trips() {
    println!("{} round trips", check_round_trips(0..CASES));
}

/// A text cut off anywhere is either whole lines, and then judged 14 or
/// accepted, or has a last line without LF.
#[test]
fn cut_off_at_every_place() {
    let mut random = Random::new(77);
    let mut cuts = 0;
    while cuts < 150_000 {
        let text = valid(&mut random).text();
        if text.len() > 4_000 {
            continue;
        }
        let mut lines = 0;
        for end in 0..text.len() {
            let part = &text[..end];
            let judged = judge(part, &Room::ample());
            if end == 0 {
                assert_eq!(judged, Err(Refusal { number: 3, line: 1 }));
            } else if part.ends_with(b"\n") {
                lines += 1;
                let ended = Refusal { number: 14, line: lines + 1 };
                assert!(judged.is_ok() || judged == Err(ended));
            } else {
                assert_eq!(judged, Err(Refusal { number: 1, line: lines + 1 }));
            }
            cuts += 1;
        }
    }
}

/// Buffers filled with a byte that no table has by chance.
struct Buffers {
    codes: Vec<u32>,
    wide: [Vec<u64>; 1],
    signed: [Vec<i64>; 2],
    short: [Vec<u16>; 2],
    bytes: [Vec<u8>; 7],
}

const FILL: u8 = 0xA5;

fn buffers(room: &Room) -> Buffers {
    let bytes = |length: usize| vec![FILL; length];
    Buffers {
        codes: vec![0xA5A5_A5A5; room.codes],
        wide: [vec![u64::from(FILL); room.times]],
        signed: [vec![i64::from(FILL); room.clocks], vec![i64::from(FILL); room.numbers]],
        short: [vec![u16::from(FILL); room.counts], vec![u16::from(FILL); room.satellites]],
        bytes: [
            bytes(room.time_states),
            bytes(room.flags),
            bytes(room.clock_states),
            bytes(room.states),
            bytes(room.losses),
            bytes(room.strengths),
            bytes(room.carried),
        ],
    }
}

fn lend(buffers: &mut Buffers) -> TablesMut<'_> {
    let [times] = &mut buffers.wide;
    let [clocks, numbers] = &mut buffers.signed;
    let [line_counts, satellites] = &mut buffers.short;
    let [time_states, flags, clock_states, states, losses, strengths, carried] = &mut buffers.bytes;
    TablesMut {
        codes: &mut buffers.codes,
        times,
        time_states,
        flags,
        line_counts,
        clocks,
        clock_states,
        satellites,
        numbers,
        states,
        losses,
        strengths,
        carried,
    }
}

/// True if the buffers begin with the entries and keep their fill behind.
fn begins<A: PartialEq + Copy + From<u8>>(buffer: &[A], entries: &[A]) -> bool {
    let (front, rest) = buffer.split_at(entries.len());
    front == entries && rest.iter().all(|&entry| entry == A::from(FILL))
}

#[test]
fn lent_buffers_change_only_where_they_must() {
    for seed in 0..4_000 {
        let case = case(seed);
        let cap = |length: usize| length.min(5_000);
        let mut room = case.room;
        for buffer in 0..13 {
            let length = buffer_of(&mut room, buffer);
            *length = cap(*length);
        }
        let mut lent = buffers(&room);
        let answer = read_into(&case.text, lend(&mut lent));
        let empty = Tables { codes: vec![None; CODE_PLACES], ..Tables::default() };
        let tables = read(&case.text, &room).unwrap_or(empty);
        let refusal = read(&case.text, &room).err();
        assert_eq!(answer.err(), refusal);
        if refusal.is_none() {
            assert_eq!(answer, Ok((tables.head, tables.counts)));
        }
        for (place, &code) in lent.codes.iter().enumerate() {
            assert_eq!(code, tables.codes[place].unwrap_or(0xA5A5_A5A5));
        }
        assert!(begins(&lent.wide[0], &tables.times));
        assert!(begins(&lent.signed[0], &tables.clocks));
        assert!(begins(&lent.signed[1], &tables.numbers));
        assert!(begins(&lent.short[0], &tables.line_counts));
        assert!(begins(&lent.short[1], &tables.satellites));
        assert!(begins(&lent.bytes[0], &tables.time_states));
        assert!(begins(&lent.bytes[1], &tables.flags));
        assert!(begins(&lent.bytes[2], &tables.clock_states));
        assert!(begins(&lent.bytes[3], &tables.states));
        assert!(begins(&lent.bytes[4], &tables.losses));
        assert!(begins(&lent.bytes[5], &tables.strengths));
        assert!(begins(&lent.bytes[6], &tables.carried));
    }
}
