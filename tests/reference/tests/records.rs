//! The records of the comparison: their numbers, rooms that can be lent, the
//! answers for all rows, which codes are asked for, and that each alteration
//! finds its place.

use reference::codes::{is_taken, taken_codes};
use reference::compared::alter::*;
use reference::compared::lend::{exact, lend, lendable, lengths_of};
use reference::compared::record::record_of_seed;
use reference::compared::stream::Record;
use reference::compared::taken::*;
use reference::damage::Loose;
use reference::fields::pack_code;
use reference::generate::*;
use reference::read::judge;
use reference::slot::{column, slot, Answer};
use reference::tables::*;

/// The bytes of a part that one step has written.
fn written(step: impl Fn(&mut Record)) -> Vec<u8> {
    let mut record = Record::new(0, None);
    step(&mut record);
    record.finish()[5..].to_vec()
}

#[test]
fn numbers_have_seven_bits_a_byte() {
    assert_eq!(written(|record| record.number(0)), [0]);
    assert_eq!(written(|record| record.number(127)), [127]);
    assert_eq!(written(|record| record.number(128)), [128, 1]);
    assert_eq!(written(|record| record.number(u64::MAX)), [&[255; 9][..], &[1]].concat());
    assert_eq!(written(|record| record.signed(-1)), [1]);
    assert_eq!(written(|record| record.signed(1)), [2]);
    assert_eq!(
        written(|record| record.signed(i64::MIN)),
        written(|record| record.number(u64::MAX))
    );
    assert_eq!(written(|record| record.bytes(b"ab")), [2, b'a', b'b']);
}

#[test]
fn a_record_has_its_length_and_name() {
    assert_eq!(Record::new(7, None).finish(), [1, 0, 0, 0, 7]);
}

/// A room that can be lent is judged as the one that was asked for.
#[test]
fn rooms_that_can_be_lent() {
    let mut random = Random::new(5);
    for seed in 0..4_000 {
        let case = case(seed);
        let mut room = lendable(&case.text, &case.room, &mut random);
        assert_eq!(judge(&case.text, &room), judge(&case.text, &case.room), "seed {seed}");
        assert!((0..13).all(|buffer| *buffer_of(&mut room, buffer) <= 1 << 22));
        assert_eq!(lengths_of(&mut lend(&room, seed)), room);
    }
}

/// The exact room is enough, and with one entry less in any buffer it is not.
#[test]
fn exact_rooms() {
    let mut random = Random::new(6);
    for _ in 0..300 {
        let draft = valid(&mut random);
        let text = draft.text();
        let room = exact(&draft.tables.head, &draft.tables.counts);
        assert!(judge(&text, &room).is_ok());
        for buffer in 0..13 {
            let mut less = room;
            let length = buffer_of(&mut less, buffer);
            if *length > 0 {
                *length -= 1;
                assert_eq!(judge(&text, &less).unwrap_err().number, 16);
            }
        }
    }
}

/// Pattern differs from byte to byte, from buffer to buffer and by its fill.
#[test]
fn lent_buffers_have_a_pattern() {
    let room = Room::new(1, 4, 4, 4, 300);
    let lent = lend(&room, 3);
    assert_ne!(lent.tables.states[0], lent.tables.states[1]);
    assert_ne!(lent.tables.states, lent.tables.losses);
    assert_ne!(lent.tables.states, lend(&room, 4).tables.states);
    assert_eq!(lent.tables.carried[0], lent.tables.carried[256]);
    let low = [lent.tables.times[0] as u8, (lent.tables.times[0] >> 8) as u8];
    assert_eq!(low, [0xA5 ^ (40u8.wrapping_mul(31)), 0xA5 ^ (41u8.wrapping_mul(31))]);
}

/// All rows at once are the rows of the system, one by one, and no others.
#[test]
fn columns_are_slots() {
    let mut random = Random::new(9);
    for _ in 0..200 {
        let loose = Loose::of(valid(&mut random).tables);
        let lent = loose.lent();
        let rows = lent.counts.rows;
        let system = random.below(7);
        let code = random.pick(&loose.codes[64 * system..64 * system + 2]);
        let answers = column(&lent, system as u64, code, [rows, rows + 1]).unwrap();
        assert_eq!(answers.len() as u64, rows);
        for (row, &answer) in answers.iter().enumerate() {
            let here = usize::from(lent.satellites[row]) / 100 == system;
            let due =
                if here { slot(&lent, row as u64, code).unwrap() } else { Answer::NotDeclared };
            assert_eq!(answer, due);
        }
        if rows > 0 {
            assert_eq!(column(&lent, 0, code, [rows, rows - 1]), Err(16));
            assert_eq!(column(&lent, 0, code, [rows - 1, rows]), Err(16));
        }
        let unspelled = TablesRef { counts: Counts { rows: rows + 1, ..lent.counts }, ..lent };
        assert_eq!(column(&unspelled, 0, code, [0, 0]), Err(20));
    }
}

/// The first record in which this is altered, with and without it.
fn altered_and_plain(alteration: Alteration) -> [Vec<u8>; 2] {
    let altered = |&seed: &u64| record_of_seed(seed, Some(alteration)).is_altered();
    let seed = (0..500).find(altered).unwrap_or_else(|| panic!("{alteration:?}"));
    [Some(alteration), None].map(|alteration| record_of_seed(seed, alteration).finish())
}

/// Each alteration is made in some record, and the record is then another.
#[test]
fn every_alteration_finds_its_place() {
    for alteration in alterations().into_iter().chain([FAR, FORBIDDEN]) {
        let [altered, plain] = altered_and_plain(alteration);
        assert_ne!(altered, plain, "{alteration:?}");
    }
}

/// The bytes in which a record and its altered form differ.
fn differing([altered, plain]: [Vec<u8>; 2]) -> Vec<(u8, u8)> {
    assert_eq!(altered.len(), plain.len());
    altered.into_iter().zip(plain).filter(|(altered, plain)| altered != plain).collect()
}

/// A printed zero as a given value: its state alone is 1 where 0 is due.
#[test]
fn a_given_zero_alters_one_state() {
    assert!(alterations().contains(&GIVEN_ZERO));
    assert_eq!(differing(altered_and_plain(GIVEN_ZERO)), [(1, 0)]);
}

/// Whether a code is taken: one answer alone is another.
#[test]
fn a_code_alters_one_answer() {
    for (alteration, bytes) in [(TAKEN, (0, 1)), (NOT_TAKEN, (1, 0))] {
        let mut records = taken_records(Some(alteration));
        let number = records.position(|record| record.is_altered()).unwrap();
        let made = |alteration| taken_records(alteration).nth(number).unwrap().finish();
        assert_eq!(differing([made(Some(alteration)), made(None)]), [bytes]);
    }
}

/// Every code of three printable bytes is asked for once under each of the
/// seven systems and one more.
#[test]
fn every_code_is_asked_for() {
    let mut asked = 0;
    let mut last = None;
    let mut taken = 0;
    for question @ (system, code) in printable_questions().flatten() {
        assert!(code.to_be_bytes()[1..].iter().all(|byte| (32..=126).contains(byte)));
        assert!(system < 8 && code < 1 << 24 && Some(question) > last);
        last = Some(question);
        asked += 1;
        taken += usize::from(is_taken(system as usize, code));
    }
    assert_eq!(asked, 8 * 95 * 95 * 95);
    assert_eq!(taken, (0..7).map(|system| taken_codes(system).len()).sum());
}

/// Numbers at the edges are asked for under every system, and codes under
/// numbers that are none.
#[test]
fn edges_of_codes_are_asked_for() {
    let asked = edge_questions();
    let code = pack_code(*b"C1C");
    for system in 0..7 {
        for edge in [0, (1 << 24) - 1, 1 << 24, u32::MAX, code | 1 << 24] {
            assert!(asked.contains(&(system, edge)));
        }
    }
    for system in [7, 1 << 32, u64::MAX] {
        assert!(asked.contains(&(system, code)));
    }
}
