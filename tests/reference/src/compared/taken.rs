//! Which codes are taken, asked of the archive: every code of three printable
//! bytes under each system and under one that is none, and numbers at the edges.

use super::alter::{Alteration, NOT_TAKEN, TAKEN};
use super::stream::Record;
use crate::codes::{is_taken, taken_codes};
use crate::fields::{pack_code, SYSTEMS};
use std::ops::RangeInclusive;

/// A system and a code.
pub type Question = (u64, u32);

/// The bytes that columns may have.
const PRINTABLE: RangeInclusive<u8> = 32..=126;

/// The seven systems, and the first number that is none.
const SYSTEMS_AND_ONE: RangeInclusive<u64> = 0..=SYSTEMS.len() as u64;

/// Numbers of no system, some with a system's number in their low bits.
const NO_SYSTEMS: [u64; 6] = [7, 8, 1 << 8, 1 << 32, (1 << 32) + 6, u64::MAX];

/// The first and last numbers of three bytes, and of four.
const EDGES: [u32; 4] = [0, (1 << 24) - 1, 1 << 24, u32::MAX];

/// A fourth byte: 0 in every code, and two that no code has.
const TOP_BYTES: [u32; 3] = [0, 1 << 24, 255 << 24];

/// The questions for codes with this first byte.
fn questions_from(system: u64, first: u8) -> Vec<Question> {
    let codes = PRINTABLE.flat_map(|band| PRINTABLE.map(move |last| [first, band, last]));
    codes.map(|code| (system, pack_code(code))).collect()
}

/// Every code of three printable bytes under every system, in parts.
pub fn printable_questions() -> impl Iterator<Item = Vec<Question>> {
    let firsts = |system: u64| PRINTABLE.map(move |first| (system, first));
    SYSTEMS_AND_ONE.flat_map(firsts).map(|(system, first)| questions_from(system, first))
}

/// Numbers at the edges, and each code of any system, alone and with a fourth
/// byte, under every system and under numbers that are none.
pub fn edge_questions() -> Vec<Question> {
    let all_codes = (0..SYSTEMS.len()).flat_map(taken_codes).map(pack_code);
    let with_tops = all_codes.flat_map(|code| TOP_BYTES.map(|top| code | top));
    let codes: Vec<u32> = EDGES.into_iter().chain(with_tops).collect();
    let systems = (0..SYSTEMS.len() as u64).chain(NO_SYSTEMS);
    systems.flat_map(|system| codes.iter().map(move |&code| (system, code))).collect()
}

/// The records of all questions, with the answers that are due.
pub fn taken_records(alteration: Option<Alteration>) -> impl Iterator<Item = Record> {
    let parts = printable_questions().chain([edge_questions()]);
    parts.zip(0..).map(move |(questions, name)| {
        let mut record = Record::new(name, alteration);
        questions.into_iter().for_each(|question| ask(&mut record, question));
        record
    })
}

fn ask(record: &mut Record, (system, code): Question) {
    let is_taken = is_taken(system as usize, code);
    let answer = if is_taken { TAKEN } else { NOT_TAKEN };
    record.operation(b'K');
    record.number(system);
    record.number(code.into());
    record.due(answer.what, is_taken.into());
}
