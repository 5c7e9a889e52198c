//! The slot question: what stands at a row under a code.

use crate::fields::{unpack_code, LONGEST_LIST};
use crate::tables::TablesRef;
use crate::write::{is_spelled, NOT_SPELLED};

/// A buffer for the answers of all rows is too short.
pub const NO_ROOM_FOR_ROWS: u32 = 16;

/// What a slot is handed on as.
#[derive(Clone, Copy, Debug, PartialEq)]
pub enum Answer {
    Metres(f64),
    Cycles(f64),
    Hertz(f64),
    Strength(f64),
    Blank,
    NotDeclared,
    NoSuchRow,
}

/// Asks for a slot by row, from 0 on, and code. Tables that no text spells
/// give 20 before all else.
pub fn slot(tables: &TablesRef, row: u64, code: u32) -> Result<Answer, u32> {
    if !is_spelled(tables) {
        return Err(NOT_SPELLED);
    }
    Ok(slot_of_spelled(tables, row, code))
}

/// The answer where the tables have been judged already.
fn slot_of_spelled(tables: &TablesRef, row: u64, code: u32) -> Answer {
    if row >= tables.counts.rows {
        return Answer::NoSuchRow;
    }
    let row = row as usize;
    let system = usize::from(tables.satellites[row]) / 100;
    let start = LONGEST_LIST * system;
    let list = &tables.codes[start..start + tables.head.lengths[system] as usize];
    match list.iter().position(|&declared| declared == code) {
        None => Answer::NotDeclared,
        Some(place) => value(tables, first_slot(tables, row) + place, code),
    }
}

/// Where the slots of a row begin.
fn first_slot(tables: &TablesRef, row: usize) -> usize {
    let slots_of = |&satellite: &u16| tables.head.lengths[usize::from(satellite) / 100] as usize;
    tables.satellites[..row].iter().map(slots_of).sum()
}

/// The value of a slot, by the kind of its code.
fn value(tables: &TablesRef, place: usize, code: u32) -> Answer {
    if tables.states[place] == 0 {
        return Answer::Blank;
    }
    let number = tables.numbers[place] as f64 / 1000.0;
    match unpack_code(code)[1] {
        b'C' => Answer::Metres(number),
        b'L' => Answer::Cycles(number),
        b'D' => Answer::Hertz(number),
        _ => Answer::Strength(number),
    }
}

/// The answers for a code of one system for all rows, where both buffers for
/// them are long enough. Rows of other systems are not declared.
pub fn column(
    tables: &TablesRef,
    system: u64,
    code: u32,
    lengths: [u64; 2],
) -> Result<Vec<Answer>, u32> {
    if !is_spelled(tables) {
        return Err(NOT_SPELLED);
    }
    if tables.counts.rows > lengths[0].min(lengths[1]) {
        return Err(NO_ROOM_FOR_ROWS);
    }
    let answer = |row: u64| match u64::from(tables.satellites[row as usize] / 100) == system {
        true => slot_of_spelled(tables, row, code),
        false => Answer::NotDeclared,
    };
    Ok((0..tables.counts.rows).map(answer).collect())
}

/// The answer as the archive numbers its kinds, and the bits of its float.
pub fn kind_and_bits(answer: Result<Answer, u32>) -> (u64, u64) {
    match answer {
        Ok(Answer::Metres(value)) => (1, value.to_bits()),
        Ok(Answer::Cycles(value)) => (2, value.to_bits()),
        Ok(Answer::Hertz(value)) => (3, value.to_bits()),
        Ok(Answer::Strength(value)) => (4, value.to_bits()),
        Ok(Answer::Blank) => (5, 0),
        Ok(Answer::NotDeclared) => (6, 0),
        Ok(Answer::NoSuchRow) => (7, 0),
        Err(number) => (u64::from(number), 0),
    }
}
