//! What a record asks of tables that are lent: slots, and columns.

use super::lend::{kept, FLOATS, KINDS};
use super::stream::{Record, Span};
use crate::damage::Loose;
use crate::fields::{pack_code, LONGEST_LIST};
use crate::generate::Random;
use crate::slot::{column, kind_and_bits, slot, Answer};

/// At most so many slots of a table are asked for, and so many declared codes
/// for all rows.
const MOST_SLOTS: u64 = 20;
const MOST_COLUMNS: usize = 3;

/// The declared codes, with their systems.
fn declared(loose: &Loose) -> Vec<(usize, u32)> {
    let place_of = |system: usize, place: usize| loose.codes.get(LONGEST_LIST * system + place);
    let list = |system: usize| {
        let length = (loose.tables.head.lengths[system] as usize).min(LONGEST_LIST);
        (0..length).filter_map(move |place| Some((system, *place_of(system, place)?)))
    };
    (0..7).flat_map(list).collect()
}

/// A code that may be in no list, or is none at all.
fn any_code(random: &mut Random) -> u32 {
    let attribute = random.pick(b"CWX Z");
    match random.below(4) {
        0 => random.number() as u32,
        1 => pack_code([random.pick(b"CLDSXc"), random.pick(b"019"), attribute]),
        _ => pack_code([random.pick(b"CLDS"), b'1' + random.below(9) as u8, attribute]),
    }
}

/// Slots: all of them where there are few, else some, and what is not there.
pub fn slots(record: &mut Record, loose: &Loose, random: &mut Random) {
    let codes = declared(loose);
    let rows = loose.tables.counts.rows;
    let few = rows <= MOST_SLOTS && rows * codes.len() as u64 <= MOST_SLOTS;
    if few {
        for row in 0..rows {
            codes.iter().for_each(|&(_, code)| one_slot(record, loose, row, code));
        }
    } else {
        for _ in 0..MOST_SLOTS / 2 {
            let row = random.number() % rows.max(1);
            let code = random.pick_any(&codes).map_or(0, |(_, code)| code);
            one_slot(record, loose, row, code);
        }
    }
    let code = random.pick_any(&codes).map_or(0, |(_, code)| code);
    one_slot(record, loose, random.number() % rows.max(1), any_code(random));
    one_slot(record, loose, rows, code);
    one_slot(record, loose, random.pick(&[rows.saturating_add(1), u64::MAX, 1 << 32]), code);
}

fn one_slot(record: &mut Record, loose: &Loose, row: u64, code: u32) {
    let (kind, bits) = kind_and_bits(slot(&loose.lent(), row, code));
    kept(record, "slot", loose);
    record.operation(b'S');
    record.number(row);
    record.number(code.into());
    record.due("slot: kind", kind);
    record.due("slot: value", bits);
}

/// Columns of some declared codes, of a code that may not be, and of a system
/// that may not be.
pub fn columns(record: &mut Record, loose: &Loose, random: &mut Random) {
    let codes = declared(loose);
    for _ in 0..MOST_COLUMNS {
        let (system, code) = random.pick_any(&codes).unwrap_or((0, 0));
        one_column(record, loose, system as u64, code, random);
    }
    let system = random.pick(&[0, 3, 6, 7, 8, u64::MAX]);
    let code = random.pick_any(&codes).map_or(0, |(_, code)| code);
    one_column(record, loose, system, code, random);
    one_column(record, loose, random.below(7) as u64, any_code(random), random);
}

fn one_column(record: &mut Record, loose: &Loose, system: u64, code: u32, random: &mut Random) {
    let side = random.below(2) as u64;
    let rows = loose.tables.counts.rows.min(loose.tables.satellites.len() as u64 + 2);
    let more = |random: &mut Random| match random.below(8) {
        0 => random.number() % (rows + 1),
        1 => rows.saturating_sub(1),
        _ => rows + random.below(5) as u64,
    };
    let lengths = [more(random), more(random)];
    let answer = column(&loose.lent(), system, code, lengths);
    let answers: &[Answer] = answer.as_deref().unwrap_or(&[]);
    let told: Vec<(u64, u64)> = answers.iter().map(|&one| kind_and_bits(Ok(one))).collect();
    kept(record, "column", loose);
    stray_column(record, lengths, told.len(), side);
    record.operation(b'C');
    record.number(system);
    record.number(code.into());
    record.number(side);
    record.number(random.below(256) as u64);
    record.number(lengths[0]);
    record.number(lengths[1]);
    record.due("column: number", answer.as_ref().err().copied().unwrap_or(0).into());
    record.due("column: count", told.len() as u64);
    let kinds: Vec<u8> = told.iter().map(|&(kind, _)| kind as u8).collect();
    record.due_bytes("column: kinds", &kinds);
    record.due_entries("column: floats", told.iter().map(|&(_, bits)| bits));
}

/// The buffers for the answers of all rows.
fn stray_column(record: &mut Record, lengths: [u64; 2], count: usize, side: u64) {
    let regions = [(KINDS, "kinds", 1), (FLOATS, "floats", 8)];
    for ((region, name, size), length) in regions.into_iter().zip(lengths) {
        let length = size * length as usize;
        let used = 0..size * count;
        let past = (used.end < length).then_some(used.end);
        record.stray("column", &Span { region, name, used, past, length, side });
    }
}
