//! Printed zeros, found by their columns in a text that is accepted: apart from
//! the reader, which holds them as blank.

use crate::fields::*;
use crate::tables::Tables;

/// True if a fit value field prints 0, however spelled.
fn prints_zero(field: &[u8; VALUE_WIDTH]) -> bool {
    let is_of_zero = |byte: &u8| b" -.0".contains(byte);
    !all_blank(field) && field.iter().all(is_of_zero)
}

/// The columns of a row from one of its slots on.
fn from_slot(row: &[u8], slot: usize) -> &[u8] {
    row.get(SATELLITE_WIDTH + SLOT_WIDTH * slot..).unwrap_or(b"")
}

/// The slots of a row whose value prints 0, of so many.
pub fn zeros_of_row(row: &[u8], slots: usize) -> Vec<usize> {
    (0..slots).filter(|&slot| prints_zero(&padded(from_slot(row, slot)))).collect()
}

/// The slots of an accepted text whose value prints 0.
pub fn printed_zeros(text: &[u8], tables: &Tables) -> Vec<usize> {
    let mut first_slot = 0;
    let mut zeros = Vec::new();
    for row in rows_of(text, tables) {
        let system = system_of(row[0]).expect("a row of an accepted text");
        let slots = tables.head.lengths[system] as usize;
        zeros.extend(zeros_of_row(row, slots).iter().map(|slot| first_slot + slot));
        first_slot += slots;
    }
    zeros
}

/// The rows of an accepted text.
fn rows_of<'a>(text: &'a [u8], tables: &Tables) -> Vec<&'a [u8]> {
    let lines = text.split(|&byte| byte == b'\n');
    let mut body = lines.skip_while(|line| label_of(line) != Some(Label::End)).skip(1);
    let mut rows = Vec::new();
    for epoch in 0..tables.counts.epochs as usize {
        let _epoch_record = body.next();
        let following = body.by_ref().take(usize::from(tables.line_counts[epoch]));
        match tables.flags[epoch] {
            0 | 1 => rows.extend(following),
            _ => following.for_each(drop),
        }
    }
    rows
}
