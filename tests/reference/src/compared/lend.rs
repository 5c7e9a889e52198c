//! Buffers as the comparison lends them: of the lengths of a room, filled with
//! a pattern that both sides know.

use super::stream::{Record, Span};
use crate::damage::Loose;
use crate::generate::{buffer_of, Random};
use crate::read::judge;
use crate::tables::*;

/// The 13 buffers by name, in the order of the calls, each with these words
/// before it.
macro_rules! buffer_names {
    ($before:literal) => {
        [
            concat!($before, "codes"),
            concat!($before, "times"),
            concat!($before, "time states"),
            concat!($before, "flags"),
            concat!($before, "tallies"),
            concat!($before, "clocks"),
            concat!($before, "clock states"),
            concat!($before, "satellites"),
            concat!($before, "numbers"),
            concat!($before, "states"),
            concat!($before, "losses"),
            concat!($before, "strengths"),
            concat!($before, "carried"),
        ]
    };
}
pub(crate) use buffer_names;

pub const BUFFER_NAMES: [&str; 13] = buffer_names!("");

/// The bytes of an entry of each buffer.
pub const ENTRY_SIZES: [usize; 13] = [4, 8, 1, 1, 2, 8, 1, 2, 8, 1, 1, 1, 1];

/// Further lent memory, numbered after the 13 buffers.
pub const TEXT: usize = 13;
pub const OUT: usize = 14;
pub const KINDS: usize = 15;
pub const FLOATS: usize = 16;

/// A byte of the pattern: `tests/c/region.h` has the same.
fn pattern(buffer: usize, fill: u64, place: usize) -> u8 {
    let shifted = place as u64 + fill + 37 * buffer as u64;
    0xA5 ^ (shifted.wrapping_mul(31) as u8)
}

/// An entry of the pattern, as so many bytes, the lowest first.
fn entry(buffer: usize, fill: u64, number: usize) -> u64 {
    let size = ENTRY_SIZES[buffer];
    let byte = |place: usize| u64::from(pattern(buffer, fill, number * size + place));
    (0..size).map(|place| byte(place) << (8 * place)).sum()
}

/// Tables that are all pattern, of the lengths of a room.
pub fn lend(room: &Room, fill: u64) -> Loose {
    let all = |buffer: usize| {
        let mut lengths = *room;
        (0..*buffer_of(&mut lengths, buffer)).map(move |number| entry(buffer, fill, number))
    };
    let bytes = |buffer: usize| all(buffer).map(|entry| entry as u8).collect();
    let tables = Tables {
        times: all(1).collect(),
        time_states: bytes(2),
        flags: bytes(3),
        line_counts: all(4).map(|entry| entry as u16).collect(),
        clocks: all(5).map(|entry| entry as i64).collect(),
        clock_states: bytes(6),
        satellites: all(7).map(|entry| entry as u16).collect(),
        numbers: all(8).map(|entry| entry as i64).collect(),
        states: bytes(9),
        losses: bytes(10),
        strengths: bytes(11),
        carried: bytes(12),
        ..Tables::default()
    };
    Loose { tables, codes: all(0).map(|entry| entry as u32).collect() }
}

/// The lengths of buffers.
pub fn lengths_of(loose: &mut Loose) -> Room {
    loose.tables.lend(&mut loose.codes).room()
}

/// A room that can be lent: where more is asked for than a text takes, so
/// much that the text is judged alike, and a few entries more.
pub fn lendable(text: &[u8], asked: &Room, random: &mut Random) -> Room {
    let judged = judge(text, asked);
    let mut room = *asked;
    for most in [4, 32, 256, 2_048, 1 << 14, 1 << 17] {
        room = capped(asked, most);
        if judge(text, &room) == judged {
            break;
        }
    }
    for buffer in 1..13 {
        let (length, asked) =
            (buffer_of(&mut room, buffer), *buffer_of(&mut asked.clone(), buffer));
        *length = (*length + random.below(4)).min(asked);
    }
    if room.codes == CODE_PLACES && random.percent(10) {
        room.codes += random.below(70);
    }
    room
}

/// The room with no table longer than so many entries; carried bytes are more.
fn capped(asked: &Room, most: usize) -> Room {
    let mut room = *asked;
    for buffer in 1..12 {
        let length = buffer_of(&mut room, buffer);
        *length = (*length).min(most);
    }
    room.carried = room.carried.min(32 * most);
    room
}

/// Just the room that the tables of an accepted text need.
pub fn exact(head: &Head, counts: &Counts) -> Room {
    let end = |system: usize| match head.lengths[system] as usize {
        0 => 0,
        length => 64 * system + length,
    };
    let codes = (0..7).map(end).max().unwrap_or(0);
    let [epochs, rows] = [counts.epochs as usize, counts.rows as usize];
    Room::new(codes, epochs, rows, counts.slots as usize, counts.carried as usize)
}

/// The lent tables, none of which a call may change.
pub fn kept(record: &mut Record, operation: &str, loose: &Loose) {
    let tables = &loose.tables;
    let lengths = [
        loose.codes.len(),
        tables.times.len(),
        tables.time_states.len(),
        tables.flags.len(),
        tables.line_counts.len(),
        tables.clocks.len(),
        tables.clock_states.len(),
        tables.satellites.len(),
        tables.numbers.len(),
        tables.states.len(),
        tables.losses.len(),
        tables.strengths.len(),
        tables.carried.len(),
    ];
    for (region, &length) in lengths.iter().enumerate() {
        let past = (length > 0).then_some(0);
        let name = BUFFER_NAMES[region];
        record.stray(operation, &Span { region, name, used: 0..0, past, length, side: 2 });
    }
}
