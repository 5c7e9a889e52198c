//! What a record asks of writing: where a text is to go, and what is due of the
//! call and of the buffer.

use super::lend::{kept, OUT};
use super::stream::{Record, Span};
use crate::damage::Loose;
use crate::generate::Random;
use crate::write::{room_from, write};

/// Where a text is to be written: into how many bytes, and from which on.
#[derive(Clone, Copy)]
pub struct Target {
    pub length: u64,
    pub at: u64,
}

/// A buffer that the text fills exactly.
pub fn exactly(size: u64) -> Target {
    Target { length: size, at: 0 }
}

/// A place inside a larger buffer.
pub fn inside(size: u64, random: &mut Random) -> Target {
    let at = random.below(60) as u64;
    Target { length: at + size + random.below(60) as u64, at }
}

/// A buffer that is too short from the place on, or a place past its end.
pub fn too_short(size: u64, random: &mut Random) -> Target {
    let at = random.below(60) as u64;
    match random.below(6) {
        0 => Target { length: at, at },
        1 => Target { length: at, at: at + 1 + random.below(5) as u64 },
        2 => Target { length: size + at, at: u64::MAX - random.below(2) as u64 },
        _ => Target { length: at + size.saturating_sub(1), at },
    }
}

/// What is due when a text is written: how it is told, and where in the
/// loaded normal text its bytes begin.
pub struct Written {
    pub operation: &'static str,
    pub target: Target,
    pub answer: Result<u64, u32>,
    pub from: u64,
}

/// The end of an operation that writes: the buffer, and what is due. Where
/// bytes are, a change of the first stands last: 0, but for an alteration.
pub fn due_written(record: &mut Record, side: u64, written: &Written, random: &mut Random) {
    let Written { operation, target, answer, from } = written;
    let count = answer.unwrap_or(0);
    record.number(side);
    record.number(random.below(256) as u64);
    record.number(target.length);
    record.number(target.at);
    let number = answer.err().unwrap_or(0);
    record.due(&format!("{operation}: number"), number.into());
    record.due(&format!("{operation}: line"), 0);
    record.due(&format!("{operation}: count"), count);
    record.number(count);
    record.number(*from);
    if count > 0 {
        record.due(&format!("{operation}: out"), 0);
    }
}

/// The buffer that is written to, with the bytes that are filled.
pub fn stray_out(record: &mut Record, side: u64, written: &Written) {
    let Target { length, at } = written.target;
    let (length, at) = (length as usize, at as usize);
    let count = written.answer.unwrap_or(0) as usize;
    let used = if count > 0 { at..at + count } else { 0..0 };
    let past = [0, length.saturating_sub(1)].into_iter().find(|place| !used.contains(place));
    let past = past.filter(|_| length > 0);
    let span = Span { region: OUT, name: "out", used, past, length, side };
    record.stray(written.operation, &span);
}

/// Writing whole tables: into an exact buffer, inside one, and too short.
pub fn normal_text(record: &mut Record, loose: &Loose, random: &mut Random) {
    let lent = loose.lent();
    let text = write(&lent, u64::MAX);
    let size = text.as_ref().map_or(80, |text| text.len() as u64);
    if let Ok(text) = &text {
        record.operation(b'N');
        record.bytes(text);
    }
    for target in [exactly(size), inside(size, random), too_short(size, random)] {
        let answer =
            write(&lent, room_from(target.length, target.at)).map(|text| text.len() as u64);
        let written = Written { operation: "write", target, answer, from: 0 };
        let side = random.below(2) as u64;
        kept(record, "write", loose);
        stray_out(record, side, &written);
        record.operation(b'W');
        due_written(record, side, &written, random);
    }
}
