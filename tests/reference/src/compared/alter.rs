//! What can be altered in a stream on purpose, to see that the comparison
//! complains: each value that is due, and each byte of lent memory.

use super::lend::buffer_names;

/// Where the alteration is made: in what is due, anywhere or of a printed zero,
/// or in a reply that is held to another's, or, after the call, in lent memory:
/// a byte that was filled, one that was not though others were, one where none
/// may be filled, or one outside, perhaps far away, perhaps on a forbidden page.
#[derive(Clone, Copy, Debug, PartialEq, Eq)]
pub enum Place {
    Due,
    PrintedZero,
    Used,
    Past,
    Untouched,
    Before,
    Behind,
    Far,
    Forbidden,
}

/// One alteration; `what` are the words that the complaint must have.
#[derive(Clone, Copy, Debug, PartialEq, Eq)]
pub struct Alteration {
    pub what: &'static str,
    pub place: Place,
}

/// The values of a reply of reading, each with these words before it.
macro_rules! reply_names {
    ($before:literal) => {
        [
            concat!($before, "number"),
            concat!($before, "line"),
            concat!($before, "letter"),
            concat!($before, "lengths"),
            concat!($before, "first"),
            concat!($before, "time system"),
            concat!($before, "interval state"),
            concat!($before, "interval"),
            concat!($before, "lines"),
            concat!($before, "epochs"),
            concat!($before, "rows"),
            concat!($before, "slots"),
            concat!($before, "carried bytes"),
        ]
    };
}

const READ_REPLY: [&str; 13] = reply_names!("read: ");

/// The same in more room.
const MORE_REPLY: [&str; 13] = reply_names!("more room: ");

/// The other values that are due and are no entries of lent memory.
const DUE: [&str; 14] = [
    "write: number",
    "write: line",
    "write: count",
    "write: out",
    "epoch: number",
    "epoch: line",
    "epoch: count",
    "epoch: out",
    "slot: kind",
    "slot: value",
    "column: number",
    "column: count",
    "more room: one less: number",
    "more room: one less: line",
];

/// Lent memory that a call fills, besides the tables.
const FILLED: [&str; 4] = ["write: out", "epoch: out", "column: kinds", "column: floats"];

/// Lent memory that a call must leave alone.
const KEPT: [&str; 11] = [
    "read: text",
    "more room: text",
    "more room: one less: numbers",
    "write: codes",
    "write: numbers",
    "write: carried",
    "epoch: satellites",
    "epoch: carried",
    "slot: numbers",
    "column: codes",
    "column: states",
];

/// The words for an entry of a table that is read.
pub fn read_name(buffer: usize) -> &'static str {
    READ_NAMES[buffer]
}

const READ_NAMES: [&str; 13] = buffer_names!("read: ");
const MORE_NAMES: [&str; 13] = buffer_names!("more room: ");

/// A refusal in more room at an earlier line than 16 had in less.
pub const EARLIER: Alteration = Alteration { what: "more room: earlier line", place: Place::Due };

/// A printed zero as a given value, where it is due as blank.
pub const GIVEN_ZERO: Alteration = Alteration { what: "read: states", place: Place::PrintedZero };

/// A byte on a forbidden page; it ends the comparison, and so stands alone.
pub const FORBIDDEN: Alteration = Alteration { what: "read: numbers", place: Place::Forbidden };

/// A byte far away, which is seen in the end only.
pub const FAR: Alteration = Alteration { what: "read: numbers", place: Place::Far };

/// A code that is taken as one that is not, and the reverse; both stand in
/// records of such questions, and in no text's.
pub const TAKEN: Alteration = Alteration { what: "taken: yes", place: Place::Due };
pub const NOT_TAKEN: Alteration = Alteration { what: "taken: no", place: Place::Due };

/// Every other alteration.
pub fn alterations() -> Vec<Alteration> {
    let everywhere = [Place::Used, Place::Past, Place::Untouched, Place::Before, Place::Behind];
    let of = |what: &'static str, place: Place| Alteration { what, place };
    let due = [&READ_REPLY[..], &MORE_REPLY, &DUE, &READ_NAMES].concat();
    let mut all: Vec<Alteration> = due.into_iter().map(|what| of(what, Place::Due)).collect();
    all.extend(["column: kinds", "column: floats"].map(|what| of(what, Place::Due)));
    for what in READ_NAMES.into_iter().chain(MORE_NAMES).chain(FILLED) {
        all.extend(everywhere.map(|place| of(what, place)));
    }
    all.extend(KEPT.map(|what| of(what, Place::Untouched)));
    all.extend([GIVEN_ZERO, EARLIER]);
    all
}
