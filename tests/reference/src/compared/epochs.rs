//! What a record asks of writing one epoch alone: each epoch of tables that a
//! text spells, and the first one of damaged tables.

use super::lend::kept;
use super::stream::Record;
use super::writing::*;
use crate::damage::Loose;
use crate::generate::Random;
use crate::tables::*;
use crate::write::*;

/// At most so many epochs of a table are asked for.
const MOST_EPOCHS: usize = 40;

/// Where the parts of an epoch begin in the tables.
#[derive(Clone, Copy, Default)]
struct Begin {
    row: usize,
    slot: usize,
    carried: usize,
}

/// How many entries of each part are lent.
#[derive(Clone, Copy)]
struct Lengths {
    rows: usize,
    slots: [usize; 4],
    carried: usize,
}

/// One epoch as it is lent: its entry, its parts in the tables, and where its
/// text begins in the normal text that is loaded.
#[derive(Clone, Copy)]
struct Alone<'a> {
    loose: &'a Loose,
    entry: Entry,
    begin: Begin,
    lengths: Lengths,
    from: u64,
}

impl<'a> Alone<'a> {
    fn lent(&self) -> EpochRef<'a> {
        let Alone { begin, lengths, .. } = self;
        let tables = &self.loose.tables;
        let slots = |number: usize| begin.slot..begin.slot + lengths.slots[number];
        let parts = Parts {
            satellites: &tables.satellites[begin.row..begin.row + lengths.rows],
            numbers: &tables.numbers[slots(0)],
            states: &tables.states[slots(1)],
            losses: &tables.losses[slots(2)],
            strengths: &tables.strengths[slots(3)],
            carried: &tables.carried[begin.carried..begin.carried + lengths.carried],
        };
        EpochRef { lists: self.loose.lent().lists(), entry: self.entry, parts }
    }

    /// The text of the epoch, if it has one.
    fn text(&self) -> Option<Vec<u8>> {
        write_epoch(&self.lent(), u64::MAX).ok()
    }

    fn ask(&self, record: &mut Record, target: Target, random: &mut Random) {
        let text = write_epoch(&self.lent(), room_from(target.length, target.at));
        let answer = text.map(|text| text.len() as u64);
        let written = Written { operation: "epoch", target, answer, from: self.from };
        let side = random.below(2) as u64;
        kept(record, "epoch", self.loose);
        stray_out(record, side, &written);
        record.operation(b'E');
        lent_epoch(record, &self.entry, self.begin, &self.lengths);
        due_written(record, side, &written, random);
    }
}

/// Every epoch of tables that a text spells: where it has room, and at times
/// where it has not, or with parts that are too short. The normal text is
/// loaded.
pub fn all_epochs(record: &mut Record, loose: &Loose, random: &mut Random) {
    let tables = &loose.tables;
    let mut from = header_size(loose);
    let mut begin = Begin { carried: header_lines(tables), ..Begin::default() };
    for place in 0..(tables.counts.epochs as usize).min(MOST_EPOCHS) {
        let entry = loose.lent().entry(place);
        let used = used_of(tables, &entry, begin);
        let alone = Alone { loose, entry, begin, lengths: rest(tables, begin), from };
        let size = alone.text().expect("an epoch of spelled tables").len() as u64;
        let fits = if random.percent(50) { exactly(size) } else { inside(size, random) };
        alone.ask(record, fits, random);
        if random.percent(50) {
            alone.ask(record, too_short(size, random), random);
        }
        if random.percent(30) {
            let lengths = part_short(used, random);
            Alone { lengths, ..alone }.ask(record, exactly(size), random);
        }
        from += size;
        begin.row += used.rows;
        begin.slot += used.slots;
        begin.carried += used.carried;
    }
}

/// The bytes of the normal text before its first epoch.
fn header_size(loose: &Loose) -> u64 {
    let lent = loose.lent();
    let lines = header_lines(&loose.tables);
    let counts = Counts { carried: lines as u64, ..Counts::default() };
    write(&TablesRef { counts, ..lent }, u64::MAX).map_or(0, |text| text.len() as u64)
}

/// The carried bytes of the header.
fn header_lines(tables: &Tables) -> usize {
    bytes_of_lines(&tables.carried, tables.head.carried_lines as usize)
}

fn bytes_of_lines(carried: &[u8], lines: usize) -> usize {
    carried.split_inclusive(|&byte| byte == b'\n').take(lines).map(<[u8]>::len).sum()
}

/// What an epoch of spelled tables uses.
fn used_of(tables: &Tables, entry: &Entry, begin: Begin) -> Used {
    let lines = usize::from(entry.count);
    if entry.flag > 1 {
        let carried = bytes_of_lines(&tables.carried[begin.carried..], lines);
        return Used { carried, ..Used::default() };
    }
    let rows = &tables.satellites[begin.row..begin.row + lines];
    let slots_of = |&satellite: &u16| tables.head.lengths[usize::from(satellite) / 100] as usize;
    Used { rows: lines, slots: rows.iter().map(slots_of).sum(), carried: 0 }
}

/// All that is lent from a place on.
fn rest(tables: &Tables, begin: Begin) -> Lengths {
    let slots =
        [tables.numbers.len(), tables.states.len(), tables.losses.len(), tables.strengths.len()];
    Lengths {
        rows: tables.satellites.len() - begin.row,
        slots: slots.map(|length| length - begin.slot),
        carried: tables.carried.len() - begin.carried,
    }
}

/// Just what is used, or one entry less somewhere.
fn part_short(used: Used, random: &mut Random) -> Lengths {
    let mut lengths = Lengths { rows: used.rows, slots: [used.slots; 4], carried: used.carried };
    match random.below(4) {
        0 => lengths.rows = lengths.rows.saturating_sub(1),
        1 => {
            let slots = &mut lengths.slots[random.below(4)];
            *slots = slots.saturating_sub(1);
        }
        2 => lengths.carried = lengths.carried.saturating_sub(1),
        _ => {}
    }
    lengths
}

/// The entry of an epoch by value, and where its parts lie in the tables.
fn lent_epoch(record: &mut Record, entry: &Entry, begin: Begin, lengths: &Lengths) {
    record.number(entry.time_state.into());
    record.number(entry.time);
    record.number(entry.flag.into());
    record.number(entry.count.into());
    record.number(entry.clock_state.into());
    record.signed(entry.clock);
    record.number(begin.row as u64);
    record.number(lengths.rows as u64);
    record.number(begin.slot as u64);
    for length in lengths.slots {
        record.number(length as u64);
    }
    record.number(begin.carried as u64);
    record.number(lengths.carried as u64);
}

/// The first epoch of damaged tables, if its entry is lent. Its text is loaded.
pub fn damaged_epoch(record: &mut Record, loose: &Loose, random: &mut Random) {
    let tables = &loose.tables;
    let bytes = [tables.time_states.len(), tables.flags.len(), tables.clock_states.len()];
    let others = [tables.times.len(), tables.line_counts.len(), tables.clocks.len()];
    if bytes.contains(&0) || others.contains(&0) {
        return;
    }
    let begin = Begin { carried: header_lines(tables), ..Begin::default() };
    let lengths = rest(tables, begin);
    let alone = Alone { loose, entry: loose.lent().entry(0), begin, lengths, from: 0 };
    let text = alone.text();
    if let Some(text) = &text {
        record.operation(b'N');
        record.bytes(text);
    }
    let size = text.map_or(60, |text| text.len() as u64);
    alone.ask(record, inside(size, random), random);
    alone.ask(record, too_short(size, random), random);
}
