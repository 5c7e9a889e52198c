//! The record of one text for the comparison: what is lent, and all that is
//! due, by this implementation alone.

use super::alter::{read_name, Alteration, GIVEN_ZERO};
use super::epochs::{all_epochs, damaged_epoch};
use super::lend::*;
use super::questions::{columns, slots};
use super::rooms::{in_longer, rooms};
use super::stream::{Record, Span, AT_END};
use super::writing::normal_text;
use crate::damage::{damage, Loose};
use crate::fields::{LONGEST_LIST, TEXT_LIMIT};
use crate::generate::{buffer_of, case, valid, Random};
use crate::read::{judge, read_into};
use crate::tables::*;
use crate::zeros::printed_zeros;

/// Tables of more slots than this are not damaged: that is tried on small ones.
const MOST_DAMAGED: u64 = 300;

/// One of so many seeds has a text that is cut off at every place.
const CUT_SEEDS: u64 = 4_000;

/// The record of a seed.
pub fn record_of_seed(seed: u64, alteration: Option<Alteration>) -> Record {
    if is_cut_everywhere(seed) {
        return cut_everywhere(seed, alteration);
    }
    let case = case(seed);
    record(seed, &case.text, &case.room, alteration)
}

/// The text of a seed.
pub fn text_of_seed(seed: u64) -> Vec<u8> {
    match is_cut_everywhere(seed) {
        true => short_text(seed),
        false => case(seed).text,
    }
}

fn is_cut_everywhere(seed: u64) -> bool {
    seed % CUT_SEEDS == CUT_SEEDS - 1
}

/// The record of a text: read in exact room, in less and in more, then with the
/// room, and if it is accepted also with less, written, asked about and damaged.
pub fn record(name: u64, text: &[u8], asked: &Room, alteration: Option<Alteration>) -> Record {
    let random = &mut Random::new(name ^ 0x5EED);
    let mut record = Record::new(name, alteration);
    record.operation(b'T');
    record.bytes(text);
    rooms(&mut record, name, text);
    let room = lendable(text, asked, random);
    if let Ok((head, counts)) = judge(text, &room) {
        if random.percent(25) {
            reading(&mut record, text, &one_short(&exact(&head, &counts), random), random);
        }
    }
    if let Some(loose) = reading(&mut record, text, &room, random) {
        normal_text(&mut record, &loose, random);
        all_epochs(&mut record, &loose, random);
        slots(&mut record, &loose, random);
        columns(&mut record, &loose, random);
        if loose.tables.counts.slots <= MOST_DAMAGED && random.percent(50) {
            damaged(&mut record, &loose, random);
        }
    }
    record
}

/// A short valid text, read up to each of its places.
fn cut_everywhere(name: u64, alteration: Option<Alteration>) -> Record {
    let random = &mut Random::new(name);
    let mut record = Record::new(name, alteration);
    let text = short_text(name);
    record.operation(b'T');
    record.bytes(&text);
    rooms(&mut record, name, &text);
    for end in 0..text.len() {
        let room = lendable(&text[..end], &Room::ample(), random);
        reading(&mut record, &text[..end], &room, random);
    }
    record
}

/// A short valid text.
fn short_text(seed: u64) -> Vec<u8> {
    let random = &mut Random::new(seed);
    loop {
        let text = valid(random).text();
        if text.len() < 1_500 {
            return text;
        }
    }
}

/// The longest text, and one byte more: both all zeros; each in a room and in a
/// longer one.
pub fn longest_texts(name: u64) -> Record {
    let random = &mut Random::new(name);
    let zeros = vec![0; TEXT_LIMIT as usize + 1];
    let room = Room::new(CODE_PLACES, 3, 3, 3, 3);
    let mut record = Record::new(name, None);
    for text in [&zeros[..], &zeros[1..]] {
        record.operation(b'Z');
        record.number(text.len() as u64);
        reading(&mut record, text, &room, random);
        in_longer(&mut record, text, &room, random);
    }
    record
}

/// A room with one buffer shorter than the tables need, if they need any.
fn one_short(exact: &Room, random: &mut Random) -> Room {
    let mut room = *exact;
    let needed = |&buffer: &usize| *buffer_of(&mut exact.clone(), buffer) > 0;
    let buffers: Vec<usize> = (0..13).filter(needed).collect();
    if let Some(buffer) = random.pick_any(&buffers) {
        let length = buffer_of(&mut room, buffer);
        *length = if random.percent(60) { *length - 1 } else { random.below(*length) };
    }
    room
}

/// Reading the first bytes of the text that is loaded, or all. The tables, if
/// it is accepted.
pub fn reading(
    record: &mut Record,
    text: &[u8],
    room: &Room,
    random: &mut Random,
) -> Option<Loose> {
    let side = random.below(2) as u64;
    let fill = random.below(256) as u64;
    let mut loose = lend(room, fill);
    let answer = read_into(text, loose.tables.lend(&mut loose.codes));
    let (head, counts) = answer.unwrap_or_default();
    for span in read_spans(room, &head, &counts, text.len(), side) {
        record.stray("read", &span);
    }
    record.operation(b'R');
    record.number(text.len() as u64);
    lent_lengths(record, room, side, fill);
    let refusal = answer.err().unwrap_or(Refusal { number: 0, line: 0 });
    due_reply(record, "read", refusal, &head, &counts);
    record.number(answer.is_ok().into());
    answer.ok()?;
    (loose.tables.head, loose.tables.counts) = (head, counts);
    match given_zero(record, text, &loose) {
        Some(altered) => due_tables(record, &altered),
        None => due_tables(record, &loose),
    }
    Some(loose)
}

/// The tables with the first printed zero given, if that is to be altered and
/// the text has one.
fn given_zero(record: &mut Record, text: &[u8], loose: &Loose) -> Option<Loose> {
    let zero = *printed_zeros(text, &loose.tables).first()?;
    record.takes(GIVEN_ZERO.what, GIVEN_ZERO.place).then(|| {
        let mut given = loose.clone();
        given.tables.states[zero] = 1;
        given
    })
}

pub fn lent_lengths(record: &mut Record, room: &Room, side: u64, fill: u64) {
    record.number(side);
    record.number(fill);
    for buffer in 0..13 {
        record.number(*buffer_of(&mut room.clone(), buffer) as u64);
    }
}

/// The lent memory of reading, with what is filled.
pub fn read_spans(room: &Room, head: &Head, counts: &Counts, text: usize, side: u64) -> Vec<Span> {
    let length_at = |place: usize| *head.lengths.get(place / LONGEST_LIST).unwrap_or(&0) as usize;
    let used = |place: usize| place % LONGEST_LIST < length_at(place);
    let mut spans = vec![Span {
        region: TEXT,
        name: "text",
        used: 0..0,
        past: (text > 0).then_some(text / 2),
        length: text,
        side,
    }];
    for buffer in 0..13 {
        let size = ENTRY_SIZES[buffer];
        let length = size * *buffer_of(&mut room.clone(), buffer);
        let filled = size * count_of(counts, buffer) as usize;
        let mut span = Span {
            region: buffer,
            name: BUFFER_NAMES[buffer],
            used: 0..filled,
            past: (filled < length).then_some(filled),
            length,
            side,
        };
        if buffer == 0 {
            let first =
                (0..room.codes).find(|&place| used(place)).map_or(0..0, |at| 4 * at..4 * at + 4);
            span.used = first;
            span.past = (0..room.codes).find(|&place| !used(place)).map(|place| 4 * place);
        }
        spans.push(span);
    }
    spans
}

/// The count that a buffer other than the codes goes by.
fn count_of(counts: &Counts, buffer: usize) -> u64 {
    match buffer {
        0..=6 => counts.epochs,
        7 => counts.rows,
        8..=11 => counts.slots,
        _ => counts.carried,
    }
}

/// A reply of reading.
pub fn due_reply(record: &mut Record, call: &str, refusal: Refusal, head: &Head, counts: &Counts) {
    record.due(&format!("{call}: number"), refusal.number.into());
    record.due(&format!("{call}: line"), refusal.line);
    due_head(record, call, head);
    due_counts(record, call, counts);
}

fn due_head(record: &mut Record, call: &str, head: &Head) {
    record.due(&format!("{call}: letter"), head.letter.into());
    record.due_entries(&format!("{call}: lengths"), head.lengths.into_iter());
    record.due(&format!("{call}: first"), head.first_time);
    record.due(&format!("{call}: time system"), head.time_system);
    record.due(&format!("{call}: interval state"), head.interval_state.into());
    record.due(&format!("{call}: interval"), head.interval);
    record.due(&format!("{call}: lines"), head.carried_lines);
}

fn due_counts(record: &mut Record, call: &str, counts: &Counts) {
    record.due(&format!("{call}: epochs"), counts.epochs);
    record.due(&format!("{call}: rows"), counts.rows);
    record.due(&format!("{call}: slots"), counts.slots);
    record.due(&format!("{call}: carried bytes"), counts.carried);
}

/// The entries that reading must fill.
fn due_tables(record: &mut Record, loose: &Loose) {
    for system in 0..7 {
        let length = loose.tables.head.lengths[system] as usize;
        let start = if length > 0 { LONGEST_LIST * system } else { 0 };
        due_buffer(record, loose, 0, start..start + length);
    }
    for buffer in 1..13 {
        due_buffer(record, loose, buffer, 0..count_of(&loose.tables.counts, buffer) as usize);
    }
}

/// Some entries of a buffer, with their count.
fn due_buffer(record: &mut Record, loose: &Loose, buffer: usize, places: std::ops::Range<usize>) {
    let tables = &loose.tables;
    let name = read_name(buffer);
    let signed = |&number: &i64| (number << 1 ^ number >> 63) as u64;
    let bytes = match buffer {
        2 => &tables.time_states,
        3 => &tables.flags,
        6 => &tables.clock_states,
        9 => &tables.states,
        10 => &tables.losses,
        11 => &tables.strengths,
        12 => &tables.carried,
        _ => {
            record.number(places.len() as u64);
            return match buffer {
                0 => record.due_entries(name, loose.codes[places].iter().map(|&code| code.into())),
                1 => record.due_entries(name, tables.times[places].iter().copied()),
                4 => record.due_entries(name, tables.line_counts[places].iter().map(|&n| n.into())),
                5 => record.due_entries(name, tables.clocks[places].iter().map(signed)),
                7 => record.due_entries(name, tables.satellites[places].iter().map(|&n| n.into())),
                _ => record.due_entries(name, tables.numbers[places].iter().map(signed)),
            };
        }
    };
    record.due_bytes(name, &bytes[places]);
}

/// Tables damaged once or twice, lent in full, written and asked about.
fn damaged(record: &mut Record, loose: &Loose, random: &mut Random) {
    let mut damaged = loose.clone();
    damage(&mut damaged, random);
    lending(record, &mut damaged);
    normal_text(record, &damaged, random);
    damaged_epoch(record, &damaged, random);
    slots(record, &damaged, random);
    columns(record, &damaged, random);
}

/// Tables lent as they are, every entry.
fn lending(record: &mut Record, loose: &mut Loose) {
    let room = lengths_of(loose);
    record.operation(b'L');
    lent_lengths(record, &room, AT_END, 0);
    let mut plain = Record::part();
    due_head(&mut plain, "read", &loose.tables.head);
    due_counts(&mut plain, "read", &loose.tables.counts);
    for buffer in 0..13 {
        due_buffer(&mut plain, loose, buffer, 0..*buffer_of(&mut room.clone(), buffer));
    }
    record.append(plain);
}
