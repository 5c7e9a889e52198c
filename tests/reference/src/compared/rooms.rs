//! More room must not change an answer: a text in the room that is exact for
//! it, in one entry less of each table, in one more, and in more of all.

use super::alter::EARLIER;
use super::lend::exact;
use super::record::{due_reply, lent_lengths, read_spans, reading};
use super::stream::Record;
use crate::generate::{buffer_of, Random};
use crate::read::{judge, used};
use crate::tables::*;
use std::ops::Range;

/// The buffers of each table: of codes, epochs, rows, slots and carried bytes.
const TABLES: [Range<usize>; 5] = [0..1, 1..7, 7..8, 8..12, 12..13];

/// The place of the answer in exact room among those that others are held to;
/// the answers in one less stand behind it.
const EXACT: usize = 0;

/// Sets the chance in this apart from that in the rest of a record.
const APART: u64 = 0xF00D;

/// Where all tables are longer, each has up to so many entries more.
const MOST_MORE: usize = 70;

/// The text that is loaded, in exact room and then in the others: each answer
/// is held to those in rooms that are nowhere longer.
pub fn rooms(record: &mut Record, name: u64, text: &[u8]) {
    let random = &mut Random::new(name ^ APART);
    let (head, counts) = used(text);
    let room = exact(&head, &counts);
    reading(record, text, &room, random);
    let mut others = Others { record, text, answer: judge(text, &room), random };
    let mut firsts = vec![EXACT];
    let less = TABLES.map(|buffers| {
        let short = one_less(&room, buffers, others.random)?;
        others.less(&short);
        firsts.push(firsts.len());
        firsts.last().copied()
    });
    others.more(&room, &firsts);
    for (buffers, less) in TABLES.into_iter().zip(less) {
        let firsts: Vec<usize> = [Some(EXACT), less].into_iter().flatten().collect();
        let more = one_more(&room, buffers, others.random);
        others.more(&more, &firsts);
    }
    let longer = longer(&room, others.random);
    others.more(&longer, &firsts);
}

/// The text that is loaded, in a room that is longer than the one in which it
/// was just read.
pub fn in_longer(record: &mut Record, text: &[u8], room: &Room, random: &mut Random) {
    let longer = longer(room, random);
    Others { record, text, answer: judge(text, room), random }.more(&longer, &[EXACT]);
}

/// The room with one of a table's buffers an entry shorter, if they have any.
fn one_less(room: &Room, buffers: Range<usize>, random: &mut Random) -> Option<Room> {
    let mut less = *room;
    let length = buffer_of(&mut less, buffers.start + random.below(buffers.len()));
    *length = length.checked_sub(1)?;
    Some(less)
}

/// The room with all of a table's buffers an entry longer, or one of them.
fn one_more(room: &Room, buffers: Range<usize>, random: &mut Random) -> Room {
    let mut more = *room;
    let one = buffers.start + random.below(buffers.len());
    let longer = if random.percent(50) { buffers } else { one..one + 1 };
    longer.for_each(|buffer| *buffer_of(&mut more, buffer) += 1);
    more
}

/// The room with every buffer longer, that of the codes than any list needs.
fn longer(room: &Room, random: &mut Random) -> Room {
    let mut longer = *room;
    longer.codes = longer.codes.max(CODE_PLACES);
    for buffer in 0..13 {
        *buffer_of(&mut longer, buffer) += 1 + random.below(MOST_MORE);
    }
    longer
}

/// Readings of a text in other rooms than the exact one, in which it has this
/// answer.
struct Others<'a> {
    record: &'a mut Record,
    text: &'a [u8],
    answer: Result<(Head, Counts), Refusal>,
    random: &'a mut Random,
}

impl Others<'_> {
    /// A room that is too short: 16 is due, at the line that needs more.
    fn less(&mut self, room: &Room) {
        let call = "more room: one less";
        self.lend(call, room, (Head::default(), Counts::default()));
        self.change(call, 0);
        self.record.number(0);
        self.record.number(judge(self.text, room).map_or_else(|refusal| refusal.line, |_| 0));
    }

    /// A room that is nowhere shorter than those of the answers at these places.
    fn more(&mut self, room: &Room, firsts: &[usize]) {
        let call = "more room";
        self.lend(call, room, self.answer.unwrap_or_default());
        let has_less = firsts.iter().any(|&first| first != EXACT);
        let line = self.answer.err().filter(|_| has_less).map_or(0, |refusal| refusal.line);
        let is_earlier = line > 0 && self.record.takes(EARLIER.what, EARLIER.place);
        self.change(call, if is_earlier { line } else { 0 });
        self.record.number(firsts.len() as u64);
        firsts.iter().for_each(|&first| self.record.number(first as u64));
    }

    /// The start of a reading, of which so much is used.
    fn lend(&mut self, call: &str, room: &Room, (head, counts): (Head, Counts)) {
        let side = self.random.below(2) as u64;
        let fill = self.random.below(256) as u64;
        for span in read_spans(room, &head, &counts, self.text.len(), side) {
            self.record.stray(call, &span);
        }
        self.record.operation(b'M');
        lent_lengths(self.record, room, side, fill);
    }

    /// A change of the reply, by bits: 0, but for an alteration.
    fn change(&mut self, call: &str, line: u64) {
        let change = Refusal { number: 0, line };
        due_reply(self.record, call, change, &Head::default(), &Counts::default());
    }
}
