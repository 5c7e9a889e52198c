//! The reader. It goes over the text twice: the first time only to judge, so
//! that a refusal changes nothing, the second time to fill the tables.

use crate::codes::is_taken;
use crate::fields::*;
use crate::tables::*;

/// Reads a text into fresh tables, or refuses it.
pub fn read(text: &[u8], room: &Room) -> Result<Tables, Refusal> {
    let (head, counts) = judge(text, room)?;
    let mut codes = vec![0; CODE_PLACES];
    let mut tables = empty_tables(head, counts);
    walk(text, room, Fill::new(tables.lend(&mut codes)))?;
    tables.codes = used_codes(&head, &codes);
    Ok(tables)
}

/// Reads a text into lent buffers. A refusal leaves them as they were.
pub fn read_into(text: &[u8], lent: TablesMut) -> Result<(Head, Counts), Refusal> {
    let room = lent.room();
    judge(text, &room)?;
    walk(text, &room, Fill::new(lent))
}

/// Judges a text without making tables.
pub fn judge(text: &[u8], room: &Room) -> Result<(Head, Counts), Refusal> {
    walk(text, room, Nothing)
}

/// What the lines before the refused one use, or all of them: in less room a
/// text within the limit gets 16, and in this it is answered as in ample room.
pub fn used(text: &[u8]) -> (Head, Counts) {
    let mut walk = Walk::new(text, &Room::ample(), Nothing);
    let _ = walk.all_lines();
    (walk.head, walk.counts)
}

/// Tables of the right sizes, still to be filled.
fn empty_tables(head: Head, counts: Counts) -> Tables {
    let epochs = counts.epochs as usize;
    let slots = counts.slots as usize;
    Tables {
        head,
        counts,
        codes: Vec::new(),
        times: vec![0; epochs],
        time_states: vec![0; epochs],
        flags: vec![0; epochs],
        line_counts: vec![0; epochs],
        clocks: vec![0; epochs],
        clock_states: vec![0; epochs],
        satellites: vec![0; counts.rows as usize],
        numbers: vec![0; slots],
        states: vec![0; slots],
        losses: vec![0; slots],
        strengths: vec![0; slots],
        carried: vec![0; counts.carried as usize],
    }
}

/// The code table with its unused places named.
fn used_codes(head: &Head, codes: &[u32]) -> Vec<Option<u32>> {
    let used = |place: usize| place % LONGEST_LIST < head.lengths[place / LONGEST_LIST] as usize;
    (0..CODE_PLACES).map(|place| used(place).then(|| codes[place])).collect()
}

/// An epoch record, taken apart.
#[derive(Clone, Copy, Debug)]
struct Epoch {
    time: Option<u64>,
    flag: u8,
    count: u32,
    clock: Option<i64>,
}

/// A slot as it is held.
#[derive(Clone, Copy, Debug)]
struct Slot {
    value: Option<i64>,
    loss: u8,
    strength: u8,
}

const BLANK_SLOT: Slot = Slot { value: None, loss: BLANK_MARK, strength: BLANK_MARK };

/// Takes what the walk over a text finds.
trait Taker {
    fn code(&mut self, place: usize, code: u32);
    fn epoch(&mut self, epoch: &Epoch);
    fn satellite(&mut self, satellite: u16);
    fn slot(&mut self, slot: Slot);
    fn carried(&mut self, line: &[u8]);
}

/// Takes nothing: for judging only.
struct Nothing;

impl Taker for Nothing {
    fn code(&mut self, _: usize, _: u32) {}
    fn epoch(&mut self, _: &Epoch) {}
    fn satellite(&mut self, _: u16) {}
    fn slot(&mut self, _: Slot) {}
    fn carried(&mut self, _: &[u8]) {}
}

/// Fills lent buffers with a text that has been judged fit for them.
struct Fill<'a> {
    lent: TablesMut<'a>,
    epochs: usize,
    rows: usize,
    slots: usize,
    carried: usize,
}

impl<'a> Fill<'a> {
    fn new(lent: TablesMut<'a>) -> Fill<'a> {
        Fill { lent, epochs: 0, rows: 0, slots: 0, carried: 0 }
    }
}

impl Taker for Fill<'_> {
    fn code(&mut self, place: usize, code: u32) {
        self.lent.codes[place] = code;
    }

    fn epoch(&mut self, epoch: &Epoch) {
        let place = self.epochs;
        self.lent.times[place] = epoch.time.unwrap_or(0);
        self.lent.time_states[place] = u8::from(epoch.time.is_some());
        self.lent.flags[place] = epoch.flag;
        self.lent.line_counts[place] = epoch.count as u16;
        self.lent.clocks[place] = epoch.clock.unwrap_or(0);
        self.lent.clock_states[place] = u8::from(epoch.clock.is_some());
        self.epochs += 1;
    }

    fn satellite(&mut self, satellite: u16) {
        self.lent.satellites[self.rows] = satellite;
        self.rows += 1;
    }

    #[inline(always)]
    fn slot(&mut self, slot: Slot) {
        let place = self.slots;
        self.lent.numbers[place] = slot.value.unwrap_or(0);
        self.lent.states[place] = u8::from(slot.value.is_some());
        self.lent.losses[place] = slot.loss;
        self.lent.strengths[place] = slot.strength;
        self.slots += 1;
    }

    fn carried(&mut self, line: &[u8]) {
        let end = self.carried + line.len();
        self.lent.carried[self.carried..end].copy_from_slice(line);
        self.lent.carried[end] = b'\n';
        self.carried = end + 1;
    }
}

/// Hands out the lines of a text, each judged by refusals 1 and 2.
struct Lines<'a> {
    rest: &'a [u8],
    /// The number of the line handed out last.
    number: u64,
}

impl<'a> Lines<'a> {
    /// The next line, or none if the text has ended.
    #[inline]
    fn next(&mut self) -> Result<Option<&'a [u8]>, Refusal> {
        if self.rest.is_empty() {
            return Ok(None);
        }
        self.number += 1;
        let length = printable_length(self.rest);
        if self.rest.get(length) != Some(&b'\n') {
            return Err(self.refusal(1));
        }
        if length > LONGEST_LINE {
            return Err(self.refusal(2));
        }
        let line = &self.rest[..length];
        self.rest = &self.rest[length + 1..];
        Ok(Some(line))
    }

    /// The next line where the text may not end.
    #[inline]
    fn due(&mut self) -> Result<&'a [u8], Refusal> {
        match self.next()? {
            Some(line) => Ok(line),
            None => Err(Refusal { number: 14, line: self.number + 1 }),
        }
    }

    /// A refusal at the line handed out last.
    fn refusal(&self, number: u32) -> Refusal {
        Refusal { number, line: self.number }
    }
}

/// How many bytes from the start on are 32 to 126, eight looked at together.
#[inline]
fn printable_length(bytes: &[u8]) -> usize {
    let mut length = 0;
    for chunk in bytes.chunks_exact(8) {
        let word = u64::from_le_bytes(chunk.try_into().unwrap());
        let others = other_bytes(word);
        if others != 0 {
            return length + others.trailing_zeros() as usize / 8;
        }
        length += 8;
    }
    let is_other = |byte: &u8| !(32..=126).contains(byte);
    let tail = &bytes[length..];
    length + tail.iter().position(is_other).unwrap_or(tail.len())
}

/// Marks the bytes of a word that are not 32 to 126. The lowest mark is
/// right; higher ones may come from carries.
#[inline]
fn other_bytes(word: u64) -> u64 {
    const EACH: u64 = 0x0101_0101_0101_0101;
    const TOPS: u64 = 0x80 * EACH;
    let below_32 = word.wrapping_sub(32 * EACH) & !word;
    let above_126 = word.wrapping_add(EACH) | word;
    (below_32 | above_126) & TOPS
}

/// Goes over a text once and hands what it finds to the taker.
fn walk<T: Taker>(text: &[u8], room: &Room, taker: T) -> Result<(Head, Counts), Refusal> {
    if text.len() as u64 > TEXT_LIMIT {
        return Err(Refusal { number: 17, line: 0 });
    }
    let mut walk = Walk::new(text, room, taker);
    walk.all_lines()?;
    Ok((walk.head, walk.counts))
}

/// Where a walk over a text stands.
struct Walk<'a, T> {
    lines: Lines<'a>,
    taker: T,
    epoch_room: u64,
    row_room: u64,
    slot_room: u64,
    carried_room: u64,
    code_room: usize,
    head: Head,
    counts: Counts,
    has_first_time: bool,
    /// The system and length of the list that a continuation is due for.
    open_list: Option<(usize, usize)>,
    /// The codes of the list read last.
    list: [u32; LONGEST_LIST],
    /// The time of the last epoch of flag 0 or 1.
    last_time: Option<u64>,
}

/// Tests of one line give the number of the refusal only.
type Judged<A> = Result<A, u32>;

impl<'a, T: Taker> Walk<'a, T> {
    fn new(text: &'a [u8], room: &Room, taker: T) -> Walk<'a, T> {
        Walk {
            lines: Lines { rest: text, number: 0 },
            taker,
            epoch_room: room.epochs() as u64,
            row_room: room.satellites as u64,
            slot_room: room.slots() as u64,
            carried_room: room.carried as u64,
            code_room: room.codes,
            head: Head::default(),
            counts: Counts::default(),
            has_first_time: false,
            open_list: None,
            list: [0; LONGEST_LIST],
            last_time: None,
        }
    }

    /// Every line. A refused one adds nothing to the head's lengths and counts.
    fn all_lines(&mut self) -> Result<(), Refusal> {
        self.header()?;
        while let Some(line) = self.lines.next()? {
            self.epoch(line)?;
        }
        Ok(())
    }

    /// Adds the line to the number of a refusal.
    #[inline]
    fn at_line<A>(&self, judged: Judged<A>) -> Result<A, Refusal> {
        judged.map_err(|number| self.lines.refusal(number))
    }

    /// The header, up to its end.
    fn header(&mut self) -> Result<(), Refusal> {
        let Some(first) = self.lines.next()? else {
            return Err(Refusal { number: 3, line: 1 });
        };
        self.head.letter = self.at_line(version_letter(first).ok_or(3u32))?;
        loop {
            let line = self.lines.due()?;
            let judged = self.header_line(line);
            if self.at_line(judged)? {
                return Ok(());
            }
        }
    }

    /// One header line after the first; true if it ends the header.
    fn header_line(&mut self, line: &[u8]) -> Judged<bool> {
        let label = label_of(line).filter(|&label| label != Label::ScaleFactor).ok_or(4u32)?;
        let columns: [u8; 60] = padded(line);
        if let Some((system, length)) = self.open_list {
            self.continuation(label, &columns, system, length)?;
            return Ok(false);
        }
        match label {
            Label::Version => return Err(5),
            Label::List => self.list_start(&columns)?,
            Label::FirstTime => self.first_time(&columns)?,
            Label::Interval => self.interval(&columns)?,
            Label::End => return self.end_of_header(&columns),
            Label::MarkerName | Label::Other | Label::ScaleFactor => {
                self.carry(line)?;
                self.head.carried_lines += 1;
            }
        }
        Ok(false)
    }

    /// The first line of a list.
    fn list_start(&mut self, columns: &[u8; 60]) -> Judged<()> {
        let system = system_of(columns[0]);
        if system.is_some_and(|system| self.head.lengths[system] > 0) {
            return Err(5);
        }
        let system = system.ok_or(6u32)?;
        if !letter_allows(self.head.letter, system) || !all_blank(&columns[1..3]) {
            return Err(6);
        }
        let length = whole(&columns[3..6]).ok_or(6u32)? as usize;
        if !(1..=LONGEST_LIST).contains(&length) {
            return Err(6);
        }
        self.codes_of_line(columns, system, length)
    }

    /// A line where the continuation of a list is due.
    fn continuation(
        &mut self,
        label: Label,
        columns: &[u8; 60],
        system: usize,
        length: usize,
    ) -> Judged<()> {
        if label != Label::List || !all_blank(&columns[..LIST_START_WIDTH]) {
            return Err(5);
        }
        self.codes_of_line(columns, system, length)
    }

    /// The codes on one line of a list; those before it are held already.
    fn codes_of_line(&mut self, columns: &[u8; 60], system: usize, length: usize) -> Judged<()> {
        let start = self.head.lengths[system] as usize;
        let end = length.min(start + CODES_A_LINE);
        for place in start..end {
            let column = code_column(place - start);
            let code = code_of(system, &columns[column..column + CODE_WIDTH]).ok_or(6u32)?;
            if self.list[..place].contains(&code) {
                return Err(6);
            }
            self.list[place] = code;
        }
        if !all_blank(&columns[code_column(end - start)..]) {
            return Err(6);
        }
        self.keep_codes(system, start, end)?;
        self.open_list = (end < length).then_some((system, length));
        Ok(())
    }

    /// Hands on the codes of one line, if there is room.
    fn keep_codes(&mut self, system: usize, start: usize, end: usize) -> Judged<()> {
        let base = LONGEST_LIST * system;
        if base + end > self.code_room {
            return Err(16);
        }
        for place in start..end {
            self.taker.code(base + place, self.list[place]);
        }
        self.head.lengths[system] = end as u64;
        Ok(())
    }

    /// TIME OF FIRST OBS.
    fn first_time(&mut self, columns: &[u8; 60]) -> Judged<()> {
        if self.has_first_time {
            return Err(5);
        }
        let (time, system) = first_time_of(columns).ok_or(6u32)?;
        self.head.first_time = time;
        self.head.time_system = system.into();
        self.has_first_time = true;
        Ok(())
    }

    /// INTERVAL.
    fn interval(&mut self, columns: &[u8; 60]) -> Judged<()> {
        if self.head.interval_state == 1 {
            return Err(5);
        }
        let field: [u8; 10] = padded(columns);
        let number = decimal(&field, 3).ok_or(6u32)?;
        if number <= 0 || !all_blank(&columns[10..]) {
            return Err(6);
        }
        self.head.interval = number as u64;
        self.head.interval_state = 1;
        Ok(())
    }

    /// END OF HEADER.
    fn end_of_header(&mut self, columns: &[u8; 60]) -> Judged<bool> {
        let has_list = self.head.lengths.iter().any(|&length| length > 0);
        if !has_list || !self.has_first_time {
            return Err(5);
        }
        if !all_blank(columns) {
            return Err(6);
        }
        Ok(true)
    }

    /// Hands on a carried line, cut, if there is room.
    fn carry(&mut self, line: &[u8]) -> Judged<()> {
        let line = cut(line);
        let need = line.len() as u64 + 1;
        if self.carried_room - self.counts.carried < need {
            return Err(16);
        }
        self.counts.carried += need;
        self.taker.carried(line);
        Ok(())
    }

    /// An epoch record and the lines that follow it.
    fn epoch(&mut self, line: &[u8]) -> Result<(), Refusal> {
        let judged = self.epoch_record(line);
        let epoch = self.at_line(judged)?;
        if epoch.flag < 2 {
            self.rows(epoch.count)
        } else {
            self.event_lines(epoch.flag, epoch.count)
        }
    }

    /// The line where an epoch record must stand.
    fn epoch_record(&mut self, line: &[u8]) -> Judged<Epoch> {
        let epoch = epoch_of(line).ok_or(7u32)?;
        if epoch.flag > 5 {
            return Err(8);
        }
        if epoch.flag < 2 {
            // Time None is less than any time.
            if epoch.time <= self.last_time {
                return Err(9);
            }
            self.last_time = epoch.time;
        }
        if epoch.flag == 3 && epoch.count == 0 {
            return Err(15);
        }
        if self.counts.epochs == self.epoch_room {
            return Err(16);
        }
        self.counts.epochs += 1;
        self.taker.epoch(&epoch);
        Ok(epoch)
    }

    /// The lines of an event.
    fn event_lines(&mut self, flag: u8, count: u32) -> Result<(), Refusal> {
        let mut named = flag != 3;
        for number in 1..=count {
            let line = self.lines.due()?;
            let judged = self.event_line(line, number == count, &mut named);
            self.at_line(judged)?;
        }
        Ok(())
    }

    /// One line of an event. A flag 3 event must have named its marker.
    fn event_line(&mut self, line: &[u8], last: bool, named: &mut bool) -> Judged<()> {
        let label = label_of(line).filter(|label| label.allowed_in_event()).ok_or(4u32)?;
        *named |= label == Label::MarkerName;
        if last && !*named {
            return Err(15);
        }
        self.carry(line)
    }

    /// The rows of an epoch.
    fn rows(&mut self, count: u32) -> Result<(), Refusal> {
        let mut seen = Seen::default();
        for _ in 0..count {
            let line = self.lines.due()?;
            let judged = self.row(line, &mut seen);
            self.at_line(judged)?;
        }
        Ok(())
    }

    /// One row.
    #[inline]
    fn row(&mut self, line: &[u8], seen: &mut Seen) -> Judged<()> {
        let (system, satellite) = satellite_of(line).ok_or(10u32)?;
        let slots = self.head.lengths[system] as usize;
        if slots == 0 {
            return Err(11);
        }
        if !seen.is_new(satellite) {
            return Err(12);
        }
        self.slots(&line[SATELLITE_WIDTH..], slots)?;
        let rows_full = self.counts.rows == self.row_room;
        if rows_full || self.slot_room - self.counts.slots < slots as u64 {
            return Err(16);
        }
        self.counts.rows += 1;
        self.counts.slots += slots as u64;
        self.taker.satellite(satellite);
        Ok(())
    }

    /// The slots of a row: whole ones, perhaps one cut short by the line's
    /// end, and the rest, which are blank.
    #[inline]
    fn slots(&mut self, columns: &[u8], slots: usize) -> Judged<()> {
        if !blank_from(columns, SLOT_WIDTH * slots) {
            return Err(13);
        }
        let columns = &columns[..columns.len().min(SLOT_WIDTH * slots)];
        let whole_ones = columns.chunks_exact(SLOT_WIDTH);
        let cut_short = whole_ones.remainder();
        let mut left = slots - whole_ones.len();
        for field in whole_ones {
            let slot = slot_of(field.try_into().unwrap()).ok_or(13u32)?;
            self.taker.slot(slot);
        }
        if !cut_short.is_empty() {
            let slot = slot_of(&padded(cut_short)).ok_or(13u32)?;
            self.taker.slot(slot);
            left -= 1;
        }
        for _ in 0..left {
            self.taker.slot(BLANK_SLOT);
        }
        Ok(())
    }
}

/// The satellites of one epoch, a bit each.
#[derive(Default)]
struct Seen {
    bits: [u64; 11],
}

impl Seen {
    /// Notes a satellite; false if it stood here already.
    fn is_new(&mut self, satellite: u16) -> bool {
        let word = &mut self.bits[usize::from(satellite) / 64];
        let bit = 1 << (satellite % 64);
        let new = *word & bit == 0;
        *word |= bit;
        new
    }
}

/// The file letter, if the line is a fit version line.
fn version_letter(line: &[u8]) -> Option<u8> {
    let columns: [u8; 60] = padded(line);
    let fit = label_of(line) == Some(Label::Version)
        && columns[..9] == *b"     3.03"
        && all_blank(&columns[9..20])
        && columns[20] == b'O'
        && is_file_letter(columns[40]);
    fit.then_some(columns[40])
}

/// A blank and a code of the system, held packed.
fn code_of(system: usize, columns: &[u8]) -> Option<u32> {
    let code = pack_code([columns[1], columns[2], columns[3]]);
    (columns[0] == b' ' && is_taken(system, code)).then_some(code)
}

/// The time and the place of the time system in TIME OF FIRST OBS.
fn first_time_of(columns: &[u8; 60]) -> Option<(u64, u32)> {
    let year = whole(&columns[..6])?;
    let month = whole(&columns[6..12])?;
    let day = whole(&columns[12..18])?;
    let hour = whole(&columns[18..24])?;
    let minute = whole(&columns[24..30])?;
    let second = seconds::<13>(columns[30..43].try_into().unwrap())?;
    let time = time([year, month, day], hour, minute, second)?;
    let system = TIME_SYSTEMS.iter().position(|name| columns[48..51] == *name)?;
    let rest_blank = all_blank(&columns[43..48]) && all_blank(&columns[51..]);
    rest_blank.then_some((time, system as u32))
}

/// An epoch record; flags 6 to 9 are judged as flag 0.
fn epoch_of(line: &[u8]) -> Option<Epoch> {
    let columns: [u8; 56] = padded(line);
    let flag = columns[31].wrapping_sub(b'0');
    let gaps_blank = columns[1] == b' '
        && columns[29..31] == *b"  "
        && columns[35..41] == *b"      "
        && blank_from(line, 56);
    if columns[0] != b'>' || flag > 9 || !gaps_blank {
        return None;
    }
    let is_event = (2..=5).contains(&flag);
    let count = whole(&columns[32..35])?;
    let may_lack_time = (2..=4).contains(&flag);
    let time = if may_lack_time && all_blank(&columns[2..29]) {
        None
    } else {
        Some(epoch_time(columns[2..29].try_into().unwrap())?)
    };
    let clock_field: &[u8; 15] = columns[41..56].try_into().unwrap();
    let clock = match decimal_or_blank(clock_field, 12) {
        Field::Blank => None,
        Field::Number(clock) if !is_event => Some(clock),
        _ => return None,
    };
    Some(Epoch { time, flag, count, clock })
}

/// The time in columns 3-29 of an epoch record.
fn epoch_time(columns: &[u8; 27]) -> Option<u64> {
    let gaps = [columns[4], columns[7], columns[10], columns[13]];
    if gaps != [b' '; 4] {
        return None;
    }
    let year = whole(&columns[..4])?;
    let month = whole(&columns[5..7])?;
    let day = whole(&columns[8..10])?;
    let hour = whole(&columns[11..13])?;
    let minute = whole(&columns[14..16])?;
    let second = seconds::<11>(columns[16..].try_into().unwrap())?;
    time([year, month, day], hour, minute, second)
}

/// The system and the held satellite in columns 1-3 of a row.
#[inline]
fn satellite_of(line: &[u8]) -> Option<(usize, u16)> {
    let columns = line.get(..SATELLITE_WIDTH)?;
    let system = system_of(columns[0])?;
    let tens = columns[1].wrapping_sub(b'0');
    let ones = columns[2].wrapping_sub(b'0');
    let number = u16::from(tens) * 10 + u16::from(ones);
    let fit = tens <= 9 && ones <= 9 && number > 0;
    fit.then_some((system, system as u16 * 100 + number))
}

/// The columns of a slot. A printed zero is a missing observation: held as
/// blank, beside its marks.
#[inline(always)]
fn slot_of(columns: &[u8; SLOT_WIDTH]) -> Option<Slot> {
    let value_field: &[u8; VALUE_WIDTH] = columns[..VALUE_WIDTH].try_into().unwrap();
    let value = match decimal_or_blank(value_field, VALUE_DECIMALS) {
        Field::Unfit => return None,
        Field::Blank | Field::Number(0) => None,
        Field::Number(number) => Some(number),
    };
    let loss = mark_of(columns[LOSS_COLUMN], 7)?;
    let strength = mark_of(columns[STRENGTH_COLUMN], 9)?;
    Some(Slot { value, loss, strength })
}

/// A mark: blank, or a digit up to the largest.
#[inline(always)]
fn mark_of(column: u8, largest: u8) -> Option<u8> {
    if column == b' ' {
        return Some(BLANK_MARK);
    }
    let mark = column.wrapping_sub(b'0');
    (mark <= largest).then_some(mark)
}
