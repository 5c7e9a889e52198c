//! The writer: judges whether some text spells the tables, and writes the one
//! normal text.

use crate::codes::is_taken;
use crate::fields::*;
use crate::tables::*;

/// No text spells the tables.
pub const NOT_SPELLED: u32 = 20;
/// The normal text does not fit.
pub const NO_ROOM: u32 = 21;

/// The normal text of the tables, if it has at most `limit` bytes.
pub fn write(tables: &TablesRef, limit: u64) -> Result<Vec<u8>, u32> {
    if !is_spelled(tables) {
        return Err(NOT_SPELLED);
    }
    let mut out = Out::new(limit);
    spell_file(tables, &mut out);
    out.finish()
}

/// Writes the normal text into a lent buffer from a place on; the answer is
/// the count of bytes written. A refusal leaves the buffer as it stood.
pub fn write_into(tables: &TablesRef, buffer: &mut [u8], place: u64) -> Result<u64, u32> {
    let text = write(tables, room_from(buffer.len() as u64, place))?;
    Ok(copy_to(buffer, place, &text))
}

/// The bytes from a place to a buffer's end; none if the place lies past it.
pub fn room_from(length: u64, place: u64) -> u64 {
    length.saturating_sub(place)
}

/// Copies a text that fits to its place in the buffer.
fn copy_to(buffer: &mut [u8], place: u64, text: &[u8]) -> u64 {
    let place = place as usize;
    buffer[place..place + text.len()].copy_from_slice(text);
    text.len() as u64
}

/// One epoch alone: the lists it stands under, its own entries, and the
/// tables lent from its first row, slot and carried byte on.
#[derive(Clone, Copy, Debug)]
pub struct EpochRef<'a> {
    pub lists: Lists<'a>,
    pub entry: Entry,
    pub parts: Parts<'a>,
}

/// The normal text of one epoch, if it has at most `limit` bytes.
pub fn write_epoch(epoch: &EpochRef, limit: u64) -> Result<Vec<u8>, u32> {
    if !lists_fit(&epoch.lists) {
        return Err(NOT_SPELLED);
    }
    if used_by(&epoch.lists, &epoch.entry, &epoch.parts).is_none() {
        return Err(NOT_SPELLED);
    }
    let mut out = Out::new(limit);
    spell_epoch(&epoch.lists, &epoch.entry, &epoch.parts, &mut out);
    out.finish()
}

/// Writes one epoch into a lent buffer from a place on.
pub fn write_epoch_into(epoch: &EpochRef, buffer: &mut [u8], place: u64) -> Result<u64, u32> {
    let text = write_epoch(epoch, room_from(buffer.len() as u64, place))?;
    Ok(copy_to(buffer, place, &text))
}

/// The code lists of a header.
#[derive(Clone, Copy, Debug)]
pub struct Lists<'a> {
    pub lengths: [u64; 7],
    pub codes: &'a [u32],
}

impl<'a> Lists<'a> {
    /// The codes of a system; none if they are not all lent.
    fn of(&self, system: usize) -> Option<&'a [u32]> {
        let start = LONGEST_LIST * system;
        let length = self.lengths[system] as usize;
        if length == 0 {
            return Some(&[]);
        }
        self.codes.get(start..start.checked_add(length)?)
    }
}

/// The entries of one epoch record.
#[derive(Clone, Copy, Debug)]
pub struct Entry {
    pub time: u64,
    pub time_state: u8,
    pub flag: u8,
    pub count: u16,
    pub clock: i64,
    pub clock_state: u8,
}

/// Rows, slots and carried bytes from some place on.
#[derive(Clone, Copy, Debug)]
pub struct Parts<'a> {
    pub satellites: &'a [u16],
    pub numbers: &'a [i64],
    pub states: &'a [u8],
    pub losses: &'a [u8],
    pub strengths: &'a [u8],
    pub carried: &'a [u8],
}

/// How much of the parts one epoch uses.
#[derive(Clone, Copy, Debug, Default, PartialEq, Eq)]
pub struct Used {
    pub rows: usize,
    pub slots: usize,
    pub carried: usize,
}

impl<'a> Parts<'a> {
    /// The parts behind what was used.
    fn after(&self, used: Used) -> Parts<'a> {
        Parts {
            satellites: behind(self.satellites, used.rows),
            numbers: behind(self.numbers, used.slots),
            states: behind(self.states, used.slots),
            losses: behind(self.losses, used.slots),
            strengths: behind(self.strengths, used.slots),
            carried: behind(self.carried, used.carried),
        }
    }

    /// How many slots are lent.
    fn slots(&self) -> usize {
        let values = self.numbers.len().min(self.states.len());
        values.min(self.losses.len()).min(self.strengths.len())
    }

    /// True if nothing is left.
    fn is_empty(&self) -> bool {
        self.satellites.is_empty() && self.numbers.is_empty() && self.carried.is_empty()
    }
}

/// A slice from a place on.
fn behind<A>(slice: &[A], place: usize) -> &[A] {
    slice.get(place..).unwrap_or(&[])
}

impl<'a> TablesRef<'a> {
    pub fn lists(&self) -> Lists<'a> {
        Lists { lengths: self.head.lengths, codes: self.codes }
    }

    /// Epoch number `place`, which is within the count.
    pub fn entry(&self, place: usize) -> Entry {
        Entry {
            time: self.times[place],
            time_state: self.time_states[place],
            flag: self.flags[place],
            count: self.line_counts[place],
            clock: self.clocks[place],
            clock_state: self.clock_states[place],
        }
    }

    /// Rows, slots and carried bytes up to the counts, which are lent.
    pub fn parts(&self) -> Parts<'a> {
        let slots = self.counts.slots as usize;
        Parts {
            satellites: &self.satellites[..self.counts.rows as usize],
            numbers: &self.numbers[..slots],
            states: &self.states[..slots],
            losses: &self.losses[..slots],
            strengths: &self.strengths[..slots],
            carried: &self.carried[..self.counts.carried as usize],
        }
    }
}

/// True if some text spells the tables.
pub fn is_spelled(tables: &TablesRef) -> bool {
    counts_are_lent(tables)
        && head_fits(&tables.head)
        && lists_fit(&tables.lists())
        && body_fits(tables)
}

/// True if the counts do not pass the lengths of the lent buffers.
pub fn counts_are_lent(tables: &TablesRef) -> bool {
    let epochs = [
        tables.times.len(),
        tables.time_states.len(),
        tables.flags.len(),
        tables.line_counts.len(),
        tables.clocks.len(),
        tables.clock_states.len(),
    ];
    let slots =
        [tables.numbers.len(), tables.states.len(), tables.losses.len(), tables.strengths.len()];
    let within = |count: u64, lengths: &[usize]| lengths.iter().all(|&n| count <= n as u64);
    within(tables.counts.epochs, &epochs)
        && within(tables.counts.slots, &slots)
        && within(tables.counts.rows, &[tables.satellites.len()])
        && within(tables.counts.carried, &[tables.carried.len()])
}

/// Letter, list lengths by the letter, first time, time system, interval.
fn head_fits(head: &Head) -> bool {
    let allowed = |system: usize| head.lengths[system] == 0 || letter_allows(head.letter, system);
    is_file_letter(head.letter)
        && (0..7).all(allowed)
        && head.first_time < TIME_END
        && head.time_system < TIME_SYSTEMS.len() as u64
        && interval_fits(head)
}

fn interval_fits(head: &Head) -> bool {
    match head.interval_state {
        0 => head.interval == 0,
        1 => (1..=LARGEST_INTERVAL).contains(&head.interval),
        _ => false,
    }
}

/// True if some header has these lists.
fn lists_fit(lists: &Lists) -> bool {
    let any = lists.lengths.iter().any(|&length| length > 0);
    let list_of = |system: usize| lists.of(system).is_some_and(|codes| list_fits(system, codes));
    any && (0..7).all(list_of)
}

/// At most 64 codes, all of the system and different.
fn list_fits(system: usize, codes: &[u32]) -> bool {
    let fit_and_new =
        |place: usize| is_taken(system, codes[place]) && !codes[..place].contains(&codes[place]);
    codes.len() <= LONGEST_LIST && (0..codes.len()).all(fit_and_new)
}

/// Carried header lines and epochs; they must use up rows, slots and carried.
fn body_fits(tables: &TablesRef) -> bool {
    let lists = tables.lists();
    let in_header = |label: Label| label.carried_in_header();
    let lines = tables.head.carried_lines;
    let Some(bytes) = lines_used(tables.parts().carried, lines, in_header, &mut false) else {
        return false;
    };
    let mut parts = tables.parts().after(Used { carried: bytes, ..Used::default() });
    let mut last_time = None;
    for place in 0..tables.counts.epochs as usize {
        let entry = tables.entry(place);
        let Some(used) = used_by(&lists, &entry, &parts) else {
            return false;
        };
        if entry.flag < 2 {
            if Some(entry.time) <= last_time {
                return false;
            }
            last_time = Some(entry.time);
        }
        parts = parts.after(used);
    }
    parts.is_empty()
}

/// What a fit epoch uses of the parts; none if no text has such an epoch.
fn used_by(lists: &Lists, entry: &Entry, parts: &Parts) -> Option<Used> {
    if u32::from(entry.count) > LARGEST_COUNT || !time_fits(entry) || !clock_fits(entry) {
        return None;
    }
    match entry.flag {
        0 | 1 => rows_used(lists, entry.count, parts),
        2..=5 => event_used(entry, parts),
        _ => None,
    }
}

/// A time is given, or missing in an event of flag 2, 3 or 4.
fn time_fits(entry: &Entry) -> bool {
    match entry.time_state {
        0 => entry.time == 0 && (2..=4).contains(&entry.flag),
        1 => entry.time < TIME_END,
        _ => false,
    }
}

/// A clock is missing, or given at flag 0 or 1.
fn clock_fits(entry: &Entry) -> bool {
    match entry.clock_state {
        0 => entry.clock == 0,
        1 => entry.flag < 2 && (SMALLEST_CLOCK..=LARGEST_CLOCK).contains(&entry.clock),
        _ => false,
    }
}

/// The rows and slots of an observed epoch.
fn rows_used(lists: &Lists, count: u16, parts: &Parts) -> Option<Used> {
    let rows = usize::from(count);
    let satellites = parts.satellites.get(..rows)?;
    let mut slots = 0;
    let mut seen = [false; 700];
    for &satellite in satellites {
        let length = slots_of(lists, satellite)?;
        if std::mem::replace(&mut seen[usize::from(satellite)], true) {
            return None;
        }
        slots += length;
    }
    let fit = slots <= parts.slots() && (0..slots).all(|place| slot_fits(parts, place));
    fit.then_some(Used { rows, slots, carried: 0 })
}

/// The slots of a satellite's row; none if there is no such satellite, or
/// its system has no list.
fn slots_of(lists: &Lists, satellite: u16) -> Option<usize> {
    let system = usize::from(satellite) / 100;
    let length = *lists.lengths.get(system)? as usize;
    (satellite % 100 > 0 && length > 0).then_some(length)
}

fn slot_fits(parts: &Parts, place: usize) -> bool {
    value_fits(parts.states[place], parts.numbers[place])
        && mark_fits(parts.losses[place], 7)
        && mark_fits(parts.strengths[place], 9)
}

/// A value is blank, or given and not 0.
fn value_fits(state: u8, number: i64) -> bool {
    match state {
        0 => number == 0,
        1 => number != 0 && (SMALLEST_VALUE..=LARGEST_VALUE).contains(&number),
        _ => false,
    }
}

fn mark_fits(mark: u8, largest: u8) -> bool {
    mark == BLANK_MARK || mark <= largest
}

/// The carried lines of an event.
fn event_used(entry: &Entry, parts: &Parts) -> Option<Used> {
    let mut named = false;
    let in_event = |label: Label| label.allowed_in_event();
    let lines = u64::from(entry.count);
    let carried = lines_used(parts.carried, lines, in_event, &mut named)?;
    (entry.flag != 3 || named).then_some(Used { carried, ..Used::default() })
}

/// The bytes of so many carried lines, each cut, ended by LF and of an
/// allowed label. Notes if one of them is MARKER NAME.
fn lines_used(
    carried: &[u8],
    lines: u64,
    allowed: impl Fn(Label) -> bool,
    named: &mut bool,
) -> Option<usize> {
    let mut place = 0;
    for _ in 0..lines {
        let line = first_line(&carried[place..])?;
        let label = carried_label(line).filter(|&label| allowed(label))?;
        *named |= label == Label::MarkerName;
        place += line.len() + 1;
    }
    Some(place)
}

/// The first line of some bytes, without its LF.
fn first_line(bytes: &[u8]) -> Option<&[u8]> {
    let length = bytes.iter().position(|&byte| byte == b'\n')?;
    Some(&bytes[..length])
}

/// The label of a carried line, if the line is printable and cut.
fn carried_label(line: &[u8]) -> Option<Label> {
    let printable = line.iter().all(|byte| (32..=126).contains(byte));
    if !printable || line.last() == Some(&b' ') {
        return None;
    }
    label_of(line)
}

/// Text up to a limit. Past it nothing more is kept.
pub struct Out {
    bytes: Vec<u8>,
    limit: u64,
    overflow: bool,
}

impl Out {
    pub fn new(limit: u64) -> Out {
        Out { bytes: Vec::new(), limit: limit.min(TEXT_LIMIT), overflow: false }
    }

    /// Adds a line without its trailing blanks, and LF.
    fn line(&mut self, line: &[u8]) {
        self.bytes_and_lf(cut(line));
    }

    /// Adds bytes as they are, and LF.
    fn bytes_and_lf(&mut self, bytes: &[u8]) {
        let length = self.bytes.len() as u64 + bytes.len() as u64 + 1;
        self.overflow |= length > self.limit;
        if !self.overflow {
            self.bytes.extend_from_slice(bytes);
            self.bytes.push(b'\n');
        }
    }

    pub fn finish(self) -> Result<Vec<u8>, u32> {
        if self.overflow {
            return Err(NO_ROOM);
        }
        Ok(self.bytes)
    }
}

/// Writes the tables down without judging them. The counts must be lent; the
/// text spells the tables only if some text does.
pub fn spell_file(tables: &TablesRef, out: &mut Out) {
    let lists = tables.lists();
    spell_head(&tables.head, &lists, out);
    let carried = spell_lines(tables.parts().carried, tables.head.carried_lines, out);
    out.line(&labelled(b"", b"END OF HEADER"));
    let mut parts = tables.parts().after(Used { carried, ..Used::default() });
    for place in 0..tables.counts.epochs as usize {
        let used = spell_epoch(&lists, &tables.entry(place), &parts, out);
        parts = parts.after(used);
    }
}

/// The header up to its carried lines.
fn spell_head(head: &Head, lists: &Lists, out: &mut Out) {
    let mut version = *b"     3.03           OBSERVATION DATA    M";
    version[40] = head.letter;
    out.line(&labelled(&version, b"RINEX VERSION / TYPE"));
    for system in 0..7 {
        spell_list(lists, system, out);
    }
    out.line(&labelled(&first_time_columns(head), b"TIME OF FIRST OBS"));
    if head.interval_state != 0 {
        let mut interval = [b' '; 10];
        put_decimal(&mut interval, head.interval as i64, 3);
        out.line(&labelled(&interval, b"INTERVAL"));
    }
}

/// A header line: content, and the label from column 61 on.
fn labelled(content: &[u8], label: &[u8]) -> Vec<u8> {
    let mut line = content.to_vec();
    line.resize(60, b' ');
    line.extend_from_slice(label);
    line
}

/// The lines of a system's list, if it has one.
fn spell_list(lists: &Lists, system: usize, out: &mut Out) {
    let length = lists.lengths[system] as usize;
    let codes = &behind(lists.codes, LONGEST_LIST * system);
    let codes = &codes[..length.min(LONGEST_LIST).min(codes.len())];
    if length == 0 {
        return;
    }
    let mut content = vec![b' '; LIST_START_WIDTH];
    content[0] = SYSTEMS[system];
    put_whole(&mut content[3..], length as u64);
    for (number, codes_of_line) in codes.chunks(CODES_A_LINE).enumerate() {
        if number > 0 {
            content = vec![b' '; LIST_START_WIDTH];
        }
        for &code in codes_of_line {
            content.push(b' ');
            content.extend_from_slice(&unpack_code(code)[1..]);
        }
        out.line(&labelled(&content, b"SYS / # / OBS TYPES"));
    }
}

/// Columns 1-51 of TIME OF FIRST OBS.
fn first_time_columns(head: &Head) -> [u8; 51] {
    let at = calendar(head.first_time);
    let mut columns = [b' '; 51];
    let wholes = [at.year, at.month, at.day, at.hour, at.minute];
    for (place, &number) in wholes.iter().enumerate() {
        put_whole(&mut columns[6 * place..6 * place + 6], number);
    }
    put_decimal(&mut columns[30..43], at.second_ticks as i64, 7);
    let system = TIME_SYSTEMS.get(head.time_system as usize);
    columns[48..51].copy_from_slice(system.unwrap_or(b"???"));
    columns
}

/// So many carried lines as they are; the answer is how many bytes they had.
fn spell_lines(carried: &[u8], lines: u64, out: &mut Out) -> usize {
    let mut place = 0;
    for _ in 0..lines {
        let Some(line) = first_line(&carried[place..]) else {
            return place;
        };
        out.bytes_and_lf(line);
        place += line.len() + 1;
    }
    place
}

/// An epoch record and the lines that follow it.
pub fn spell_epoch(lists: &Lists, entry: &Entry, parts: &Parts, out: &mut Out) -> Used {
    out.line(&epoch_columns(entry));
    if entry.flag < 2 {
        return spell_rows(lists, entry.count, parts, out);
    }
    let carried = spell_lines(parts.carried, u64::from(entry.count), out);
    Used { carried, ..Used::default() }
}

/// The 56 columns of an epoch record.
fn epoch_columns(entry: &Entry) -> [u8; 56] {
    let mut columns = [b' '; 56];
    columns[0] = b'>';
    if entry.time_state != 0 {
        put_epoch_time(&mut columns[2..29], entry.time);
    }
    columns[31] = b'0'.wrapping_add(entry.flag);
    put_whole(&mut columns[32..35], u64::from(entry.count));
    if entry.clock_state != 0 {
        put_decimal(&mut columns[41..56], entry.clock, 12);
    }
    columns
}

/// A time in the 27 columns of an epoch record.
fn put_epoch_time(columns: &mut [u8], time: u64) {
    let at = calendar(time);
    put_whole(&mut columns[..4], at.year);
    put_two_digits(&mut columns[5..7], at.month);
    put_two_digits(&mut columns[8..10], at.day);
    put_two_digits(&mut columns[11..13], at.hour);
    put_two_digits(&mut columns[14..16], at.minute);
    put_decimal(&mut columns[16..27], at.second_ticks as i64, 7);
}

/// The rows of an epoch.
fn spell_rows(lists: &Lists, count: u16, parts: &Parts, out: &mut Out) -> Used {
    let mut used = Used::default();
    let mut line = Vec::with_capacity(LONGEST_LINE);
    for &satellite in parts.satellites.iter().take(usize::from(count)) {
        let system = usize::from(satellite) / 100;
        let length = lists.lengths.get(system).map_or(0, |&n| n as usize).min(LONGEST_LIST);
        let slots = length.min(parts.slots() - used.slots);
        line.clear();
        line.resize(SATELLITE_WIDTH + SLOT_WIDTH * slots, b' ');
        line[0] = *SYSTEMS.get(system).unwrap_or(&b'?');
        put_two_digits(&mut line[1..SATELLITE_WIDTH], u64::from(satellite % 100));
        for (place, columns) in line[SATELLITE_WIDTH..].chunks_exact_mut(SLOT_WIDTH).enumerate() {
            put_slot(columns, parts, used.slots + place);
        }
        out.line(&line);
        used.rows += 1;
        used.slots += slots;
    }
    used
}

/// The columns of a slot.
fn put_slot(columns: &mut [u8], parts: &Parts, place: usize) {
    if parts.states[place] != 0 {
        put_decimal(&mut columns[..VALUE_WIDTH], parts.numbers[place], VALUE_DECIMALS);
    }
    columns[LOSS_COLUMN] = mark_column(parts.losses[place]);
    columns[STRENGTH_COLUMN] = mark_column(parts.strengths[place]);
}

fn mark_column(mark: u8) -> u8 {
    if mark == BLANK_MARK {
        return b' ';
    }
    b'0'.wrapping_add(mark)
}

/// A whole number at the right of its field, without leading zeros.
fn put_whole(field: &mut [u8], number: u64) {
    let mut left = number;
    for column in field.iter_mut().rev() {
        *column = b'0' + (left % 10) as u8;
        left /= 10;
        if left == 0 {
            return;
        }
    }
}

/// A whole number with two digits.
fn put_two_digits(field: &mut [u8], number: u64) {
    field[0] = b'0' + (number / 10 % 10) as u8;
    field[1] = b'0' + (number % 10) as u8;
}

/// A decimal number at the right of its field: one digit or more before the
/// point, none needless, and a minus only below zero.
fn put_decimal(field: &mut [u8], number: i64, decimals: usize) {
    let mut left = number.unsigned_abs();
    let mut column = field.len();
    for _ in 0..decimals {
        column -= 1;
        field[column] = b'0' + (left % 10) as u8;
        left /= 10;
    }
    column -= 1;
    field[column] = b'.';
    loop {
        column -= 1;
        field[column] = b'0' + (left % 10) as u8;
        left /= 10;
        if left == 0 || column == 0 {
            break;
        }
    }
    if number < 0 && column > 0 {
        field[column - 1] = b'-';
    }
}
