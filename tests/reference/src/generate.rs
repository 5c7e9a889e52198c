//! Texts for comparing readers: valid ones that know their tables, and
//! damaged ones, many of them aimed at one refusal. All comes from a seed.

use crate::codes::taken_codes;
use crate::fields::*;
use crate::random_codes::{some_codes, unlisted_code};
use crate::random_labels::near_label;
use crate::tables::*;

/// Xorshift numbers from a seed.
#[derive(Clone, Debug)]
pub struct Random {
    state: u64,
}

impl Random {
    pub fn new(seed: u64) -> Random {
        let mixed = seed.wrapping_add(0x9E37_79B9_7F4A_7C15).wrapping_mul(0xBF58_476D_1CE4_E5B9);
        let mut random = Random { state: (mixed ^ (mixed >> 29)) | 1 };
        for _ in 0..8 {
            random.number();
        }
        random
    }

    pub fn number(&mut self) -> u64 {
        self.state ^= self.state >> 12;
        self.state ^= self.state << 25;
        self.state ^= self.state >> 27;
        self.state.wrapping_mul(0x2545_F491_4F6C_DD1D)
    }

    /// A number below a bound above 0.
    pub fn below(&mut self, bound: usize) -> usize {
        ((self.number() >> 11) % bound as u64) as usize
    }

    /// A number from one bound to the other, both included.
    pub fn between(&mut self, low: i64, high: i64) -> i64 {
        let span = (high - low) as u64 + 1;
        low + ((self.number() >> 3) % span) as i64
    }

    /// True in so many cases of a hundred.
    pub fn percent(&mut self, share: usize) -> bool {
        self.below(100) < share
    }

    pub fn pick<A: Copy>(&mut self, choices: &[A]) -> A {
        choices[self.below(choices.len())]
    }

    /// A place in some list, or none if it is empty.
    pub fn pick_any<A: Copy>(&mut self, choices: &[A]) -> Option<A> {
        (!choices.is_empty()).then(|| self.pick(choices))
    }

    /// A byte of 32 to 126.
    pub fn printable(&mut self) -> u8 {
        32 + self.below(95) as u8
    }
}

/// What a line of a valid text is.
#[derive(Clone, Copy, Debug, PartialEq, Eq)]
pub enum Kind {
    Version,
    /// A line of a list: its system, the codes before it and up to its end,
    /// and the length of the whole list.
    List {
        system: usize,
        start: usize,
        end: usize,
        length: usize,
    },
    FirstTime,
    Interval,
    CarriedInHeader,
    End,
    Epoch {
        flag: u8,
        count: usize,
        timed: bool,
    },
    Row {
        system: usize,
        slots: usize,
    },
    EventLine,
    /// A line that damage put in.
    Stray,
}

#[derive(Clone, Debug)]
pub struct Line {
    pub kind: Kind,
    pub bytes: Vec<u8>,
}

/// A text as lines, with the tables that it spelled before any damage.
#[derive(Clone, Debug)]
pub struct Draft {
    pub lines: Vec<Line>,
    pub tables: Tables,
    pub last_line_ends: bool,
}

impl Draft {
    /// The text of the lines.
    pub fn text(&self) -> Vec<u8> {
        let mut text = Vec::new();
        for line in &self.lines {
            text.extend_from_slice(&line.bytes);
            text.push(b'\n');
        }
        if !self.last_line_ends {
            text.pop();
        }
        text
    }

    /// The places of the lines of some kinds.
    pub fn places(&self, wanted: impl Fn(Kind) -> bool) -> Vec<usize> {
        (0..self.lines.len()).filter(|&place| wanted(self.lines[place].kind)).collect()
    }

    /// The place of END OF HEADER, or the number of lines.
    fn end_of_header(&self) -> usize {
        let is_end = |line: &Line| line.kind == Kind::End;
        self.lines.iter().position(is_end).unwrap_or(self.lines.len())
    }
}

// ---------------------------------------------------------------------------
// Valid texts
// ---------------------------------------------------------------------------

/// A valid text.
pub fn valid(random: &mut Random) -> Draft {
    let mut maker = Maker::new(random);
    maker.header();
    maker.epochs();
    maker.finish()
}

struct Maker<'a> {
    random: &'a mut Random,
    lines: Vec<Line>,
    tables: Tables,
    /// The time of the next observed epoch.
    next_time: u64,
}

impl<'a> Maker<'a> {
    fn new(random: &'a mut Random) -> Maker<'a> {
        let tables = Tables { codes: vec![None; CODE_PLACES], ..Tables::default() };
        let next_time = some_time(random) / 2;
        Maker { random, lines: Vec::new(), tables, next_time }
    }

    fn finish(mut self) -> Draft {
        self.tables.counts = Counts {
            epochs: self.tables.flags.len() as u64,
            rows: self.tables.satellites.len() as u64,
            slots: self.tables.numbers.len() as u64,
            carried: self.tables.carried.len() as u64,
        };
        Draft { lines: self.lines, tables: self.tables, last_line_ends: true }
    }

    /// Adds a line, its trailing blanks cut, kept or made more.
    fn push(&mut self, kind: Kind, columns: &[u8]) {
        let mut bytes = columns.to_vec();
        match self.random.below(100) {
            0..=69 => bytes.truncate(cut(columns).len()),
            70..=89 => {}
            90..=96 => bytes.extend(vec![b' '; self.random.below(5)]),
            97..=98 => bytes.resize(bytes.len().max(LONGEST_LINE - 1), b' '),
            _ => bytes.resize(bytes.len().max(LONGEST_LINE), b' '),
        }
        bytes.truncate(LONGEST_LINE);
        self.lines.push(Line { kind, bytes });
    }

    /// The header: the version line, the rest in any order, and its end.
    fn header(&mut self) {
        let letter = if self.random.percent(60) { b'M' } else { self.random.pick(&SYSTEMS) };
        self.tables.head.letter = letter;
        self.version_line(letter);
        let mut blocks = self.blocks(letter);
        while !blocks.is_empty() {
            let next = blocks.swap_remove(self.random.below(blocks.len()));
            self.block(next);
        }
        self.push(Kind::End, &header_line(b"", b"END OF HEADER"));
    }

    fn version_line(&mut self, letter: u8) {
        let mut columns =
            header_line(b"     3.03           OBSERVATION DATA", b"RINEX VERSION / TYPE");
        if self.random.percent(30) {
            for place in (21..40).chain(41..60) {
                columns[place] = self.random.printable();
            }
        }
        columns[40] = letter;
        self.push(Kind::Version, &columns);
    }

    /// What stands in the header: lists, first time, interval, carried lines.
    fn blocks(&mut self, letter: u8) -> Vec<Block> {
        let mut blocks = vec![Block::FirstTime];
        let must_have = system_of(letter).unwrap_or_else(|| self.random.below(7));
        for system in 0..7 {
            let chosen = letter == b'M' && self.random.percent(35);
            if system == must_have || chosen {
                blocks.push(Block::List(system));
            }
        }
        if self.random.percent(50) {
            blocks.push(Block::Interval);
        }
        let carried = if self.random.percent(40) { 0 } else { self.random.below(6) };
        blocks.extend(vec![Block::Carried; carried]);
        blocks
    }

    fn block(&mut self, block: Block) {
        match block {
            Block::List(system) => self.list(system),
            Block::FirstTime => self.first_time(),
            Block::Interval => self.interval(),
            Block::Carried => {
                let label = self.carried_label(|label| label.carried_in_header());
                self.carried_line(Kind::CarriedInHeader, label);
                self.tables.head.carried_lines += 1;
            }
        }
    }

    /// A list of different codes, with its continuation lines.
    fn list(&mut self, system: usize) {
        let length = self.list_length(system);
        let codes = some_codes(self.random, system, length);
        self.tables.head.lengths[system] = length as u64;
        for (place, &code) in codes.iter().enumerate() {
            self.tables.codes[LONGEST_LIST * system + place] = Some(pack_code(code));
        }
        for (number, codes_of_line) in codes.chunks(CODES_A_LINE).enumerate() {
            let mut content = vec![b' '; LIST_START_WIDTH];
            if number == 0 {
                content[0] = SYSTEMS[system];
                content[3..].copy_from_slice(&spell_whole(self.random, length as u64, 3));
            }
            for code in codes_of_line {
                content.push(b' ');
                content.extend_from_slice(code);
            }
            let start = number * CODES_A_LINE;
            let end = start + codes_of_line.len();
            let columns = header_line(&content, b"SYS / # / OBS TYPES");
            self.push(Kind::List { system, start, end, length }, &columns);
        }
    }

    /// How many codes a list has: at most all that its system has.
    fn list_length(&mut self, system: usize) -> usize {
        let length = match self.random.below(100) {
            0..=14 => 1,
            15..=64 => 1 + self.random.below(5),
            65..=84 => 6 + self.random.below(8),
            85..=94 => self.random.pick(&[13, 14, 15, 26, 27]),
            _ => self.random.pick(&[39, 40, 52, 53, 63, 64, 64]),
        };
        length.min(taken_codes(system).len())
    }

    fn first_time(&mut self) {
        let time = some_time(self.random);
        let system = self.random.below(6);
        self.tables.head.first_time = time;
        self.tables.head.time_system = system as u64;
        let at = calendar(time);
        let mut content = Vec::new();
        for number in [at.year, at.month, at.day, at.hour, at.minute] {
            content.extend(spell_whole(self.random, number, 6));
        }
        content.extend(spell_seconds(self.random, at.second_ticks, 13));
        content.extend_from_slice(b"     ");
        content.extend_from_slice(&TIME_SYSTEMS[system]);
        self.push(Kind::FirstTime, &header_line(&content, b"TIME OF FIRST OBS"));
    }

    fn interval(&mut self) {
        let interval = match self.random.below(6) {
            0 => 1,
            1 => LARGEST_INTERVAL as i64,
            2 => 30_000,
            _ => self.random.between(1, 999_999),
        };
        self.tables.head.interval_state = 1;
        self.tables.head.interval = interval as u64;
        let content = spell_decimal(self.random, interval, 10, 3);
        self.push(Kind::Interval, &header_line(&content, b"INTERVAL"));
    }

    /// One of the labels that are allowed here.
    fn carried_label(&mut self, allowed: fn(Label) -> bool) -> &'static [u8; 20] {
        loop {
            let (name, label) = self.random.pick(&LABELS);
            if allowed(label) {
                return name;
            }
        }
    }

    /// A carried line of any content; some begin with `>`.
    fn carried_line(&mut self, kind: Kind, label: &[u8]) {
        let mut content = vec![b' '; 60];
        let length = self.random.pick(&[0, 1, 7, 20, 59, 60]);
        for column in content.iter_mut().take(length) {
            *column = self.random.printable();
        }
        if self.random.percent(15) {
            content[..35].copy_from_slice(b"> 2024 12 31 23 59 30.0000000  0  2");
        } else if self.random.percent(15) {
            content[0] = b'>';
        }
        let columns = header_line(&content, label);
        self.tables.carried.extend_from_slice(cut(&columns));
        self.tables.carried.push(b'\n');
        self.push(kind, &columns);
    }

    /// Observed epochs and events.
    fn epochs(&mut self) {
        let number = self.random.pick(&[0, 1, 1, 2, 2, 3, 4, 6]);
        for _ in 0..number {
            if self.random.percent(68) {
                self.observed_epoch();
            } else {
                self.event();
            }
        }
    }

    fn observed_epoch(&mut self) {
        let step = self.random.pick(&[1, 10_000_000, 300_000_000, TICKS_A_DAY * 40]);
        self.next_time = (self.next_time + step).min(TIME_END - 1);
        if self.tables.times.last() == Some(&(TIME_END - 1)) {
            return;
        }
        let satellites = self.satellites();
        let clock = self.clock();
        let flag = u8::from(self.random.percent(20));
        self.epoch_line(Some(self.next_time), flag, satellites.len(), clock);
        for satellite in satellites {
            self.row(satellite);
        }
    }

    /// Different satellites of declared systems, mostly few.
    fn satellites(&mut self) -> Vec<u16> {
        let wanted = match self.random.below(100) {
            0..=14 => 0,
            15..=84 => 1 + self.random.below(5),
            85..=97 => 6 + self.random.below(30),
            _ => 99 + self.random.below(30),
        };
        let lengths = self.tables.head.lengths;
        let declared: Vec<usize> = (0..7).filter(|&system| lengths[system] > 0).collect();
        let mut satellites: Vec<u16> = Vec::new();
        for _ in 0..wanted {
            let system = self.random.pick(&declared);
            let number = self.random.pick(&[1, 99, 1 + self.random.clone().below(99)]);
            let satellite = (100 * system + number) as u16;
            if !satellites.contains(&satellite) {
                satellites.push(satellite);
            } else if let Some(free) = first_free(&satellites, &declared) {
                satellites.push(free);
            }
        }
        satellites
    }

    fn clock(&mut self) -> Option<i64> {
        match self.random.below(10) {
            0 => Some(0),
            1 => Some(self.random.pick(&[SMALLEST_CLOCK, LARGEST_CLOCK, -1, 1])),
            2..=3 => Some(self.random.between(SMALLEST_CLOCK, LARGEST_CLOCK)),
            _ => None,
        }
    }

    fn epoch_line(&mut self, time: Option<u64>, flag: u8, count: usize, clock: Option<i64>) {
        self.tables.times.push(time.unwrap_or(0));
        self.tables.time_states.push(u8::from(time.is_some()));
        self.tables.flags.push(flag);
        self.tables.line_counts.push(count as u16);
        self.tables.clocks.push(clock.unwrap_or(0));
        self.tables.clock_states.push(u8::from(clock.is_some()));
        let mut columns = vec![b' '; 56];
        columns[0] = b'>';
        if let Some(time) = time {
            let spelled = spell_epoch_time(self.random, time);
            columns[2..29].copy_from_slice(&spelled);
        }
        columns[31] = b'0' + flag;
        columns[32..35].copy_from_slice(&spell_whole(self.random, count as u64, 3));
        if let Some(clock) = clock {
            columns[41..].copy_from_slice(&spell_decimal(self.random, clock, 15, 12));
        }
        self.push(Kind::Epoch { flag, count, timed: time.is_some() }, &columns);
    }

    fn row(&mut self, satellite: u16) {
        self.tables.satellites.push(satellite);
        let system = usize::from(satellite) / 100;
        let slots = self.tables.head.lengths[system] as usize;
        let mut columns = vec![SYSTEMS[system]];
        columns.extend(format!("{:02}", satellite % 100).into_bytes());
        let shares = Shares::some(self.random);
        for _ in 0..slots {
            let slot = self.slot(&shares);
            columns.extend_from_slice(&slot);
        }
        self.push(Kind::Row { system, slots }, &columns);
    }

    /// A slot: value, loss of lock and strength, each blank or printed. A value
    /// that is printed as 0 is held as blank.
    fn slot(&mut self, shares: &Shares) -> [u8; SLOT_WIDTH] {
        let mut columns = [b' '; SLOT_WIDTH];
        let printed = shares.printed(self.random);
        if let Some(number) = printed {
            columns[..VALUE_WIDTH].copy_from_slice(&spell_value(self.random, number));
        }
        let held = printed.filter(|&number| number != 0);
        let loss = self.mark(8);
        let strength = self.mark(10);
        self.tables.numbers.push(held.unwrap_or(0));
        self.tables.states.push(u8::from(held.is_some()));
        self.tables.losses.push(loss.unwrap_or(BLANK_MARK));
        self.tables.strengths.push(strength.unwrap_or(BLANK_MARK));
        columns[LOSS_COLUMN] = loss.map_or(b' ', |mark| b'0' + mark);
        columns[STRENGTH_COLUMN] = strength.map_or(b' ', |mark| b'0' + mark);
        columns
    }

    fn mark(&mut self, bound: usize) -> Option<u8> {
        let mark = self.random.below(bound) as u8;
        self.random.percent(40).then_some(mark)
    }

    fn event(&mut self) {
        let flag = 2 + self.random.below(4) as u8;
        let timed = flag == 5 || self.random.percent(50);
        let time = timed.then(|| some_time(self.random));
        let most = if self.random.percent(3) { 120 } else { 5 };
        let count = self.random.below(most).max(usize::from(flag == 3));
        self.epoch_line(time, flag, count, None);
        let named = self.random.below(count.max(1));
        for number in 0..count {
            let label = if flag == 3 && number == named {
                b"MARKER NAME         "
            } else {
                self.carried_label(|label| label.allowed_in_event())
            };
            self.carried_line(Kind::EventLine, label);
        }
    }
}

/// What can stand in a header between its first and its last line.
#[derive(Clone, Copy)]
enum Block {
    List(usize),
    FirstTime,
    Interval,
    Carried,
}

/// Of a hundred values of a row so many are blank, and of a hundred printed
/// ones so many are 0.
struct Shares {
    blank: usize,
    zero: usize,
}

impl Shares {
    fn some(random: &mut Random) -> Shares {
        Shares { blank: random.pick(&[0, 20, 50, 100]), zero: random.pick(&[0, 0, 10, 40, 100]) }
    }

    /// What a value field prints, if anything.
    fn printed(&self, random: &mut Random) -> Option<i64> {
        if random.percent(self.blank) {
            return None;
        }
        Some(if random.percent(self.zero) { 0 } else { some_value(random) })
    }
}

/// The 80 columns of a header line.
pub fn header_line(content: &[u8], label: &[u8]) -> Vec<u8> {
    let mut columns = content.to_vec();
    columns.resize(60, b' ');
    columns.extend_from_slice(label);
    columns.resize(80, b' ');
    columns
}

/// The first satellite of the systems that is not yet chosen.
fn first_free(chosen: &[u16], systems: &[usize]) -> Option<u16> {
    let all = systems.iter().flat_map(|&system| (1..=99).map(move |n| (100 * system + n) as u16));
    all.into_iter().find(|satellite| !chosen.contains(satellite))
}

/// A time, now and then at an edge.
fn some_time(random: &mut Random) -> u64 {
    let leap_day_2024 = time([2024, 2, 29], 0, 0, 0).unwrap();
    match random.below(12) {
        0 => 0,
        1 => TIME_END - 1,
        2 => leap_day_2024 + random.number() % TICKS_A_DAY,
        3 => time([2023, 12, 31], 23, 59, 599_999_999).unwrap(),
        4..=8 => random.number() % (TIME_END / TICKS_A_SECOND) * TICKS_A_SECOND,
        _ => random.number() % TIME_END,
    }
}

/// A value of any size, now and then at an edge or next to 0.
fn some_value(random: &mut Random) -> i64 {
    match random.below(12) {
        0 => random.pick(&[-1, 1]),
        1 => random.pick(&[SMALLEST_VALUE, LARGEST_VALUE, 999, -999, 1000]),
        2..=3 => random.between(-999, 999),
        4 => random.between(SMALLEST_VALUE, LARGEST_VALUE),
        5..=8 => random.between(19_000_000_000, 26_000_000_000),
        _ => random.between(-9_999_999, 99_999_999),
    }
}

/// A whole number at the right of its field, at times with leading zeros.
fn spell_whole(random: &mut Random, number: u64, width: usize) -> Vec<u8> {
    let zeros = if random.percent(20) { random.below(width + 1) } else { 1 };
    let digits = format!("{number:0zeros$}");
    format!("{digits:>width$}").into_bytes()
}

/// Seconds with one or two digits before the point.
fn spell_seconds(random: &mut Random, ticks: u64, width: usize) -> Vec<u8> {
    let second = ticks / TICKS_A_SECOND;
    let fraction = ticks % TICKS_A_SECOND;
    let digits = if random.percent(30) { 2 } else { 1 };
    let spelled = format!("{second:0digits$}.{fraction:07}");
    format!("{spelled:>width$}").into_bytes()
}

/// The 27 columns of an epoch's time.
fn spell_epoch_time(random: &mut Random, time: u64) -> Vec<u8> {
    let at = calendar(time);
    let mut columns = at.year.to_string().into_bytes();
    for number in [at.month, at.day, at.hour, at.minute] {
        let one_digit = random.percent(15);
        let digits = if one_digit { format!("{number:>3}") } else { format!(" {number:02}") };
        columns.extend(digits.into_bytes());
    }
    columns.extend(spell_seconds(random, at.second_ticks, 11));
    columns
}

/// A number in the columns of a value.
fn spell_value(random: &mut Random, number: i64) -> Vec<u8> {
    spell_decimal(random, number, VALUE_WIDTH, VALUE_DECIMALS)
}

/// A decimal number: at times with leading zeros, no digit before the point,
/// or a minus before zero.
pub fn spell_decimal(random: &mut Random, number: i64, width: usize, decimals: usize) -> Vec<u8> {
    let scale = 10u64.pow(decimals as u32);
    let whole = number.unsigned_abs() / scale;
    let fraction = number.unsigned_abs() % scale;
    let minus_zero = number == 0 && random.percent(40);
    let sign = if number < 0 || minus_zero { "-" } else { "" };
    let most_digits = width - decimals - 1 - sign.len();
    let before = match random.below(10) {
        0..=2 if whole == 0 => String::new(),
        3 => format!("{whole:0most_digits$}"),
        4 => format!("{whole:0width$}", width = 1 + random.below(most_digits)),
        _ => whole.to_string(),
    };
    let spelled = format!("{sign}{before}.{fraction:0decimals$}");
    format!("{spelled:>width$}").into_bytes()
}

// ---------------------------------------------------------------------------
// Room
// ---------------------------------------------------------------------------

/// What one line needs of each table. Codes: the places up to its last one.
#[derive(Clone, Copy, Debug, Default)]
struct Need {
    codes: usize,
    epochs: usize,
    rows: usize,
    slots: usize,
    carried: usize,
}

fn need_of(line: &Line) -> Need {
    let nothing = Need::default();
    match line.kind {
        Kind::List { system, end, .. } => Need { codes: LONGEST_LIST * system + end, ..nothing },
        Kind::Epoch { .. } => Need { epochs: 1, ..nothing },
        Kind::Row { slots, .. } => Need { rows: 1, slots, ..nothing },
        Kind::CarriedInHeader | Kind::EventLine => {
            Need { carried: cut(&line.bytes).len() + 1, ..nothing }
        }
        _ => nothing,
    }
}

/// What the lines up to each one need together.
fn needs(draft: &Draft) -> Vec<Need> {
    let mut sum = Need::default();
    let mut sums = Vec::new();
    for line in &draft.lines {
        let need = need_of(line);
        sum.codes = sum.codes.max(need.codes);
        sum.epochs += need.epochs;
        sum.rows += need.rows;
        sum.slots += need.slots;
        sum.carried += need.carried;
        sums.push(sum);
    }
    sums
}

/// Just the room that a valid text needs; some buffers of a table longer.
fn exact_room(draft: &Draft, random: &mut Random) -> Room {
    let need = needs(draft).last().copied().unwrap_or_default();
    let mut room = Room::new(need.codes, need.epochs, need.rows, need.slots, need.carried);
    if random.percent(50) {
        room.times += random.below(3);
        room.clock_states += random.below(3);
        room.numbers += random.below(3);
        room.strengths += random.below(3);
    }
    room
}

/// The 13 buffers by number, 0 to 12.
pub fn buffer_of(room: &mut Room, number: usize) -> &mut usize {
    match number {
        0 => &mut room.codes,
        1 => &mut room.times,
        2 => &mut room.time_states,
        3 => &mut room.flags,
        4 => &mut room.counts,
        5 => &mut room.clocks,
        6 => &mut room.clock_states,
        7 => &mut room.satellites,
        8 => &mut room.numbers,
        9 => &mut room.states,
        10 => &mut room.losses,
        11 => &mut room.strengths,
        _ => &mut room.carried,
    }
}

/// What the table of a buffer needs.
fn needed_of(need: &Need, buffer: usize) -> usize {
    match buffer {
        0 => need.codes,
        1..=6 => need.epochs,
        7 => need.rows,
        8..=11 => need.slots,
        _ => need.carried,
    }
}

// ---------------------------------------------------------------------------
// Damage aimed at one refusal
// ---------------------------------------------------------------------------

/// Damages a valid draft so that it is refused by this number; the answer is
/// the line of the refusal. None if the draft has nothing to be damaged so.
pub fn aim(number: u32, draft: &mut Draft, room: &mut Room, random: &mut Random) -> Option<u64> {
    let place = match number {
        1 => aim_1(draft, random),
        2 => aim_2(draft, random),
        3 => aim_3(draft, random),
        4 => aim_4(draft, random),
        5 => aim_5(draft, random),
        6 => aim_6(draft, random),
        7 => aim_7(draft, random),
        8 => aim_8(draft, random),
        9 => aim_9(draft, random),
        10 => aim_10(draft, random),
        11 => aim_11(draft, random),
        12 => aim_12(draft, random),
        13 => aim_13(draft, random),
        14 => aim_14(draft, random),
        15 => aim_15(draft, random),
        16 => aim_16(draft, room, random),
        _ => None,
    }?;
    Some(place as u64 + 1)
}

/// Makes a line at least so long.
fn lengthen(bytes: &mut Vec<u8>, length: usize) {
    bytes.resize(bytes.len().max(length), b' ');
}

/// Columns of a line from one on, counted from 0.
fn columns_from<const WIDTH: usize>(draft: &Draft, place: usize, start: usize) -> [u8; WIDTH] {
    padded(draft.lines[place].bytes.get(start..).unwrap_or(b""))
}

/// Puts bytes into a line at a column counted from 0.
fn put(draft: &mut Draft, place: usize, column: usize, bytes: &[u8]) {
    let line = &mut draft.lines[place].bytes;
    lengthen(line, column + bytes.len());
    line[column..column + bytes.len()].copy_from_slice(bytes);
}

/// Puts a label into columns 61-80.
fn put_label(draft: &mut Draft, place: usize, label: &[u8]) {
    put(draft, place, 60, &padded::<20>(label));
}

/// Puts in a new line.
fn insert(draft: &mut Draft, place: usize, kind: Kind, bytes: Vec<u8>) {
    draft.lines.insert(place, Line { kind, bytes });
}

/// A filled column among some places.
fn fill_one(draft: &mut Draft, place: usize, columns: std::ops::Range<usize>, random: &mut Random) {
    let column = columns.start + random.below(columns.len());
    let byte = random.pick(b"x0.-A>");
    put(draft, place, column, &[byte]);
}

/// A byte that no line may have, or no LF at the end.
fn aim_1(draft: &mut Draft, random: &mut Random) -> Option<usize> {
    if random.percent(20) {
        draft.last_line_ends = false;
        return Some(draft.lines.len() - 1);
    }
    let place = random.below(draft.lines.len());
    let byte = random.pick(&[0, 1, 9, 11, 13, 31, 127, 128, 160, 255]);
    let line = &mut draft.lines[place].bytes;
    let column = random.below(line.len() + 1);
    if random.percent(50) && column < line.len() {
        line[column] = byte;
    } else {
        line.insert(column, byte);
    }
    Some(place)
}

/// A line that is too long.
fn aim_2(draft: &mut Draft, random: &mut Random) -> Option<usize> {
    let place = random.below(draft.lines.len());
    let length = LONGEST_LINE + random.pick(&[1, 1, 1, 2, 9, 1_000]);
    let fill = random.pick(b"  x>");
    draft.lines[place].bytes.resize(length, fill);
    Some(place)
}

/// A first line that is no fit version line.
fn aim_3(draft: &mut Draft, random: &mut Random) -> Option<usize> {
    lengthen(&mut draft.lines[0].bytes, 80);
    match random.below(11) {
        0 => put(draft, 0, 5, random.pick(&[b"3.02", b"3.04", b"2.11", b"3,03", b" 3.0", b"4.00"])),
        1 => put(draft, 0, 4, random.pick(&[b"03.03", b"33.03", b"3.030", b"+3.03"])),
        2 => fill_one(draft, 0, 9..20, random),
        3 => put(draft, 0, 20, &[random.pick(b"NMo GQ0")]),
        4 => put(draft, 0, 40, &[random.pick(b" XHWgOm0")]),
        5 => put(draft, 0, 60 + random.below(20), b"x"),
        6 => fill_one(draft, 0, 80..90, random),
        7 => draft.lines[0].bytes.truncate(random.below(80)),
        8 => drop(draft.lines.remove(0)),
        9 => draft.lines[0].bytes.insert(0, b' '),
        _ => draft.lines.clear(),
    }
    if let Some(first) = draft.lines.first_mut() {
        first.bytes.truncate(LONGEST_LINE);
    }
    Some(0)
}

fn in_header(kind: Kind) -> bool {
    let elsewhere =
        matches!(kind, Kind::Epoch { .. } | Kind::Row { .. } | Kind::EventLine | Kind::Stray);
    !elsewhere && kind != Kind::Version
}

/// A header or event line without a label that is allowed there.
fn aim_4(draft: &mut Draft, random: &mut Random) -> Option<usize> {
    let events = draft.places(|kind| kind == Kind::EventLine);
    let header = draft.places(in_header);
    let in_event = !events.is_empty() && random.percent(50);
    let place = random.pick_any(if in_event { &events } else { &header })?;
    lengthen(&mut draft.lines[place].bytes, 80);
    match random.below(12) {
        0 => put(draft, place, 60 + random.below(20), b"x"),
        1 => put_label(draft, place, b"SYS / SCALE FACTOR"),
        2 => fill_one(draft, place, 80..90, random),
        3 => draft.lines[place].bytes.truncate(random.below(61)),
        4 => put_label(draft, place, b"ANTENNA:PHASECENTER"),
        5 => put_label(draft, place, b" COMMENT"),
        6..=10 => put_near_label(draft, place, random),
        _ if in_event => put_label(draft, place, random.pick(&BARRED)),
        _ => put_label(draft, place, b"SYS / PHASE SHIFTS"),
    }
    Some(place)
}

/// Puts in what is nearly a label, in 80 columns or at the line's end.
fn put_near_label(draft: &mut Draft, place: usize, random: &mut Random) {
    put_label(draft, place, &near_label(random));
    if random.percent(50) {
        let width = cut(&draft.lines[place].bytes).len();
        draft.lines[place].bytes.truncate(width);
    }
}

const BARRED: [&[u8]; 4] =
    [b"RINEX VERSION / TYPE", b"SYS / # / OBS TYPES", b"SYS / SCALE FACTOR", b"END OF HEADER"];

/// A header line that comes again, too early, or where another is due.
fn aim_5(draft: &mut Draft, random: &mut Random) -> Option<usize> {
    match random.below(5) {
        0 => version_again(draft, random),
        1 => record_again(draft, random),
        2 => end_too_early(draft, random),
        _ => no_continuation(draft, random),
    }
}

fn version_again(draft: &mut Draft, random: &mut Random) -> Option<usize> {
    let place = 1 + random.below(draft.end_of_header());
    let mut bytes = draft.lines[0].bytes.clone();
    lengthen(&mut bytes, 80);
    if random.percent(50) {
        bytes[..60].fill(random.pick(b" xO3"));
    }
    insert(draft, place, Kind::Version, bytes);
    Some(place)
}

/// A list, the first time or the interval again, perhaps with unfit fields.
fn record_again(draft: &mut Draft, random: &mut Random) -> Option<usize> {
    let may_repeat = |kind: Kind| match kind {
        Kind::List { start, .. } => start == 0,
        _ => matches!(kind, Kind::FirstTime | Kind::Interval),
    };
    let original = random.pick_any(&draft.places(may_repeat))?;
    let lines_to_end = draft.end_of_header().checked_sub(original)?;
    let place = original + 1 + random.below(lines_to_end);
    let mut line = draft.lines[original].clone();
    lengthen(&mut line.bytes, 80);
    if random.percent(50) {
        line.bytes[1..60].fill(random.pick(b" x9."));
    }
    draft.lines.insert(place, line);
    Some(place)
}

/// END OF HEADER before a list and the first time have come.
fn end_too_early(draft: &mut Draft, random: &mut Random) -> Option<usize> {
    let is_list = |kind| matches!(kind, Kind::List { .. });
    let first_list = *draft.places(is_list).first()?;
    let first_time = *draft.places(|kind| kind == Kind::FirstTime).first()?;
    let place = 1 + random.below(first_list.max(first_time));
    let mut bytes = header_line(b"", b"END OF HEADER");
    if random.percent(40) {
        bytes[random.below(60)] = b'x';
    }
    insert(draft, place, Kind::End, bytes);
    Some(place)
}

fn is_continuation(kind: Kind) -> bool {
    matches!(kind, Kind::List { start, .. } if start > 0)
}

/// Another line, another label or filled columns where a list goes on.
fn no_continuation(draft: &mut Draft, random: &mut Random) -> Option<usize> {
    let place = random.pick_any(&draft.places(is_continuation))?;
    let Kind::List { end, length, .. } = draft.lines[place].kind else {
        return None;
    };
    let others: [&[u8]; 3] = [b"COMMENT", b"INTERVAL", b"END OF HEADER"];
    match random.below(4) {
        0 => put_label(draft, place, random.pick(&others)),
        1 => fill_one(draft, place, 0..LIST_START_WIDTH, random),
        2 if end == length => drop(draft.lines.remove(place)),
        _ => insert(draft, place, Kind::CarriedInHeader, header_line(b"> no", b"COMMENT")),
    }
    Some(place)
}

/// An unfit field in a header record that is read, often an unlisted code.
fn aim_6(draft: &mut Draft, random: &mut Random) -> Option<usize> {
    if random.percent(40) {
        return put_unlisted(draft, random);
    }
    let is_read = |kind| in_header(kind) && kind != Kind::CarriedInHeader;
    let place = random.pick_any(&draft.places(is_read))?;
    lengthen(&mut draft.lines[place].bytes, 80);
    match draft.lines[place].kind {
        Kind::List { start, end, length, .. } if random.percent(85) => {
            unfit_list(draft, place, [start, end, length], random)
        }
        Kind::FirstTime => unfit_first_time(draft, place, random),
        Kind::Interval => unfit_interval(draft, place, random),
        Kind::End => {
            fill_one(draft, place, 0..60, random);
            Some(place)
        }
        _ => needless_continuation(draft, random),
    }
}

/// A code that is not taken under the system of its list, often on the first
/// or last place of its line, and on a continuation.
fn put_unlisted(draft: &mut Draft, random: &mut Random) -> Option<usize> {
    let lists = draft.places(|kind| matches!(kind, Kind::List { .. }));
    let continuations = draft.places(is_continuation);
    let goes_on = !continuations.is_empty() && random.percent(50);
    let place = random.pick_any(if goes_on { &continuations } else { &lists })?;
    let Kind::List { system, start, end, .. } = draft.lines[place].kind else {
        return None;
    };
    let last = end - start - 1;
    let any = random.below(last + 1);
    let blank_before = code_column(random.pick(&[0, last, any]));
    put(draft, place, blank_before + 1, &unlisted_code(random, system));
    Some(place)
}

fn unfit_list(
    draft: &mut Draft,
    place: usize,
    list: [usize; 3],
    random: &mut Random,
) -> Option<usize> {
    let [start, end, length] = list;
    let codes_here = end - start;
    let column = code_column(random.below(codes_here));
    match random.below(10) {
        0 => fill_one(draft, place, 58..60, random),
        1 => put(draft, place, column, b"x"),
        2 => put(draft, place, column + 1, &[random.pick(b"c PXAI1")]),
        3 => put(draft, place, column + 2, &[random.pick(b"0 A-")]),
        4 => put(draft, place, column + 3, &[random.pick(b"a1-*")]),
        5 => put(draft, place, column, b"    "),
        6 if codes_here > 1 => repeat_code(draft, place, codes_here, random),
        7 if codes_here < CODES_A_LINE => put(draft, place, code_column(codes_here), b" C9Q"),
        _ if start > 0 => return repeat_across(draft, place, random),
        _ => return unfit_list_start(draft, place, length, random),
    }
    Some(place)
}

/// The first code of a line once more at its end.
fn repeat_code(draft: &mut Draft, place: usize, codes_here: usize, random: &mut Random) {
    let first: [u8; CODE_WIDTH] = columns_from(draft, place, code_column(0));
    let column = code_column(1 + random.below(codes_here - 1));
    put(draft, place, column, &first);
}

/// A code of the line before in a continuation.
fn repeat_across(draft: &mut Draft, place: usize, random: &mut Random) -> Option<usize> {
    let column = code_column(random.below(CODES_A_LINE));
    let code: [u8; CODE_WIDTH] = columns_from(draft, place - 1, column);
    put(draft, place, code_column(0), &code);
    Some(place)
}

/// The letter or the count of a list.
fn unfit_list_start(
    draft: &mut Draft,
    place: usize,
    length: usize,
    random: &mut Random,
) -> Option<usize> {
    let letter = draft.tables.head.letter;
    match random.below(6) {
        0 => fill_one(draft, place, 1..3, random),
        1 => put(draft, place, 0, &[random.pick(b" MXgH0>")]),
        2 => put(
            draft,
            place,
            3,
            random.pick(&[b"  0", b"000", b" 65", b"999", b"   ", b" -1", b"1  ", b" +1", b"1.0"]),
        ),
        3 if (2..=CODES_A_LINE).contains(&length) => {
            put(draft, place, 3, format!("{:>3}", length - 1).as_bytes())
        }
        4 if length < CODES_A_LINE => put(draft, place, 3, format!("{:>3}", length + 1).as_bytes()),
        _ if letter != b'M' => {
            let others: Vec<u8> =
                SYSTEMS.iter().copied().filter(|&other| other != letter).collect();
            put(draft, place, 0, &[random.pick(&others)])
        }
        _ => put(draft, place, 3, b"065"),
    }
    Some(place)
}

/// A continuation where none is due.
fn needless_continuation(draft: &mut Draft, random: &mut Random) -> Option<usize> {
    let not_due =
        |&place: &usize| draft.lines.get(place).is_some_and(|line| !is_continuation(line.kind));
    let places: Vec<usize> = (1..=draft.end_of_header()).filter(not_due).collect();
    let place = random.pick_any(&places)?;
    let content: &[u8] = random.pick(&[b"       C1C".as_slice(), b""]);
    insert(draft, place, Kind::Stray, header_line(content, b"SYS / # / OBS TYPES"));
    Some(place)
}

fn unfit_first_time(draft: &mut Draft, place: usize, random: &mut Random) -> Option<usize> {
    match random.below(12) {
        0 => put(
            draft,
            place,
            0,
            random.pick(&[b"  1979", b"  2100", b"    24", b"2024  ", b"      ", b" -2024"]),
        ),
        1 => put(
            draft,
            place,
            6,
            random.pick(&[b"     0", b"    13", b"   1.0", b"1     ", b"      "]),
        ),
        2 => put(draft, place, 12, random.pick(&[b"     0", b"    32", b"   1 2", b"    +1"])),
        3 => put(
            draft,
            place,
            0,
            random.pick(&[b"  2023     2    29", b"  2024     2    30", b"  2024     4    31"]),
        ),
        4 => put(draft, place, 18, random.pick(&[b"    24", b"    -1", b"      "])),
        5 => put(draft, place, 24, random.pick(&[b"    60", b"   100"])),
        6 => put(draft, place, 30, random.pick(&UNFIT_SECONDS_13)),
        7 => fill_one(draft, place, 43..48, random),
        8 => put(draft, place, 48, random.pick(&[b"UTC", b"XXX", b"gps", b"   ", b"GP "])),
        9 => fill_one(draft, place, 51..60, random),
        10 => put(draft, place, 47, b"GPS "),
        _ => put(draft, place, 30, b"             "),
    }
    Some(place)
}

const UNFIT_SECONDS_13: [&[u8]; 7] = [
    b"   60.0000000",
    b"   -1.0000000",
    b"   -0.0000000",
    b"     .0000000",
    b"  001.0000000",
    b"   30.000000 ",
    b"   30.00000  ",
];

fn unfit_interval(draft: &mut Draft, place: usize, random: &mut Random) -> Option<usize> {
    match random.below(4) {
        0 => fill_one(draft, place, 10..60, random),
        _ => put(draft, place, 0, random.pick(&UNFIT_INTERVALS)),
    }
    Some(place)
}

const UNFIT_INTERVALS: [&[u8]; 11] = [
    b"     0.000",
    b"      .000",
    b"    -0.000",
    b"    -1.000",
    b"     1.00 ",
    b"    +1.000",
    b"      1.00",
    b"     1e000",
    b"    1 .000",
    b"          ",
    b"        30",
];

fn is_epoch(kind: Kind) -> bool {
    matches!(kind, Kind::Epoch { .. })
}

/// Something that is no fit epoch record where one must stand.
fn aim_7(draft: &mut Draft, random: &mut Random) -> Option<usize> {
    let epochs = draft.places(is_epoch);
    if epochs.is_empty() || random.percent(20) {
        return line_too_many(draft, random);
    }
    let place = random.pick(&epochs);
    lengthen(&mut draft.lines[place].bytes, 56);
    let Kind::Epoch { flag, timed, .. } = draft.lines[place].kind else {
        return None;
    };
    match random.below(9) {
        0 => put(draft, place, 0, &[random.pick(b" <G")]),
        1 => put(
            draft,
            place,
            random.pick(&[1, 6, 9, 12, 15, 29, 30, 35, 40]),
            &[random.pick(b"x0-")],
        ),
        2 => fill_one(draft, place, 56..70, random),
        3 => put(draft, place, 31, &[random.pick(b" xA-/:")]),
        4 => put(draft, place, 32, random.pick(&[b"   ", b" -1", b"1  ", b" 1 ", b"+10", b"1.0"])),
        5 if flag < 2 => put(draft, place, 41, random.pick(&UNFIT_CLOCKS)),
        5 => put(draft, place, 41, b" 0.000000000000"),
        6 if flag < 2 || flag == 5 => put(draft, place, 2, &[b' '; 27]),
        _ if timed => unfit_epoch_time(draft, place, random),
        _ => fill_one(draft, place, 2..29, random),
    }
    Some(place)
}

const UNFIT_CLOCKS: [&[u8]; 6] = [
    b"+1.000000000000",
    b" 1.00000000000 ",
    b" 1.00000000000e",
    b"1 .000000000000",
    b"- .000000000000",
    b"  .            ",
];

fn unfit_epoch_time(draft: &mut Draft, place: usize, random: &mut Random) {
    match random.below(8) {
        0 => put(draft, place, 2, random.pick(&[b"1979", b"2100", b"  24", b"20 4"])),
        1 => put(draft, place, 7, random.pick(&[b"00", b"13", b"1 ", b"  ", b"-1"])),
        2 => put(draft, place, 10, random.pick(&[b"00", b"32", b"1 ", b"  "])),
        3 => put(draft, place, 2, random.pick(&[b"2023 02 29", b"2024 02 30", b"2022 11 31"])),
        4 => put(draft, place, 13, random.pick(&[b"24", b"1 ", b"  "])),
        5 => put(draft, place, 16, random.pick(&[b"60", b"1 ", b"  "])),
        _ => put(draft, place, 18, random.pick(&UNFIT_SECONDS_11)),
    }
}

const UNFIT_SECONDS_11: [&[u8]; 7] = [
    b" 60.0000000",
    b" -1.0000000",
    b"   .0000000",
    b"001.0000000",
    b" 30.000000 ",
    b" 30.00000  ",
    b"           ",
];

/// A further line where an epoch record or the end is due.
fn line_too_many(draft: &mut Draft, random: &mut Random) -> Option<usize> {
    let mut places = draft.places(is_epoch);
    places.push(draft.lines.len());
    let place = random.pick(&places);
    let bytes = match random.below(5) {
        0 => header_line(b"", b"END OF HEADER"),
        1 => header_line(b"> no epoch", b"COMMENT"),
        2 => Vec::new(),
        3 => b">".to_vec(),
        _ => b"G01  20000000.125 7".to_vec(),
    };
    insert(draft, place, Kind::Stray, bytes);
    Some(place)
}

/// Event flags 6 to 9.
fn aim_8(draft: &mut Draft, random: &mut Random) -> Option<usize> {
    let timed = |kind| matches!(kind, Kind::Epoch { timed: true, .. });
    let place = random.pick_any(&draft.places(timed))?;
    put(draft, place, 31, &[random.pick(b"6789")]);
    Some(place)
}

/// An observed epoch that is not later than the one before it.
fn aim_9(draft: &mut Draft, random: &mut Random) -> Option<usize> {
    let observed = draft.places(|kind| matches!(kind, Kind::Epoch { flag: 0..=1, .. }));
    if observed.len() < 2 {
        return None;
    }
    let later = 1 + random.below(observed.len() - 1);
    let earlier = random.below(later);
    let time: [u8; 27] = columns_from(draft, observed[earlier], 2);
    put(draft, observed[later], 2, &time);
    Some(observed[later])
}

fn rows_of(draft: &Draft) -> Vec<usize> {
    draft.places(|kind| matches!(kind, Kind::Row { .. }))
}

/// A row that does not begin with a satellite, or a row missing.
fn aim_10(draft: &mut Draft, random: &mut Random) -> Option<usize> {
    let rows = rows_of(draft);
    let before_epoch =
        |&place: &usize| draft.lines.get(place + 1).is_some_and(|next| is_epoch(next.kind));
    let last_rows: Vec<usize> = rows.iter().copied().filter(before_epoch).collect();
    if !last_rows.is_empty() && random.percent(25) {
        let place = random.pick(&last_rows);
        draft.lines.remove(place);
        return Some(place);
    }
    let place = random.pick_any(&rows)?;
    match random.below(6) {
        0 => put(draft, place, 0, &[random.pick(b"XMg >0")]),
        1 => put(draft, place, 1, b"00"),
        2 => put(draft, place, 1, &[random.pick(b" -xA")]),
        3 => put(draft, place, 2, &[random.pick(b" .xA")]),
        4 => draft.lines[place].bytes.truncate(random.below(3)),
        _ => draft.lines[place].bytes.insert(0, b' '),
    }
    if draft.lines[place].bytes.len() > LONGEST_LINE {
        draft.lines[place].bytes.truncate(LONGEST_LINE);
    }
    Some(place)
}

/// A satellite whose system has no list.
fn aim_11(draft: &mut Draft, random: &mut Random) -> Option<usize> {
    let lengths = draft.tables.head.lengths;
    let undeclared: Vec<usize> = (0..7).filter(|&system| lengths[system] == 0).collect();
    let system = random.pick_any(&undeclared)?;
    let place = random.pick_any(&rows_of(draft))?;
    put(draft, place, 0, &[SYSTEMS[system]]);
    Some(place)
}

/// A satellite twice in one epoch.
fn aim_12(draft: &mut Draft, random: &mut Random) -> Option<usize> {
    let rows = rows_of(draft);
    let follows_row = |place: usize| rows.contains(&(place - 1));
    let second_rows: Vec<usize> = rows.iter().copied().filter(|&row| follows_row(row)).collect();
    let place = random.pick_any(&second_rows)?;
    let mut other = place - 1;
    while follows_row(other) && random.percent(50) {
        other -= 1;
    }
    let satellite: [u8; 3] = columns_from(draft, other, 0);
    put(draft, place, 0, &satellite);
    Some(place)
}

/// An unfit slot, or something past the last one.
fn aim_13(draft: &mut Draft, random: &mut Random) -> Option<usize> {
    let place = random.pick_any(&rows_of(draft))?;
    let Kind::Row { slots, .. } = draft.lines[place].kind else {
        return None;
    };
    let column = SATELLITE_WIDTH + SLOT_WIDTH * random.below(slots);
    let past = SATELLITE_WIDTH + SLOT_WIDTH * slots;
    match random.below(8) {
        0 => put(draft, place, column + random.below(VALUE_WIDTH), &[random.pick(b"xe+,")]),
        1..=2 => put(draft, place, column, random.pick(&UNFIT_VALUES)),
        3 => put(draft, place, column + LOSS_COLUMN, &[random.pick(b"89x.-")]),
        4 => put(draft, place, column + STRENGTH_COLUMN, &[random.pick(b"x.-+")]),
        5 if slots < LONGEST_LIST => fill_one(draft, place, past..past + SLOT_WIDTH, random),
        6 if slots < LONGEST_LIST => put(draft, place, past, b"         0.000"),
        _ => {
            put(draft, place, column, random.pick(&[b"         1.500", b"         0.000"]));
            draft.lines[place].bytes.truncate(column + 11 + random.below(3));
        }
    }
    Some(place)
}

const UNFIT_VALUES: [&[u8]; 20] = [
    b"             0",
    b"           0.0",
    b"          0.00",
    b"        0.000 ",
    b"        0.0000",
    b"        +0.000",
    b"        +1.000",
    b"          1.50",
    b"        1.500 ",
    b"       --1.000",
    b"       - 1.000",
    b"       1 0.000",
    b"        1 .000",
    b"         1.0 0",
    b"        1.0000",
    b"             1",
    b"          1000",
    b"         1,000",
    b"1.000         ",
    b"         -    ",
];

/// The text ends inside the header or an epoch.
fn aim_14(draft: &mut Draft, random: &mut Random) -> Option<usize> {
    let header_end = draft.end_of_header();
    let inside = |&kept: &usize| {
        kept <= header_end || (kept < draft.lines.len() && !is_epoch(draft.lines[kept].kind))
    };
    let places: Vec<usize> = (1..draft.lines.len()).filter(inside).collect();
    let in_epochs: Vec<usize> = places.iter().copied().filter(|&kept| kept > header_end).collect();
    let choice = if in_epochs.is_empty() || random.percent(50) { &places } else { &in_epochs };
    let kept = random.pick_any(choice)?;
    draft.lines.truncate(kept);
    Some(kept)
}

/// A flag 3 event without MARKER NAME.
fn aim_15(draft: &mut Draft, random: &mut Random) -> Option<usize> {
    let events = draft.places(|kind| matches!(kind, Kind::Epoch { flag: 3, .. }));
    if events.is_empty() || random.percent(25) {
        return empty_new_site(draft, random);
    }
    let place = random.pick(&events);
    let Kind::Epoch { count, .. } = draft.lines[place].kind else {
        return None;
    };
    if place + count >= draft.lines.len() {
        return None;
    }
    for line in place + 1..=place + count {
        if label_of(&draft.lines[line].bytes) == Some(Label::MarkerName) {
            let other: &[u8] = random.pick(&[b"COMMENT".as_slice(), b"MARKER NUMBER", b"INTERVAL"]);
            put_label(draft, line, other);
        }
    }
    Some(place + count)
}

/// A flag 3 event with no lines.
fn empty_new_site(draft: &mut Draft, random: &mut Random) -> Option<usize> {
    let mut places = draft.places(is_epoch);
    places.push(draft.lines.len());
    let place = random.pick(&places);
    let kind = Kind::Epoch { flag: 3, count: 0, timed: false };
    insert(draft, place, kind, b">                              3  0".to_vec());
    Some(place)
}

/// One buffer shorter than its table.
fn aim_16(draft: &mut Draft, room: &mut Room, random: &mut Random) -> Option<usize> {
    let sums = needs(draft);
    let whole = *sums.last()?;
    let short_of: Vec<usize> = (0..13).filter(|&buffer| needed_of(&whole, buffer) > 0).collect();
    let buffer = random.pick_any(&short_of)?;
    let needed = needed_of(&whole, buffer);
    let length = if random.percent(70) { needed - 1 } else { random.below(needed) };
    *buffer_of(room, buffer) = length;
    sums.iter().position(|sum| needed_of(sum, buffer) > length)
}

// ---------------------------------------------------------------------------
// Damage without an aim
// ---------------------------------------------------------------------------

/// Damages lines: removed, doubled, swapped, joined, or a field replaced.
fn damage_lines(draft: &mut Draft, random: &mut Random) {
    if draft.lines.is_empty() {
        return;
    }
    let place = random.below(draft.lines.len());
    let other = random.below(draft.lines.len());
    match random.below(7) {
        0 => drop(draft.lines.remove(place)),
        1 => draft.lines.insert(other, draft.lines[place].clone()),
        2 => draft.lines.swap(place, other),
        3 => draft.lines[place].bytes = draft.lines[other].bytes.clone(),
        4 => {
            let behind = draft.lines[other].bytes.clone();
            draft.lines[place].bytes.extend(behind);
        }
        _ => replace_field(&mut draft.lines[place].bytes, random),
    }
}

/// Replaces some columns by what fields hold.
fn replace_field(line: &mut Vec<u8>, random: &mut Random) {
    let column = random.below(line.len().max(1));
    let field: &[u8] = random.pick(&[
        b"".as_slice(),
        b" ",
        b"   ",
        b"0",
        b"9",
        b".",
        b"-",
        b"  1",
        b"0.000",
        b"-.000",
        b"1.000",
        b"         0.000",
        b"         1.500",
        b"              ",
        b"COMMENT",
        b"> 2024 01 01 00 00  0.0000000  0  0",
    ]);
    let end = (column + field.len()).min(line.len());
    line.splice(column.min(end)..end, field.iter().copied());
}

/// Damages bytes: changed, put in, left out, or the rest cut off.
fn damage_bytes(text: &mut Vec<u8>, random: &mut Random) {
    if text.is_empty() {
        return;
    }
    let place = random.below(text.len());
    let byte = if random.percent(80) { random.printable() } else { random.number() as u8 };
    match random.below(8) {
        0..=2 => text[place] = byte,
        3 => text.insert(place, byte),
        4 => drop(text.remove(place)),
        5 => text.truncate(place),
        6 => text[place] = text[place].wrapping_add(1),
        _ => text.insert(place, b'\n'),
    }
}

// ---------------------------------------------------------------------------
// Cases
// ---------------------------------------------------------------------------

/// What must come of a case, where that is known.
#[derive(Clone, Debug, PartialEq, Eq)]
pub enum Expected {
    Accepted(Box<Tables>),
    Refused(Refusal),
    Unknown,
}

/// A text and the room for its tables.
#[derive(Clone, Debug)]
pub struct Case {
    pub text: Vec<u8>,
    pub room: Room,
    pub expected: Expected,
}

/// The case of a seed: a third valid, most others aimed, alone or in pairs.
pub fn case(seed: u64) -> Case {
    let mut random = Random::new(seed);
    match random.below(100) {
        0..=32 => valid_case(&mut random),
        33..=70 => aimed_case(&mut random),
        71..=78 => paired_case(&mut random),
        79..=83 => same_line_case(&mut random),
        84..=86 => unlisted_case(&mut random),
        87..=89 => cut_case(&mut random),
        _ => damaged_case(&mut random),
    }
}

fn valid_case(random: &mut Random) -> Case {
    let draft = valid(random);
    let exact = random.percent(50);
    let room = if exact { exact_room(&draft, random) } else { Room::ample() };
    let text = draft.text();
    Case { text, room, expected: Expected::Accepted(Box::new(draft.tables)) }
}

/// A text aimed at one number, chosen evenly.
fn aimed_case(random: &mut Random) -> Case {
    let number = 1 + random.below(16) as u32;
    aimed_at(number, random)
}

/// A text aimed at this number.
pub fn aimed_at(number: u32, random: &mut Random) -> Case {
    loop {
        let mut draft = valid(random);
        let mut room = Room::ample();
        if let Some(line) = aim(number, &mut draft, &mut room, random) {
            let expected = Expected::Refused(Refusal { number, line });
            return Case { text: draft.text(), room, expected };
        }
    }
}

/// Two faults in one text, each aimed at its own number, chosen evenly.
fn paired_case(random: &mut Random) -> Case {
    let first = 1 + random.below(16) as u32;
    let second = 1 + random.below(16) as u32;
    paired_at(first, second, random)
}

/// A text aimed at the first number and then at the second. The fault of the
/// earlier line must be reported; two in one line may undo each other.
pub fn paired_at(first: u32, second: u32, random: &mut Random) -> Case {
    loop {
        let mut draft = valid(random);
        let mut room = Room::ample();
        let mut attempt = || {
            let line = aim(first, &mut draft, &mut room, random)?;
            if draft.lines.len() < 2 {
                return None;
            }
            let lines = draft.lines.len();
            let other = aim(second, &mut draft, &mut room, random)?;
            // A line left out before the first fault moves it up.
            let moves_up = draft.lines.len() < lines && other < line;
            let line = line - u64::from(moves_up);
            Some([Refusal { number: first, line }, Refusal { number: second, line: other }])
        };
        if let Some(faults) = attempt() {
            let expected = earlier(faults, draft.last_line_ends);
            return Case { text: draft.text(), room, expected };
        }
    }
}

/// The fault in the earlier line, where the second could not touch the first:
/// a missing LF moves to whatever line is last, other labels in an event change
/// the room that its lines need, and a buffer may be made short twice.
fn earlier([first, second]: [Refusal; 2], last_line_ends: bool) -> Expected {
    let room_moves = first.number == 16 && second.number >= 15;
    if first.line == second.line || !last_line_ends || room_moves {
        return Expected::Unknown;
    }
    Expected::Refused(if first.line < second.line { first } else { second })
}

/// Two faults in one line, so that the lowest number must be found. The
/// second may undo the first, so what must come of it is not known.
fn same_line_case(random: &mut Random) -> Case {
    loop {
        let first = 1 + random.below(16) as u32;
        let second = 1 + random.below(16) as u32;
        let mut draft = valid(random);
        let mut room = Room::ample();
        let line = aim(first, &mut draft, &mut room, random);
        if draft.lines.len() < 2 || draft.lines.len() > 60 {
            continue;
        }
        let both = line.and_then(|line| aim_at_line(second, line, &draft, &room, random));
        if let Some((text, room)) = both {
            return Case { text, room, expected: Expected::Unknown };
        }
    }
}

/// How often a second fault is tried before another text is.
const ATTEMPTS: usize = 30;

/// A text with one more fault, aimed at this number and found in this line,
/// and its room; none if no attempt finds it there.
fn aim_at_line(
    number: u32,
    line: u64,
    draft: &Draft,
    room: &Room,
    random: &mut Random,
) -> Option<(Vec<u8>, Room)> {
    (0..ATTEMPTS).find_map(|_| {
        let mut both = draft.clone();
        let mut less_room = *room;
        let found = aim(number, &mut both, &mut less_room, random);
        (found == Some(line)).then(|| (both.text(), less_room))
    })
}

/// An unlisted code, and a second fault that a line of a list may have.
fn unlisted_case(random: &mut Random) -> Case {
    let second = random.pick(&FAULTS_OF_LISTS);
    unlisted_and(second, random)
}

/// A header record that is read has an unfit field.
const UNFIT_FIELD: u32 = 6;

/// The numbers that a line of a list can come to.
pub const FAULTS_OF_LISTS: [u32; 6] = [1, 2, 4, 5, UNFIT_FIELD, 16];

/// A text with an unlisted code and then, in the same line, a fault aimed at
/// the second number. The lowest must be found: the second fault may undo the
/// code, but a lack of room does not, and all others are no higher.
pub fn unlisted_and(second: u32, random: &mut Random) -> Case {
    loop {
        let mut draft = valid(random);
        let line = put_unlisted(&mut draft, random).map(|place| place as u64 + 1);
        let both = line.and_then(|line| {
            let (text, room) = aim_at_line(second, line, &draft, &Room::ample(), random)?;
            let number = second.min(UNFIT_FIELD);
            Some(Case { text, room, expected: Expected::Refused(Refusal { number, line }) })
        });
        if let Some(case) = both {
            return case;
        }
    }
}

/// A valid text cut off at any place: within a line that is 1, behind one it
/// is 14 or a whole text.
fn cut_case(random: &mut Random) -> Case {
    let mut text = valid(random).text();
    text.truncate(random.below(text.len()));
    let line = 1 + text.iter().filter(|&&byte| byte == b'\n').count() as u64;
    let expected = match text.last() {
        None => Expected::Refused(Refusal { number: 3, line: 1 }),
        Some(b'\n') => Expected::Unknown,
        Some(_) => Expected::Refused(Refusal { number: 1, line }),
    };
    Case { text, room: Room::ample(), expected }
}

/// A text damaged anywhere, once or more.
fn damaged_case(random: &mut Random) -> Case {
    let mut draft = valid(random);
    let room = if random.percent(30) { exact_room(&draft, random) } else { Room::ample() };
    for _ in 0..random.below(3) {
        damage_lines(&mut draft, random);
    }
    let mut text = draft.text();
    for _ in 0..1 + random.below(3) {
        damage_bytes(&mut text, random);
    }
    Case { text, room, expected: Expected::Unknown }
}
