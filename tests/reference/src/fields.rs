//! Numbers, times and labels, as columns spell them, and codes as they are held.

/// The longest text that is read or written.
pub const TEXT_LIMIT: u64 = 1_073_741_824;
/// The longest line: 3 columns and 64 slots of 16.
pub const LONGEST_LINE: usize = 1_027;
/// The longest list of codes.
pub const LONGEST_LIST: usize = 64;
/// Codes on one line of a list.
pub const CODES_A_LINE: usize = 13;
/// The columns of a list: its letter and count, then codes, a blank before each.
pub const LIST_START_WIDTH: usize = 6;
pub const CODE_WIDTH: usize = 4;

/// The column, from 0, of the blank before a code of a line, also from 0.
pub fn code_column(number: usize) -> usize {
    LIST_START_WIDTH + CODE_WIDTH * number
}

/// The columns of a row: its satellite, then its slots.
pub const SATELLITE_WIDTH: usize = 3;
pub const SLOT_WIDTH: usize = 16;
/// The columns of a slot: its value, then the two marks.
pub const VALUE_WIDTH: usize = 14;
pub const LOSS_COLUMN: usize = VALUE_WIDTH;
pub const STRENGTH_COLUMN: usize = LOSS_COLUMN + 1;
pub const VALUE_DECIMALS: usize = 3;

/// The letters of the systems, in the order of the tables.
pub const SYSTEMS: [u8; 7] = *b"GREJCIS";
/// The names of the time systems, in the order of the tables.
pub const TIME_SYSTEMS: [[u8; 3]; 6] = [*b"GPS", *b"GLO", *b"GAL", *b"QZS", *b"BDT", *b"IRN"];

pub const TICKS_A_SECOND: u64 = 10_000_000;
pub const TICKS_A_MINUTE: u64 = 60 * TICKS_A_SECOND;
pub const TICKS_A_DAY: u64 = 1_440 * TICKS_A_MINUTE;
/// The first time that is too late: 2100-01-01.
pub const TIME_END: u64 = 43_830 * TICKS_A_DAY;

pub const SMALLEST_VALUE: i64 = -999_999_999_999;
pub const LARGEST_VALUE: i64 = 9_999_999_999_999;
pub const SMALLEST_CLOCK: i64 = -9_999_999_999_999;
pub const LARGEST_CLOCK: i64 = 99_999_999_999_999;
pub const LARGEST_INTERVAL: u64 = 999_999_999;
pub const LARGEST_COUNT: u32 = 999;

/// The held form of a blank mark.
pub const BLANK_MARK: u8 = 255;

/// True if every column is blank.
#[inline]
pub fn all_blank(columns: &[u8]) -> bool {
    columns.iter().all(|&byte| byte == b' ')
}

/// The line without its trailing blanks.
#[inline]
pub fn cut(line: &[u8]) -> &[u8] {
    let end = line.iter().rposition(|&byte| byte != b' ').map_or(0, |last| last + 1);
    &line[..end]
}

/// The first columns of a line; a short line is filled with blanks.
#[inline]
pub fn padded<const WIDTH: usize>(line: &[u8]) -> [u8; WIDTH] {
    let mut columns = [b' '; WIDTH];
    let given = line.len().min(WIDTH);
    columns[..given].copy_from_slice(&line[..given]);
    columns
}

/// True if no column from the given place on is filled.
#[inline]
pub fn blank_from(line: &[u8], place: usize) -> bool {
    line.len() <= place || all_blank(&line[place..])
}

/// What a field of a decimal number holds.
#[derive(Clone, Copy, Debug, PartialEq, Eq)]
pub enum Field {
    Blank,
    Number(i64),
    Unfit,
}

/// A decimal number, or blank.
#[inline(always)]
pub fn decimal_or_blank<const WIDTH: usize>(field: &[u8; WIDTH], decimals: usize) -> Field {
    if *field == [b' '; WIDTH] {
        return Field::Blank;
    }
    match decimal(field, decimals) {
        Some(number) => Field::Number(number),
        None => Field::Unfit,
    }
}

/// A decimal number: blanks, perhaps a minus, digits or none, a point, and
/// the decimals up to the last column.
#[inline(always)]
pub fn decimal<const WIDTH: usize>(field: &[u8; WIDTH], decimals: usize) -> Option<i64> {
    let point = WIDTH - decimals - 1;
    if field[point] != b'.' {
        return None;
    }
    let mut start = 0;
    while field[start] == b' ' {
        start += 1;
    }
    let negative = field[start] == b'-';
    if negative {
        start += 1;
    }
    let before = digits(0, field.get(start..point)?)?;
    let number = digits(before, &field[point + 1..])?;
    Some(if negative { -number } else { number })
}

/// The number with further digits behind it.
#[inline(always)]
fn digits(before: i64, columns: &[u8]) -> Option<i64> {
    let mut number = before;
    let mut all_digits = true;
    for &byte in columns {
        let digit = byte.wrapping_sub(b'0');
        all_digits &= digit <= 9;
        number = number * 10 + i64::from(digit);
    }
    all_digits.then_some(number)
}

/// A whole number at the right of its field: blanks, then a digit or more.
#[inline]
pub fn whole(field: &[u8]) -> Option<u32> {
    let start = field.iter().position(|&byte| byte != b' ')?;
    digits(0, &field[start..]).map(|number| number as u32)
}

/// Seconds as ticks: no sign, one or two digits before the point, below 60.
#[inline]
pub fn seconds<const WIDTH: usize>(field: &[u8; WIDTH]) -> Option<u64> {
    let point = WIDTH - 8;
    let tens_column = point - 2;
    let one_digit_or_two = field[point - 1] != b' ' && all_blank(&field[..tens_column]);
    if !one_digit_or_two || field[tens_column] == b'-' || field[point - 1] == b'-' {
        return None;
    }
    let ticks = decimal(field, 7)? as u64;
    (ticks < TICKS_A_MINUTE).then_some(ticks)
}

/// Whether a year of 1980 to 2099 is a leap year: no century there is not.
fn is_leap(year: u32) -> bool {
    year % 4 == 0
}

/// The days of a month.
pub fn month_length(year: u32, month: u32) -> u32 {
    match month {
        2 if is_leap(year) => 29,
        2 => 28,
        4 | 6 | 9 | 11 => 30,
        _ => 31,
    }
}

/// The days before each month of a common year.
const DAYS_BEFORE: [u32; 12] = [0, 31, 59, 90, 120, 151, 181, 212, 243, 273, 304, 334];

/// The days from 1980-01-01 to a date, if there is such a date.
#[inline]
fn days(year: u32, month: u32, day: u32) -> Option<u64> {
    let known = (1980..=2099).contains(&year) && (1..=12).contains(&month);
    if !known || day < 1 || day > month_length(year, month) {
        return None;
    }
    let years = year - 1980;
    let leap_days_before = years.div_ceil(4);
    let leap_day_now = u32::from(is_leap(year) && month > 2);
    let in_year = DAYS_BEFORE[month as usize - 1] + leap_day_now + day - 1;
    Some(u64::from(years * 365 + leap_days_before + in_year))
}

/// The ticks from 1980-01-01 00:00:00 to a time, if there is such a time.
#[inline]
pub fn time(date: [u32; 3], hour: u32, minute: u32, second_ticks: u64) -> Option<u64> {
    let day = days(date[0], date[1], date[2])?;
    if hour > 23 || minute > 59 {
        return None;
    }
    let minutes = day * 1_440 + u64::from(hour * 60 + minute);
    Some(minutes * TICKS_A_MINUTE + second_ticks)
}

/// A time taken apart.
#[derive(Clone, Copy, Debug, PartialEq, Eq)]
pub struct Calendar {
    pub year: u64,
    pub month: u64,
    pub day: u64,
    pub hour: u64,
    pub minute: u64,
    pub second_ticks: u64,
}

/// The date and time of day of a count of ticks.
pub fn calendar(time: u64) -> Calendar {
    let day_number = time / TICKS_A_DAY;
    let minute_of_day = time % TICKS_A_DAY / TICKS_A_MINUTE;
    // Four years from a leap year on have 1,461 days.
    let in_four = day_number % 1_461;
    let (year_of_four, day_of_year) = match in_four {
        0..=365 => (0, in_four),
        _ => (1 + (in_four - 366) / 365, (in_four - 366) % 365),
    };
    let (month, day) = month_and_day(year_of_four == 0, day_of_year as u32);
    Calendar {
        year: 1980 + day_number / 1_461 * 4 + year_of_four,
        month: u64::from(month),
        day: u64::from(day),
        hour: minute_of_day / 60,
        minute: minute_of_day % 60,
        second_ticks: time % TICKS_A_MINUTE,
    }
}

/// The month and its day, both from 1, of a day of the year from 0.
fn month_and_day(leap: bool, day_of_year: u32) -> (u32, u32) {
    let year = if leap { 1980 } else { 1981 };
    let mut left = day_of_year;
    let mut month = 1;
    while left >= month_length(year, month) {
        left -= month_length(year, month);
        month += 1;
    }
    (month, left + 1)
}

/// The place of a system's letter.
#[inline]
pub fn system_of(letter: u8) -> Option<usize> {
    match letter {
        b'G' => Some(0),
        b'R' => Some(1),
        b'E' => Some(2),
        b'J' => Some(3),
        b'C' => Some(4),
        b'I' => Some(5),
        b'S' => Some(6),
        _ => None,
    }
}

/// True if a file may have this letter.
pub fn is_file_letter(letter: u8) -> bool {
    letter == b'M' || system_of(letter).is_some()
}

/// True if a file of this letter may declare the system.
pub fn letter_allows(letter: u8, system: usize) -> bool {
    letter == b'M' || letter == SYSTEMS[system]
}

/// Three bytes of a code, the first one highest.
pub fn pack_code(bytes: [u8; 3]) -> u32 {
    u32::from_be_bytes([0, bytes[0], bytes[1], bytes[2]])
}

/// The four bytes of a held code, the first of which is 0 in any fit one.
pub fn unpack_code(code: u32) -> [u8; 4] {
    code.to_be_bytes()
}

/// What a known label means to the reader.
#[derive(Clone, Copy, Debug, PartialEq, Eq)]
pub enum Label {
    Version,
    List,
    FirstTime,
    Interval,
    End,
    ScaleFactor,
    MarkerName,
    Other,
}

impl Label {
    /// True if a header line of this label is carried.
    pub fn carried_in_header(self) -> bool {
        matches!(self, Label::MarkerName | Label::Other)
    }

    /// True if an event may hold a line of this label.
    pub fn allowed_in_event(self) -> bool {
        let barred = [Label::Version, Label::List, Label::ScaleFactor, Label::End];
        !barred.contains(&self)
    }
}

/// The 33 known labels, filled with blanks.
pub const LABELS: [(&[u8; 20], Label); 33] = [
    (b"RINEX VERSION / TYPE", Label::Version),
    (b"PGM / RUN BY / DATE ", Label::Other),
    (b"COMMENT             ", Label::Other),
    (b"MARKER NAME         ", Label::MarkerName),
    (b"MARKER NUMBER       ", Label::Other),
    (b"MARKER TYPE         ", Label::Other),
    (b"OBSERVER / AGENCY   ", Label::Other),
    (b"REC # / TYPE / VERS ", Label::Other),
    (b"ANT # / TYPE        ", Label::Other),
    (b"APPROX POSITION XYZ ", Label::Other),
    (b"ANTENNA: DELTA H/E/N", Label::Other),
    (b"ANTENNA: DELTA X/Y/Z", Label::Other),
    (b"ANTENNA: PHASECENTER", Label::Other),
    (b"ANTENNA: B.SIGHT XYZ", Label::Other),
    (b"ANTENNA: ZERODIR AZI", Label::Other),
    (b"ANTENNA: ZERODIR XYZ", Label::Other),
    (b"CENTER OF MASS: XYZ ", Label::Other),
    (b"SYS / # / OBS TYPES ", Label::List),
    (b"SIGNAL STRENGTH UNIT", Label::Other),
    (b"INTERVAL            ", Label::Interval),
    (b"TIME OF FIRST OBS   ", Label::FirstTime),
    (b"TIME OF LAST OBS    ", Label::Other),
    (b"RCV CLOCK OFFS APPL ", Label::Other),
    (b"SYS / DCBS APPLIED  ", Label::Other),
    (b"SYS / PCVS APPLIED  ", Label::Other),
    (b"SYS / SCALE FACTOR  ", Label::ScaleFactor),
    (b"SYS / PHASE SHIFT   ", Label::Other),
    (b"GLONASS SLOT / FRQ #", Label::Other),
    (b"GLONASS COD/PHS/BIS ", Label::Other),
    (b"LEAP SECONDS        ", Label::Other),
    (b"# OF SATELLITES     ", Label::Other),
    (b"PRN / # OF OBS      ", Label::Other),
    (b"END OF HEADER       ", Label::End),
];

/// The label in columns 61-80, if it is known and nothing stands past it.
pub fn label_of(line: &[u8]) -> Option<Label> {
    if line.len() <= 60 || !blank_from(line, 80) {
        return None;
    }
    let columns: [u8; 20] = padded(&line[60..]);
    let known = LABELS.iter().find(|(name, _)| **name == columns);
    known.map(|&(_, label)| label)
}
