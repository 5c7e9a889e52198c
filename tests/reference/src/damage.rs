//! Tables of which anything may be changed, and changes at random: some leave
//! tables that no text spells, some do not matter.

use crate::codes::taken_codes;
use crate::fields::*;
use crate::generate::Random;
use crate::random_codes::unlisted_code;
use crate::tables::*;

/// Tables with their code buffer, so that anything can be changed.
#[derive(Clone, Debug)]
pub struct Loose {
    pub tables: Tables,
    pub codes: Vec<u32>,
}

impl Loose {
    pub fn of(tables: Tables) -> Loose {
        let codes = tables.lent_codes();
        Loose { tables, codes }
    }

    pub fn lent(&self) -> TablesRef<'_> {
        self.tables.lent(&self.codes)
    }

    /// The places of the code table that lists have.
    pub fn used_codes(&self) -> Vec<usize> {
        let lengths = self.tables.head.lengths;
        let length_at = |place: usize| *lengths.get(place / LONGEST_LIST).unwrap_or(&0) as usize;
        let is_used = |&place: &usize| place % LONGEST_LIST < length_at(place);
        (0..self.codes.len()).filter(is_used).collect()
    }
}

/// Changes some entry of a list, if it has one.
fn change<A: Copy>(entries: &mut [A], random: &mut Random, to: impl Fn(A, &mut Random) -> A) {
    if !entries.is_empty() {
        let place = random.below(entries.len());
        entries[place] = to(entries[place], random);
    }
}

/// One off, or a number of the list.
fn near(number: u64, edges: &[u64], random: &mut Random) -> u64 {
    match random.below(4) {
        0 => number.wrapping_add(1),
        1 => number.wrapping_sub(1),
        _ => random.pick(edges),
    }
}

fn near_signed(number: i64, edges: &[i64], random: &mut Random) -> i64 {
    match random.below(4) {
        0 => number.wrapping_add(1),
        1 => number.wrapping_neg(),
        _ => random.pick(edges),
    }
}

fn change_head(loose: &mut Loose, random: &mut Random) {
    let head = &mut loose.tables.head;
    match random.below(7) {
        0 => head.letter = random.pick(b"GREJCISM XAm"),
        1 => {
            let edges = [0, 1, 64, 65, 1_001, u64::from(u32::MAX), 1 << 58, u64::MAX];
            change(&mut head.lengths, random, |n, r| near(n, &edges, r))
        }
        2 => {
            head.first_time = near(head.first_time, &[0, TIME_END - 1, TIME_END, u64::MAX], random)
        }
        3 => head.time_system = random.pick(&[0, 5, 6, 7, 1 << 32, u64::MAX]),
        4 => head.interval_state = random.pick(&[0, 1, 2, 255]),
        5 => head.interval = random.pick(&[0, 1, 999_999_999, 1_000_000_000, u64::MAX]),
        _ => head.carried_lines = near(head.carried_lines, &[0, 1, u64::MAX], random),
    }
}

fn change_counts(loose: &mut Loose, random: &mut Random) {
    let counts = &mut loose.tables.counts;
    let field = match random.below(4) {
        0 => &mut counts.epochs,
        1 => &mut counts.rows,
        2 => &mut counts.slots,
        _ => &mut counts.carried,
    };
    *field = near(*field, &[0, 1, u64::MAX], random);
}

fn change_codes(loose: &mut Loose, random: &mut Random) {
    let used = loose.used_codes();
    let Some(place) = random.pick_any(&used) else {
        return;
    };
    let other = loose.codes[random.pick(&used)];
    loose.codes[place] = match random.below(6) {
        0 => other,
        1 => pack_code(*b"C1 "),
        2 => pack_code(*b"C0A"),
        3 => pack_code(*b"X1A"),
        4 => loose.codes[place] | 0x0100_0000,
        _ => loose.codes[place] ^ (1 << random.below(32)),
    };
}

/// A code that is not taken under the system of its list, at the first place,
/// the last one or any; at times one that is, which may stand there already.
fn put_unlisted(loose: &mut Loose, random: &mut Random) {
    let used = loose.used_codes();
    let Some(any) = random.pick_any(&used) else {
        return;
    };
    let place = random.pick(&[used[0], used[used.len() - 1], any]);
    let system = place / LONGEST_LIST;
    let code = match random.percent(80) {
        true => unlisted_code(random, system),
        false => random.pick(&taken_codes(system)),
    };
    loose.codes[place] = pack_code(code);
}

fn change_epochs(loose: &mut Loose, random: &mut Random) {
    let tables = &mut loose.tables;
    match random.below(6) {
        0 => change(&mut tables.times, random, |t, r| {
            near(t, &[0, TIME_END - 1, TIME_END, u64::MAX], r)
        }),
        1 => change(&mut tables.time_states, random, |_, r| r.pick(&[0, 1, 2])),
        2 => change(&mut tables.flags, random, |_, r| r.pick(&[0, 1, 2, 3, 4, 5, 6, 255])),
        3 => change(&mut tables.line_counts, random, |n, r| {
            near(n.into(), &[0, 1, 999, 1_000, 65_535], r) as u16
        }),
        4 => {
            let edges =
                [0, SMALLEST_CLOCK, SMALLEST_CLOCK - 1, LARGEST_CLOCK, LARGEST_CLOCK + 1, i64::MIN];
            change(&mut tables.clocks, random, |n, r| near_signed(n, &edges, r))
        }
        _ => change(&mut tables.clock_states, random, |_, r| r.pick(&[0, 1, 2])),
    }
}

fn change_rows_and_slots(loose: &mut Loose, random: &mut Random) {
    let tables = &mut loose.tables;
    match random.below(6) {
        0 => change(&mut tables.satellites, random, |n, r| {
            near(n.into(), &[0, 1, 99, 100, 101, 201, 699, 700, 701, 65_535], r) as u16
        }),
        1 => {
            let copy = tables.satellites.clone();
            change(&mut tables.satellites, random, |_, r| r.pick(&copy))
        }
        2 => {
            let edges =
                [0, SMALLEST_VALUE, SMALLEST_VALUE - 1, LARGEST_VALUE, LARGEST_VALUE + 1, i64::MIN];
            change(&mut tables.numbers, random, |n, r| near_signed(n, &edges, r))
        }
        3 => change(&mut tables.states, random, |_, r| r.pick(&[0, 1, 2])),
        4 => change(&mut tables.losses, random, |_, r| r.pick(&[0, 7, 8, 218, 240, 254, 255])),
        _ => change(&mut tables.strengths, random, |_, r| r.pick(&[0, 9, 10, 218, 240, 254, 255])),
    }
}

/// A value given as 0, which no text spells, or given next to 0; at times a
/// clock given as 0, which some text spells.
fn give_zero(loose: &mut Loose, random: &mut Random) {
    let tables = &mut loose.tables;
    if random.percent(20) {
        give(&mut tables.clock_states, &mut tables.clocks, 0, random);
    } else {
        let number = random.pick(&[0, 0, 0, 0, -1, 1]);
        give(&mut tables.states, &mut tables.numbers, number, random);
    }
}

/// Gives a number at the first place, the last one or any, if there is one.
fn give(states: &mut [u8], numbers: &mut [i64], number: i64, random: &mut Random) {
    let length = states.len().min(numbers.len());
    if length == 0 {
        return;
    }
    let any = random.below(length);
    let place = random.pick(&[0, length - 1, any]);
    states[place] = 1;
    numbers[place] = number;
}

fn change_carried(loose: &mut Loose, random: &mut Random) {
    let carried = &mut loose.tables.carried;
    if carried.is_empty() {
        return;
    }
    let place = random.below(carried.len());
    match random.below(5) {
        0 => carried[place] = random.printable(),
        1 => carried[place] = random.pick(&[b'\n', b' ', 0, 127, 200]),
        2 => {
            carried.insert(place, b' ');
            loose.tables.counts.carried = loose.tables.counts.carried.wrapping_add(1);
        }
        3 => {
            carried.remove(place);
            loose.tables.counts.carried = loose.tables.counts.carried.wrapping_sub(1);
        }
        _ => swap_label(carried, place, random),
    }
}

/// Puts another label into the line around a place.
fn swap_label(carried: &mut [u8], place: usize, random: &mut Random) {
    let start = carried[..place].iter().rposition(|&byte| byte == b'\n').map_or(0, |lf| lf + 1);
    let (name, _) = random.pick(&LABELS);
    let label = cut(name);
    let end = start + 60 + label.len();
    if carried.get(end) == Some(&b'\n') {
        carried[start + 60..end].copy_from_slice(label);
    }
}

/// Buffers longer or shorter than the tables in them.
fn change_lengths(loose: &mut Loose, random: &mut Random) {
    let tables = &mut loose.tables;
    if random.percent(50) {
        tables.times.push(5);
        tables.flags.push(9);
        tables.satellites.push(777);
        tables.states.push(9);
        tables.carried.push(0);
        return;
    }
    match random.below(8) {
        0 => loose.codes.truncate(random.below(449)),
        1 => shorten(&mut tables.times),
        2 => shorten(&mut tables.clock_states),
        3 => shorten(&mut tables.line_counts),
        4 => shorten(&mut tables.satellites),
        5 => shorten(&mut tables.numbers),
        6 => shorten(&mut tables.strengths),
        _ => shorten(&mut tables.carried),
    }
}

fn shorten<A>(buffer: &mut Vec<A>) {
    buffer.truncate(buffer.len().saturating_sub(1));
}

/// Changes one thing or two, anywhere; often a zero that is given, or an
/// unlisted code, alone.
pub fn damage(loose: &mut Loose, random: &mut Random) {
    match random.below(100) {
        0..=24 => give_zero(loose, random),
        25..=44 => put_unlisted(loose, random),
        _ => (0..1 + random.below(2)).for_each(|_| change_something(loose, random)),
    }
}

fn change_something(loose: &mut Loose, random: &mut Random) {
    match random.below(10) {
        0 => change_head(loose, random),
        1 => change_counts(loose, random),
        2 => change_codes(loose, random),
        3 => change_epochs(loose, random),
        4..=5 => change_rows_and_slots(loose, random),
        6 => change_carried(loose, random),
        7 => change_lengths(loose, random),
        8 => put_unlisted(loose, random),
        _ => give_zero(loose, random),
    }
}
