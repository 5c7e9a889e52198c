//! That generated valid texts have every feature the paper speaks of, and that
//! damaged texts and tables have what it bars of codes and of zeros.

mod common;

use common::{epochs_of, named_code};
use reference::codes::taken_codes;
use reference::damage::{damage, Loose};
use reference::fields::*;
use reference::generate::*;
use reference::random_codes::{why_unlisted, Unlisted, UNLISTED};
use reference::tables::Tables;
use reference::write::{counts_are_lent, is_spelled, write_epoch};
use reference::zeros::zeros_of_row;
use std::collections::BTreeMap;

/// How many texts or tables have each feature.
type Counts = BTreeMap<String, u32>;

/// Counts each of the features once.
fn count(counts: &mut Counts, mut found: Vec<String>) {
    found.sort();
    found.dedup();
    for feature in found {
        *counts.entry(feature).or_insert(0) += 1;
    }
}

/// How many of so many have each feature, all from a seed.
fn counted(seed: u64, times: usize, features: impl Fn(&mut Random) -> Vec<String>) -> Counts {
    let mut random = Random::new(seed);
    let mut counts = Counts::new();
    (0..times).for_each(|_| count(&mut counts, features(&mut random)));
    counts
}

/// Tables that were damaged.
fn damaged(random: &mut Random) -> Loose {
    let mut loose = Loose::of(valid(random).tables);
    damage(&mut loose, random);
    loose
}

/// Shows the counts, and asks for so many features, each so often.
fn ask_for(counts: &Counts, features: usize, often: u32) {
    for (feature, times) in counts {
        println!("{times:>6} {feature}");
    }
    assert_eq!(counts.len(), features);
    assert!(counts.values().all(|&times| times >= often));
}

/// The names of those that hold.
fn named(tests: &[(&str, bool)]) -> Vec<String> {
    tests.iter().filter(|(_, found)| *found).map(|(name, _)| name.to_string()).collect()
}

/// The features that one valid text has.
fn features(draft: &Draft) -> Vec<String> {
    let tables = &draft.tables;
    let mut found = vec![format!("letter {}", tables.head.letter as char)];
    found.push(format!("time system {}", tables.head.time_system));
    found.push(format!("interval {}", tables.head.interval_state));
    let has_blank = tables.codes.iter().flatten().any(|code| code & 255 == 32);
    found.extend(has_blank.then(|| "code with blank attribute".to_string()));
    found.extend((0..7).flat_map(|system| list_features(tables, system)));
    found.extend(epoch_features(tables));
    found.extend(slot_features(tables));
    found.extend(draft.lines.iter().flat_map(line_features));
    found
}

fn list_features(tables: &Tables, system: usize) -> Vec<String> {
    let length = tables.head.lengths[system] as usize;
    let longest = taken_codes(system).len().min(LONGEST_LIST);
    let letter = SYSTEMS[system] as char;
    named(&[
        ("list of 13", length == 13),
        ("list of 14", length == 14),
        ("list of 26", length == 26),
        ("list of 27", length == 27),
        (&format!("longest list of {letter}"), length == longest),
    ])
}

fn epoch_features(tables: &Tables) -> Vec<String> {
    let mut found = vec![];
    for place in 0..tables.flags.len() {
        let flag = tables.flags[place];
        found.push(format!("flag {flag} with time {}", tables.time_states[place]));
        let count = tables.line_counts[place];
        let has_clock = tables.clock_states[place] == 1;
        found.extend(named(&[
            ("clock", has_clock),
            ("clock of 0", has_clock && tables.clocks[place] == 0),
            ("no satellites", flag < 2 && count == 0),
            ("over 99 satellites", flag < 2 && count > 99),
            ("over 99 event lines", flag > 1 && count > 99),
        ]));
    }
    found
}

fn slot_features(tables: &Tables) -> Vec<String> {
    let mut found = vec![];
    for place in 0..tables.numbers.len() {
        let given = tables.states[place] == 1;
        let marked = tables.losses[place] != BLANK_MARK;
        found.push(format!("value {given} loss {marked}"));
        let number = tables.numbers[place];
        found.extend(named(&[
            ("smallest value", number == SMALLEST_VALUE),
            ("largest value", number == LARGEST_VALUE),
            ("value next to 0", number.abs() == 1),
        ]));
    }
    found
}

fn line_features(line: &Line) -> Vec<String> {
    let text = String::from_utf8_lossy(&line.bytes).to_string();
    let is_row = matches!(line.kind, Kind::Row { .. });
    let is_carried = matches!(line.kind, Kind::EventLine | Kind::CarriedInHeader);
    let full = cut(&line.bytes).len() == LONGEST_LINE;
    named(&[
        ("trailing blanks", text.ends_with(' ')),
        ("blanks up to column 1,027", text.len() == LONGEST_LINE && !full),
        ("row filled up to column 1,027", is_row && full),
        ("carried line that begins with >", is_carried && text.starts_with('>')),
        ("no digit before the point", is_row && text.contains(" .")),
        ("minus before the point", is_row && text.contains("-.")),
        ("leading zeros", is_row && text.contains(" 00")),
        ("row cut to its satellite", is_row && text.len() == 3),
        ("free columns filled", line.kind == Kind::Version && !text[21..].starts_with("BS")),
    ])
}

#[test]
fn every_feature_is_generated() {
    let counts = counted(12, 5_000, |random| features(&valid(random)));
    // 8 letters, 6 time systems, 2 interval states, 1 blank attribute, 4 list
    // lengths, 7 longest lists, 9 flags with and without time, 2 clocks, 3
    // counts, 4 slots, 3 values at an edge, 9 kinds of lines.
    ask_for(&counts, 8 + 6 + 2 + 1 + 4 + 7 + 9 + 2 + 3 + 4 + 3 + 9, 10);
}

/// The codes of each system that stand in a list.
fn declared(tables: &Tables) -> Vec<String> {
    let code_at = |place: usize| {
        let [_, code @ ..] = unpack_code(tables.codes[place]?);
        Some(named_code(SYSTEMS[place / LONGEST_LIST], code))
    };
    (0..tables.codes.len()).filter_map(code_at).collect()
}

#[test]
fn every_code_is_generated() {
    let counts = counted(4, 5_000, |random| declared(&valid(random).tables));
    let all: usize = (0..7).map(|system| taken_codes(system).len()).sum();
    ask_for(&counts, all, 10);
}

/// The codes in a line of a list.
fn codes_of_line(line: &[u8]) -> Vec<[u8; 3]> {
    let code_at = |number: usize| padded(line.get(code_column(number) + 1..).unwrap_or(b""));
    (0..CODES_A_LINE).map(code_at).collect()
}

/// Why codes of the refused line are unlisted, and where they stand.
fn unlisted_features(case: &Case) -> Vec<String> {
    let Expected::Refused(refusal) = case.expected else {
        return vec![];
    };
    let lines: Vec<&[u8]> = case.text.split(|&byte| byte == b'\n').collect();
    let line = refusal.line as usize - 1;
    let start =
        (0..=line).rev().find(|&place| !all_blank(&padded::<LIST_START_WIDTH>(lines[place])));
    let system = start.and_then(|start| system_of(lines[start][0]));
    let (Some(Label::List), Some(system)) = (label_of(lines[line]), system) else {
        return vec![];
    };
    let mut found = vec![];
    for (place, code) in codes_of_line(lines[line]).into_iter().enumerate() {
        let Some(why) = why_unlisted(system, code) else {
            continue;
        };
        found.push(format!("{why:?} under {}", SYSTEMS[system] as char));
        found.push(format!("place {place}"));
        found.push(format!("continuation {}", start != Some(line)));
    }
    found
}

#[test]
fn unlisted_codes_are_generated() {
    let counts = counted(6, 10_000, |random| unlisted_features(&aimed_at(6, random)));
    // Each cause under each system, each place of a line, each kind of line.
    ask_for(&counts, UNLISTED.len() * SYSTEMS.len() + CODES_A_LINE + 2, 20);
}

/// How a row prints zeros: the spelling, marks and place of each.
fn printed_zero_features(line: &Line) -> Vec<String> {
    let Kind::Row { slots, .. } = line.kind else {
        return vec![];
    };
    let zeros = zeros_of_row(&line.bytes, slots);
    let mut found = vec![];
    for &slot in &zeros {
        let start = SATELLITE_WIDTH + SLOT_WIDTH * slot;
        let columns: [u8; SLOT_WIDTH] = padded(&line.bytes[start..]);
        let is_last = slot + 1 == slots;
        let is_cut = line.bytes.len() == start + VALUE_WIDTH;
        found.push(format!("spelled {}", spelling(&columns[..VALUE_WIDTH])));
        found.push(format!(
            "marks {:?}",
            [LOSS_COLUMN, STRENGTH_COLUMN].map(|mark| columns[mark] != b' ')
        ));
        found.extend(named(&[
            ("only slot", slots == 1),
            ("first of several slots", slots > 1 && slot == 0),
            ("last of several slots", slots > 1 && is_last),
            ("in the last slot, the line cut behind it", is_last && is_cut),
            ("before blank slots, the line cut behind it", !is_last && is_cut),
        ]));
    }
    found.extend(named(&[("row of several slots, all zeros", slots > 1 && zeros.len() == slots)]));
    found
}

/// How a zero is spelled: its sign, and the digits before its point.
fn spelling(field: &[u8]) -> String {
    let field = String::from_utf8_lossy(field);
    let sign = if field.contains('-') { "minus and" } else { "with" };
    let digits = match field.matches('0').count() - VALUE_DECIMALS {
        0 => "no digit",
        1 => "one digit",
        _ if field.starts_with(' ') => "leading zeros",
        _ => "leading zeros up to the field's width",
    };
    format!("{sign} {digits}")
}

#[test]
fn printed_zeros_are_generated() {
    let counts = counted(26, 5_000, |random| {
        valid(random).lines.iter().flat_map(printed_zero_features).collect()
    });
    // 8 spellings, 4 pairs of marks, 5 places, 1 row.
    ask_for(&counts, 8 + 4 + 5 + 1, 50);
}

/// The places of unlisted codes, and why they are.
fn unlisted_places(loose: &Loose) -> Vec<(usize, Unlisted)> {
    let why_at = |place: usize| {
        let [0, code @ ..] = unpack_code(loose.codes[place]) else {
            return None;
        };
        Some((place, why_unlisted(place / LONGEST_LIST, code)?))
    };
    loose.used_codes().into_iter().filter_map(why_at).collect()
}

/// The same with each unlisted code replaced by one that its list lacks.
fn with_listed(loose: &Loose) -> Loose {
    let mut listed = loose.clone();
    for (place, _) in unlisted_places(loose) {
        let mut codes = taken_codes(place / LONGEST_LIST).into_iter().map(pack_code);
        let start = place - place % LONGEST_LIST;
        let list = &loose.codes[start..loose.codes.len().min(start + LONGEST_LIST)];
        listed.codes[place] = codes.find(|code| !list.contains(code)).unwrap_or(0);
    }
    listed
}

/// Which unlisted codes tables have, and what comes of them.
fn unlisted_code_features(loose: &Loose) -> Vec<String> {
    let unlisted = unlisted_places(loose);
    let used = loose.used_codes();
    let is_at = |end: Option<&usize>| unlisted.iter().any(|(place, _)| Some(place) == end);
    let letter = |place: usize| SYSTEMS[place / LONGEST_LIST] as char;
    let name = |&(place, why): &(usize, Unlisted)| format!("{why:?} under {}", letter(place));
    let mut found: Vec<String> = unlisted.iter().map(name).collect();
    found.extend(named(&[
        ("in the first place of all", is_at(used.first())),
        ("in the last place of all", is_at(used.last())),
    ]));
    found.extend(alone_to_blame(loose, &with_listed(loose)));
    found
}

#[test]
fn unlisted_codes_of_tables_are_generated() {
    let counts = counted(20, 10_000, |random| unlisted_code_features(&damaged(random)));
    // Each cause under each system, 2 places, 2 refusals.
    ask_for(&counts, UNLISTED.len() * SYSTEMS.len() + 2 + 2, 20);
}

/// The slots with a given 0.
fn given_zeros(tables: &Tables) -> Vec<usize> {
    let values = tables.states.iter().zip(&tables.numbers).take(tables.counts.slots as usize);
    values.enumerate().filter(|(_, value)| *value == (&1, &0)).map(|(slot, _)| slot).collect()
}

/// The same with each given 0 left blank.
fn with_blanks(loose: &Loose) -> Loose {
    let mut blank = loose.clone();
    for slot in given_zeros(&loose.tables) {
        blank.tables.states[slot] = 0;
    }
    blank
}

/// True if some text has the first epoch.
fn first_epoch_fits(loose: &Loose) -> bool {
    let lent = loose.lent();
    if lent.counts.epochs == 0 || !counts_are_lent(&lent) {
        return false;
    }
    write_epoch(&epochs_of(&lent)[0], u64::MAX).is_ok()
}

/// True if some text spells the tables.
fn fits(loose: &Loose) -> bool {
    is_spelled(&loose.lent())
}

/// What comes of the tables only for what is mended in the others.
fn alone_to_blame(loose: &Loose, mended: &Loose) -> Vec<String> {
    named(&[
        ("no text spells the tables for it alone", !fits(loose) && fits(mended)),
        (
            "no text has the first epoch for it alone",
            !first_epoch_fits(loose) && first_epoch_fits(mended),
        ),
    ])
}

/// What tables give as 0, and what comes of it.
fn given_zero_features(loose: &Loose) -> Vec<String> {
    let tables = &loose.tables;
    let slots = tables.counts.slots as usize;
    let zeros = given_zeros(tables);
    let clock_of_0 = tables.clock_states.iter().zip(&tables.clocks).any(|clock| clock == (&1, &0));
    let mut found = named(&[
        ("given zero in the only slot", slots == 1 && !zeros.is_empty()),
        ("given zero in the first of several slots", slots > 1 && zeros.contains(&0)),
        ("given zero in the last of several slots", slots > 1 && zeros.contains(&(slots - 1))),
        ("clock of 0 in tables that a text spells", clock_of_0 && fits(loose)),
    ]);
    found.extend(alone_to_blame(loose, &with_blanks(loose)));
    found
}

#[test]
fn given_zeros_are_generated() {
    let counts = counted(20, 10_000, |random| given_zero_features(&damaged(random)));
    // 3 places, 2 refusals, 1 clock.
    ask_for(&counts, 3 + 2 + 1, 20);
}
