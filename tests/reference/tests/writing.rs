//! The writer: which tables no text spells, where the text has no room, and
//! one epoch alone.

mod common;

use common::*;
use reference::damage::*;
use reference::fields::*;
use reference::generate::*;
use reference::read::read;
use reference::tables::*;
use reference::write::*;

/// Tables with everything in them: lists, clock, interval, events, marks.
fn rich() -> Loose {
    let mut lines = with_header(&[
        labelled("    30.000", "INTERVAL"),
        labelled("first", "COMMENT"),
        labelled("A 9080", "MARKER NAME"),
    ]);
    lines[8] = "> 2024 12 31 23 59 30.0000000  0  2      -0.123456789876".to_string();
    lines.push("> 2025 01 01 00 00  0.0000000  3  2".to_string());
    lines.push(labelled("A 9081", "MARKER NAME"));
    lines.push(labelled("    15.000", "INTERVAL"));
    lines.push(">                              4  0".to_string());
    lines.push("> 2025 01 01 00 00 30.0000000  1  1".to_string());
    lines.push("G07".to_string());
    Loose::of(tables(&lines))
}

/// The normal text of tables that some text spells.
fn normal(loose: &Loose) -> Vec<u8> {
    write(&loose.lent(), u64::MAX).unwrap()
}

/// Judges `is_spelled` by another way: writes the tables down unjudged, reads
/// that, and looks if the same tables come back.
fn comes_back(loose: &Loose) -> bool {
    let lent = loose.lent();
    if !counts_are_lent(&lent) {
        return false;
    }
    let mut out = Out::new(u64::MAX);
    spell_file(&lent, &mut out);
    match read(&out.finish().unwrap(), &Room::ample()) {
        Ok(again) => same(&again, loose),
        Err(_) => false,
    }
}

/// True if the tables agree up to their counts.
fn same(again: &Tables, loose: &Loose) -> bool {
    let tables = &loose.tables;
    if again.head != tables.head || again.counts != tables.counts {
        return false;
    }
    let agrees = |(place, code): (usize, &Option<u32>)| {
        code.is_none() || *code == loose.codes.get(place).copied()
    };
    again.codes.iter().enumerate().all(agrees)
        && tables.times.starts_with(&again.times)
        && tables.time_states.starts_with(&again.time_states)
        && tables.flags.starts_with(&again.flags)
        && tables.line_counts.starts_with(&again.line_counts)
        && tables.clocks.starts_with(&again.clocks)
        && tables.clock_states.starts_with(&again.clock_states)
        && tables.satellites.starts_with(&again.satellites)
        && tables.numbers.starts_with(&again.numbers)
        && tables.states.starts_with(&again.states)
        && tables.losses.starts_with(&again.losses)
        && tables.strengths.starts_with(&again.strengths)
        && tables.carried.starts_with(&again.carried)
}

#[test]
fn spelled_exactly_if_the_text_comes_back() {
    let mut random = Random::new(4_242);
    let (mut spelled, mut not) = (0, 0);
    for _ in 0..60_000 {
        let mut loose = Loose::of(valid(&mut random).tables);
        if loose.tables.counts.slots > 500 {
            continue;
        }
        damage(&mut loose, &mut random);
        let expected = comes_back(&loose);
        let answer = write(&loose.lent(), u64::MAX);
        assert_eq!(answer.is_ok(), expected, "{:?} {:?}", loose.tables, loose.codes);
        if expected {
            spelled += 1;
        } else {
            assert_eq!(answer, Err(20));
            not += 1;
        }
    }
    println!("{spelled} spelled, {not} not");
    assert!(spelled > 5_000 && not > 5_000);
}

/// That a change of the rich tables leaves none that a text spells.
fn is_20(change: impl Fn(&mut Loose)) {
    let mut loose = rich();
    assert!(is_spelled(&loose.lent()));
    change(&mut loose);
    assert_eq!(write(&loose.lent(), u64::MAX), Err(20));
    assert!(!comes_back(&loose));
}

#[test]
fn heads_that_no_text_has() {
    is_20(|l| l.tables.head.letter = b'X');
    is_20(|l| l.tables.head.letter = b'G');
    is_20(|l| l.tables.head.lengths[0] = 0);
    is_20(|l| l.tables.head.lengths[0] = 65);
    is_20(|l| l.tables.head.lengths[1] = 2);
    is_20(|l| l.codes.truncate(64));
    is_20(|l| l.codes[1] = l.codes[0]);
    is_20(|l| l.codes[0] = pack_code(*b"C0C"));
    is_20(|l| l.codes[0] |= 1 << 24);
    is_20(|l| l.tables.head.first_time = TIME_END);
    is_20(|l| l.tables.head.time_system = 6);
    is_20(|l| l.tables.head.interval_state = 0);
    is_20(|l| l.tables.head.interval_state = 2);
    is_20(|l| l.tables.head.interval = 0);
    is_20(|l| l.tables.head.interval = 1_000_000_000);
    is_20(|l| l.tables.head.carried_lines = 1);
    is_20(|l| l.tables.head.carried_lines = 3);
    is_20(|l| l.tables.head.carried_lines = u64::MAX);
}

#[test]
fn epochs_that_no_text_has() {
    is_20(|l| l.tables.flags[0] = 6);
    is_20(|l| l.tables.flags[0] = 255);
    is_20(|l| l.tables.flags[3] = 3);
    is_20(|l| l.tables.line_counts[0] = 3);
    is_20(|l| l.tables.line_counts[0] = 1);
    is_20(|l| l.tables.line_counts[2] = 1);
    is_20(|l| l.tables.time_states[0] = 0);
    is_20(|l| l.tables.time_states[2] = 1 + 1);
    is_20(|l| l.tables.times[2] = 1);
    is_20(|l| l.tables.times[0] = TIME_END);
    is_20(|l| l.tables.times[0] = l.tables.times[3]);
    is_20(|l| l.tables.times[3] = l.tables.times[0] - 1);
    is_20(|l| l.tables.clock_states[0] = 0);
    is_20(|l| l.tables.clocks[0] = LARGEST_CLOCK + 1);
    is_20(|l| l.tables.clocks[0] = SMALLEST_CLOCK - 1);
    is_20(|l| l.tables.clock_states[1] = 1);
    is_20(|l| l.tables.clocks[3] = 1);
    // Flag 5 needs its time.
    is_20(|l| l.tables.flags[2] = 5);
}

#[test]
fn rows_and_slots_that_no_text_has() {
    for satellite in [0, 100, 700, 201, 65_535, 5] {
        is_20(|l| l.tables.satellites[1] = satellite);
    }
    is_20(|l| l.tables.states[2] = 1 + 1);
    is_20(|l| l.tables.states[2] = 1);
    is_20(|l| l.tables.states[0] = 0);
    is_20(|l| l.tables.numbers[0] = 0);
    is_20(|l| l.tables.numbers[2] = 1);
    is_20(|l| l.tables.numbers[0] = LARGEST_VALUE + 1);
    is_20(|l| l.tables.numbers[0] = SMALLEST_VALUE - 1);
    is_20(|l| l.tables.losses[0] = 8);
    is_20(|l| l.tables.losses[0] = 254);
    is_20(|l| l.tables.strengths[0] = 10);
    is_20(|l| l.tables.strengths[0] = 240);
}

#[test]
fn counts_that_do_not_match() {
    is_20(|l| l.tables.counts.epochs += 1);
    is_20(|l| l.tables.counts.rows += 1);
    is_20(|l| l.tables.counts.slots += 1);
    is_20(|l| l.tables.counts.carried += 1);
    is_20(|l| l.tables.counts.epochs -= 1);
    is_20(|l| l.tables.counts.rows -= 1);
    is_20(|l| l.tables.counts.slots -= 1);
    is_20(|l| l.tables.counts.carried -= 1);
    is_20(|l| l.tables.counts.slots = u64::MAX);
    is_20(|l| l.tables.clock_states.truncate(3));
    is_20(|l| l.tables.strengths.truncate(4));
    is_20(|l| {
        l.tables.satellites.push(9);
        l.tables.counts.rows += 1;
    });
}

/// Replaces the carried line of this number.
fn carry(loose: &mut Loose, number: usize, line: &str) {
    let text = String::from_utf8(loose.tables.carried.clone()).unwrap();
    let mut lines: Vec<&str> = text.lines().collect();
    lines[number] = line;
    loose.tables.carried = (lines.join("\n") + "\n").into_bytes();
    loose.tables.counts.carried = loose.tables.carried.len() as u64;
}

#[test]
fn carried_lines_that_no_text_has() {
    let cut_line = |content: &str, label: &str| labelled(content, label).trim_end().to_string();
    is_20(|l| carry(l, 0, ""));
    is_20(|l| carry(l, 0, "x"));
    is_20(|l| carry(l, 0, &labelled("first", "COMMENT")));
    is_20(|l| carry(l, 0, &format!("{:<81}", labelled("first", "COMMENT"))));
    is_20(|l| carry(l, 0, &(labelled("first", "COMMENT") + "x")));
    is_20(|l| carry(l, 0, &cut_line("\t", "COMMENT")));
    for label in [
        "RINEX VERSION / TYPE",
        "SYS / # / OBS TYPES",
        "TIME OF FIRST OBS",
        "INTERVAL",
        "END OF HEADER",
        "SYS / SCALE FACTOR",
    ] {
        is_20(|l| carry(l, 0, &cut_line("", label)));
    }
    for label in
        ["RINEX VERSION / TYPE", "SYS / # / OBS TYPES", "END OF HEADER", "SYS / SCALE FACTOR"]
    {
        is_20(|l| carry(l, 3, &cut_line("", label)));
    }
    is_20(|l| carry(l, 2, &cut_line("MARKER NAME", "COMMENT")));
    let mut loose = rich();
    carry(&mut loose, 3, &cut_line("anything", "TIME OF FIRST OBS"));
    assert!(is_spelled(&loose.lent()) && comes_back(&loose));
}

#[test]
fn entries_past_the_counts_do_not_matter() {
    let mut loose = rich();
    let text = normal(&loose);
    loose.tables.flags.push(99);
    loose.tables.satellites.push(9_999);
    loose.tables.states.push(99);
    loose.tables.carried.push(0);
    loose.codes[2] = 99;
    loose.codes.truncate(65);
    assert_eq!(normal(&loose), text);
}

#[test]
fn no_room_is_21() {
    let loose = rich();
    let text = normal(&loose);
    let length = text.len() as u64;
    assert_eq!(write(&loose.lent(), length), Ok(text.clone()));
    assert_eq!(write(&loose.lent(), length - 1), Err(21));
    assert_eq!(write(&loose.lent(), 0), Err(21));
    let before = vec![7u8; text.len() + 10];
    let mut buffer = before.clone();
    for place in [11, 12, length + 9, length + 10, length + 11, u64::MAX] {
        assert_eq!(write_into(&loose.lent(), &mut buffer, place), Err(21));
        assert_eq!(buffer, before);
    }
    for place in [0, 5, 10] {
        let mut buffer = before.clone();
        assert_eq!(write_into(&loose.lent(), &mut buffer, place as u64), Ok(length));
        assert_eq!(buffer[place..place + text.len()], text);
        assert!(buffer[..place].iter().chain(&buffer[place + text.len()..]).all(|&byte| byte == 7));
    }
    // 20 before 21.
    let mut unfit = rich();
    unfit.tables.head.letter = b'X';
    assert_eq!(write_into(&unfit.lent(), &mut buffer, u64::MAX), Err(20));
    assert_eq!(buffer, before);
}

/// Carried header lines of so many bytes: COMMENT lines of 68, and a few of
/// 72 and 73 to make up the rest.
fn carried_of(length: usize) -> (Vec<u8>, u64) {
    let line = |label: &str| labelled("", label).trim_end().to_string() + "\n";
    let rest = length % 68 + 68;
    let of_73 = rest % 4;
    let of_72 = (rest - 5 * of_73) / 4;
    let of_68 = length / 68 - 1 - of_73 - of_72;
    let mut carried = line("COMMENT").repeat(of_68);
    carried += &line("MARKER NAME").repeat(of_72);
    carried += &line("LEAP SECONDS").repeat(of_73);
    assert_eq!(carried.len(), length);
    (carried.into_bytes(), (of_68 + of_72 + of_73) as u64)
}

/// The text at the limit and one byte past it. Needs four gibibytes.
#[test]
#[ignore]
fn text_past_the_limit_is_21() {
    let header = with_body(&[]);
    let left = TEXT_LIMIT as usize - text(&header).len();
    let mut loose = Loose::of(tables(&header));
    for (more, fits) in [(0, true), (1, false)] {
        let (carried, lines) = carried_of(left + more);
        loose.tables.counts.carried = carried.len() as u64;
        loose.tables.head.carried_lines = lines;
        loose.tables.carried = carried;
        let written = write(&loose.lent(), u64::MAX);
        assert_eq!(written.is_ok(), fits);
        match written {
            Ok(text) => {
                assert_eq!(text.len() as u64, TEXT_LIMIT);
                assert!(same(&read(&text, &Room::ample()).unwrap(), &loose));
            }
            Err(number) => assert_eq!(number, 21),
        }
    }
}

#[test]
fn epochs_alone_make_up_the_text() {
    let mut random = Random::new(99);
    for _ in 0..3_000 {
        let loose = Loose::of(valid(&mut random).tables);
        let text = normal(&loose);
        let mut epochs = Vec::new();
        for epoch in epochs_of(&loose.lent()) {
            let alone = write_epoch(&epoch, u64::MAX).unwrap();
            assert_eq!(write_epoch(&epoch, alone.len() as u64).as_ref(), Ok(&alone));
            assert_eq!(write_epoch(&epoch, alone.len() as u64 - 1), Err(21));
            epochs.extend(alone);
        }
        assert!(text.ends_with(&epochs));
        assert!(text[..text.len() - epochs.len()].ends_with(b"END OF HEADER\n"));
    }
}

#[test]
fn one_epoch_alone() {
    let loose = rich();
    let lent = loose.lent();
    let epochs = epochs_of(&lent);
    let first = epochs[0];
    let is_20 = |epoch: &EpochRef| assert_eq!(write_epoch(epoch, u64::MAX), Err(20));
    // Lists that no header has.
    let mut epoch = first;
    epoch.lists.lengths = [0; 7];
    is_20(&epoch);
    epoch.lists.lengths = [2, 1, 0, 0, 0, 0, 65];
    is_20(&epoch);
    epoch.lists.lengths = [2, 1, 1, 0, 0, 0, 0];
    is_20(&epoch);
    let mut event = epochs[2];
    assert_eq!(write_epoch(&event, u64::MAX).unwrap(), b">                              4  0\n");
    event.lists.lengths = [0; 7];
    is_20(&event);
    // Parts that are too short.
    let mut epoch = first;
    epoch.parts.satellites = &epoch.parts.satellites[..1];
    is_20(&epoch);
    let mut epoch = first;
    epoch.parts.losses = &epoch.parts.losses[..2];
    is_20(&epoch);
    let mut event = epochs[1];
    event.parts.carried = &event.parts.carried[..event.parts.carried.len() - 1];
    is_20(&event);
    // An undeclared system, a time that is missing.
    let mut epoch = first;
    epoch.lists.lengths[1] = 0;
    is_20(&epoch);
    let mut epoch = first;
    epoch.entry.time_state = 0;
    epoch.entry.time = 0;
    is_20(&epoch);
    // Parts longer than the epoch are fit.
    assert!(first.parts.satellites.len() > usize::from(first.entry.count));
    let expected = b"> 2024 12 31 23 59 30.0000000  0  2      -0.123456789876\nG05  20000000.125 7        -0.5001\nR12\n";
    let mut buffer = vec![7u8; 200];
    assert_eq!(write_epoch_into(&first, &mut buffer, 30), Ok(expected.len() as u64));
    assert_eq!(buffer[30..30 + expected.len()], *expected);
    assert!(buffer[..30].iter().chain(&buffer[30 + expected.len()..]).all(|&byte| byte == 7));
    assert_eq!(write_epoch_into(&first, &mut buffer, 200), Err(21));
    assert_eq!(write_epoch_into(&first, &mut buffer, 201), Err(21));
}

#[test]
fn the_normal_text_in_full() {
    let lines = [
        "     3.03           Observations        M  anything         RINEX VERSION / TYPE    ",
        "R  001 C1                                                   SYS / # / OBS TYPES",
        "> carried                                                   COMMENT   ",
        "G   14 C1C C1S C1L C1X C1P C1W C1Y C1M L1C L1S L1L L1X L1P  SYS / # / OBS TYPES",
        "       L1W                                                  SYS / # / OBS TYPES",
        "   .500                                                     INTERVAL",
        "002024000002000003000004000005   06.0000000     IRN         TIME OF FIRST OBS",
        "                                                            END OF HEADER",
        "> 2024  2  3  4  5 06.5000000  0002       -.500000000000",
        "R12        -0.000  ",
        "G07         -.500  0000000001.0000          0.000 9",
        "> 2024  2  3  4  5 06.0000000  2000",
    ];
    let mut lines: Vec<String> = lines.iter().map(|line| line.to_string()).collect();
    lines[5] = labelled("      .500", "INTERVAL");
    let expected = [
        "     3.03           OBSERVATION DATA    M                   RINEX VERSION / TYPE",
        "G   14 C1C C1S C1L C1X C1P C1W C1Y C1M L1C L1S L1L L1X L1P  SYS / # / OBS TYPES",
        "       L1W                                                  SYS / # / OBS TYPES",
        "R    1 C1                                                   SYS / # / OBS TYPES",
        "  2024     2     3     4     5    6.0000000     IRN         TIME OF FIRST OBS",
        "     0.500                                                  INTERVAL",
        "> carried                                                   COMMENT",
        "                                                            END OF HEADER",
        "> 2024 02 03 04 05  6.5000000  0  2      -0.500000000000",
        "R12",
        "G07        -0.500           1.0000                9",
        "> 2024 02 03 04 05  6.0000000  2  0",
    ];
    let written = normal(&Loose::of(tables(&lines)));
    assert_eq!(String::from_utf8(written).unwrap(), expected.join("\n") + "\n");
}
