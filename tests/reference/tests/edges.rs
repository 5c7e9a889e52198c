//! Both sides of each edge that the paper names, and those of the rulings.

mod common;

use common::*;
use reference::codes::taken_codes;
use reference::fields::*;
use reference::tables::*;

fn value(right: &str) -> Field {
    let field = format!("{right:>14}");
    decimal_or_blank::<14>(field.as_bytes().try_into().unwrap(), 3)
}

#[test]
fn values() {
    assert_eq!(value("23619095.450"), Field::Number(23_619_095_450));
    assert_eq!(value("-.353"), Field::Number(-353));
    assert_eq!(value(".353"), Field::Number(353));
    // The field's number, before it is held.
    for zero in ["0.000", "-0.000", ".000", "-.000", "0000000000.000", "-000000000.000"] {
        assert_eq!(value(zero), Field::Number(0), "{zero}");
    }
    assert_eq!(value("0.001"), Field::Number(1));
    assert_eq!(value("-0.001"), Field::Number(-1));
    assert_eq!(value(""), Field::Blank);
    assert_eq!(value("9999999999.999"), Field::Number(LARGEST_VALUE));
    assert_eq!(value("-999999999.999"), Field::Number(SMALLEST_VALUE));
    assert_eq!(value("0000000001.500"), Field::Number(1_500));
    for unfit in [
        "+1.000", "1.50", "1.500 ", "1 .000", "- 1.000", "--1.000", "1", ".", "-", "1e3.000",
        "1.0000", "0", "0.0", "0.00",
    ] {
        assert_eq!(value(unfit), Field::Unfit, "{unfit}");
    }
}

#[test]
fn clocks_and_intervals() {
    let clock = |text: &[u8; 15]| decimal_or_blank(text, 12);
    assert_eq!(clock(b"99.999999999999"), Field::Number(LARGEST_CLOCK));
    assert_eq!(clock(b"-9.999999999999"), Field::Number(SMALLEST_CLOCK));
    assert_eq!(clock(b"-0.000000000000"), Field::Number(0));
    assert_eq!(clock(b"  .000000000001"), Field::Number(1));
    assert_eq!(clock(b"1.0000000000000"), Field::Unfit);
    let with_interval = |field: &str| refused(&with_header(&[labelled(field, "INTERVAL")]));
    assert_eq!(with_interval("999999.999"), None);
    assert_eq!(with_interval("      .001"), None);
    assert_eq!(with_interval("     0.000"), Some((6, 5)));
    assert_eq!(with_interval("    -1.000"), Some((6, 5)));
    assert_eq!(with_interval("    30.000x"), Some((6, 5)));
}

#[test]
fn dates() {
    assert_eq!(time([2006, 3, 24], 13, 10, 540_000_000), Some(8_276_730_540_000_000));
    assert_eq!(time([1980, 1, 1], 0, 0, 0), Some(0));
    assert_eq!(time([2023, 2, 29], 0, 0, 0), None);
    assert!(time([2024, 2, 29], 0, 0, 0).is_some());
    assert!(time([2000, 2, 29], 0, 0, 0).is_some());
    assert_eq!(time([1979, 12, 31], 0, 0, 0), None);
    assert_eq!(time([2100, 1, 1], 0, 0, 0), None);
    assert_eq!(time([2099, 12, 31], 23, 59, 599_999_999), Some(TIME_END - 1));
    assert_eq!(time([2024, 1, 1], 24, 0, 0), None);
    assert_eq!(time([2024, 1, 1], 0, 60, 0), None);
    assert_eq!(time([2024, 0, 1], 0, 0, 0), None);
    assert_eq!(time([2024, 13, 1], 0, 0, 0), None);
    assert_eq!(time([2024, 4, 31], 0, 0, 0), None);
    assert_eq!(time([2024, 4, 0], 0, 0, 0), None);
}

#[test]
fn every_day_there_and_back() {
    for day in 0..TIME_END / TICKS_A_DAY {
        let at = calendar(day * TICKS_A_DAY + 1);
        let date = [at.year as u32, at.month as u32, at.day as u32];
        assert_eq!(time(date, 0, 0, 1), Some(day * TICKS_A_DAY + 1));
    }
}

#[test]
fn seconds_of_an_epoch() {
    let with_seconds =
        |field: &str| refused(&with_body(&[&format!("> 2024 12 31 23 59{field}  0  0")]));
    for fit in [" 59.9999999", "  0.0000000", " 00.0000000", " 05.5000000"] {
        assert_eq!(with_seconds(fit), None, "{fit}");
    }
    let unfit =
        [" 60.0000000", "   .0000000", "005.0000000", " -1.0000000", " 5.00000000", "  5.000000 "];
    for unfit in unfit {
        assert_eq!(with_seconds(unfit), Some((7, 6)), "{unfit}");
    }
}

/// The systems that have 64 codes and more.
const LONG_LISTED: [u8; 3] = *b"GEJ";

/// A header of one list of so many codes.
fn with_codes(letter: u8, count: usize) -> Vec<String> {
    with_list(letter, &taken_codes(system_of(letter).unwrap())[..count])
}

#[test]
fn lengths_of_lists() {
    for letter in LONG_LISTED {
        let system = system_of(letter).unwrap();
        for count in [1, 12, 13, 14, 25, 26, 27, 63, 64] {
            assert_eq!(tables(&with_codes(letter, count)).head.lengths[system], count as u64);
        }
        assert_eq!(refused(&with_codes(letter, 65)), Some((6, 2)));
    }
}

#[test]
fn continuations_of_lists() {
    for letter in LONG_LISTED {
        for (full, line) in [(13, 3), (26, 4), (39, 5), (52, 6)] {
            // One code more: its continuation is due on this line.
            let mut lines = with_codes(letter, full + 1);
            lines.remove(line - 1);
            assert_eq!(refused(&lines), Some((5, line as u64)));
            // A continuation is needless.
            let mut lines = with_codes(letter, full);
            lines.insert(line - 1, labelled("", "SYS / # / OBS TYPES"));
            assert_eq!(refused(&lines), Some((6, line as u64)));
        }
    }
}

#[test]
fn longest_lines() {
    let mut lines = with_codes(b'G', 64);
    lines.push("> 2024 12 31 23 59 30.0000000  0  1".to_string());
    let row = format!("G01{}", "9999999999.99979".repeat(64));
    assert_eq!(row.len(), 1_027);
    lines.push(row.clone());
    assert_eq!(tables(&lines).numbers, [LARGEST_VALUE; 64]);
    let last = lines.len();
    lines[last - 1] = row + " ";
    assert_eq!(refused(&lines), Some((2, last as u64)));
    for place in 0..8 {
        let mut lines = example_lines();
        lines[place] = format!("{:<1027}", lines[place]);
        assert_eq!(refused(&lines), None);
        lines[place].push(' ');
        assert_eq!(refused(&lines), Some((2, place as u64 + 1)));
    }
}

#[test]
fn epochs_without_satellites() {
    let tables = tables(&with_body(&[
        "> 2024 12 31 23 59 30.0000000  0  0",
        "> 2024 12 31 23 59 31.0000000  1000",
    ]));
    assert_eq!(tables.counts, Counts { epochs: 2, rows: 0, slots: 0, carried: 0 });
}

#[test]
fn a_header_alone_is_accepted() {
    assert_eq!(tables(&with_body(&[])).counts, Counts::default());
}

#[test]
fn room_exact_and_one_short() {
    let mut lines = example_lines();
    lines.insert(4, labelled("abc", "COMMENT"));
    let text = text(&lines);
    let exact = Room::new(65, 1, 2, 3, 68);
    assert_eq!(refusal_in(&text, &exact), None);
    let lines_of = [3, 7, 7, 7, 7, 7, 7, 9, 9, 9, 9, 9, 5];
    for (buffer, line) in lines_of.into_iter().enumerate() {
        let mut short = exact;
        *reference::generate::buffer_of(&mut short, buffer) -= 1;
        assert_eq!(refusal_in(&text, &short), Some((16, line)), "buffer {buffer}");
    }
}

#[test]
fn the_longest_text() {
    // Bytes that are never written take no memory.
    let too_long = vec![0; TEXT_LIMIT as usize + 1];
    assert_eq!(refusal(&too_long), Some((17, 0)));
    assert_eq!(refusal(&too_long[1..]), Some((1, 1)));
}

#[test]
fn slots_are_read_apart() {
    let row = |slots: &str| {
        tables(&with_body(&["> 2024 12 31 23 59 30.0000000  0  1", &format!("G01{slots}")]))
    };
    let one = row("              00");
    assert_eq!((one.states[0], one.numbers[0], one.losses[0], one.strengths[0]), (0, 0, 0, 0));
    let one = row("         0.000");
    assert_eq!((one.states[0], one.numbers[0], one.losses[0], one.strengths[0]), (0, 0, 255, 255));
    let one = row("         0.00000");
    assert_eq!((one.states[0], one.numbers[0], one.losses[0], one.strengths[0]), (0, 0, 0, 0));
    let one = row("         0.00100");
    assert_eq!((one.states[0], one.numbers[0], one.losses[0], one.strengths[0]), (1, 1, 0, 0));
    let one = row("              79");
    assert_eq!((one.states[0], one.losses[0], one.strengths[0]), (0, 7, 9));
    let one = row("         0.30213");
    assert_eq!((one.numbers[0], one.losses[0], one.strengths[0]), (302, 1, 3));
}

#[test]
fn lists_are_kept_by_system() {
    let mut lines = example_lines();
    lines.swap(1, 2);
    assert_eq!(tables(&lines), tables(&example_lines()));
}

#[test]
fn thirty_three_labels() {
    let names: Vec<&str> =
        LABELS.iter().map(|(name, _)| std::str::from_utf8(*name).unwrap()).collect();
    assert_eq!(names.len(), 33);
    let carried = LABELS.iter().filter(|(_, label)| label.carried_in_header()).count();
    assert_eq!(carried, 27);
    for (name, label) in LABELS {
        let name = std::str::from_utf8(name).unwrap();
        let header = refused(&with_header(&[labelled("", name)]));
        match label {
            Label::ScaleFactor => assert_eq!(header, Some((4, 5))),
            Label::Version | Label::FirstTime => assert_eq!(header, Some((5, 5))),
            Label::List | Label::Interval => assert_eq!(header, Some((6, 5))),
            Label::End => assert_eq!(header, Some((7, 6))),
            _ => assert_eq!(header, None),
        }
        let event =
            refused(&with_body(&[">                              4  1", &labelled("", name)]));
        let barred =
            ["RINEX VERSION / TYPE", "SYS / # / OBS TYPES", "SYS / SCALE FACTOR", "END OF HEADER"];
        let expected = barred.contains(&name.trim_end()).then_some((4, 7));
        assert_eq!(event, expected, "{name}");
    }
}
