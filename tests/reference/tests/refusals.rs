//! Each refusal by its number, and which one wins where several meet.

mod common;

use common::*;
use reference::tables::Room;

const EPOCH: &str = "> 2024 12 31 23 59 30.0000000  0  1";
const LIST: &str = "SYS / # / OBS TYPES";

/// The example with one line replaced; the first line is 1.
fn replaced(line: usize, by: &str) -> Option<(u32, u64)> {
    let mut lines = example_lines();
    lines[line - 1] = by.to_string();
    refused(&lines)
}

/// The example with one line put in before this one.
fn inserted(line: usize, new: &str) -> Option<(u32, u64)> {
    let mut lines = example_lines();
    lines.insert(line - 1, new.to_string());
    refused(&lines)
}

/// The refusal of a row under the example's header.
fn row(row: &str) -> Option<(u32, u64)> {
    refused(&with_body(&[EPOCH, row]))
}

#[test]
fn number_1() {
    for line in 1..=8 {
        for byte in ['\0', '\t', '\r', '\u{1f}', '\u{7f}'] {
            let mut lines = example_lines();
            lines[line - 1].push(byte);
            assert_eq!(refused(&lines), Some((1, line as u64)));
        }
    }
    let mut text = text(&example_lines());
    text.pop();
    assert_eq!(refusal(&text), Some((1, 8)));
    assert_eq!(refusal(b"x"), Some((1, 1)));
    let mut wild = EXAMPLE.as_bytes().to_vec();
    wild[100] = 200;
    assert_eq!(refusal(&wild), Some((1, 2)));
}

#[test]
fn number_1_wins_over_2_and_3() {
    let long_and_wild = format!("{}\t\n", "x".repeat(2_000));
    assert_eq!(refusal(long_and_wild.as_bytes()), Some((1, 1)));
    assert_eq!(refusal("x".repeat(2_000).as_bytes()), Some((1, 1)));
    let long = format!("{}\n", "x".repeat(2_000));
    assert_eq!(refusal(long.as_bytes()), Some((2, 1)));
}

#[test]
fn number_3() {
    assert_eq!(refusal(b""), Some((3, 1)));
    assert_eq!(refusal(b"\n"), Some((3, 1)));
    let first = &example_lines()[0];
    let changes = [
        (5, "3.02"),
        (5, "2.11"),
        (4, "03.03"),
        (4, "33.03"),
        (12, "x"),
        (20, "N"),
        (20, "o"),
        (40, " "),
        (40, "X"),
        (40, "H"),
        (60, "x"),
        (79, " "),
    ];
    for (column, by) in changes {
        let mut line = first.clone();
        line.replace_range(column..column + by.len(), by);
        assert_eq!(replaced(1, &line), Some((3, 1)), "{line}");
    }
    assert_eq!(replaced(1, &format!("{first}x")), Some((3, 1)));
    assert_eq!(replaced(1, &first[..79]), Some((3, 1)));
    let mut free = first.clone();
    free.replace_range(21..40, "~!@#$%^&*()_+><?/|x");
    free.replace_range(41..60, "~!@#$%^&*()_+><?/|x");
    assert_eq!(replaced(1, &free), None);
}

#[test]
fn number_4() {
    assert_eq!(inserted(5, ""), Some((4, 5)));
    assert_eq!(inserted(5, &labelled("", "COMMENTS")), Some((4, 5)));
    assert_eq!(inserted(5, &labelled("", " COMMENT")), Some((4, 5)));
    assert_eq!(inserted(5, &labelled("", "comment")), Some((4, 5)));
    assert_eq!(inserted(5, &labelled("", "ANTENNA:PHASECENTER")), Some((4, 5)));
    assert_eq!(inserted(5, &(labelled("", "COMMENT") + "x")), Some((4, 5)));
    assert_eq!(inserted(5, &labelled("", "SYS / SCALE FACTOR")), Some((4, 5)));
    assert_eq!(inserted(5, &labelled("", "")), Some((4, 5)));
    // No END OF HEADER: the epoch line has no label.
    let mut lines = example_lines();
    lines.remove(4);
    assert_eq!(refused(&lines), Some((4, 5)));
    // Column 81 of a record that comes again.
    assert_eq!(inserted(5, &format!("{:<80}x", example_lines()[3])), Some((4, 5)));
    // In an event.
    let event = |line: &str| refused(&with_body(&[">                              3  1", line]));
    assert_eq!(event(""), Some((4, 7)));
    assert_eq!(event(&labelled("", "END OF HEADER")), Some((4, 7)));
    assert_eq!(event(&(labelled("", "COMMENT") + "x")), Some((4, 7)));
}

#[test]
fn number_5() {
    let lines = example_lines();
    assert_eq!(inserted(5, &lines[0]), Some((5, 5)));
    assert_eq!(inserted(2, &lines[0]), Some((5, 2)));
    assert_eq!(inserted(5, &lines[1]), Some((5, 5)));
    assert_eq!(inserted(5, &lines[3]), Some((5, 5)));
    // However unfit.
    assert_eq!(inserted(5, &labelled("garbage", "RINEX VERSION / TYPE")), Some((5, 5)));
    assert_eq!(inserted(5, &labelled("garbage", "TIME OF FIRST OBS")), Some((5, 5)));
    assert_eq!(inserted(5, &labelled("Garbage", LIST)), Some((5, 5)));
    let twice = [labelled("    30.000", "INTERVAL"), labelled("garbage", "INTERVAL")];
    assert_eq!(refused(&with_header(&twice)), Some((5, 6)));
    // END OF HEADER too early, filled or not.
    for line in 2..=4 {
        assert_eq!(inserted(line, &lines[4]), Some((5, line as u64)));
        assert_eq!(inserted(line, &labelled("x", "END OF HEADER")), Some((5, line as u64)));
    }
    let without_lists = [lines[0].clone(), lines[3].clone(), lines[4].clone()];
    assert_eq!(refused(&without_lists), Some((5, 3)));
}

/// The refusal where a line stands in place of a due continuation.
fn continued_by(line: &str) -> Option<(u32, u64)> {
    let mut lines = example_lines();
    lines[1] = labelled("G   14 C1C C1S C1L C1X C1P C1W C1Y C1M L1C L1S L1L L1X L1P", LIST);
    lines.insert(2, line.to_string());
    refused(&lines)
}

#[test]
fn where_a_continuation_is_due() {
    assert_eq!(continued_by(&labelled("       L1W", LIST)), None);
    assert_eq!(continued_by(&labelled("       C1 ", LIST)), None);
    assert_eq!(continued_by(&labelled("       L1W", "SYS / # / OBS")), Some((4, 3)));
    assert_eq!(continued_by(&labelled("       L1W", "SYS / SCALE FACTOR")), Some((4, 3)));
    assert_eq!(continued_by(&(labelled("       L1W", LIST) + "x")), Some((4, 3)));
    assert_eq!(continued_by(&labelled("       L1W", "COMMENT")), Some((5, 3)));
    assert_eq!(continued_by(&labelled("", "END OF HEADER")), Some((5, 3)));
    for column in 0..6 {
        let mut content = " ".repeat(7) + "L1W";
        content.replace_range(column..column + 1, "0");
        assert_eq!(continued_by(&labelled(&content, LIST)), Some((5, 3)));
    }
    assert_eq!(continued_by(&labelled("      xL1W", LIST)), Some((6, 3)));
    assert_eq!(continued_by(&labelled("       C1C", LIST)), Some((6, 3)));
    assert_eq!(continued_by(&labelled("       L1W L1Y", LIST)), Some((6, 3)));
    assert_eq!(continued_by(&labelled("", LIST)), Some((6, 3)));
    assert_eq!(continued_by(&labelled("           L1W", LIST)), Some((6, 3)));
}

#[test]
fn number_6_of_lists() {
    let list = |content: &str| replaced(3, &labelled(content, LIST));
    for fit in
        ["R    1 C1C", "R  001 C1C", "R    2 C1C C1 ", "R    1 S3X", "R   04 C1C C1  C2  D1 "]
    {
        assert_eq!(list(fit), None, "{fit}");
    }
    let unfit = [
        "R    0",
        "R  000",
        "R   65 C1C",
        "R      C1C",
        "R   1  C1C",
        "R   -1 C1C",
        "R1   1 C1C",
        "R x  1 C1C",
        "X    1 C1C",
        "     1 C1C",
        "M    1 C1C",
        "R    1xC1C",
        "R    1 X1C",
        "R    1 C0C",
        "R    1 C1c",
        "R    1 C11",
        "R    1 C C",
        "R    1",
        "R    2 C1C",
        "R    1 C1C L1C",
        "R    2 C1C C1C",
        "R    2     C1C",
        "R    1C1C",
        "R    1 C1C                                                 x",
        "R    1  C1C",
        "r    1 C1C",
    ];
    for unfit in unfit {
        assert_eq!(list(unfit), Some((6, 3)), "{unfit}");
    }
}

#[test]
fn a_letter_bars_other_systems() {
    let mut lines = example_lines();
    lines[0].replace_range(40..41, "G");
    assert_eq!(refused(&lines), Some((6, 3)));
    lines.remove(2);
    assert_eq!(refused(&lines), Some((11, 7)));
    lines.truncate(4);
    assert_eq!(refused(&lines), None);
}

#[test]
fn number_6_of_first_time() {
    let first = |content: &str| replaced(4, &labelled(content, "TIME OF FIRST OBS"));
    let fit = "  2024    12    31    23    59   30.0000000     GPS";
    for system in ["GPS", "GLO", "GAL", "QZS", "BDT", "IRN"] {
        assert_eq!(first(&fit.replace("GPS", system)), None);
    }
    assert_eq!(first("002024000012000031000023000059   30.0000000     GPS"), None);
    assert_eq!(first("  2024    02    29     0     0    0.0000000     GPS"), None);
    let unfit = [
        "  2023     2    29     0     0    0.0000000     GPS",
        "  2024    13    31    23    59   30.0000000     GPS",
        "  1979    12    31    23    59   30.0000000     GPS",
        "  2100    12    31    23    59   30.0000000     GPS",
        "  2024    12    31    24    59   30.0000000     GPS",
        "  2024    12    31    23    60   30.0000000     GPS",
        "  2024    12    31    23    59   60.0000000     GPS",
        "  2024    12    31    23    59  030.0000000     GPS",
        "  2024    12    31    23    59     .0000000     GPS",
        "  2024    12    31    23    59   -0.0000000     GPS",
        "  2024    12    31    23    59   30.0000000",
        "  2024    12    31    23    59   30.0000000     UTC",
        "  2024    12    31    23    59   30.0000000    GPS",
        "  2024    12    31    23    59   30.0000000  x  GPS",
        "  2024    12    31    23    59   30.0000000     GPS x",
        "  2024    12    31    23         30.0000000     GPS",
        "",
    ];
    for unfit in unfit {
        assert_eq!(first(unfit), Some((6, 4)), "{unfit}");
    }
    assert_eq!(replaced(5, &labelled("x", "END OF HEADER")), Some((6, 5)));
}

#[test]
fn number_7() {
    let fit = [
        "> 2024 12 31 23 59 30.0000000  0  0",
        "> 2024  2  9  3  9  0.0000000  0000",
        "> 2024 12 31 23 59 30.0000000  0  0      -0.123456789876",
        "> 2024 12 31 23 59 30.0000000  1  0      99.999999999999",
        "> 2024 12 31 23 59 30.0000000  0  0        .000000000000          ",
        "> 2024 12 31 23 59 30.0000000  5  0",
        "> 2024 12 31 23 59 30.0000000  2  0",
        ">                              2  0",
        ">                              4  0",
    ];
    for line in fit {
        assert_eq!(refused(&with_body(&[line])), None, "{line}");
    }
    let unfit = [
        "",
        " ",
        ">",
        "x",
        "END OF HEADER",
        ">x2024 12 31 23 59 30.0000000  0  0",
        "> 2024x12 31 23 59 30.0000000  0  0",
        "> 2024 12x31 23 59 30.0000000  0  0",
        "> 2024 12 31x23 59 30.0000000  0  0",
        "> 2024 12 31 23x59 30.0000000  0  0",
        "> 2024 12 31 23 59030.0000000  0  0",
        "> 2024 12 31 23 59 30.0000000x 0  0",
        "> 2024 12 31 23 59 30.0000000 x0  0",
        "> 2024 12 31 23 59 30.0000000     0",
        "> 2024 12 31 23 59 30.0000000  x  0",
        "> 2024 12 31 23 59 30.0000000  0",
        "> 2024 12 31 23 59 30.0000000  0 0 ",
        "> 2024 12 31 23 59 30.0000000  0 -1",
        "> 2024 12 31 23 59 30.0000000  0  0x",
        "> 2024 12 31 23 59 30.0000000  0  0      -0.12345678987 ",
        "> 2024 12 31 23 59 30.0000000  0  0      -0.123456789876x",
        "> 2024 12 31 23 59 30.0000000  0  0      +0.123456789876",
        "> 2024 12 31 23 60 30.0000000  0  0",
        "> 2024 12 31 24 59 30.0000000  0  0",
        "> 2024 12 32 23 59 30.0000000  0  0",
        "> 2024 13 31 23 59 30.0000000  0  0",
        ">                              0  0",
        ">                              1  0",
        ">                              5  0",
        ">                              6  0",
        "> 2024                         4  0",
        "> 2024 12 31 23 59 30.0000000  5  0       0.000000000000",
        ">                              4  0       0.000000000000",
        "> 2024 12 31 23 59 30.0000000  6  0x",
        "> 2024 12 31 23 59 30.0000000  9",
    ];
    for line in unfit {
        assert_eq!(refused(&with_body(&[line])), Some((7, 6)), "{line}");
    }
    assert_eq!(inserted(9, "G06"), Some((7, 9)));
    assert_eq!(inserted(6, &example_lines()[4]), Some((7, 6)));
}

#[test]
fn numbers_8_and_9() {
    for flag in 6..=9 {
        let line = format!("> 2024 12 31 23 59 30.0000000  {flag}  0");
        assert_eq!(refused(&with_body(&[&line])), Some((8, 6)));
        assert_eq!(refused(&with_body(&[&(line + "      -0.123456789876")])), Some((8, 6)));
    }
    let at = |second: &str, flag: u32| format!("> 2024 12 31 23 59 {second}.0000000  {flag}  0");
    assert_eq!(refused(&with_body(&[&at("30", 0), &at("30", 1)])), Some((9, 7)));
    assert_eq!(refused(&with_body(&[&at("30", 0), &at("29", 0)])), Some((9, 7)));
    assert_eq!(refused(&with_body(&[&at("30", 0), &at("31", 0)])), None);
    assert_eq!(refused(&with_body(&[&at("30", 0), &at("40", 5), &at("30", 0)])), Some((9, 8)));
    assert_eq!(
        refused(&with_body(&[&at("30", 0), &at("20", 2), &at("10", 5), &at("31", 1)])),
        None
    );
    // 8 wins over 9.
    assert_eq!(refused(&with_body(&[&at("30", 0), &at("30", 6)])), Some((8, 7)));
    // The first epoch may come before the time of first observation.
    assert_eq!(refused(&with_body(&["> 1980 01 01 00 00  0.0000000  0  0"])), None);
}

#[test]
fn numbers_10_to_13() {
    for unfit in ["", "G", "G0", "G 5", "G5 ", "G00", "X05", "g05", "M05", " G05", "> 2024"] {
        assert_eq!(row(unfit), Some((10, 7)), "{unfit}");
    }
    assert_eq!(row("G01"), None);
    assert_eq!(row("G99"), None);
    for letter in ["E", "J", "C", "I", "S"] {
        assert_eq!(row(&format!("{letter}05")), Some((11, 7)));
    }
    let pair = |first: &str, second: &str| {
        refused(&with_body(&["> 2024 12 31 23 59 30.0000000  0  2", first, second]))
    };
    assert_eq!(pair("G05", "G05"), Some((12, 8)));
    assert_eq!(pair("G05", "R05"), None);
    assert_eq!(pair("G05", "G05 garbage"), Some((12, 8)));
    // Too few rows: the next epoch line stands where a row is due.
    assert_eq!(pair("G05", EPOCH), Some((10, 8)));
    assert_eq!(row("E05 garbage"), Some((11, 7)));
    assert_eq!(row("Exx garbage"), Some((10, 7)));
}

#[test]
fn number_13() {
    let unfit = [
        "G01        +1.000",
        "G01          1.50",
        "G01        1.500 ",
        "G01          1.5",
        "G01x",
        "G01         1.500         1.50",
        "R01         1.500 1x",
        "R01         1.500           1.500",
        "G01                                x",
    ];
    for unfit in unfit {
        assert_eq!(row(unfit), Some((13, 7)), "{unfit}");
    }
    let slot = |columns: &str| row(&format!("G01{columns}"));
    assert_eq!(slot("              7"), None);
    assert_eq!(slot("              8"), Some((13, 7)));
    assert_eq!(slot("              -"), Some((13, 7)));
    assert_eq!(slot("               9"), None);
    assert_eq!(slot("               x"), Some((13, 7)));
    assert_eq!(row(&format!("R01{:16}1", "")), Some((13, 7)));
    assert_eq!(row(&format!("R01{:16}{:900}", "", "")), None);
}

#[test]
fn number_14() {
    let lines = example_lines();
    for kept in [1, 2, 3, 4, 6, 7] {
        assert_eq!(refused(&lines[..kept]), Some((14, kept as u64 + 1)));
    }
    assert_eq!(refused(&lines[..5]), None);
    let event = with_body(&[">                              3  1"]);
    assert_eq!(refused(&event), Some((14, 7)));
    let event = with_body(&[">                              4  2", &labelled("", "COMMENT")]);
    assert_eq!(refused(&event), Some((14, 8)));
    assert_eq!(continued_by(&labelled("       L1W", LIST)), None);
}

#[test]
fn number_15() {
    let event = |lines: &[&str]| {
        let first = format!(">                              3{:>3}", lines.len());
        let mut body = vec![first.as_str()];
        body.extend(lines);
        refused(&with_body(&body))
    };
    let name = labelled("A 9081", "MARKER NAME");
    let comment = labelled("MARKER NAME", "COMMENT");
    assert_eq!(event(&[]), Some((15, 6)));
    assert_eq!(event(&[&name]), None);
    assert_eq!(event(&[&comment]), Some((15, 7)));
    assert_eq!(event(&[&comment, &comment]), Some((15, 8)));
    assert_eq!(event(&[&name, &comment]), None);
    assert_eq!(event(&[&comment, &name]), None);
    assert_eq!(event(&[&comment, "x"]), Some((4, 8)));
    // An event before it that names a marker does not help.
    let two = with_body(&[
        ">                              3  1",
        &name,
        ">                              3  1",
        &comment,
    ]);
    assert_eq!(refused(&two), Some((15, 9)));
    // 15 wins over 16.
    let none_left = Room::new(448, 9, 9, 9, 0);
    let lines = with_body(&[">                              3  1", &comment]);
    assert_eq!(refusal_in(&text(&lines), &none_left), Some((15, 7)));
    let no_epochs = Room::new(448, 0, 9, 9, 0);
    let lines = with_body(&[">                              3  0"]);
    assert_eq!(refusal_in(&text(&lines), &no_epochs), Some((15, 6)));
}

#[test]
fn number_16_comes_last() {
    let nothing = Room::new(448, 1, 0, 0, 0);
    for (row, number) in [("x", 10), ("E01", 11), ("G01x", 13), ("G01", 16)] {
        let lines = with_body(&[EPOCH, row]);
        assert_eq!(refusal_in(&text(&lines), &nothing), Some((number, 7)));
    }
    let no_codes = Room::new(0, 1, 1, 1, 1);
    assert_eq!(refusal_in(EXAMPLE.as_bytes(), &no_codes), Some((16, 2)));
    let codes_of_g = Room::new(64, 1, 1, 1, 1);
    assert_eq!(refusal_in(EXAMPLE.as_bytes(), &codes_of_g), Some((16, 3)));
}
