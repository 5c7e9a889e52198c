//! The worked example of the paper and the example of source document 004.

mod common;

use common::*;
use reference::fields::pack_code;
use reference::read::read;
use reference::summary::summary;
use reference::tables::*;
use reference::write::write;

#[test]
fn summary_of_the_example() {
    let expected = "result=accepted\nepochs=1\nevents=0\nrows=2\nslots=3\nblank=1\n";
    assert_eq!(summary(EXAMPLE.as_bytes()), expected);
}

#[test]
fn summary_of_refused_and_long_texts() {
    assert_eq!(summary(b""), "result=refused\nnumber=3\nline=1\n");
    assert_eq!(summary(&[b'\n'; 32_768]), "result=refused\nnumber=3\nline=1\n");
    assert_eq!(summary(&[b'\n'; 32_769]), "result=toolong\n");
}

#[test]
fn tables_of_the_example() {
    let tables = read(EXAMPLE.as_bytes(), &Room::ample()).unwrap();
    let time = 14_245 * 864_000_000_000 + (86_400 - 30) * 10_000_000 + 2_191 * 864_000_000_000;
    assert_eq!(tables.head.letter, b'M');
    assert_eq!(tables.head.lengths, [2, 1, 0, 0, 0, 0, 0]);
    assert_eq!(tables.head.first_time, time);
    assert_eq!(tables.head.time_system, 0);
    assert_eq!((tables.head.interval_state, tables.head.interval), (0, 0));
    assert_eq!(tables.head.carried_lines, 0);
    assert_eq!(tables.counts, Counts { epochs: 1, rows: 2, slots: 3, carried: 0 });
    assert_eq!(tables.codes[0], Some(pack_code(*b"C1C")));
    assert_eq!(tables.codes[1], Some(pack_code(*b"L1C")));
    assert_eq!(tables.codes[64], Some(pack_code(*b"C1C")));
    assert_eq!(tables.codes.iter().flatten().count(), 3);
    assert_eq!(tables.times, [time]);
    assert_eq!((tables.time_states[0], tables.flags[0], tables.line_counts[0]), (1, 0, 2));
    assert_eq!((tables.clock_states[0], tables.clocks[0]), (0, 0));
    assert_eq!(tables.satellites, [5, 112]);
    assert_eq!(tables.numbers, [20_000_000_125, -500, 0]);
    assert_eq!(tables.states, [1, 1, 0]);
    assert_eq!(tables.losses, [255, 1, 255]);
    assert_eq!(tables.strengths, [7, 255, 255]);
}

#[test]
fn the_example_is_its_normal_text() {
    let tables = read(EXAMPLE.as_bytes(), &Room::ample()).unwrap();
    let codes = tables.lent_codes();
    assert_eq!(write(&tables.lent(&codes), u64::MAX).unwrap(), EXAMPLE.as_bytes());
}

/// A row of slots, each at the right of its 16 columns.
fn row(satellite: &str, slots: &[&str]) -> String {
    let slots: String = slots.iter().map(|slot| format!("{slot:>16}")).collect();
    format!("{satellite}{slots}")
}

/// The example of table A3 of source document 004 in its columns.
fn source_example() -> Vec<String> {
    let header = [
        ("     3.03           OBSERVATION DATA    M", "RINEX VERSION / TYPE"),
        ("BLANK OR G = GPS,  R = GLONASS,  E = GALILEO,  M = MIXED", "COMMENT"),
        ("XXRINEXO V9.9       AIUB                24-MAR-06 13:10 UTC", "PGM / RUN BY / DATE"),
        ("A 9080", "MARKER NAME"),
        ("        .9030         .0000         .0000", "ANTENNA: DELTA H/E/N"),
        ("G    5 C1C L1W L2W C1W S2W", "SYS / # / OBS TYPES"),
        ("R    2 C1C L1C", "SYS / # / OBS TYPES"),
        ("E    2 L1B L5I", "SYS / # / OBS TYPES"),
        ("S    2 C1C L1C", "SYS / # / OBS TYPES"),
        ("    18.000", "INTERVAL"),
        ("  2006    03    24    13    10   36.0000000     GPS", "TIME OF FIRST OBS"),
        ("", "END OF HEADER"),
    ];
    let body = [
        "> 2006 03 24 13 10 54.0000000  0  3      -0.123456789210",
        &row(
            "G12",
            &["20611072.689  ", "18247.789 9", "14219.770 6", "20611072.410  ", "36.765  "],
        ),
        &row("E11", &["65432.123 5", "48861.586 7"]),
        &row("S20", &["38137559.506  ", "335849.135 9"]),
        "> 2006 03 24 13 11 12.0000000  2  2",
        "          *** FROM NOW ON KINEMATIC DATA! ***               COMMENT",
        "> TWO COMMENT LINES FOLLOW DIRECTLY THE EVENT RECORD        COMMENT",
        "> 2006  3 24 13 11 12.0000000  0  1      -0.123456789876",
        &row(
            "G16",
            &["20621643.727  ", "73797.462 7", "57505.177 2", "20621644.276  ", "15.368  "],
        ),
        ">                              3  4",
        "A 9081                                                      MARKER NAME",
        "9081.1.34                                                   MARKER NUMBER",
        "         .9050         .0000         .0000                  ANTENNA: DELTA H/E/N",
        "          --> THIS IS THE START OF A NEW SITE <--           COMMENT",
        "> 2006 03 24 13 13  1.2345678  5  0",
        ">                              4  2",
        "          AN EVENT FLAG 5 WITH A SIGNIFICANT EPOCH          COMMENT",
        "AND AN EVENT FLAG 4 TO ESCAPE FOR THE TWO COMMENT LINES     COMMENT",
        "> 2006 03 24 13 14 12.0000000  0  1      -0.123456012345",
        &row("G06", &["21124965.133  ", "0.30213", "-0.62614", "21124965.275  ", "27.528  "]),
    ];
    let mut lines: Vec<String> = header.iter().map(|(c, l)| labelled(c, l)).collect();
    lines.extend(body.iter().map(|line| line.to_string()));
    lines
}

#[test]
fn the_source_example_is_read_by_columns() {
    let tables = tables(&source_example());
    assert_eq!(tables.flags, [0, 2, 0, 3, 5, 4, 0]);
    assert_eq!(tables.time_states, [1, 1, 1, 0, 1, 0, 1]);
    assert_eq!(tables.times[0], 8_276_730_540_000_000);
    assert_eq!(tables.clocks[0], -123_456_789_210);
    assert_eq!(tables.head.interval, 18_000);
    assert_eq!(tables.head.carried_lines, 4);
    assert_eq!(
        tables.counts,
        Counts { epochs: 7, rows: 5, slots: 19, carried: tables.counts.carried }
    );
    // 0.30213: the value 0.302, the marks 1 and 3.
    assert_eq!((tables.numbers[15], tables.losses[15], tables.strengths[15]), (302, 1, 3));
    assert_eq!((tables.numbers[16], tables.losses[16], tables.strengths[16]), (-626, 1, 4));
}
