//! A printed zero is a missing observation and held as blank: both sides of
//! each edge, where it is read, written, asked for and summed up.

mod common;

use common::*;
use reference::damage::Loose;
use reference::fields::*;
use reference::generate::{valid, Random};
use reference::read::read;
use reference::slot::{column, slot, Answer};
use reference::summary::summary;
use reference::tables::*;
use reference::write::*;
use reference::zeros::printed_zeros;

/// Spellings of 0 in a value field, up to its width.
const ZEROS: [&str; 8] =
    ["0.000", "-0.000", ".000", "-.000", "00.000", "-00.000", "0000000000.000", "-000000000.000"];

/// Marks as they are printed, and as they are held.
const MARKS: [(&str, [u8; 2]); 6] = [
    ("", [BLANK_MARK, BLANK_MARK]),
    ("19", [1, 9]),
    ("00", [0, 0]),
    ("79", [7, 9]),
    ("1", [1, BLANK_MARK]),
    (" 9", [BLANK_MARK, 9]),
];

/// The line of the first row.
const ROW_LINE: u64 = 7;

/// The columns of a slot: a value at the right of its field, and its marks.
fn columns(value: &str, marks: &str) -> String {
    format!("{value:>14}{marks:<2}")
}

/// A row of the example's G, which has two slots.
fn row_of_two(slots: [&str; 2]) -> String {
    format!("G05{}{}", slots[0], slots[1])
}

/// The example's header and one epoch of these rows.
fn epoch_of(rows: &[String]) -> Vec<String> {
    let mut lines = with_body(&[&format!("> 2024 12 31 23 59 30.0000000  0{:>3}", rows.len())]);
    lines.extend_from_slice(rows);
    lines
}

/// The tables of one epoch of one row.
fn tables_of(row: &str) -> Tables {
    tables(&epoch_of(&[row.to_string()]))
}

/// State, number and marks of a slot.
fn held(tables: &Tables, slot: usize) -> (u8, i64, [u8; 2]) {
    let marks = [tables.losses[slot], tables.strengths[slot]];
    (tables.states[slot], tables.numbers[slot], marks)
}

/// The normal text.
fn normal(tables: &Tables) -> String {
    String::from_utf8(write(&tables.lent(&tables.lent_codes()), u64::MAX).unwrap()).unwrap()
}

/// The last line of the normal text.
fn last_line(tables: &Tables) -> String {
    normal(tables).lines().last().unwrap().to_string()
}

#[test]
fn every_spelling_is_held_as_blank() {
    for zero in ZEROS {
        for (printed, marks) in MARKS {
            let row = format!("R12{}", columns(zero, printed));
            assert_eq!(held(&tables_of(&row), 0), (0, 0, marks), "{row}");
        }
    }
}

#[test]
fn a_number_next_to_zero_is_given() {
    let given = [
        ("0.001", 1),
        ("-0.001", -1),
        (".001", 1),
        ("-.001", -1),
        ("0000000000.001", 1),
        ("-000000000.001", -1),
        ("0.010", 10),
        ("0.100", 100),
        ("1.000", 1_000),
    ];
    for (value, number) in given {
        for (printed, marks) in MARKS {
            let row = format!("R12{}", columns(value, printed));
            assert_eq!(held(&tables_of(&row), 0), (1, number, marks), "{row}");
        }
    }
}

#[test]
fn a_zero_in_another_form_is_unfit() {
    let unfit = [
        "0", "-0", "0.", "0.0", "0.00", "-0.00", "0.0000", "0.000 ", "+0.000", "- 0.000", "0 .000",
        "0,000", "--.000", ".", "-", "-.", "0.0-0", "0e0.000",
    ];
    for value in unfit {
        for (marks, _) in MARKS {
            let row = format!("R12{}", columns(value, marks));
            assert_eq!(refused(&epoch_of(&[row.clone()])), Some((13, ROW_LINE)), "{row}");
        }
    }
}

#[test]
fn a_zero_past_the_last_slot_is_unfit() {
    for zero in ZEROS {
        let row = format!("R12{}{}", columns("", ""), columns(zero, ""));
        assert_eq!(refused(&epoch_of(&[row])), Some((13, ROW_LINE)), "{zero}");
    }
}

#[test]
fn zeros_at_each_place_of_a_row() {
    let given = &columns("1.500", "");
    for zero in ZEROS {
        let zero = &columns(zero, "");
        assert_eq!(tables_of(&row_of_two([zero, given])).states, [0, 1]);
        assert_eq!(tables_of(&row_of_two([given, zero])).states, [1, 0]);
        assert_eq!(tables_of(&row_of_two([zero, zero])).states, [0, 0]);
        assert_eq!(tables_of(&format!("R12{zero}")).states, [0]);
    }
}

#[test]
fn a_line_may_end_behind_a_zero_and_not_within() {
    let given = &columns("1.500", "");
    for zero in ZEROS {
        let zero = &columns(zero, "");
        for whole in [row_of_two([given, zero]), row_of_two([zero, ""]), format!("R12{zero}")] {
            let cut = whole.trim_end();
            assert_eq!(tables_of(cut), tables_of(&whole));
            let shorter = &cut[..cut.len() - 1];
            assert_eq!(refused(&epoch_of(&[shorter.to_string()])), Some((13, ROW_LINE)));
        }
    }
}

#[test]
fn the_normal_text_has_blanks_and_the_marks() {
    let blank = &columns("", "");
    for zero in ZEROS {
        let written = |marks: [&str; 2]| {
            let slots = marks.map(|marks| columns(zero, marks));
            last_line(&tables_of(&row_of_two([&slots[0], &slots[1]])))
        };
        assert_eq!(written(["", ""]), "G05");
        assert_eq!(written(["19", ""]), row_of_two([&columns("", "19"), ""]));
        assert_eq!(written(["", "00"]), row_of_two([blank, &columns("", "00")]));
        assert_eq!(written(["1", " 9"]), row_of_two([&columns("", "1"), &columns("", " 9")]));
        let beside = row_of_two([&columns("-.500", " 7"), &columns(zero, "")]);
        assert_eq!(last_line(&tables_of(&beside)), row_of_two([&columns("-0.500", " 7"), ""]));
        let before = row_of_two([&columns(zero, ""), &columns(".001", "")]);
        assert_eq!(last_line(&tables_of(&before)), row_of_two([blank, "         0.001"]));
    }
}

#[test]
fn zeros_there_and_back() {
    let rows: Vec<String> =
        (1..).zip(ZEROS).map(|(n, zero)| format!("R{n:02}{zero:>14}")).collect();
    let lines = epoch_of(&rows);
    let first = tables(&lines);
    assert_eq!(printed_zeros(&text(&lines), &first).len(), ZEROS.len());
    let written = normal(&first);
    assert_eq!(read(written.as_bytes(), &Room::ample()).as_ref(), Ok(&first));
    assert_eq!(printed_zeros(written.as_bytes(), &first), []);
}

/// Printed zeros are found by their columns, past events and rows without any.
#[test]
fn where_zeros_are_printed() {
    let mut lines = epoch_of(&[
        row_of_two([&columns("-.000", "19"), &columns("0.001", "")]),
        "G06".to_string(),
        format!("R12{}", columns("0.000", "")),
    ]);
    lines.push(">                              4  0".to_string());
    lines.push(">                              4  1".to_string());
    lines.push(labelled(&row_of_two([&columns("0.000", ""), ""]), "COMMENT"));
    lines.push("> 2024 12 31 23 59 31.0000000  1  1".to_string());
    lines.push(row_of_two([&columns("", "00"), "        00.000"]));
    let tables = tables(&lines);
    assert_eq!(printed_zeros(&text(&lines), &tables), [0, 4, 6]);
    assert_eq!(tables.states, [0, 1, 0, 0, 0, 0, 0]);
}

#[test]
fn zeros_of_generated_texts() {
    let mut random = Random::new(26);
    let mut zeros = 0;
    for _ in 0..2_000 {
        let text = valid(&mut random).text();
        let tables = read(&text, &Room::ample()).unwrap();
        let printed = printed_zeros(&text, &tables);
        let is_blank = |&slot: &usize| tables.states[slot] == 0 && tables.numbers[slot] == 0;
        assert!(printed.iter().all(is_blank));
        assert_eq!(printed_zeros(normal(&tables).as_bytes(), &tables), []);
        zeros += printed.len();
    }
    println!("{zeros} printed zeros");
    assert!(zeros > 20_000);
}

#[test]
fn a_clock_of_zero_stays_given() {
    let clocks =
        ["0.000000000000", "-0.000000000000", ".000000000000", "-.000000000000", "00.000000000000"];
    for clock in clocks {
        let mut lines = epoch_of(&[]);
        *lines.last_mut().unwrap() += &format!("{clock:>21}");
        let tables = tables(&lines);
        assert_eq!((tables.clock_states[0], tables.clocks[0]), (1, 0), "{clock}");
        let written = "> 2024 12 31 23 59 30.0000000  0  0       0.000000000000";
        assert_eq!(last_line(&tables), written);
        assert_eq!(refusals(&Loose::of(tables)), [None; 4]);
    }
}

#[test]
fn the_summary_counts_zeros_as_blank() {
    let rows = [
        row_of_two([&columns("-.000", "19"), &columns("0.001", "")]),
        format!("R12{}", columns("0.000", "")),
    ];
    let expected = "result=accepted\nepochs=1\nevents=0\nrows=2\nslots=3\nblank=2\n";
    assert_eq!(summary(&text(&epoch_of(&rows))), expected);
}

#[test]
fn a_zero_is_answered_as_blank() {
    for zero in ZEROS {
        let row = row_of_two([&columns(zero, "19"), &columns("-0.001", "")]);
        let loose = Loose::of(tables_of(&row));
        let lent = loose.lent();
        assert_eq!(slot(&lent, 0, pack_code(*b"C1C")), Ok(Answer::Blank));
        assert_eq!(slot(&lent, 0, pack_code(*b"L1C")), Ok(Answer::Cycles(-0.001)));
        assert_eq!(column(&lent, 0, pack_code(*b"C1C"), [1, 1]), Ok(vec![Answer::Blank]));
        assert_eq!(column(&lent, 0, pack_code(*b"L1C"), [1, 1]), Ok(vec![Answer::Cycles(-0.001)]));
    }
}

/// What the text of one epoch is refused with.
fn epoch_refusal(loose: &Loose, place: usize) -> Option<u32> {
    write_epoch(&epochs_of(&loose.lent())[place], u64::MAX).err()
}

/// What writing, the first epoch, a slot and a column are refused with.
fn refusals(loose: &Loose) -> [Option<u32>; 4] {
    let lent = loose.lent();
    let rows = lent.counts.rows;
    [
        write(&lent, u64::MAX).err(),
        epoch_refusal(loose, 0),
        slot(&lent, 0, pack_code(*b"C1C")).err(),
        column(&lent, 0, pack_code(*b"C1C"), [rows, rows]).err(),
    ]
}

/// Tables of a row with all slots blank, one of which is changed.
fn changed(row: &str, place: usize, state: u8, number: i64) -> Loose {
    let mut loose = Loose::of(tables_of(row));
    loose.tables.states[place] = state;
    loose.tables.numbers[place] = number;
    loose
}

/// In the first slot, the last one and the only one, whatever the marks.
#[test]
fn a_given_zero_is_20() {
    let values = [
        (0, 0, None),
        (1, 0, Some(20)),
        (1, 1, None),
        (1, -1, None),
        (0, 1, Some(20)),
        (2, 0, Some(20)),
    ];
    for (printed, _) in MARKS {
        let slot = &columns("", printed);
        let rows = [
            (row_of_two([slot, slot]), 0),
            (row_of_two([slot, slot]), 1),
            (format!("R12{slot}"), 0),
        ];
        for (row, place) in rows {
            for (state, number, refusal) in values {
                let loose = changed(&row, place, state, number);
                assert_eq!(refusals(&loose), [refusal; 4], "{row}: {state} {number} at {place}");
            }
        }
    }
}

#[test]
fn one_is_written() {
    let written = |number: i64| last_line(&changed("R12", 0, 1, number).tables);
    assert_eq!(written(1), "R12         0.001");
    assert_eq!(written(-1), "R12        -0.001");
}

/// 20 comes before 21, 16 and the row that is not there, and nothing changes.
#[test]
fn a_given_zero_comes_first() {
    let loose = changed("R12", 0, 1, 0);
    let lent = loose.lent();
    assert_eq!(write(&lent, 0), Err(20));
    let mut buffer = [7; 500];
    assert_eq!(write_into(&lent, &mut buffer, 0), Err(20));
    assert_eq!(write_into(&lent, &mut buffer, u64::MAX), Err(20));
    assert_eq!(buffer, [7; 500]);
    assert_eq!(slot(&lent, 99, pack_code(*b"C1C")), Err(20));
    assert_eq!(slot(&lent, 0, pack_code(*b"X0x")), Err(20));
    assert_eq!(column(&lent, 9, pack_code(*b"X0x"), [0, 0]), Err(20));
}

/// One epoch alone is judged by its own slots, tables by all of them.
#[test]
fn a_given_zero_in_another_epoch() {
    let mut lines = epoch_of(&["R12".to_string()]);
    lines.push("> 2024 12 31 23 59 31.0000000  0  1".to_string());
    lines.push("R12".to_string());
    let mut loose = Loose::of(tables(&lines));
    loose.tables.states[1] = 1;
    assert_eq!(refusals(&loose), [Some(20), None, Some(20), Some(20)]);
    assert_eq!(epoch_refusal(&loose, 1), Some(20));
}

/// An entry past the counts does not matter.
#[test]
fn a_given_zero_past_the_counts() {
    let mut loose = changed("R12", 0, 1, 1);
    loose.tables.states.push(1);
    loose.tables.numbers.push(0);
    assert_eq!(refusals(&loose), [None; 4]);
}
