//! The slot question.

mod common;

use common::*;
use reference::fields::pack_code;
use reference::generate::{valid, Random};
use reference::slot::{slot, Answer};

fn code(name: &str) -> u32 {
    pack_code(name.as_bytes().try_into().unwrap())
}

#[test]
fn answers() {
    let slots = ["20000000.125 7", "-0.5001 ", "-0.001  ", "45.500  ", "-0.000 5"];
    let slots: String = slots.iter().map(|slot| format!("{slot:>16}")).collect();
    let row = format!("G05{slots}");
    let mut lines = with_body(&["> 2024 12 31 23 59 30.0000000  0  2", &row, "R12"]);
    lines[1] = labelled("G    6 C1C L1C D1C S1C D2C C1 ", "SYS / # / OBS TYPES");
    let tables = tables(&lines);
    let codes = tables.lent_codes();
    let ask = |row: u64, name: &str| slot(&tables.lent(&codes), row, code(name));
    assert_eq!(ask(0, "C1C"), Ok(Answer::Metres(20_000_000.125)));
    assert_eq!(ask(0, "L1C"), Ok(Answer::Cycles(-0.5)));
    assert_eq!(ask(0, "D1C"), Ok(Answer::Hertz(-0.001)));
    assert_eq!(ask(0, "S1C"), Ok(Answer::Strength(45.5)));
    assert_eq!(ask(0, "D2C"), Ok(Answer::Blank));
    assert_eq!(ask(0, "C1 "), Ok(Answer::Blank));
    assert_eq!(ask(1, "C1C"), Ok(Answer::Blank));
    assert_eq!(ask(1, "L1C"), Ok(Answer::NotDeclared));
    assert_eq!(ask(0, "X0x"), Ok(Answer::NotDeclared));
    assert_eq!(slot(&tables.lent(&codes), 0, code("C1C") | 1 << 24), Ok(Answer::NotDeclared));
    assert_eq!(ask(2, "C1C"), Ok(Answer::NoSuchRow));
    assert_eq!(ask(2, "X0x"), Ok(Answer::NoSuchRow));
    assert_eq!(ask(u64::MAX, "C1C"), Ok(Answer::NoSuchRow));
}

#[test]
fn tables_that_no_text_spells_get_20() {
    let mut tables = tables(&example_lines());
    let codes = tables.lent_codes();
    tables.losses[0] = 8;
    assert_eq!(slot(&tables.lent(&codes), 0, code("C1C")), Err(20));
    assert_eq!(slot(&tables.lent(&codes), 99, code("C1C")), Err(20));
}

/// Every slot of generated tables, found by counting on.
#[test]
fn every_slot_of_generated_tables() {
    let mut random = Random::new(5);
    let mut asked = 0;
    for _ in 0..1_000 {
        let tables = valid(&mut random).tables;
        if tables.counts.slots > 300 {
            continue;
        }
        let codes = tables.lent_codes();
        let mut place = 0;
        for (row, &satellite) in tables.satellites.iter().enumerate() {
            let system = usize::from(satellite) / 100;
            for number in 0..tables.head.lengths[system] as usize {
                let code = codes[64 * system + number];
                let expected = match (tables.states[place], code >> 16) {
                    (0, _) => Answer::Blank,
                    (_, 67) => Answer::Metres(tables.numbers[place] as f64 / 1000.0),
                    (_, 76) => Answer::Cycles(tables.numbers[place] as f64 / 1000.0),
                    (_, 68) => Answer::Hertz(tables.numbers[place] as f64 / 1000.0),
                    _ => Answer::Strength(tables.numbers[place] as f64 / 1000.0),
                };
                assert_eq!(slot(&tables.lent(&codes), row as u64, code), Ok(expected));
                place += 1;
                asked += 1;
            }
        }
    }
    println!("{asked} slots asked for");
}
