//! What several test programs use.
#![allow(dead_code)]

use reference::fields::{CODES_A_LINE, LIST_START_WIDTH};
use reference::generate::header_line;
use reference::read::{judge, read};
use reference::tables::*;
use reference::write::{spell_epoch, EpochRef, Out};

/// The worked example of the paper.
pub const EXAMPLE: &str = include_str!("example.txt");

/// The lines of the worked example.
pub fn example_lines() -> Vec<String> {
    EXAMPLE.lines().map(str::to_string).collect()
}

/// Lines as a text.
pub fn text(lines: &[String]) -> Vec<u8> {
    let mut text = lines.join("\n").into_bytes();
    text.push(b'\n');
    text
}

/// A header line from its content and label.
pub fn labelled(content: &str, label: &str) -> String {
    let columns = header_line(content.as_bytes(), label.as_bytes());
    String::from_utf8(columns).unwrap()
}

/// The example's header lines, followed by others.
pub fn with_body(body: &[&str]) -> Vec<String> {
    let mut lines = example_lines();
    lines.truncate(5);
    lines.extend(body.iter().map(|line| line.to_string()));
    lines
}

/// The example with header lines put in before END OF HEADER.
pub fn with_header(extra: &[String]) -> Vec<String> {
    let mut lines = example_lines();
    lines.splice(4..4, extra.iter().cloned());
    lines
}

/// A code with the letter of its system.
pub fn named_code(letter: u8, code: [u8; 3]) -> String {
    format!("{} {}", letter as char, String::from_utf8_lossy(&code))
}

/// The lines of a list, as many as its codes take.
fn list_lines(letter: u8, codes: &[[u8; 3]]) -> Vec<String> {
    let mut start = format!("{}  {:>3}", letter as char, codes.len());
    let mut lines = vec![];
    for codes_of_line in codes.chunks(CODES_A_LINE) {
        let spelled =
            codes_of_line.iter().map(|code| format!(" {}", String::from_utf8_lossy(code)));
        lines.push(labelled(&(start + &spelled.collect::<String>()), "SYS / # / OBS TYPES"));
        start = " ".repeat(LIST_START_WIDTH);
    }
    lines
}

/// The example's header with one list in place of its two: from line 2 on.
pub fn with_list(letter: u8, codes: &[[u8; 3]]) -> Vec<String> {
    let mut lines = with_body(&[]);
    lines.splice(1..3, list_lines(letter, codes));
    lines
}

/// The refusal of a text with ample room, as number and line.
pub fn refusal(text: &[u8]) -> Option<(u32, u64)> {
    refusal_in(text, &Room::ample())
}

pub fn refusal_in(text: &[u8], room: &Room) -> Option<(u32, u64)> {
    let judged = judge(text, room).err();
    assert_eq!(judged, read(text, room).err());
    judged.map(|refusal| (refusal.number, refusal.line))
}

/// The refusal of lines with ample room.
pub fn refused(lines: &[String]) -> Option<(u32, u64)> {
    refusal(&text(lines))
}

/// The tables of an accepted text.
pub fn tables(lines: &[String]) -> Tables {
    read(&text(lines), &Room::ample()).unwrap()
}

/// The epochs of tables, each with the tables from it on.
pub fn epochs_of<'a>(lent: &TablesRef<'a>) -> Vec<EpochRef<'a>> {
    let mut parts = lent.parts();
    let mut skipped = Out::new(u64::MAX);
    let header_bytes = header_carried(lent);
    parts.carried = &parts.carried[header_bytes..];
    let mut epochs = Vec::new();
    for place in 0..lent.counts.epochs as usize {
        let epoch = EpochRef { lists: lent.lists(), entry: lent.entry(place), parts };
        let used = spell_epoch(&epoch.lists, &epoch.entry, &epoch.parts, &mut skipped);
        parts.satellites = &parts.satellites[used.rows..];
        parts.numbers = &parts.numbers[used.slots..];
        parts.states = &parts.states[used.slots..];
        parts.losses = &parts.losses[used.slots..];
        parts.strengths = &parts.strengths[used.slots..];
        parts.carried = &parts.carried[used.carried..];
        epochs.push(epoch);
    }
    epochs
}

/// The bytes of the carried header lines.
fn header_carried(lent: &TablesRef) -> usize {
    let lines = lent.parts().carried.split_inclusive(|&byte| byte == b'\n');
    lines.take(lent.head.carried_lines as usize).map(<[u8]>::len).sum()
}
