//! Times the reader and the writer on a day of 30-second epochs.

use reference::fields::{calendar, time, SYSTEMS};
use reference::generate::{header_line, Random};
use reference::read::{judge, read, read_into};
use reference::tables::*;
use reference::write::write;
use std::time::Instant;

/// The lists of G, R, E and J.
const LISTS: [&str; 4] = [
    "G   12 C1C L1C D1C S1C C2W L2W D2W S2W C5Q L5Q D5Q S5Q",
    "R   12 C1C L1C D1C S1C C2P L2P D2P S2P C3Q L3Q D3Q S3Q",
    "E   12 C1C L1C D1C S1C C5Q L5Q D5Q S5Q C7Q L7Q D7Q S7Q",
    "J   12 C1C L1C D1C S1C C2L L2L D2L S2L C5Q L5Q D5Q S5Q",
];
const ROWS: usize = 40;
const EPOCHS: u64 = 2_880;

fn main() {
    let text = day();
    println!("{} bytes", text.len());
    let tables = read(&text, &Room::ample()).unwrap();
    let codes = tables.lent_codes();
    show("judge", text.len(), || assert!(judge(&text, &Room::ample()).is_ok()));
    show("read", text.len(), || drop(read(&text, &Room::ample()).unwrap()));
    let mut lent = (tables.clone(), codes.clone());
    show("read_into", text.len(), || fill(&text, &mut lent.0, &mut lent.1));
    show("write", text.len(), || drop(write(&tables.lent(&codes), u64::MAX).unwrap()));
}

/// Prints the best of some runs.
fn show(name: &str, bytes: usize, mut run: impl FnMut()) {
    let once = |run: &mut dyn FnMut()| {
        let start = Instant::now();
        run();
        start.elapsed().as_secs_f64()
    };
    let best = (0..7).map(|_| once(&mut run)).fold(f64::MAX, f64::min);
    println!("{name:<10} {:8.2} ms {:8.1} MB/s", best * 1e3, bytes as f64 / best / 1e6);
}

fn fill(text: &[u8], tables: &mut Tables, codes: &mut [u32]) {
    read_into(text, tables.lend(codes)).unwrap();
}

/// A day of one receiver: four systems of ten satellites, twelve codes.
fn day() -> Vec<u8> {
    let mut random = Random::new(1);
    let mut lines =
        vec![header_line(b"     3.03           OBSERVATION DATA    M", b"RINEX VERSION / TYPE")];
    for list in LISTS {
        lines.push(header_line(list.as_bytes(), b"SYS / # / OBS TYPES"));
    }
    let first = b"  2024    12    31     0     0    0.0000000     GPS";
    lines.push(header_line(first, b"TIME OF FIRST OBS"));
    lines.push(header_line(b"", b"END OF HEADER"));
    let start = time([2024, 12, 31], 0, 0, 0).unwrap();
    for number in 0..EPOCHS {
        let at = calendar(start + number * 300_000_000);
        let second = at.second_ticks / 10_000_000;
        let epoch =
            format!("> 2024 12 31 {:02} {:02} {second:2}.0000000  0 {ROWS}", at.hour, at.minute);
        lines.push(epoch.into_bytes());
        lines.extend((0..ROWS).map(|row| row_of(row, &mut random)));
    }
    let mut text = lines.join(&b'\n');
    text.push(b'\n');
    text
}

/// A row with a tenth of its slots blank.
fn row_of(row: usize, random: &mut Random) -> Vec<u8> {
    let mut line = format!("{}{:02}", SYSTEMS[row / 10] as char, row % 10 + 1);
    for _ in 0..3 {
        let range = random.between(19_000_000_000, 26_000_000_000);
        let phase = range * 5;
        let doppler = random.between(-5_000_000, 5_000_000);
        let strength = random.between(20_000, 55_000);
        for number in [range, phase, doppler, strength] {
            if random.percent(10) {
                line += "                ";
                continue;
            }
            line += &format!("{:>14.3} 7", number as f64 / 1000.0);
        }
    }
    line.trim_end().as_bytes().to_vec()
}
