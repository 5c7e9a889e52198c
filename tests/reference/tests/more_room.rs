//! More room must not change the verdict: the worked example by hand, and
//! generated texts in pairs of rooms, the second nowhere shorter.

mod common;

use common::*;
use reference::compared::lend::exact;
use reference::generate::{buffer_of, case, Random};
use reference::read::{judge, read, used};
use reference::tables::*;

const BUFFERS: std::ops::Range<usize> = 0..13;

/// What the worked example needs.
const EXACT: [usize; 5] = [65, 1, 2, 3, 0];

fn room_of([codes, epochs, rows, slots, carried]: [usize; 5]) -> Room {
    Room::new(codes, epochs, rows, slots, carried)
}

/// The room with another length of one buffer.
fn with_length(room: &Room, buffer: usize, length: usize) -> Room {
    let mut other = *room;
    *buffer_of(&mut other, buffer) = length;
    other
}

fn length_of(room: &Room, buffer: usize) -> usize {
    *buffer_of(&mut room.clone(), buffer)
}

/// The line of the example that one entry less of a buffer is too few for.
fn short_line(buffer: usize) -> u64 {
    match buffer {
        0 => 3,
        1..=6 => 6,
        _ => 8,
    }
}

/// The example with its last lines in place of those from this one on.
fn example_to(line: usize, last: &[&str]) -> Vec<u8> {
    let mut lines = example_lines();
    lines.truncate(line - 1);
    lines.extend(last.iter().map(|line| line.to_string()));
    text(&lines)
}

#[test]
fn the_example_needs_this_room() {
    let (head, counts) = used(EXAMPLE.as_bytes());
    assert_eq!(exact(&head, &counts), room_of(EXACT));
    assert_eq!(refusal_in(EXAMPLE.as_bytes(), &room_of(EXACT)), None);
}

#[test]
fn one_less_than_the_example_needs() {
    let room = room_of(EXACT);
    for buffer in BUFFERS.filter(|&buffer| length_of(&room, buffer) > 0) {
        let less = with_length(&room, buffer, length_of(&room, buffer) - 1);
        let due = Some((16, short_line(buffer)));
        assert_eq!(refusal_in(EXAMPLE.as_bytes(), &less), due, "buffer {buffer}");
        let others = room_of(EXACT.map(|length| length + 10));
        let less = with_length(&others, buffer, length_of(&room, buffer) - 1);
        assert_eq!(refusal_in(EXAMPLE.as_bytes(), &less), due, "buffer {buffer}, others longer");
    }
}

#[test]
fn lines_that_need_the_first_entries() {
    for (room, line) in [
        ([2, 1, 2, 3, 0], 3),
        ([1, 1, 2, 3, 0], 2),
        ([0, 0, 0, 0, 0], 2),
        ([65, 0, 0, 0, 0], 6),
        ([65, 1, 0, 3, 0], 7),
        ([65, 1, 2, 1, 0], 7),
    ] {
        assert_eq!(refusal_in(EXAMPLE.as_bytes(), &room_of(room)), Some((16, line)), "{room:?}");
    }
}

#[test]
fn more_than_the_example_needs() {
    let due = read(EXAMPLE.as_bytes(), &room_of(EXACT));
    let room = room_of(EXACT);
    for buffer in BUFFERS {
        let more = with_length(&room, buffer, length_of(&room, buffer) + 1);
        assert_eq!(read(EXAMPLE.as_bytes(), &more), due, "buffer {buffer}");
    }
    assert_eq!(read(EXAMPLE.as_bytes(), &room_of(EXACT.map(|length| length + 1000))), due);
}

#[test]
fn a_fault_behind_the_line_that_lacks_room() {
    let unfit = example_to(8, &["R12        +1.000"]);
    assert_eq!(refusal_in(&unfit, &room_of([65, 1, 1, 2, 0])), Some((13, 8)));
    assert_eq!(refusal_in(&unfit, &room_of([65, 1, 0, 2, 0])), Some((16, 7)));
    assert_eq!(refusal_in(&unfit, &room_of([65, 1, 1, 1, 0])), Some((16, 7)));
    assert_eq!(refusal_in(&unfit, &room_of([65, 0, 1, 2, 0])), Some((16, 6)));
    assert_eq!(refusal_in(&unfit, &room_of([64, 1, 1, 2, 0])), Some((16, 3)));
    assert_eq!(refusal(&unfit), Some((13, 8)));
}

#[test]
fn a_fault_before_the_line_that_lacks_room() {
    let unfit_row = example_to(7, &["G05        +1.000", "R12"]);
    let unfit_epoch = example_to(6, &["> 2024 12 31 23 59 30.0000000  0", "G05", "R12"]);
    let unlabelled = example_to(2, &["", ""]);
    for length in [0, 1, 2, 3] {
        assert_eq!(refusal_in(&unfit_row, &room_of([65, 1, length, length, 0])), Some((13, 7)));
        let room = room_of([65, length, length, length, 0]);
        assert_eq!(refusal_in(&unfit_epoch, &room), Some((7, 6)));
        assert_eq!(refusal_in(&unlabelled, &room_of([length; 5])), Some((4, 2)));
        assert_eq!(refusal_in(b"", &room_of([length; 5])), Some((3, 1)));
    }
}

/// What came of pairs: the same answer in both, and after 16 in the first
/// room an acceptance, a later or equal 16, or another refusal.
#[derive(Debug, Default)]
struct Pairs {
    accepted: usize,
    refused: usize,
    grown_accepted: usize,
    grown_short: usize,
    grown_refused: usize,
}

impl Pairs {
    /// Holds the two answers of a text to the paper's sentence.
    fn hold(&mut self, text: &[u8], first: &Room, second: &Room) {
        let answers = (read(text, first), read(text, second));
        match answers {
            (Err(Refusal { number: 16, .. }), Ok(_)) => self.grown_accepted += 1,
            (Err(Refusal { number: 16, line }), Err(second)) => {
                assert!(line <= second.line, "16 at line {line}, then {second:?}");
                match second.number {
                    16 => self.grown_short += 1,
                    _ => self.grown_refused += 1,
                }
            }
            (first, second) => {
                assert_eq!(first, second);
                match first {
                    Ok(_) => self.accepted += 1,
                    Err(_) => self.refused += 1,
                }
            }
        }
    }
}

/// A room near another: each buffer up to two entries shorter or longer.
fn near(room: &Room, random: &mut Random) -> Room {
    BUFFERS.fold(*room, |near, buffer| {
        let length = (length_of(room, buffer) + random.below(5)).saturating_sub(2);
        with_length(
            &near,
            buffer,
            if random.percent(90) { length_of(room, buffer) } else { length },
        )
    })
}

/// A room that is nowhere shorter.
fn no_shorter(room: &Room, random: &mut Random) -> Room {
    BUFFERS.fold(*room, |more, buffer| {
        let length = length_of(room, buffer);
        with_length(
            &more,
            buffer,
            if random.percent(50) { length } else { length + random.below(4) },
        )
    })
}

#[test]
fn generated_texts_in_pairs_of_rooms() {
    let mut pairs = Pairs::default();
    for seed in 0..4_000 {
        let random = &mut Random::new(seed);
        let text = case(seed).text;
        let (head, counts) = used(&text);
        for _ in 0..4 {
            let first = near(&exact(&head, &counts), random);
            let second = no_shorter(&first, random);
            pairs.hold(&text, &first, &second);
            pairs.hold(&text, &first, &Room::ample());
        }
        pairs.hold(&text, &case(seed).room, &no_shorter(&case(seed).room, random));
    }
    let Pairs { accepted, refused, grown_accepted, grown_short, grown_refused } = pairs;
    let least = [accepted, refused, grown_accepted, grown_short, grown_refused];
    assert!(least.into_iter().all(|count| count > 500), "{pairs:?}");
}

#[test]
fn generated_texts_in_exact_room() {
    let mut shortened = [0; 13];
    for seed in 0..4_000 {
        let text = case(seed).text;
        let answer = judge(&text, &Room::ample());
        let (head, counts) = used(&text);
        let room = exact(&head, &counts);
        assert_eq!(judge(&text, &room), answer, "seed {seed}");
        for buffer in BUFFERS.filter(|&buffer| length_of(&room, buffer) > 0) {
            let less = judge(&text, &with_length(&room, buffer, length_of(&room, buffer) - 1));
            assert_eq!(less.err().map(|refusal| refusal.number), Some(16), "seed {seed}");
            shortened[buffer] += 1;
        }
    }
    assert!(shortened.into_iter().all(|count| count > 1_000), "{shortened:?}");
}
