//! Only codes the tables know: both sides of each edge of Tables 4 to 10, where
//! codes are read, written and asked for.

mod common;

use common::*;
use reference::codes::*;
use reference::damage::Loose;
use reference::fields::*;
use reference::slot::{slot, Answer};
use reference::tables::Room;
use reference::write::*;

/// The line of a list in `with_list`.
const LIST_LINE: u64 = 2;

/// The place of a system by its letter.
fn system(letter: u8) -> usize {
    system_of(letter).unwrap()
}

/// Codes that stand one behind the other.
fn codes(spelled: &str) -> Vec<[u8; 3]> {
    spelled.as_bytes().chunks(4).map(|code| code[..3].try_into().unwrap()).collect()
}

/// Tables of one list with one code, and of one event without lines.
fn list_and_event(letter: u8) -> Loose {
    let mut lines = with_list(letter, &listed_codes(system(letter))[..1]);
    lines.push(">                              4  0".to_string());
    Loose::of(tables(&lines))
}

/// The refusal of the reader where the only code of a list is this one.
fn read_with(letter: u8, code: [u8; 3]) -> Option<(u32, u64)> {
    refused(&with_list(letter, &[code]))
}

/// The refusals of writing tables, and their first epoch alone, where the only
/// code of a list is this one.
fn written_with(letter: u8, code: u32) -> [Option<u32>; 2] {
    let mut loose = list_and_event(letter);
    loose.codes[LONGEST_LIST * system(letter)] = code;
    let lent = loose.lent();
    [write(&lent, u64::MAX).err(), write_epoch(&epochs_of(&lent)[0], u64::MAX).err()]
}

/// True if a code is taken, by the reader and the writer alike.
fn is_taken_alike(letter: u8, code: [u8; 3]) -> bool {
    let taken = is_taken(system(letter), pack_code(code));
    let [read, written] = if taken { [None; 2] } else { [Some(6), Some(20)] };
    assert_eq!(read_with(letter, code), read.map(|number| (number, LIST_LINE)));
    assert_eq!(written_with(letter, pack_code(code)), [written; 2]);
    taken
}

/// All these codes are taken under a system.
fn are_taken(letter: u8, spelled: &str) {
    for code in codes(spelled) {
        assert!(is_taken_alike(letter, code), "{}", named_code(letter, code));
    }
}

/// None of these codes is taken under a system.
fn are_not(letter: u8, spelled: &str) {
    for code in codes(spelled) {
        assert!(!is_taken_alike(letter, code), "{}", named_code(letter, code));
    }
}

#[test]
fn how_many_codes_each_table_has() {
    let counts = SYSTEMS.map(|letter| listed_codes(system(letter)).len());
    assert_eq!(counts, [86, 28, 76, 56, 36, 32, 16]);
    assert_eq!(counts.iter().sum::<usize>(), 330);
    let with_blank = SYSTEMS.map(|letter| taken_codes(system(letter)).len());
    assert_eq!(with_blank, [98, 40, 96, 72, 48, 40, 24]);
}

#[test]
fn no_repeats_and_only_the_right_form() {
    for letter in SYSTEMS {
        let mut all = taken_codes(system(letter));
        for [observed, band, attribute] in listed_codes(system(letter)) {
            assert!(b"CLDS".contains(&observed));
            assert!((b'1'..=b'9').contains(&band) && attribute.is_ascii_uppercase());
        }
        all.sort();
        let length = all.len();
        all.dedup();
        assert_eq!(all.len(), length);
    }
}

/// Every number of three bytes, and what lies just past them: a code is taken
/// exactly if it is among those that the tables give.
#[test]
fn no_other_number_is_a_code() {
    for system in 0..=SYSTEMS.len() {
        let mut given: Vec<u32> = taken_codes(system).into_iter().map(pack_code).collect();
        given.sort();
        let taken: Vec<u32> = (0..1 << 24).filter(|&code| is_taken(system, code)).collect();
        assert_eq!(taken, given);
        let past = |&code: &u32| !(1..=255).any(|top| is_taken(system, code | top << 24));
        assert!(taken.iter().all(past));
    }
    assert!(!is_taken(usize::MAX, pack_code(*b"C1C")));
    assert!(!is_taken(1 << 32, pack_code(*b"C1C")));
}

/// One code of every band and type, each by hand.
#[test]
fn each_band_and_type() {
    are_taken(b'G', "C1C L1S D1L S1X C2D L2P D2W S2Y C5I L5Q D5X S5I");
    are_taken(b'R', "C1C L1P D1C S1P C2P L2C D2P S2C C3I L3Q D3X S3I");
    are_taken(b'E', "C1A L1B D1C S1X C5I L5Q D5X S5I C7Q L7X D7I S7Q C8X L8I D8Q S8X");
    are_taken(b'E', "C6A L6B D6C S6X C1Z L6Z");
    are_taken(b'J', "C1C L1S D1L S1X C1Z C2S L2L D2X S2S C5I L5Q D5X S5I C6S L6L D6X S6S");
    are_taken(b'C', "C2I L2Q D2X S2I C7Q L7X D7I S7Q C6X L6I D6Q S6X");
    are_taken(b'I', "C5A L5B D5C S5X C9A L9B D9C S9X");
    are_taken(b'S', "C1C L1C D1C S1C C5I L5Q D5X S5I");
}

/// Every attribute of every band, each by hand, with the carrier phase.
#[test]
fn each_attribute() {
    are_taken(b'G', "L1C L1S L1L L1X L1P L1W L1Y L1M L1N");
    are_taken(b'G', "L2C L2D L2S L2L L2X L2P L2W L2Y L2M L2N L5I L5Q L5X");
    are_taken(b'R', "L1C L1P L2C L2P L3I L3Q L3X");
    are_taken(b'E', "L1A L1B L1C L1X L1Z L5I L5Q L5X L7I L7Q L7X L8I L8Q L8X");
    are_taken(b'E', "L6A L6B L6C L6X L6Z");
    are_taken(b'J', "L1C L1S L1L L1X L1Z L2S L2L L2X L5I L5Q L5X L6S L6L L6X");
    are_taken(b'C', "L2I L2Q L2X L7I L7Q L7X L6I L6Q L6X");
    are_taken(b'I', "L5A L5B L5C L5X L9A L9B L9C L9X");
    are_taken(b'S', "L1C L5I L5Q L5X");
}

#[test]
fn codeless_has_no_pseudorange() {
    are_not(b'G', "C1N C2N C5N L5N");
    are_taken(b'G', "L1N D1N S1N L2N D2N S2N");
    are_not(b'J', "L1N L2N");
    are_not(b'R', "L1N");
}

#[test]
fn neighbours_within_a_system() {
    are_not(b'G', "C1D C5C C9Q C9I L1D D1D S1D C1A C1B C1Z C2I C5A C5P");
    are_taken(b'G', "C2D L2D D2D S2D");
    are_not(b'R', "C4A C3C C1I C1X C2X C5I S9Z");
    are_not(b'E', "C6I C1I C5A C5B C7A C8A C6Q C1P C2C");
    are_not(b'J', "C2W C2C L2C C1P C1N C6I C6Z C6A C5C");
    are_not(b'C', "C1I C1Q C1X L1I D1X S1I C5X C5I C2A C2C C7P C8I");
    are_not(b'I', "C9Q C9I C5I C5Q C1A C9D C5Z");
    are_taken(b'I', "C9A C9X");
    are_not(b'S', "C1P C1A C1X C5C C2C C1I");
}

#[test]
fn blank_attributes() {
    let types = |band: char| ["C", "L", "D", "S"].map(|of| format!("{of}{band} ")).join(" ");
    let bands = [
        (b'G', "125"),
        (b'R', "123"),
        (b'E', "15678"),
        (b'J', "1256"),
        (b'C', "267"),
        (b'I', "59"),
        (b'S', "15"),
    ];
    for (letter, has) in bands {
        for band in '1'..='9' {
            if has.contains(band) {
                are_taken(letter, &types(band));
            } else {
                are_not(letter, &types(band));
            }
        }
        are_not(letter, "C0  X1  I1  C    1      ");
    }
}

/// A blank attribute and another are two codes, and may stand in one list.
#[test]
fn blank_beside_listed() {
    assert_eq!(refused(&with_list(b'G', &codes("C1  C1C"))), None);
    assert_eq!(refused(&with_list(b'G', &codes("C1C C1 "))), None);
    assert_eq!(refused(&with_list(b'G', &codes("C1  C1 "))), Some((6, LIST_LINE)));
    assert_eq!(refused(&with_list(b'G', &codes("C1C C1C"))), Some((6, LIST_LINE)));
}

#[test]
fn lower_case() {
    for letter in SYSTEMS {
        for code in listed_codes(system(letter)) {
            let [observed, band, attribute] = code.map(char::from);
            let [small, other] = [observed, attribute].map(|letter| letter.to_ascii_lowercase());
            are_not(letter, &format!("{small}{band}{attribute} {observed}{band}{other}"));
        }
        are_not(letter, "c1  c2  c5  c9  c1c");
    }
}

/// What has not the form: types, bands and attributes next to those that have.
#[test]
fn other_forms() {
    for letter in SYSTEMS {
        are_not(letter, "B1C E1C K1C M1C R1C T1C C0C C:C C1@ C1[ C11 CC1 1CC  C1 C C");
    }
    are_not(b'E', "C1@ S8Y S6[ S6Y");
    are_not(b'I', "C:A C/A");
}

/// The first and the last code of each system, as numbers and in its table,
/// and the numbers next to them.
#[test]
fn first_and_last_of_each_system() {
    let ends = [
        (b'G', "C1C S5X", "C1B C1D S5W S5Y"),
        (b'R', "C1C S3X", "C1B C1D S3W S3Y"),
        (b'E', "C1A C1B S8X S6Z", "C1@ C1D S8W S8Y S6Y S6["),
        (b'J', "C1C S6X", "C1B C1D S6W S6Y"),
        (b'C', "C2I S7X S6X", "C2H C2J S7W S7Y S6W S6Y"),
        (b'I', "C5A C5B S9X", "C5@ C5D S9W S9Y"),
        (b'S', "C1C S5X", "C1B C1D S5W S5Y"),
    ];
    for (letter, taken, not) in ends {
        are_taken(letter, taken);
        are_not(letter, not);
        let mut listed = listed_codes(system(letter));
        listed.sort();
        let [first, last] = [listed[0], listed[listed.len() - 1]];
        assert!(codes(taken).contains(&first) && codes(taken).contains(&last));
    }
}

/// The lists of the examples of source document 004.
#[test]
fn lists_of_the_source_document() {
    are_taken(b'G', "C1P L1P L2X C2X S2X C1C L1W L2W C1W S2W");
    are_taken(b'G', "C1C L1C D1C S1C C1W S1W C2W L2W D2W S2W C2L L2L D2L S2L C5Q L5Q D5Q S5Q");
    are_taken(b'G', "C2S L2S D2S S2S");
    are_taken(b'R', "C1C L1C D1C S1C C2P L2P D2P S2P C2C L2C D2C S2C");
    are_taken(b'E', "L1B L5I L1C C5Q L5Q D5Q S5Q C7Q L7Q D7Q S7Q C8Q L8Q D8Q S8Q");
    are_taken(b'J', "C1C L1C D1C S1C C2L L2L D2L S2L C2S L2S D2S S2S C5Q L5Q D5Q S5Q");
    are_taken(b'C', "C2I L2I D2I S2I C7I L7I D7I S7I");
    are_taken(b'S', "C1C L1C D1C S1C");
}

/// All codes of a system in one list, where they are 64 at the most.
#[test]
fn all_codes_of_a_system() {
    for letter in *b"RCIS" {
        let all = taken_codes(system(letter));
        let read = tables(&with_list(letter, &all));
        assert_eq!(read.head.lengths[system(letter)], all.len() as u64);
        assert_eq!(write(&read.lent(&read.lent_codes()), u64::MAX), Ok(text_of(letter, &all)));
    }
}

/// The normal text of a header with one list.
fn text_of(letter: u8, codes: &[[u8; 3]]) -> Vec<u8> {
    let lines = with_list(letter, codes);
    text(&lines.iter().map(|line| line.trim_end().to_string()).collect::<Vec<_>>())
}

/// A list of 27 codes, of which one is replaced: on its own line, and not
/// before.
#[test]
fn the_line_of_an_unlisted_code() {
    for letter in *b"GEJ" {
        let listed = taken_codes(system(letter));
        for place in 0..27 {
            for unlisted in [*b"C9Q", *b"C9 ", *b"c1C", *b"C2I"] {
                let mut codes = listed[..27].to_vec();
                codes[place] = unlisted;
                let line = LIST_LINE + (place / CODES_A_LINE) as u64;
                assert_eq!(refused(&with_list(letter, &codes)), Some((6, line)));
            }
        }
    }
}

/// The refusal of a header with two lists, on lines 2 and 3.
fn with_two_lists(first: &str, second: &str) -> Option<(u32, u64)> {
    let mut lines = with_body(&[]);
    lines[1] = labelled(first, "SYS / # / OBS TYPES");
    lines[2] = labelled(second, "SYS / # / OBS TYPES");
    refused(&lines)
}

/// A code of another list's system is not taken, on the line of its own list.
#[test]
fn codes_of_another_system() {
    assert_eq!(with_two_lists("G    1 C2W", "R    1 C3I"), None);
    assert_eq!(with_two_lists("G    1 C2W", "R    1 C2W"), Some((6, 3)));
    assert_eq!(with_two_lists("G    1 C3I", "R    1 C3I"), Some((6, 2)));
    assert_eq!(with_two_lists("G    1 C3I", "R    1 C2W"), Some((6, 2)));
}

/// 1 to 5 before 6, and 6 before 16.
#[test]
fn which_number_wins() {
    let unlisted = &with_list(b'G', &codes("C1C C9Q"));
    let with_line = |line: String| {
        let mut lines = unlisted.clone();
        lines[1] = line;
        refused(&lines)
    };
    let content = "G    2 C1C C9Q";
    assert_eq!(refused(unlisted), Some((6, 2)));
    assert_eq!(with_line(labelled(content, "SYS / # / OBS TYPE")), Some((4, 2)));
    assert_eq!(with_line(labelled(content, "SYS / SCALE FACTOR")), Some((4, 2)));
    assert_eq!(with_line(labelled(content, "SYS / # / OBS TYPES") + "x"), Some((4, 2)));
    assert_eq!(with_line(labelled(content, "SYS / # / OBS TYPES") + "\t"), Some((1, 2)));
    assert_eq!(with_line(format!("{:1028}", unlisted[1])), Some((2, 2)));
    let no_codes = Room::new(0, 1, 1, 1, 1);
    assert_eq!(refusal_in(&text(unlisted), &no_codes), Some((6, 2)));
    // The list of the system has come already.
    assert_eq!(with_two_lists("G    1 C1C", "G    1 C9Q"), Some((5, 3)));
    // A continuation that is none.
    let mut lines = with_list(b'G', &taken_codes(0)[..14]);
    lines[2] = labelled("G      C9Q", "SYS / # / OBS TYPES");
    assert_eq!(refused(&lines), Some((5, 3)));
    lines[2] = labelled("       C9Q", "COMMENT");
    assert_eq!(refused(&lines), Some((5, 3)));
}

/// What a carried line says of codes does not matter.
#[test]
fn only_lists_are_judged() {
    let comment = [labelled("G    1 C9Q", "COMMENT")];
    assert_eq!(refused(&with_header(&comment)), None);
    assert_eq!(refused(&with_body(&[">                              4  1", &comment[0]])), None);
    let shift = labelled("G L9Q  0.00000", "SYS / PHASE SHIFT");
    assert_eq!(refused(&with_header(&[shift])), None);
}

/// The example's tables with one code of a list replaced.
fn example_with(system: usize, place: usize, code: &[u8; 3]) -> Loose {
    let mut loose = Loose::of(tables(&example_lines()));
    loose.codes[LONGEST_LIST * system + place] = pack_code(*code);
    loose
}

/// What writing, its epoch alone and a slot are refused with.
fn refusals(loose: &Loose) -> [Option<u32>; 3] {
    let lent = loose.lent();
    let alone = epochs_of(&lent)[0];
    [
        write(&lent, u64::MAX).err(),
        write_epoch(&alone, u64::MAX).err(),
        slot(&lent, 0, pack_code(*b"C1C")).err(),
    ]
}

#[test]
fn unlisted_codes_are_20() {
    for unlisted in [b"C9Q", b"C9 ", b"C1N", b"C3I", b"c1C", b"C1c", b"C0C", b"X1 "] {
        assert_eq!(refusals(&example_with(0, 0, unlisted)), [Some(20); 3]);
        assert_eq!(refusals(&example_with(0, 1, unlisted)), [Some(20); 3]);
    }
    for unlisted in [b"C2W", b"C5Q", b"C5 ", b"C4A", b"L1N"] {
        assert_eq!(refusals(&example_with(1, 0, unlisted)), [Some(20); 3]);
    }
    for listed in [b"C2W", b"S5X", b"C2 ", b"L1N"] {
        assert_eq!(refusals(&example_with(0, 1, listed)), [None; 3]);
    }
    for listed in [b"C3I", b"S3X", b"D3 "] {
        assert_eq!(refusals(&example_with(1, 0, listed)), [None; 3]);
    }
}

/// 20 comes before 21, and nothing is written.
#[test]
fn an_unlisted_code_comes_first() {
    let loose = example_with(0, 0, b"C9Q");
    let lent = loose.lent();
    let epoch = epochs_of(&lent)[0];
    let mut buffer = [7; 500];
    for place in [0, 499, 500, 501, u64::MAX] {
        assert_eq!(write_into(&lent, &mut buffer, place), Err(20));
        assert_eq!(write_epoch_into(&epoch, &mut buffer, place), Err(20));
    }
    assert_eq!(buffer, [7; 500]);
}

/// An epoch is judged by all lists, those that none of its rows goes by too.
#[test]
fn the_list_of_another_system() {
    let mut lines = with_body(&["> 2024 12 31 23 59 30.0000000  0  1", "G05"]);
    lines.push(">                              4  0".to_string());
    let mut loose = Loose::of(tables(&lines));
    loose.codes[LONGEST_LIST] = pack_code(*b"C5Q");
    let lent = loose.lent();
    for epoch in epochs_of(&lent) {
        assert_eq!(write_epoch(&epoch, u64::MAX), Err(20));
    }
    // Places that no list has do not matter.
    let mut loose = Loose::of(tables(&lines));
    loose.codes[2] = pack_code(*b"C9Q");
    assert!(write(&loose.lent(), u64::MAX).is_ok());
}

/// A slot under an unlisted code is not declared.
#[test]
fn slots_of_unlisted_codes() {
    let tables = tables(&example_lines());
    let codes = tables.lent_codes();
    let ask = |row: u64, code: u32| slot(&tables.lent(&codes), row, code);
    for unlisted in [b"C9Q", b"C9 ", b"C1N", b"C3I", b"c1C", b"X0x", b"C1 "] {
        assert_eq!(ask(0, pack_code(*unlisted)), Ok(Answer::NotDeclared));
        assert_eq!(ask(2, pack_code(*unlisted)), Ok(Answer::NoSuchRow));
    }
    assert_eq!(ask(0, pack_code(*b"C1C") | 1 << 24), Ok(Answer::NotDeclared));
    assert_eq!(ask(1, pack_code(*b"C1C")), Ok(Answer::Blank));
}
