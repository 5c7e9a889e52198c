//! What is nearly one of the 33 labels is none.

mod common;

use common::*;
use reference::fields::{cut, LABELS};
use reference::generate::Random;
use reference::random_labels::*;

fn names() -> Vec<&'static str> {
    LABELS.iter().map(|(name, _)| std::str::from_utf8(cut(*name)).unwrap()).collect()
}

/// A line with this label alone, in the header and in an event, cut and in 80
/// columns: none is known.
fn assert_unknown(label: &str) {
    let line = format!("{:60}{label}", "");
    for line in [line.trim_end().to_string(), format!("{line:80}")] {
        assert_eq!(refused(&with_header(&[line.clone()])), Some((4, 5)), "{label}");
        let event = with_body(&[">                              4  1", &line]);
        assert_eq!(refused(&event), Some((4, 7)), "{label}");
    }
}

#[test]
fn another_first_or_last_letter() {
    for name in names() {
        for other in "#AZ/ x".chars().filter(|&letter| !name.starts_with(letter)) {
            assert_unknown(&format!("{other}{}", &name[1..]));
        }
        let front = &name[..name.len() - 1];
        for other in "#AZ/ x".chars().filter(|&letter| !name.ends_with(letter)) {
            assert_unknown(&format!("{front}{other}"));
        }
    }
}

/// A letter more behind a label of 20 stands in column 81.
#[test]
fn a_letter_more_or_less() {
    for name in names() {
        assert_unknown(&name[1..]);
        assert_unknown(&name[..name.len() - 1]);
        assert_unknown(&format!("S{name}"));
        assert_unknown(&format!(" {name}"));
        assert_unknown(&format!("{name}S"));
    }
}

/// Labels that share length and first letter, each with the end of the other.
#[test]
fn two_in_one() {
    let names = names();
    let pairs = names.iter().flat_map(|one| names.iter().map(move |other| (*one, *other)));
    let alike = pairs
        .filter(|(one, other)| one != other && one.len() == other.len() && one[..1] == other[..1]);
    let mut tried = 0;
    for (one, other) in alike {
        for end in 1..one.len() {
            let label = format!("{}{}", &one[..end], &other[end..]);
            if !names.contains(&label.as_str()) {
                assert_unknown(&label);
                tried += 1;
            }
        }
    }
    assert!(tried > 100, "{tried}");
}

#[test]
fn each_kind_is_generated() {
    let mut random = Random::new(3);
    for missed in MISSED {
        let found = (0..1000).filter(|_| !is_label(&candidate(&mut random, missed))).count();
        assert!(found > 500, "{missed:?}: {found}");
    }
    assert!((0..1000).all(|_| !is_label(&near_label(&mut random))));
}
