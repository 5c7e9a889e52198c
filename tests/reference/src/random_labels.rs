//! Labels at random that are nearly one of the 33.

use crate::fields::{cut, padded, LABELS};
use crate::generate::Random;

/// How a label is missed.
#[derive(Clone, Copy, Debug, PartialEq, Eq, PartialOrd, Ord)]
pub enum Missed {
    OtherFirst,
    OtherLast,
    LetterMore,
    LetterLess,
    /// It begins as one label and ends as another.
    TwoInOne,
}

pub const MISSED: [Missed; 5] = [
    Missed::OtherFirst,
    Missed::OtherLast,
    Missed::LetterMore,
    Missed::LetterLess,
    Missed::TwoInOne,
];

pub fn is_label(columns: &[u8; 20]) -> bool {
    LABELS.iter().any(|(name, _)| *name == columns)
}

/// The columns of no label, which are nearly those of one.
pub fn near_label(random: &mut Random) -> [u8; 20] {
    let missed = random.pick(&MISSED);
    loop {
        let columns = candidate(random, missed);
        if !is_label(&columns) {
            return columns;
        }
    }
}

/// Columns that may miss a label in this way.
pub fn candidate(random: &mut Random, missed: Missed) -> [u8; 20] {
    let (name, _) = random.pick(&LABELS);
    let mut letters = cut(name).to_vec();
    let last = letters.len() - 1;
    match missed {
        Missed::OtherFirst => letters[0] = random.printable(),
        Missed::OtherLast => letters[last] = random.printable(),
        Missed::LetterMore => letters.insert(random.below(last + 2), random.printable()),
        Missed::LetterLess => {
            letters.remove(random.below(last + 1));
        }
        Missed::TwoInOne => {
            let (other, _) = random.pick(&LABELS);
            let end = 1 + random.below(19);
            letters = [&name[..end], &other[end..]].concat();
        }
    }
    padded(&letters)
}
