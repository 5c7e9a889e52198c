//! Codes at random: lists of those that are taken under a system, and codes
//! that are not.

use crate::codes::*;
use crate::fields::{pack_code, SYSTEMS};
use crate::generate::Random;

/// Why a code is not taken under a system.
#[derive(Clone, Copy, Debug, PartialEq, Eq, PartialOrd, Ord)]
pub enum Unlisted {
    /// It has the form and stands in no table.
    InNoTable,
    /// It stands in another system's table only.
    OfAnotherSystem,
    /// Its attribute is blank and its band is none of the system's.
    BlankAttribute,
    /// It would be taken with capitals.
    LowerCase,
}

pub const UNLISTED: [Unlisted; 4] =
    [Unlisted::InNoTable, Unlisted::OfAnotherSystem, Unlisted::BlankAttribute, Unlisted::LowerCase];

/// Of a hundred codes of a list so many have a blank attribute.
const BLANK_SHARE: usize = 15;

/// Different codes that are taken under a system, which has as many at least.
pub fn some_codes(random: &mut Random, system: usize, length: usize) -> Vec<[u8; 3]> {
    let mut left = [listed_codes(system), blank_codes(system)];
    let mut codes = Vec::new();
    while codes.len() < length {
        let wanted = &mut left[usize::from(random.percent(BLANK_SHARE))];
        if !wanted.is_empty() {
            codes.push(wanted.swap_remove(random.below(wanted.len())));
        }
    }
    codes
}

/// A code that is not taken under a system.
pub fn unlisted_code(random: &mut Random, system: usize) -> [u8; 3] {
    let why = random.pick(&UNLISTED);
    loop {
        let code = candidate(random, system, why);
        if why_unlisted(system, code) == Some(why) {
            return code;
        }
    }
}

/// A code that may be unlisted for this cause.
fn candidate(random: &mut Random, system: usize, why: Unlisted) -> [u8; 3] {
    let observed = random.pick(&TYPES);
    let band = b'1' + random.below(9) as u8;
    match why {
        Unlisted::InNoTable => [observed, band, b'A' + random.below(26) as u8],
        Unlisted::OfAnotherSystem => {
            let other = random.below(SYSTEMS.len());
            random.pick(&listed_codes(other))
        }
        Unlisted::BlankAttribute => [observed, band, BLANK_ATTRIBUTE],
        Unlisted::LowerCase => {
            let taken = random.pick(&taken_codes(system));
            lowered(random, taken)
        }
    }
}

/// The code with one of its letters in lower case, or both.
fn lowered(random: &mut Random, code: [u8; 3]) -> [u8; 3] {
    let mut lowered = code;
    let [observed, _, attribute] = &mut lowered;
    match random.below(3) {
        0 => observed.make_ascii_lowercase(),
        1 => attribute.make_ascii_lowercase(),
        _ => lowered.make_ascii_lowercase(),
    }
    lowered
}

/// Why a code is not taken under a system, if it is one of these causes.
pub fn why_unlisted(system: usize, code: [u8; 3]) -> Option<Unlisted> {
    let taken_under = |system: usize, code: [u8; 3]| is_taken(system, pack_code(code));
    let [observed, band, attribute] = code;
    let has_form = TYPES.contains(&observed)
        && (b'1'..=b'9').contains(&band)
        && (attribute.is_ascii_uppercase() || attribute == BLANK_ATTRIBUTE);
    if taken_under(system, code) {
        return None;
    }
    if !has_form {
        let capitals = taken_under(system, code.map(|byte| byte.to_ascii_uppercase()));
        return capitals.then_some(Unlisted::LowerCase);
    }
    if attribute == BLANK_ATTRIBUTE {
        return Some(Unlisted::BlankAttribute);
    }
    let elsewhere = (0..SYSTEMS.len()).any(|other| taken_under(other, code));
    Some(if elsewhere { Unlisted::OfAnotherSystem } else { Unlisted::InNoTable })
}
