//! The codes of Tables 4 to 10 of RINEX 3.03, band by band as source document
//! 004 has them, and which codes are taken.

use crate::fields::{unpack_code, SYSTEMS};

/// The types: pseudorange, carrier phase, Doppler, signal strength.
pub const TYPES: [u8; 4] = *b"CLDS";
/// A blank attribute, as a code has it.
pub const BLANK_ATTRIBUTE: u8 = b' ';

/// A band: its digit, the attributes that have codes of every type, and those
/// of codeless receivers, which have no pseudorange.
struct Band {
    digit: u8,
    attributes: &'static [u8],
    codeless: &'static [u8],
}

/// A band without codeless receivers.
const fn band(digit: u8, attributes: &'static [u8]) -> Band {
    Band { digit, attributes, codeless: b"" }
}

/// Tables 4 to 10, each with the letter of its system.
const TABLES: [(u8, &[Band]); 7] = [
    (b'G', &GPS),
    (b'R', &GLONASS),
    (b'E', &GALILEO),
    (b'S', &SBAS),
    (b'J', &QZSS),
    (b'C', &BDS),
    (b'I', &IRNSS),
];

/// Table 4: L1, L2 and L5.
const GPS: [Band; 3] = [
    Band { digit: b'1', attributes: b"CSLXPWYM", codeless: b"N" },
    Band { digit: b'2', attributes: b"CDSLXPWYM", codeless: b"N" },
    band(b'5', b"IQX"),
];

/// Table 5: G1, G2 and G3.
const GLONASS: [Band; 3] = [band(b'1', b"CP"), band(b'2', b"CP"), band(b'3', b"IQX")];

/// Table 6: E1, E5a, E5b, E5 (E5a+E5b) and E6.
const GALILEO: [Band; 5] = [
    band(b'1', b"ABCXZ"),
    band(b'5', b"IQX"),
    band(b'7', b"IQX"),
    band(b'8', b"IQX"),
    band(b'6', b"ABCXZ"),
];

/// Table 7: L1 and L5.
const SBAS: [Band; 2] = [band(b'1', b"C"), band(b'5', b"IQX")];

/// Table 8: L1, L2, L5 and LEX.
const QZSS: [Band; 4] =
    [band(b'1', b"CSLXZ"), band(b'2', b"SLX"), band(b'5', b"IQX"), band(b'6', b"SLX")];

/// Table 9: B1, B2 and B3. The codes C1x of version 3.02 are none of 3.03.
const BDS: [Band; 3] = [band(b'2', b"IQX"), band(b'7', b"IQX"), band(b'6', b"IQX")];

/// Table 10: L5 and S.
const IRNSS: [Band; 2] = [band(b'5', b"ABCX"), band(b'9', b"ABCX")];

impl Band {
    /// The attributes with which this type stands in the table.
    fn attributes_of(&self, observed: u8) -> impl Iterator<Item = u8> {
        let (tracked, codeless): (&[u8], &[u8]) = match observed {
            b'C' => (self.attributes, b""),
            b'L' | b'D' | b'S' => (self.attributes, self.codeless),
            _ => (b"", b""),
        };
        tracked.iter().chain(codeless).copied()
    }

    /// True if the type stands in the table with this attribute, or with any
    /// if it is blank.
    fn takes(&self, observed: u8, attribute: u8) -> bool {
        let fits = |listed: u8| attribute == BLANK_ATTRIBUTE || attribute == listed;
        self.attributes_of(observed).any(fits)
    }

    /// The codes of this type.
    fn codes_of(&self, observed: u8) -> impl Iterator<Item = [u8; 3]> {
        let digit = self.digit;
        self.attributes_of(observed).map(move |attribute| [observed, digit, attribute])
    }
}

/// The bands of a system; none if it is not one of the seven.
fn bands_of(system: usize) -> &'static [Band] {
    let of_system = |(letter, _): &&(u8, &[Band])| SYSTEMS.get(system) == Some(letter);
    TABLES.iter().find(of_system).map_or(&[], |&(_, bands)| bands)
}

/// True if a held code is taken under a system: it stands in the system's
/// table, or its attribute is blank and its type and band stand there.
pub fn is_taken(system: usize, code: u32) -> bool {
    let [top, observed, digit, attribute] = unpack_code(code);
    let band = bands_of(system).iter().find(|band| band.digit == digit);
    top == 0 && band.is_some_and(|band| band.takes(observed, attribute))
}

/// The codes that stand in a system's table.
pub fn listed_codes(system: usize) -> Vec<[u8; 3]> {
    let of_band = |band: &'static Band| TYPES.into_iter().flat_map(|of| band.codes_of(of));
    bands_of(system).iter().flat_map(of_band).collect()
}

/// The codes with a blank attribute that are taken under a system.
pub fn blank_codes(system: usize) -> Vec<[u8; 3]> {
    let of_band = |band: &'static Band| TYPES.map(|of| [of, band.digit, BLANK_ATTRIBUTE]);
    bands_of(system).iter().flat_map(of_band).collect()
}

/// All codes that are taken under a system.
pub fn taken_codes(system: usize) -> Vec<[u8; 3]> {
    [listed_codes(system), blank_codes(system)].concat()
}
