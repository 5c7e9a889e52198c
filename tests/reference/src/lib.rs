//! A plain reader and writer of RINEX 3.03 observation files, written apart
//! from the product so that the two can be compared.

pub mod codes;
pub mod compared;
pub mod damage;
pub mod fields;
pub mod generate;
pub mod random_codes;
pub mod random_labels;
pub mod read;
pub mod slot;
pub mod summary;
pub mod tables;
pub mod write;
pub mod zeros;
