//! The records by which the archive is compared with this implementation:
//! texts, tables and questions, with everything that is due of them.

pub mod alter;
mod epochs;
pub mod lend;
mod questions;
pub mod record;
mod rooms;
pub mod stream;
pub mod taken;
mod writing;
