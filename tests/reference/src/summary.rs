//! What the summary program writes for a text.

use crate::read::read;
use crate::tables::{Room, Tables, CODE_PLACES};

/// The longest text that is summed up.
pub const LONGEST_SUMMED: usize = 32_768;

/// The lines that the summary program writes.
pub fn summary(text: &[u8]) -> String {
    if text.len() > LONGEST_SUMMED {
        return "result=toolong\n".to_string();
    }
    let room = Room::new(CODE_PLACES, 256, 512, 2_048, 4_096);
    match read(text, &room) {
        Ok(tables) => accepted(&tables),
        Err(refusal) => {
            format!("result=refused\nnumber={}\nline={}\n", refusal.number, refusal.line)
        }
    }
}

fn accepted(tables: &Tables) -> String {
    let epochs = tables.flags.iter().filter(|&&flag| flag < 2).count();
    let events = tables.flags.len() - epochs;
    let blank = tables.states.iter().filter(|&&state| state == 0).count();
    let rows = tables.counts.rows;
    let slots = tables.counts.slots;
    let counted = format!("epochs={epochs}\nevents={events}\nrows={rows}\nslots={slots}\n");
    format!("result=accepted\n{counted}blank={blank}\n")
}
