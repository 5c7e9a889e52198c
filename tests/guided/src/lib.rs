//! For the guided comparison: the record of any bytes, taken as a text.

use reference::compared::record::record;
use reference::generate::Random;
use reference::tables::Room;
use std::cell::RefCell;

thread_local! {
    static LAST: RefCell<Vec<u8>> = const { RefCell::new(Vec::new()) };
}

/// Makes the record of a text. It stays until the next one is made; the answer
/// is its length.
///
/// # Safety
/// `text` names `length` bytes, and `made` one place.
#[no_mangle]
pub unsafe extern "C" fn guided_record(
    text: *const u8,
    length: usize,
    made: *mut *const u8,
) -> usize {
    let text = if length == 0 { &[] } else { std::slice::from_raw_parts(text, length) };
    let name = mixed(text);
    LAST.with_borrow_mut(|last| {
        *last = record(name, text, &room(name), None).finish();
        *made = last.as_ptr();
        last.len()
    })
}

/// A number for a text, from which all chance in its record comes.
fn mixed(text: &[u8]) -> u64 {
    let mix = |sum: u64, &byte: &u8| (sum ^ u64::from(byte)).wrapping_mul(0x100_0000_01B3);
    text.iter().fold(0xCBF2_9CE4_8422_2325, mix)
}

/// Ample room, or in a quarter of the cases some of any size.
fn room(name: u64) -> Room {
    let mut random = Random::new(name ^ 0xB00F);
    if !random.percent(25) {
        return Room::ample();
    }
    let mut some = |most: usize| random.below(most);
    Room::new(some(449), some(8), some(12), some(80), some(800))
}
