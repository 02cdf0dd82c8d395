//! The cases of the fixed lists, cut at every length.

use crate::checks::{agree, agree_on_text};
use crate::proved;
use second::lines::octets_of_hex;
use second::{cases, viable, Refusal};

/// What the buffers hold before a call.
const LEFTOVERS: [u8; 4096] = [0xA5; 4096];

/// At most so many texts of each kind are cut: those that are stored.
const STORED: usize = 400;

/// Every message: both converters agree on each of its beginnings, and no place is larger than the beginning.
pub fn messages() -> Result<usize, String> {
    let mut compared = 0;
    for message in cases::totext().iter().filter_map(|line| octets_of_hex(line)) {
        for cut in 0..=message.len() {
            let beginning = &message[..cut];
            agree(beginning, &LEFTOVERS)?;
            match proved::to_text(beginning, &mut LEFTOVERS.clone()) {
                Err(Refusal { place, .. }) if place > cut as u64 => {
                    return Err(format!("{beginning:02X?}: a place of {place}"));
                }
                _ => compared += 1,
            }
        }
    }
    Ok(compared)
}

/// Every stored text. No text in the grammar is a proper beginning of another. So of the beginnings of a stored text
/// only the longest one that begins a text in the grammar can be anything but 20, and on this one the converters are
/// compared. Each other one is 20 at its own length or, if it is longer than that one, at the length of that one.
pub fn texts() -> Result<usize, String> {
    let mut compared = 0;
    for text in cases::some_towire(STORED) {
        let longest = viable::longest_beginning(&text);
        let mut buffer = LEFTOVERS;
        for cut in 0..=text.len() {
            let beginning = &text[..cut];
            if cut == longest {
                agree_on_text(beginning, &LEFTOVERS)?;
            } else {
                let expected = Refusal { number: 20, place: cut.min(longest) as u64 };
                let answer = proved::to_wire(beginning, &mut buffer);
                if answer != Err(expected) {
                    return Err(format!("{}: {answer:?}, not {expected:?}", String::from_utf8_lossy(beginning)));
                }
            }
            compared += 1;
        }
        if buffer != LEFTOVERS {
            return Err(format!("{}: a refusal changed the buffer", String::from_utf8_lossy(&text)));
        }
    }
    Ok(compared)
}
