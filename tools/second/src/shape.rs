//! Rules about octets that hold however the octets are kept: as they are in a
//! message, or as the hex digits of a text.

use crate::tables::{layout_of, rcode_name, DO_BIT};

/// A row of octets that can be looked at one by one.
pub trait Octets {
    fn count(&self) -> usize;
    fn octet(&self, index: usize) -> u8;

    fn two_octets(&self, index: usize) -> u16 {
        u16::from_be_bytes([self.octet(index), self.octet(index + 1)])
    }
}

impl Octets for &[u8] {
    fn count(&self) -> usize {
        self.len()
    }

    fn octet(&self, index: usize) -> u8 {
        self[index]
    }
}

/// An even count of uppercase hex digits, seen as octets.
#[derive(Clone, Copy)]
pub struct Hex<'t> {
    pub digits: &'t [u8],
}

impl Octets for Hex<'_> {
    fn count(&self) -> usize {
        self.digits.len() / 2
    }

    fn octet(&self, index: usize) -> u8 {
        16 * digit_value(self.digits[2 * index]) + digit_value(self.digits[2 * index + 1])
    }
}

fn digit_value(digit: u8) -> u8 {
    match digit {
        b'0'..=b'9' => digit - b'0',
        _ => digit - b'A' + 10,
    }
}

/// Whether an option's value has the shape that the option's row in the table shows.
pub fn has_row_shape(code: u16, value: &impl Octets) -> bool {
    let count = value.count();
    match code {
        3 | 5 | 6 | 7 | 12 => true,
        9 => count == 0 || count == 4,
        10 => count == 8 || (16..=40).contains(&count),
        11 => count == 2,
        14 => count.is_multiple_of(2),
        15 => count >= 2 && (2..count).all(|index| is_printable(value.octet(index))),
        _ => false,
    }
}

/// Whether an octet may stand in the text of an EDE option.
pub fn is_printable(octet: u8) -> bool {
    (0x20..=0x7E).contains(&octet)
}

/// Whether the only TYPE 41 record of the additional section is written as an
/// EDNS element.
pub fn is_edns(owner_is_root: bool, ttl: u32, header_rcode: u8, rdata: &impl Octets) -> bool {
    let [rcode_high, version, flags_high, flags_low] = ttl.to_be_bytes();
    let flags = u16::from_be_bytes([flags_high, flags_low]);
    let rcode = 16 * u16::from(rcode_high) + u16::from(header_rcode);
    owner_is_root
        && version == 0
        && (flags == 0 || flags == DO_BIT)
        && rcode_name(rcode).is_some()
        && divides_into_rising_options(rdata)
}

fn divides_into_rising_options(rdata: &impl Octets) -> bool {
    let count = rdata.count();
    let mut at = 0;
    let mut last_code = None;
    while at < count {
        if count - at < 4 {
            return false;
        }
        let code = rdata.two_octets(at);
        if last_code.is_some_and(|last| code <= last) {
            return false;
        }
        last_code = Some(code);
        let length = usize::from(rdata.two_octets(at + 2));
        if count - at - 4 < length {
            return false;
        }
        at += 4 + length;
    }
    true
}

/// Whether RDATA without pointers has the layout of its TYPE. Empty RDATA and
/// RDATA of TYPEs without a layout always does.
pub fn has_layout(rtype: u64, rdata: &impl Octets) -> bool {
    let Some(layout) = layout_of(rtype) else {
        return true;
    };
    let count = rdata.count();
    if count == 0 {
        return true;
    }
    let mut at = layout.octets_before;
    for _ in 0..layout.names {
        match behind_plain_name(rdata, at) {
            Some(behind) => at = behind,
            None => return false,
        }
    }
    count - at == layout.octets_after
}

/// The offset behind a name without pointers that starts at `start`, if there is one.
fn behind_plain_name(octets: &impl Octets, start: usize) -> Option<usize> {
    let mut at = start;
    while at < octets.count() {
        let length = usize::from(octets.octet(at));
        at += 1 + length;
        if length == 0 {
            return Some(at);
        }
        if length > 63 || at - start > 254 {
            return None;
        }
    }
    None
}
