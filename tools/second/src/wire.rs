//! Reads a message and gives its uncompressed form, or refuses it with one of
//! the numbers 1, 2, 4 to 9 and 11. Number 3, which was Z, is not used any more.
//!
//! Change request A1 made the place of 1, 4, 5 and 6 the octet at fault: the
//! length octet, the pointer's first octet, or the first octet of the field that
//! does not fit. 7 is at RDATA's first octet, 11 at the first octet left over.

use crate::tables::layout_of;
use crate::{Refusal, LARGEST_MESSAGE};

const HEADER_LENGTH: usize = 12;
const LONGEST_NAME: usize = 255;

/// The lengths of the fields behind the name of a question: TYPE and CLASS.
const QUESTION_FIELDS: [usize; 2] = [2, 2];

/// The lengths of the fields behind a record's owner: TYPE, CLASS, TTL, RDLENGTH.
const RECORD_FIELDS: [usize; 4] = [2, 2, 4, 2];

/// The numbers that can be met inside a question or record.
const PAST_THE_END: u32 = 1;
const BAD_LENGTH_OCTET: u32 = 4;
const BAD_TARGET: u32 = 5;
const NAME_TOO_LONG: u32 = 6;
const ENDS_INSIDE_LAYOUT: u32 = 7;
const LEFT_OVER: u32 = 11;

/// Where the octets for a name run out: at the message's end, or at the end of
/// the RDATA that the name stands in.
#[derive(Clone, Copy)]
enum Bound {
    Message { end: usize },
    Rdata { start: usize, end: usize },
}

impl Bound {
    fn of_message(message: &[u8]) -> Bound {
        Bound::Message { end: message.len() }
    }

    fn end(self) -> usize {
        match self {
            Bound::Message { end } | Bound::Rdata { end, .. } => end,
        }
    }

    /// The refusal of what begins at `at` and does not end inside the bound.
    fn passed(self, at: usize) -> Refusal {
        match self {
            Bound::Message { .. } => refused(PAST_THE_END, at),
            Bound::Rdata { start, .. } => refused(ENDS_INSIDE_LAYOUT, start),
        }
    }
}

/// The uncompressed form of a message.
pub fn uncompress(message: &[u8]) -> Result<Vec<u8>, Refusal> {
    check_length(message)?;
    let mut form = Vec::with_capacity(2 * message.len());
    form.extend_from_slice(&message[..HEADER_LENGTH]);
    let mut at = HEADER_LENGTH;
    for _ in 0..two_octets(message, 4) {
        at = copy_question(message, at, &mut form)?;
    }
    let records = two_octets(message, 6) + two_octets(message, 8) + two_octets(message, 10);
    for _ in 0..records {
        at = copy_record(message, at, &mut form)?;
    }
    if at < message.len() {
        return Err(refused(8, at));
    }
    if form.len() > LARGEST_MESSAGE {
        return Err(Refusal::without_place(9));
    }
    Ok(form)
}

fn refused(number: u32, at: usize) -> Refusal {
    Refusal { number, place: at as u64 }
}

fn check_length(message: &[u8]) -> Result<(), Refusal> {
    if message.len() > LARGEST_MESSAGE {
        Err(Refusal::without_place(2))
    } else if message.len() < HEADER_LENGTH {
        Err(Refusal::without_place(1))
    } else {
        Ok(())
    }
}

fn two_octets(octets: &[u8], at: usize) -> usize {
    usize::from(u16::from_be_bytes([octets[at], octets[at + 1]]))
}

/// Copies the question at `at` and gives the offset behind it.
fn copy_question(message: &[u8], at: usize, form: &mut Vec<u8>) -> Result<usize, Refusal> {
    let fields = copy_name(message, at, Bound::of_message(message), form)?;
    copy_fields(message, fields, &QUESTION_FIELDS, form)
}

/// Copies the record at `at` and gives the offset behind it.
fn copy_record(message: &[u8], at: usize, form: &mut Vec<u8>) -> Result<usize, Refusal> {
    let fields = copy_name(message, at, Bound::of_message(message), form)?;
    let rdata = copy_fields(message, fields, &RECORD_FIELDS, form)?;
    let end = rdata + two_octets(message, rdata - 2);
    if end > message.len() {
        return Err(refused(PAST_THE_END, rdata));
    }
    let rdata_in_form = form.len();
    let rtype = two_octets(message, fields);
    copy_rdata(message, rtype, rdata, end, form)?;
    set_rdlength(form, rdata_in_form);
    Ok(end)
}

/// Copies fields of these lengths and gives the offset behind them. The first
/// that does not fit into the message is refused at its first octet.
fn copy_fields(
    message: &[u8],
    start: usize,
    lengths: &[usize],
    form: &mut Vec<u8>,
) -> Result<usize, Refusal> {
    let mut at = start;
    for length in lengths {
        let field = message.get(at..at + length).ok_or(refused(PAST_THE_END, at))?;
        form.extend_from_slice(field);
        at += length;
    }
    Ok(at)
}

/// Copies the RDATA from `start` to `end`, its names without pointers.
fn copy_rdata(
    message: &[u8],
    rtype: usize,
    start: usize,
    end: usize,
    form: &mut Vec<u8>,
) -> Result<(), Refusal> {
    let layout = match layout_of(rtype as u64) {
        Some(layout) if start < end => layout,
        _ => {
            form.extend_from_slice(&message[start..end]);
            return Ok(());
        }
    };
    let bound = Bound::Rdata { start, end };
    let mut at = copy_octets(message, start, layout.octets_before, bound, form)?;
    for _ in 0..layout.names {
        at = copy_name(message, at, bound, form)?;
    }
    at = copy_octets(message, at, layout.octets_after, bound, form)?;
    if at < end {
        return Err(refused(LEFT_OVER, at));
    }
    Ok(())
}

/// Copies plain octets of a layout and gives the offset behind them.
fn copy_octets(
    message: &[u8],
    at: usize,
    count: usize,
    bound: Bound,
    form: &mut Vec<u8>,
) -> Result<usize, Refusal> {
    if bound.end() - at < count {
        return Err(bound.passed(at));
    }
    form.extend_from_slice(&message[at..at + count]);
    Ok(at + count)
}

/// Sets the RDLENGTH before the RDATA that was written last. A layout has at
/// most two names and 20 octets more, so the length always fits.
fn set_rdlength(form: &mut [u8], rdata: usize) {
    let length = (form.len() - rdata) as u16;
    form[rdata - 2..rdata].copy_from_slice(&length.to_be_bytes());
}

/// Copies the name at `start` without pointers and gives the offset behind it.
/// `bound` holds until the first jump; from then on the message's end counts.
fn copy_name(
    message: &[u8],
    start: usize,
    mut bound: Bound,
    form: &mut Vec<u8>,
) -> Result<usize, Refusal> {
    let mut behind = None;
    let mut run = start;
    let mut at = start;
    let mut copied = 0;
    loop {
        if at >= bound.end() {
            return Err(bound.passed(at));
        }
        let length = usize::from(message[at]);
        match length {
            0 => {
                form.push(0);
                return Ok(behind.unwrap_or(at + 1));
            }
            1..=63 => {
                let next = at + 1 + length;
                if next > bound.end() {
                    return Err(bound.passed(at));
                }
                copied += 1 + length;
                if copied + 1 > LONGEST_NAME {
                    return Err(refused(NAME_TOO_LONG, at));
                }
                form.extend_from_slice(&message[at..next]);
                at = next;
            }
            64..=191 => return Err(refused(BAD_LENGTH_OCTET, at)),
            _ => {
                if at + 2 > bound.end() {
                    return Err(bound.passed(at));
                }
                let target = two_octets(message, at) & 0x3FFF;
                if target < HEADER_LENGTH || target >= run {
                    return Err(refused(BAD_TARGET, at));
                }
                behind = behind.or(Some(at + 2));
                bound = Bound::of_message(message);
                run = target;
                at = target;
            }
        }
    }
}
