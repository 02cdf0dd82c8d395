//! Says whether some message, of any size, has the text of a draft (refusal 21).

use crate::reader::*;
use crate::shape::{has_layout, has_row_shape, is_edns, Hex, Octets};
use crate::tables::*;

const TWO_OCTETS: u64 = 0xFFFF;
const FOUR_OCTETS: u64 = 0xFFFF_FFFF;

pub fn has_meaning(draft: &Draft) -> bool {
    header_in_range(draft)
        && counts_agree(draft)
        && draft.questions.iter().all(question_has_meaning)
        && draft.sections.iter().flatten().all(element_has_meaning)
        && edns_rules_met(draft)
}

fn header_in_range(draft: &Draft) -> bool {
    let mut members = draft.header.iter().zip(HEADER_MEMBERS);
    members.all(|(value, (_, largest))| *value <= largest)
}

fn counts_agree(draft: &Draft) -> bool {
    let counts = &draft.header[HEADER_COUNTS..];
    let mut sections = draft.sections.iter().zip(&counts[1..]);
    draft.questions.len() as u64 == counts[0]
        && sections.all(|(section, count)| section.len() as u64 == *count)
}

fn question_has_meaning(question: &Question) -> bool {
    name_fits(&question.name) && question.rtype <= TWO_OCTETS && question.class <= TWO_OCTETS
}

fn name_fits(name: &Name) -> bool {
    name.longest_label <= 63 && name.length <= 255
}

fn element_has_meaning(element: &Element) -> bool {
    match element {
        Element::Ordinary(record) => record_has_meaning(record),
        Element::Edns(edns) => edns_has_meaning(edns),
    }
}

fn record_has_meaning(record: &Record) -> bool {
    name_fits(&record.name)
        && record.rtype <= TWO_OCTETS
        && record.class <= TWO_OCTETS
        && i32::try_from(record.ttl).is_ok()
        && has_layout(record.rtype, &record.rdata)
}

fn edns_has_meaning(edns: &Edns) -> bool {
    edns.version == 0
        && edns.udp_size <= TWO_OCTETS
        && edns.options.windows(2).all(|pair| pair[0].code < pair[1].code)
        && edns.options.iter().all(option_has_meaning)
}

fn option_has_meaning(option: &EdnsOption) -> bool {
    match &option.value {
        OptionValue::Nsid(_) | OptionValue::NoExpire | OptionValue::ZeroPadding(_) => true,
        OptionValue::Algorithms(list) => list.largest <= 255,
        OptionValue::Expire(seconds) => *seconds <= FOUR_OCTETS,
        OptionValue::Cookie(list) => cookie_has_meaning(list),
        OptionValue::KeepAlive(timeout) => *timeout <= TWO_OCTETS,
        OptionValue::Padding(length, hex) => padding_has_meaning(*length, hex),
        OptionValue::KeyTags(list) => list.largest <= TWO_OCTETS,
        OptionValue::Error(code) => *code <= TWO_OCTETS,
        OptionValue::ErrorWithText(code, text) => *code <= TWO_OCTETS && text.length > 0,
        OptionValue::Other(hex) => other_option_has_meaning(option.code, hex),
    }
}

fn cookie_has_meaning(list: &HexList) -> bool {
    let server_fits = (8..=32).contains(&list.second.count());
    list.first.count() == 8 && (list.count == 1 || list.count == 2 && server_fits)
}

/// Padding shows its octets only if one of them isn't zero.
fn padding_has_meaning(length: u64, hex: &Hex) -> bool {
    length == hex.count() as u64 && hex.digits.iter().any(|digit| *digit != b'0')
}

/// An option with a row of its own is written by its code only if it misses the row's shape.
fn other_option_has_meaning(code: u64, hex: &Hex) -> bool {
    match u16::try_from(code) {
        Ok(code) => !has_row_shape(code, hex),
        Err(_) => false,
    }
}

/// The rules about TYPE 41 in the additional section as a whole.
fn edns_rules_met(draft: &Draft) -> bool {
    let is_type_41 = |element: &&Element| match element {
        Element::Ordinary(record) => record.rtype == u64::from(OPT),
        Element::Edns(_) => true,
    };
    let found: Vec<&Element> = draft.sections[ADDITIONAL].iter().filter(is_type_41).collect();
    let header_rcode = draft.header[HEADER_RCODE];
    match found[..] {
        [Element::Edns(edns)] => u64::from(edns.rcode % 16) == header_rcode,
        [Element::Ordinary(record)] => !should_be_edns(record, header_rcode),
        _ => found.iter().all(|element| matches!(element, Element::Ordinary(_))),
    }
}

/// Whether the only TYPE 41 record, whose numbers are in range, is an EDNS
/// record written as an ordinary one.
fn should_be_edns(record: &Record, header_rcode: u64) -> bool {
    let ttl = record.ttl as u32;
    is_edns(record.name.is_root(), ttl, header_rcode as u8, &record.rdata)
}
