//! Measures and writes the message of a draft that has a meaning.

use crate::reader::*;
use crate::shape::{Hex, Octets};
use crate::tables::*;

/// The length of the message. RDATA and options are parts of the message, so
/// one of them over the limit takes the message over it as well. Lengths that
/// are too large for 64 bits give the largest value.
pub fn length(draft: &Draft) -> u64 {
    let questions = draft.questions.iter().map(|question| question.name.length + 4);
    let elements = draft.sections.iter().flatten().map(element_length);
    questions.chain(elements).fold(12, u64::saturating_add)
}

fn element_length(element: &Element) -> u64 {
    match element {
        Element::Ordinary(record) => record.name.length + 10 + hex_length(&record.rdata),
        Element::Edns(edns) => options_length(&edns.options).saturating_add(11),
    }
}

fn options_length(options: &[EdnsOption]) -> u64 {
    let lengths = options.iter().map(|option| value_length(&option.value).saturating_add(4));
    lengths.fold(0, u64::saturating_add)
}

fn value_length(value: &OptionValue) -> u64 {
    match value {
        OptionValue::Nsid(hex) | OptionValue::Other(hex) => hex_length(hex),
        OptionValue::Algorithms(list) => list.count,
        OptionValue::NoExpire => 0,
        OptionValue::Expire(_) => 4,
        OptionValue::Cookie(list) => hex_length(&list.first) + hex_length(&list.second),
        OptionValue::KeepAlive(_) | OptionValue::Error(_) => 2,
        OptionValue::ZeroPadding(length) | OptionValue::Padding(length, _) => *length,
        OptionValue::KeyTags(list) => 2 * list.count,
        OptionValue::ErrorWithText(_, text) => 2 + text.length,
    }
}

fn hex_length(hex: &Hex) -> u64 {
    hex.count() as u64
}

/// Writes the message into a buffer of exactly its length.
pub fn write(draft: &Draft, buffer: &mut [u8]) {
    let mut output = Output { buffer, at: 0 };
    write_header(&draft.header, draft.z, &mut output);
    for question in &draft.questions {
        write_name(&question.name, &mut output);
        output.two_octets(question.rtype);
        output.two_octets(question.class);
    }
    for element in draft.sections.iter().flatten() {
        match element {
            Element::Ordinary(record) => write_record(record, &mut output),
            Element::Edns(edns) => write_edns(edns, &mut output),
        }
    }
}

/// A buffer that is filled from its start.
struct Output<'b> {
    buffer: &'b mut [u8],
    at: usize,
}

impl Output<'_> {
    fn octet(&mut self, octet: u8) {
        self.buffer[self.at] = octet;
        self.at += 1;
    }

    fn octets(&mut self, octets: &[u8]) {
        self.buffer[self.at..self.at + octets.len()].copy_from_slice(octets);
        self.at += octets.len();
    }

    fn two_octets(&mut self, number: u64) {
        self.octets(&(number as u16).to_be_bytes());
    }

    fn four_octets(&mut self, number: u64) {
        self.octets(&(number as u32).to_be_bytes());
    }

    fn hex(&mut self, hex: &Hex) {
        for index in 0..hex.count() {
            self.octet(hex.octet(index));
        }
    }

    fn zeros(&mut self, count: u64) {
        let end = self.at + count as usize;
        self.buffer[self.at..end].fill(0);
        self.at = end;
    }
}

fn write_header(header: &[u64; 14], z: bool, output: &mut Output) {
    let [id, qr, opcode, aa, tc, rd, ra, ad, cd, rcode, counts @ ..] = header;
    output.two_octets(*id);
    let high = qr << 7 | opcode << 3 | aa << 2 | tc << 1 | rd;
    let low = ra << 7 | u64::from(z) << 6 | ad << 5 | cd << 4 | rcode;
    output.two_octets(high << 8 | low);
    for count in counts {
        output.two_octets(*count);
    }
}

/// Writes a name. A zero is set where a length octet may come; a label's end
/// replaces it, and the last one stays as the root octet.
fn write_name(name: &Name, output: &mut Output) {
    let mut length_place = output.at;
    output.octet(0);
    name.walk(|step| match step {
        Some(octet) => output.octet(octet),
        None => {
            output.buffer[length_place] = (output.at - length_place - 1) as u8;
            length_place = output.at;
            output.octet(0);
        }
    });
}

fn write_record(record: &Record, output: &mut Output) {
    write_name(&record.name, output);
    output.two_octets(record.rtype);
    output.two_octets(record.class);
    output.four_octets(record.ttl as u64);
    output.two_octets(hex_length(&record.rdata));
    output.hex(&record.rdata);
}

fn write_edns(edns: &Edns, output: &mut Output) {
    output.octet(0);
    output.two_octets(u64::from(OPT));
    output.two_octets(edns.udp_size);
    output.octet((edns.rcode / 16) as u8);
    output.octet(0);
    output.two_octets(if edns.dnssec_ok { u64::from(DO_BIT) } else { 0 });
    output.two_octets(options_length(&edns.options));
    for option in &edns.options {
        output.two_octets(option.code);
        output.two_octets(value_length(&option.value));
        write_value(&option.value, output);
    }
}

fn write_value(value: &OptionValue, output: &mut Output) {
    match value {
        OptionValue::NoExpire => {}
        OptionValue::Nsid(hex) | OptionValue::Other(hex) => output.hex(hex),
        OptionValue::Algorithms(list) => list.walk(|number| output.octet(number as u8)),
        OptionValue::Expire(seconds) => output.four_octets(*seconds),
        OptionValue::Cookie(list) => {
            output.hex(&list.first);
            output.hex(&list.second);
        }
        OptionValue::KeepAlive(number) | OptionValue::Error(number) => output.two_octets(*number),
        OptionValue::ZeroPadding(length) => output.zeros(*length),
        OptionValue::Padding(_, hex) => output.hex(hex),
        OptionValue::KeyTags(list) => list.walk(|number| output.two_octets(number)),
        OptionValue::ErrorWithText(code, text) => {
            output.two_octets(*code);
            text.walk(|octet| output.octet(octet));
        }
    }
}
