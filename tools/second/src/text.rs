//! Prints the text of an uncompressed form. The same printing goes to a sink
//! that counts and to one that writes, so both agree.

use crate::shape::{has_row_shape, is_edns};
use crate::tables::*;

/// The length of the text of a form.
pub fn length(form: &[u8]) -> usize {
    let mut measure = Measure { length: 0 };
    print_message(form, &mut measure);
    measure.length
}

/// Writes the text of a form into a buffer of exactly the text's length.
pub fn write(form: &[u8], buffer: &mut [u8]) {
    let mut fill = Fill { buffer, length: 0 };
    print_message(form, &mut fill);
}

/// Something that text can be printed to.
trait Sink {
    fn put(&mut self, octets: &[u8]);
    fn put_octet(&mut self, octet: u8);
    fn put_hex(&mut self, octets: &[u8]);
}

struct Measure {
    length: usize,
}

impl Sink for Measure {
    fn put(&mut self, octets: &[u8]) {
        self.length += octets.len();
    }

    fn put_octet(&mut self, _: u8) {
        self.length += 1;
    }

    fn put_hex(&mut self, octets: &[u8]) {
        self.length += 2 * octets.len();
    }
}

struct Fill<'b> {
    buffer: &'b mut [u8],
    length: usize,
}

impl Sink for Fill<'_> {
    fn put(&mut self, octets: &[u8]) {
        self.buffer[self.length..self.length + octets.len()].copy_from_slice(octets);
        self.length += octets.len();
    }

    fn put_octet(&mut self, octet: u8) {
        self.buffer[self.length] = octet;
        self.length += 1;
    }

    fn put_hex(&mut self, octets: &[u8]) {
        let place = &mut self.buffer[self.length..self.length + 2 * octets.len()];
        for (pair, octet) in place.chunks_exact_mut(2).zip(octets) {
            pair.copy_from_slice(&hex_digits(*octet));
        }
        self.length += 2 * octets.len();
    }
}

/// The two uppercase hex digits of an octet.
pub fn hex_digits(octet: u8) -> [u8; 2] {
    const DIGITS: &[u8; 16] = b"0123456789ABCDEF";
    [DIGITS[usize::from(octet >> 4)], DIGITS[usize::from(octet & 15)]]
}

fn two_octets(octets: &[u8], at: usize) -> u16 {
    u16::from_be_bytes([octets[at], octets[at + 1]])
}

fn four_octets(octets: &[u8], at: usize) -> u32 {
    u32::from_be_bytes([octets[at], octets[at + 1], octets[at + 2], octets[at + 3]])
}

/// A record of an uncompressed form.
struct Record<'f> {
    owner: &'f [u8],
    rtype: u16,
    class: u16,
    ttl: u32,
    rdata: &'f [u8],
    /// The offset behind the record.
    end: usize,
}

fn record_at(form: &[u8], at: usize) -> Record<'_> {
    let fields = behind_name(form, at);
    let rdata = fields + 10;
    let end = rdata + usize::from(two_octets(form, fields + 8));
    Record {
        owner: &form[at..fields],
        rtype: two_octets(form, fields),
        class: two_octets(form, fields + 2),
        ttl: four_octets(form, fields + 4),
        rdata: &form[rdata..end],
        end,
    }
}

/// The offset behind a name that has no pointers.
fn behind_name(form: &[u8], start: usize) -> usize {
    let mut at = start;
    while form[at] != 0 {
        at += 1 + usize::from(form[at]);
    }
    at + 1
}

fn print_message(form: &[u8], sink: &mut impl Sink) {
    let header = header_values(form);
    let z = form[3] & Z_BIT != 0;
    print_header(&header, z, sink);
    let mut at = 12;
    sink.put(QUESTION_ARRAY);
    for index in 0..header[HEADER_COUNTS] {
        print_comma(index, sink);
        at = print_question(form, at, sink);
    }
    sink.put_octet(b']');
    for (section, array) in RECORD_ARRAYS.iter().enumerate() {
        let count = header[HEADER_COUNTS + 1 + section];
        let edns = if section == ADDITIONAL { edns_place(form, at, count) } else { None };
        sink.put(array);
        for index in 0..count {
            print_comma(index, sink);
            let record = record_at(form, at);
            if edns == Some(at) {
                print_edns(&record, header[HEADER_RCODE], sink);
            } else {
                print_record(&record, sink);
            }
            at = record.end;
        }
        sink.put_octet(b']');
    }
    sink.put_octet(b'}');
}

fn print_header(header: &[u16; 14], z: bool, sink: &mut impl Sink) {
    for (place, ((member, _), value)) in HEADER_MEMBERS.iter().zip(header).enumerate() {
        sink.put(member);
        print_number(u64::from(*value), sink);
        if place == HEADER_RA && z {
            sink.put(Z_MEMBER);
        }
    }
}

/// The header's values in the order of the text, all but Z.
fn header_values(form: &[u8]) -> [u16; 14] {
    let flags = two_octets(form, 2);
    let bit = |shift: u16| (flags >> shift) & 1;
    [
        two_octets(form, 0),
        bit(15),
        (flags >> 11) & 15,
        bit(10),
        bit(9),
        bit(8),
        bit(7),
        bit(5),
        bit(4),
        flags & 15,
        two_octets(form, 4),
        two_octets(form, 6),
        two_octets(form, 8),
        two_octets(form, 10),
    ]
}

/// Where the record stands that is written as an EDNS element, if one is.
fn edns_place(form: &[u8], additional: usize, count: u16) -> Option<usize> {
    let mut at = additional;
    let mut found = None;
    for _ in 0..count {
        let record = record_at(form, at);
        if record.rtype == OPT {
            if found.is_some() {
                return None;
            }
            found = Some((at, record.owner, record.ttl, record.rdata));
        }
        at = record.end;
    }
    let (place, owner, ttl, rdata) = found?;
    is_edns(owner == [0], ttl, form[3] & 15, &rdata).then_some(place)
}

fn print_comma(index: u16, sink: &mut impl Sink) {
    if index > 0 {
        sink.put_octet(b',');
    }
}

/// Prints the question at `at` and gives the offset behind it.
fn print_question(form: &[u8], at: usize, sink: &mut impl Sink) -> usize {
    let fields = behind_name(form, at);
    print_name_type_class(
        &form[at..fields],
        two_octets(form, fields),
        two_octets(form, fields + 2),
        sink,
    );
    sink.put_octet(b'}');
    fields + 4
}

fn print_record(record: &Record, sink: &mut impl Sink) {
    print_name_type_class(record.owner, record.rtype, record.class, sink);
    sink.put(TTL_MEMBER);
    print_signed(record.ttl as i32, sink);
    sink.put(RDATA_MEMBER);
    print_hex_string(record.rdata, sink);
    sink.put_octet(b'}');
}

fn print_name_type_class(name: &[u8], rtype: u16, class: u16, sink: &mut impl Sink) {
    sink.put(NAME_MEMBER);
    print_name(name, sink);
    sink.put(TYPE_MEMBER);
    print_number(u64::from(rtype), sink);
    sink.put(CLASS_MEMBER);
    print_number(u64::from(class), sink);
}

fn print_name(name: &[u8], sink: &mut impl Sink) {
    sink.put_octet(b'"');
    if name == [0] {
        sink.put_octet(b'.');
    }
    let mut at = 0;
    while name[at] != 0 {
        let next = at + 1 + usize::from(name[at]);
        for octet in &name[at + 1..next] {
            print_name_octet(*octet, sink);
        }
        sink.put_octet(b'.');
        at = next;
    }
    sink.put_octet(b'"');
}

fn print_name_octet(octet: u8, sink: &mut impl Sink) {
    match octet {
        b'.' => sink.put(b"\\\\."),
        b'\\' => sink.put(b"\\\\\\\\"),
        b'"' | 0..=0x20 | 0x7F..=0xFF => {
            let digit = |place: u8| b'0' + octet / place % 10;
            sink.put(&[b'\\', b'\\', digit(100), digit(10), digit(1)]);
        }
        _ => sink.put_octet(octet),
    }
}

fn print_number(number: u64, sink: &mut impl Sink) {
    let mut digits = [0; 20];
    let mut first = digits.len();
    let mut rest = number;
    loop {
        first -= 1;
        digits[first] = b'0' + (rest % 10) as u8;
        rest /= 10;
        if rest == 0 {
            break;
        }
    }
    sink.put(&digits[first..]);
}

fn print_signed(number: i32, sink: &mut impl Sink) {
    if number < 0 {
        sink.put_octet(b'-');
    }
    print_number(u64::from(number.unsigned_abs()), sink);
}

fn print_hex_string(octets: &[u8], sink: &mut impl Sink) {
    sink.put_octet(b'"');
    sink.put_hex(octets);
    sink.put_octet(b'"');
}

fn print_edns(record: &Record, header_rcode: u16, sink: &mut impl Sink) {
    let rcode = 16 * (record.ttl >> 24) as u16 + header_rcode;
    let flags = record.ttl as u16;
    sink.put(EDNS_OPENING);
    print_number(0, sink);
    sink.put(FLAGS_MEMBER);
    sink.put(if flags == DO_BIT { DO_FLAG } else { NO_FLAGS });
    sink.put(EDNS_RCODE_MEMBER);
    sink.put_octet(b'"');
    sink.put(rcode_name(rcode).expect("an EDNS element has a listed RCODE"));
    sink.put_octet(b'"');
    sink.put(UDPSIZE_MEMBER);
    print_number(u64::from(record.class), sink);
    let mut at = 0;
    while at < record.rdata.len() {
        let code = two_octets(record.rdata, at);
        let end = at + 4 + usize::from(two_octets(record.rdata, at + 2));
        print_option(code, &record.rdata[at + 4..end], sink);
        at = end;
    }
    sink.put(EDNS_CLOSING);
}

fn print_option(code: u16, value: &[u8], sink: &mut impl Sink) {
    if !has_row_shape(code, &value) {
        sink.put(OTHER_OPTION);
        print_number(u64::from(code), sink);
        sink.put(b"\":");
        print_hex_string(value, sink);
        return;
    }
    let row = OPTION_NAMES.iter().find(|(listed, _)| *listed == code);
    let (_, name) = row.expect("only listed options have a shape");
    sink.put(b",\"");
    sink.put(name);
    sink.put(b"\":");
    match code {
        3 => print_nsid(value, sink),
        5..=7 => print_number_list(value, 1, sink),
        9 => print_expire(value, sink),
        10 => print_cookie(value, sink),
        11 => print_number(u64::from(two_octets(value, 0)), sink),
        12 => print_padding(value, sink),
        14 => print_number_list(value, 2, sink),
        _ => print_ede(value, sink),
    }
}

fn print_nsid(value: &[u8], sink: &mut impl Sink) {
    sink.put(b"{\"HEX\":");
    print_hex_string(value, sink);
    sink.put_octet(b'}');
}

/// Prints a list of numbers that have `width` octets each.
fn print_number_list(value: &[u8], width: usize, sink: &mut impl Sink) {
    sink.put_octet(b'[');
    for (index, octets) in value.chunks_exact(width).enumerate() {
        if index > 0 {
            sink.put_octet(b',');
        }
        let number = octets.iter().fold(0, |number, octet| 256 * number + u64::from(*octet));
        print_number(number, sink);
    }
    sink.put_octet(b']');
}

fn print_expire(value: &[u8], sink: &mut impl Sink) {
    if value.is_empty() {
        sink.put(b"\"NONE\"");
    } else {
        print_number(u64::from(four_octets(value, 0)), sink);
    }
}

fn print_cookie(value: &[u8], sink: &mut impl Sink) {
    let (client, server) = value.split_at(8);
    sink.put_octet(b'[');
    print_hex_string(client, sink);
    if !server.is_empty() {
        sink.put_octet(b',');
        print_hex_string(server, sink);
    }
    sink.put_octet(b']');
}

fn print_padding(value: &[u8], sink: &mut impl Sink) {
    sink.put(b"{\"LENGTH\":");
    print_number(value.len() as u64, sink);
    if value.iter().any(|octet| *octet != 0) {
        sink.put(b",\"HEX\":");
        print_hex_string(value, sink);
    }
    sink.put_octet(b'}');
}

fn print_ede(value: &[u8], sink: &mut impl Sink) {
    let text = &value[2..];
    sink.put(b"{\"CODE\":");
    print_number(u64::from(two_octets(value, 0)), sink);
    if !text.is_empty() {
        sink.put(b",\"TEXT\":\"");
        for octet in text {
            if matches!(octet, b'"' | b'\\') {
                sink.put_octet(b'\\');
            }
            sink.put_octet(*octet);
        }
        sink.put_octet(b'"');
    }
    sink.put_octet(b'}');
}
