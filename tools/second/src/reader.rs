//! Reads a text by the grammar (refusal 20) into a draft of a message. The
//! draft keeps what the text says, also where no message could say it: numbers
//! that are too large, names that are too long, options in any order.

use crate::shape::{is_printable, Hex};
use crate::tables::*;

/// What a text says.
pub struct Draft<'t> {
    /// The header's numbers in the order of the text, all but Z.
    pub header: [u64; 14],
    /// Whether the text has a Z.
    pub z: bool,
    pub questions: Vec<Question<'t>>,
    /// Answer, authority and additional section.
    pub sections: [Vec<Element<'t>>; 3],
}

pub struct Question<'t> {
    pub name: Name<'t>,
    pub rtype: u64,
    pub class: u64,
}

pub enum Element<'t> {
    Ordinary(Record<'t>),
    Edns(Edns<'t>),
}

pub struct Record<'t> {
    pub name: Name<'t>,
    pub rtype: u64,
    pub class: u64,
    pub ttl: i64,
    pub rdata: Hex<'t>,
}

pub struct Edns<'t> {
    pub version: u64,
    pub dnssec_ok: bool,
    pub rcode: u16,
    pub udp_size: u64,
    pub options: Vec<EdnsOption<'t>>,
}

pub struct EdnsOption<'t> {
    pub code: u64,
    pub value: OptionValue<'t>,
}

/// The value of an option, in the form of its member.
pub enum OptionValue<'t> {
    Nsid(Hex<'t>),
    Algorithms(NumberList<'t>),
    NoExpire,
    Expire(u64),
    Cookie(HexList<'t>),
    KeepAlive(u64),
    ZeroPadding(u64),
    Padding(u64, Hex<'t>),
    KeyTags(NumberList<'t>),
    Error(u64),
    ErrorWithText(u64, Escaped<'t>),
    Other(Hex<'t>),
}

/// A name as it is spelled between its quotes.
pub struct Name<'t> {
    spelling: &'t [u8],
    /// The octets of the name in a message, the root octet included.
    pub length: u64,
    pub longest_label: u64,
}

/// A list of numbers as it is spelled between its brackets.
pub struct NumberList<'t> {
    spelling: &'t [u8],
    pub count: u64,
    pub largest: u64,
}

/// A list of hex strings, of which only the first two can matter.
pub struct HexList<'t> {
    pub count: u64,
    pub first: Hex<'t>,
    pub second: Hex<'t>,
}

/// A string in which quote and backslash have a backslash before them.
pub struct Escaped<'t> {
    spelling: &'t [u8],
    pub length: u64,
}

/// The draft of a text, or nothing if the text is not within the grammar.
pub fn read(text: &[u8]) -> Option<Draft<'_>> {
    let mut cursor = Cursor { text, at: 0 };
    let (header, z) = read_header(&mut cursor)?;
    cursor.expect(QUESTION_ARRAY)?;
    let questions = cursor.items(read_question)?;
    let mut sections = [Vec::new(), Vec::new(), Vec::new()];
    for (section, array) in RECORD_ARRAYS.iter().enumerate() {
        cursor.expect(array)?;
        let read_element = if section == ADDITIONAL { read_edns_or_record } else { read_record };
        sections[section] = cursor.items(read_element)?;
    }
    cursor.expect(b"}")?;
    cursor.is_at_end().then_some(Draft { header, z, questions, sections })
}

/// The header's numbers, and whether Z stands in its one place and spelling.
fn read_header(cursor: &mut Cursor) -> Option<([u64; 14], bool)> {
    let mut header = [0; 14];
    let mut z = false;
    for (place, (member, _)) in HEADER_MEMBERS.iter().enumerate() {
        cursor.expect(member)?;
        header[place] = cursor.number()?;
        if place == HEADER_RA {
            z = cursor.accept(Z_MEMBER);
        }
    }
    Some((header, z))
}

fn read_question<'t>(cursor: &mut Cursor<'t>) -> Option<Question<'t>> {
    let (name, rtype, class) = read_name_type_class(cursor)?;
    cursor.expect(b"}")?;
    Some(Question { name, rtype, class })
}

fn read_name_type_class<'t>(cursor: &mut Cursor<'t>) -> Option<(Name<'t>, u64, u64)> {
    cursor.expect(NAME_MEMBER)?;
    let name = cursor.name()?;
    cursor.expect(TYPE_MEMBER)?;
    let rtype = cursor.number()?;
    cursor.expect(CLASS_MEMBER)?;
    let class = cursor.number()?;
    Some((name, rtype, class))
}

fn read_record<'t>(cursor: &mut Cursor<'t>) -> Option<Element<'t>> {
    let (name, rtype, class) = read_name_type_class(cursor)?;
    cursor.expect(TTL_MEMBER)?;
    let ttl = cursor.signed_number()?;
    cursor.expect(RDATA_MEMBER)?;
    let rdata = cursor.hex_string()?;
    cursor.expect(b"}")?;
    Some(Element::Ordinary(Record { name, rtype, class, ttl, rdata }))
}

fn read_edns_or_record<'t>(cursor: &mut Cursor<'t>) -> Option<Element<'t>> {
    if cursor.accept(EDNS_OPENING) {
        Some(Element::Edns(read_edns_members(cursor)?))
    } else {
        read_record(cursor)
    }
}

fn read_edns_members<'t>(cursor: &mut Cursor<'t>) -> Option<Edns<'t>> {
    let version = cursor.number()?;
    cursor.expect(FLAGS_MEMBER)?;
    let dnssec_ok = cursor.accept(DO_FLAG);
    if !dnssec_ok {
        cursor.expect(NO_FLAGS)?;
    }
    cursor.expect(EDNS_RCODE_MEMBER)?;
    let rcode = rcode_of_name(cursor.plain_string()?)?;
    cursor.expect(UDPSIZE_MEMBER)?;
    let udp_size = cursor.number()?;
    let mut options = Vec::new();
    while !cursor.accept(EDNS_CLOSING) {
        options.push(read_option(cursor)?);
    }
    Some(Edns { version, dnssec_ok, rcode, udp_size, options })
}

fn read_option<'t>(cursor: &mut Cursor<'t>) -> Option<EdnsOption<'t>> {
    if cursor.accept(OTHER_OPTION) {
        let code = cursor.number()?;
        cursor.expect(b"\":")?;
        let value = OptionValue::Other(cursor.hex_string()?);
        return Some(EdnsOption { code, value });
    }
    cursor.expect(b",")?;
    let name = cursor.plain_string()?;
    cursor.expect(b":")?;
    let (code, _) = *OPTION_NAMES.iter().find(|(_, listed)| *listed == name)?;
    let value = read_option_value(code, cursor)?;
    Some(EdnsOption { code: u64::from(code), value })
}

/// Reads the value of an option that has a member name of its own.
fn read_option_value<'t>(code: u16, cursor: &mut Cursor<'t>) -> Option<OptionValue<'t>> {
    match code {
        3 => read_nsid(cursor),
        5..=7 => Some(OptionValue::Algorithms(cursor.number_list()?)),
        9 if cursor.accept(b"\"NONE\"") => Some(OptionValue::NoExpire),
        9 => Some(OptionValue::Expire(cursor.number()?)),
        10 => Some(OptionValue::Cookie(cursor.hex_list()?)),
        11 => Some(OptionValue::KeepAlive(cursor.number()?)),
        12 => read_padding(cursor),
        14 => Some(OptionValue::KeyTags(cursor.number_list()?)),
        _ => read_ede(cursor),
    }
}

fn read_nsid<'t>(cursor: &mut Cursor<'t>) -> Option<OptionValue<'t>> {
    cursor.expect(b"{\"HEX\":")?;
    let hex = cursor.hex_string()?;
    cursor.expect(b"}")?;
    Some(OptionValue::Nsid(hex))
}

fn read_padding<'t>(cursor: &mut Cursor<'t>) -> Option<OptionValue<'t>> {
    cursor.expect(b"{\"LENGTH\":")?;
    let length = cursor.number()?;
    let value = if cursor.accept(b",\"HEX\":") {
        OptionValue::Padding(length, cursor.hex_string()?)
    } else {
        OptionValue::ZeroPadding(length)
    };
    cursor.expect(b"}")?;
    Some(value)
}

fn read_ede<'t>(cursor: &mut Cursor<'t>) -> Option<OptionValue<'t>> {
    cursor.expect(b"{\"CODE\":")?;
    let code = cursor.number()?;
    let value = if cursor.accept(b",\"TEXT\":") {
        OptionValue::ErrorWithText(code, cursor.escaped_string()?)
    } else {
        OptionValue::Error(code)
    };
    cursor.expect(b"}")?;
    Some(value)
}

impl<'t> Name<'t> {
    pub fn is_root(&self) -> bool {
        self.spelling == b"."
    }

    /// Hands each octet of each label to `step`, and nothing after each label.
    /// The root has no labels.
    pub fn walk(&self, mut step: impl FnMut(Option<u8>)) {
        if self.is_root() {
            return;
        }
        let mut cursor = Cursor { text: self.spelling, at: 0 };
        while !cursor.is_at_end() {
            if cursor.accept(b".") {
                step(None);
            } else {
                step(Some(cursor.name_octet().expect("the name was read before")));
            }
        }
    }
}

impl NumberList<'_> {
    /// Hands each number to `number`.
    pub fn walk(&self, mut number: impl FnMut(u64)) {
        let mut cursor = Cursor { text: self.spelling, at: 0 };
        while !cursor.is_at_end() {
            cursor.accept(b",");
            number(cursor.number().expect("the list was read before"));
        }
    }
}

impl Escaped<'_> {
    /// Hands each octet that the string stands for to `octet`.
    pub fn walk(&self, mut octet: impl FnMut(u8)) {
        let mut cursor = Cursor { text: self.spelling, at: 0 };
        while !cursor.is_at_end() {
            octet(cursor.escaped_octet().expect("the string was read before"));
        }
    }
}

/// A place in a text. Each step gives nothing where the grammar does not go on.
struct Cursor<'t> {
    text: &'t [u8],
    at: usize,
}

impl<'t> Cursor<'t> {
    fn is_at_end(&self) -> bool {
        self.at == self.text.len()
    }

    fn peek(&self) -> Option<u8> {
        self.text.get(self.at).copied()
    }

    fn next(&mut self) -> Option<u8> {
        let octet = self.peek()?;
        self.at += 1;
        Some(octet)
    }

    /// Steps over the fixed octets if they stand here.
    fn accept(&mut self, fixed: &[u8]) -> bool {
        let stands_here = self.text[self.at..].starts_with(fixed);
        if stands_here {
            self.at += fixed.len();
        }
        stands_here
    }

    /// Steps over the fixed octets, which must stand here.
    fn expect(&mut self, fixed: &[u8]) -> Option<()> {
        self.accept(fixed).then_some(())
    }

    /// The items of an array whose opening bracket was read, and the closing one.
    fn items<T>(&mut self, read: impl Fn(&mut Cursor<'t>) -> Option<T>) -> Option<Vec<T>> {
        let mut items = Vec::new();
        if self.accept(b"]") {
            return Some(items);
        }
        loop {
            items.push(read(self)?);
            if self.accept(b"]") {
                return Some(items);
            }
            self.expect(b",")?;
        }
    }

    /// A decimal number without a leading zero. One that is too large for 64
    /// bits gives the largest value, which is out of range everywhere.
    fn number(&mut self) -> Option<u64> {
        let first = self.digit()?;
        let mut number = u64::from(first);
        if first == 0 {
            return Some(0);
        }
        while let Some(digit) = self.digit() {
            number = number.saturating_mul(10).saturating_add(u64::from(digit));
        }
        Some(number)
    }

    fn digit(&mut self) -> Option<u8> {
        let octet = self.peek().filter(u8::is_ascii_digit)?;
        self.at += 1;
        Some(octet - b'0')
    }

    /// A number that may have a minus, except that there is no -0.
    fn signed_number(&mut self) -> Option<i64> {
        let negative = self.accept(b"-");
        let magnitude = self.number()?;
        let magnitude = i64::try_from(magnitude).unwrap_or(i64::MAX);
        match (negative, magnitude) {
            (true, 0) => None,
            (true, _) => Some(-magnitude),
            (false, _) => Some(magnitude),
        }
    }

    /// The octets between two quotes, which hold neither quote nor backslash
    /// in any spelling that is looked for.
    fn plain_string(&mut self) -> Option<&'t [u8]> {
        self.expect(b"\"")?;
        let start = self.at;
        while self.next()? != b'"' {}
        Some(&self.text[start..self.at - 1])
    }

    /// A quoted string of an even count of uppercase hex digits.
    fn hex_string(&mut self) -> Option<Hex<'t>> {
        self.expect(b"\"")?;
        let start = self.at;
        while matches!(self.peek()?, b'0'..=b'9' | b'A'..=b'F') {
            self.at += 1;
        }
        let digits = &self.text[start..self.at];
        self.expect(b"\"")?;
        digits.len().is_multiple_of(2).then_some(Hex { digits })
    }

    fn number_list(&mut self) -> Option<NumberList<'t>> {
        self.expect(b"[")?;
        let start = self.at;
        let mut list = NumberList { spelling: &[], count: 0, largest: 0 };
        while !self.accept(b"]") {
            if list.count > 0 {
                self.expect(b",")?;
            }
            list.largest = list.largest.max(self.number()?);
            list.count += 1;
        }
        list.spelling = &self.text[start..self.at - 1];
        Some(list)
    }

    fn hex_list(&mut self) -> Option<HexList<'t>> {
        self.expect(b"[")?;
        let empty = Hex { digits: &[] };
        let mut list = HexList { count: 0, first: empty, second: empty };
        while !self.accept(b"]") {
            if list.count > 0 {
                self.expect(b",")?;
            }
            let hex = self.hex_string()?;
            match list.count {
                0 => list.first = hex,
                1 => list.second = hex,
                _ => {}
            }
            list.count += 1;
        }
        Some(list)
    }

    /// A quoted name.
    fn name(&mut self) -> Option<Name<'t>> {
        self.expect(b"\"")?;
        let start = self.at;
        let (length, longest_label) = if self.accept(b".") { (1, 0) } else { self.labels()? };
        let spelling = &self.text[start..self.at];
        self.expect(b"\"")?;
        Some(Name { spelling, length, longest_label })
    }

    /// Labels up to the closing quote: the name's length and its longest label.
    fn labels(&mut self) -> Option<(u64, u64)> {
        let mut length = 1;
        let mut longest = 0;
        loop {
            let label = self.label()?;
            length += 1 + label;
            longest = longest.max(label);
            if self.peek()? == b'"' {
                return Some((length, longest));
            }
        }
    }

    /// A label and the dot behind it: the count of the label's octets.
    fn label(&mut self) -> Option<u64> {
        let mut count = 0;
        while !self.accept(b".") {
            self.name_octet()?;
            count += 1;
        }
        (count > 0).then_some(count)
    }

    /// An octet of a label, in the one way in which it is spelled.
    fn name_octet(&mut self) -> Option<u8> {
        match self.next()? {
            b'\\' => {
                self.expect(b"\\")?;
                self.escaped_name_octet()
            }
            b'"' | b'.' => None,
            octet @ 0x21..=0x7E => Some(octet),
            _ => None,
        }
    }

    /// What follows the two backslashes of an escape in a name.
    fn escaped_name_octet(&mut self) -> Option<u8> {
        if self.accept(b".") {
            return Some(b'.');
        }
        if self.accept(b"\\\\") {
            return Some(b'\\');
        }
        let hundreds = u16::from(self.digit()?);
        let tens = u16::from(self.digit()?);
        let ones = u16::from(self.digit()?);
        let octet = u8::try_from(100 * hundreds + 10 * tens + ones).ok()?;
        let has_other_spelling = octet != b'"' && (0x21..=0x7E).contains(&octet);
        (!has_other_spelling).then_some(octet)
    }

    /// A quoted string of printable octets, quote and backslash escaped.
    fn escaped_string(&mut self) -> Option<Escaped<'t>> {
        self.expect(b"\"")?;
        let start = self.at;
        let mut length = 0;
        while !self.accept(b"\"") {
            self.escaped_octet()?;
            length += 1;
        }
        let spelling = &self.text[start..self.at - 1];
        Some(Escaped { spelling, length })
    }

    fn escaped_octet(&mut self) -> Option<u8> {
        match self.next()? {
            b'\\' => self.next().filter(|octet| matches!(octet, b'"' | b'\\')),
            b'"' => None,
            octet => is_printable(octet).then_some(octet),
        }
    }
}
