//! Makes texts: those of valid messages, damaged ones, and texts written
//! freely by the grammar, which may or may not belong to a message.

use super::damage::harm;
use super::messages::valid_message;
use crate::lines::{hex_of_octets, LINE_TEXT};
use crate::random::Random;
use crate::text_of;

/// A text of at most 65,536 octets, without a newline in it. One in four has
/// a Z, right or wrong, and one in four of the others has a harm done to one of
/// its last objects. Both are decided aside: the rest is what the same seed gave
/// before there were such.
pub fn text(random: &mut Random) -> Vec<u8> {
    let mut aside = random.aside();
    let text = match random.below(5) {
        0 | 1 => valid_text(random),
        2 => damaged_text(random),
        _ => drafted_text(random),
    };
    if aside.one_in(4) {
        text_about_z(&mut aside, text)
    } else if aside.one_in(4) {
        text_harmed_late(&mut aside, text)
    } else {
        text
    }
}

/// The text with a harm done inside its EDNS object or, if it has none, inside
/// its last question or record or what stands behind it.
pub fn text_harmed_late(random: &mut Random, mut text: Vec<u8>) -> Vec<u8> {
    let last = |mark: &str| text.windows(mark.len()).rposition(|part| part == mark.as_bytes());
    let Some(start) = last("{\"EDNS\":").or_else(|| last("{\"NAME\":")) else {
        return text;
    };
    let mut part = text.split_off(start);
    harm(&mut part, random, text_octet);
    text.extend(part);
    text.truncate(LINE_TEXT);
    text
}

/// The member of a Z that is set, with the comma before it.
const Z: &str = ",\"Z\":1";

/// The member behind the one place of Z.
const BEHIND_Z: &str = ",\"AD\":";

/// The text with Z set: half of the time as the grammar has it, else wrongly
/// spelled, doubled, in another place, or with a harm done near it.
pub fn text_about_z(random: &mut Random, text: Vec<u8>) -> Vec<u8> {
    let wrong = [
        ",\"Z\":0", ",\"Z\":2", ",\"Z\":10", ",\"Z\":01", ",\"Z\":-1", ",\"Z\":\"1\"",
        ",\"Z\":1.0", ",\"Z\":", ",\"z\":1", ",\"Z\": 1", ",\"Z\":1,\"Z\":1", ",\"Z\":0,\"Z\":1",
        ",\"Z\":1,",
    ];
    // Members of every object, and what ends one. Z is put before them.
    let elsewhere = [
        ",\"QR\":", ",\"Opcode\":", ",\"AA\":", ",\"TC\":", ",\"RD\":", ",\"RA\":", ",\"CD\":",
        ",\"RCODE\":", ",\"QDCOUNT\":", ",\"ANCOUNT\":", ",\"NSCOUNT\":", ",\"ARCOUNT\":",
        ",\"questionRRs\":", ",\"answerRRs\":", ",\"authorityRRs\":", ",\"additionalRRs\":",
        ",\"TYPE\":", ",\"CLASS\":", ",\"TTL\":", ",\"RDATAHEX\":", ",\"FLAGS\":", ",\"UDPSIZE\":",
        "}",
    ];
    let (wrong, elsewhere) = (*random.pick(&wrong), *random.pick(&elsewhere));
    let mut text = match random.below(8) {
        0 => put_before(text, BEHIND_Z, wrong),
        1 => put_before(text, elsewhere, Z),
        2 => put_before(text_with_z(text), elsewhere, Z),
        3 => harmed_near_z(random, text_with_z(text)),
        _ => text_with_z(text),
    };
    text.truncate(LINE_TEXT);
    text
}

/// The text with Z set. One without the member behind Z stays as it is.
fn text_with_z(text: Vec<u8>) -> Vec<u8> {
    put_before(text, BEHIND_Z, Z)
}

/// Puts something before the first place where a mark stands.
fn put_before(mut text: Vec<u8>, mark: &str, put: &str) -> Vec<u8> {
    if let Some(place) = find(&text, mark) {
        text.splice(place..place, put.bytes());
    }
    text
}

/// Where a mark stands first.
fn find(text: &[u8], mark: &str) -> Option<usize> {
    text.windows(mark.len()).position(|part| part == mark.as_bytes())
}

/// The text with a harm done to Z's member or to the few octets around it.
fn harmed_near_z(random: &mut Random, mut text: Vec<u8>) -> Vec<u8> {
    let Some(place) = find(&text, Z) else {
        return text;
    };
    let end = text.len().min(place + Z.len() + BEHIND_Z.len());
    let around = place.saturating_sub(4)..end;
    let mut part = text[around.clone()].to_vec();
    harm(&mut part, random, text_octet);
    text.splice(around, part);
    text
}

/// The text of a message with Z clear.
pub fn valid_text(random: &mut Random) -> Vec<u8> {
    loop {
        let text = text_of(&valid_message(random)).expect("the message is valid");
        if text.len() <= LINE_TEXT {
            return text;
        }
    }
}

/// A text with one or two harms done to it. It may still be accepted.
pub fn damaged_text(random: &mut Random) -> Vec<u8> {
    let mut text = if random.one_in(2) { valid_text(random) } else { drafted_text(random) };
    for _ in 0..random.between(1, 2) {
        text = harmed_text(random, text);
    }
    text.truncate(LINE_TEXT);
    text
}

/// The text with another number in it, or with an octet changed, put in, or a
/// part cut off, left out, doubled or swapped.
pub fn harmed_text(random: &mut Random, mut text: Vec<u8>) -> Vec<u8> {
    match random.below(3) {
        0 => change_number(&mut text, random),
        _ => harm(&mut text, random, text_octet),
    }
    text
}

/// Mostly an octet that stands in texts, never a newline.
fn text_octet(random: &mut Random) -> u8 {
    match random.octet() {
        b'\n' => b'\r',
        octet if random.one_in(10) => octet,
        _ => *random.pick(b"\"\\.,:[]{}0123456789-ABCDEFabnu /"),
    }
}

/// Puts another number in the place of one that stands behind a colon.
fn change_number(text: &mut Vec<u8>, random: &mut Random) {
    let is_digit = |index: usize| text.get(index).is_some_and(u8::is_ascii_digit);
    let starts: Vec<usize> = (1..text.len())
        .filter(|index| matches!(text[index - 1], b':' | b'[' | b',') && is_digit(*index))
        .collect();
    if starts.is_empty() {
        return;
    }
    let start = *random.pick(&starts);
    let end = (start..).find(|index| !is_digit(*index)).expect("a text ends");
    let number = any_number(random);
    text.splice(start..end, number);
}

/// A number of any kind, most of them in the grammar.
fn any_number(random: &mut Random) -> Vec<u8> {
    let edges = [
        "0", "1", "2", "15", "16", "41", "255", "256", "65535", "65536", "2147483647",
        "2147483648", "4294967295", "4294967296", "18446744073709551615", "18446744073709551616",
        "-1", "-0", "-2147483648", "-2147483649", "00", "01", "1.0", "1e3", "+1", "",
    ];
    if random.one_in(12) {
        let digits = random.between(20, 400);
        return (0..digits).map(|_| b'1' + random.octet() % 9).collect();
    }
    random.pick(&edges).as_bytes().to_vec()
}

/// A text written by the grammar, without a Z. How often its parts miss the
/// rules differs from text to text.
pub fn drafted_text(random: &mut Random) -> Vec<u8> {
    loop {
        let slips = *random.pick(&[0, 200, 100, 50, 20]);
        let text = Scribe { random, slips }.message();
        if text.len() <= LINE_TEXT {
            return text.into_bytes();
        }
    }
}

/// The RCODEs with a name, rising. This list is not taken from the program's
/// own table, so the tests compare the two.
pub const RCODES: [(&str, u64); 20] = [
    ("NoError", 0),
    ("FormErr", 1),
    ("ServFail", 2),
    ("NXDomain", 3),
    ("NotImp", 4),
    ("Refused", 5),
    ("YXDomain", 6),
    ("YXRRSet", 7),
    ("NXRRSet", 8),
    ("NotAuth", 9),
    ("NotZone", 10),
    ("DSOTYPENI", 11),
    ("BADVERS", 16),
    ("BADKEY", 17),
    ("BADTIME", 18),
    ("BADMODE", 19),
    ("BADNAME", 20),
    ("BADALG", 21),
    ("BADTRUNC", 22),
    ("BADCOOKIE", 23),
];

struct Scribe<'r> {
    random: &'r mut Random,
    /// One in so many choices misses the rules; 0 if none does.
    slips: usize,
}

impl Scribe<'_> {
    fn slip(&mut self) -> bool {
        self.slips > 0 && self.random.one_in(self.slips)
    }

    fn message(&mut self) -> String {
        let (rcode_name, rcode) = *self.random.pick(&RCODES);
        let questions = self.list(|scribe| scribe.question());
        let answers = self.list(|scribe| scribe.record());
        let authority = self.list(|scribe| scribe.record());
        let mut additional = self.list(|scribe| scribe.record());
        if self.random.below(3) > 0 {
            let place = self.random.below(additional.len() + 1);
            additional.insert(place, self.edns(rcode_name));
        }
        if self.slip() {
            additional.push(self.edns(rcode_name));
        }
        let arrays = [questions, answers, authority, additional];
        self.members(rcode % 16, &arrays)
    }

    fn members(&mut self, rcode: u64, arrays: &[Vec<String>; 4]) -> String {
        let mut text = format!("{{\"ID\":{}", self.number(65_535));
        for (name, largest) in [
            ("QR", 1),
            ("Opcode", 15),
            ("AA", 1),
            ("TC", 1),
            ("RD", 1),
            ("RA", 1),
            ("AD", 1),
            ("CD", 1),
        ] {
            text += &format!(",\"{name}\":{}", self.number(largest));
        }
        let rcode = if self.slip() { self.number(15) } else { rcode.to_string() };
        text += &format!(",\"RCODE\":{rcode}");
        for (name, array) in ["QDCOUNT", "ANCOUNT", "NSCOUNT", "ARCOUNT"].iter().zip(arrays) {
            let count = if self.slip() { self.number(3) } else { array.len().to_string() };
            text += &format!(",\"{name}\":{count}");
        }
        for (name, array) in
            ["questionRRs", "answerRRs", "authorityRRs", "additionalRRs"].iter().zip(arrays)
        {
            text += &format!(",\"{name}\":[{}]", array.join(","));
        }
        text + "}"
    }

    fn list(&mut self, item: impl Fn(&mut Self) -> String) -> Vec<String> {
        let count = *self.random.pick(&[0, 0, 0, 1, 1, 2, 3]);
        (0..count).map(|_| item(self)).collect()
    }

    /// A number from 0 to `largest`, or on a slip one that is out of range or
    /// wrongly spelled.
    fn number(&mut self, largest: u64) -> String {
        if self.slip() {
            return match self.random.below(6) {
                0 => format!("{}", largest + 1),
                1 => format!("{largest}0"),
                2 => "9".repeat(self.random.between(5, 300)),
                3 => format!("0{largest}"),
                4 => "-1".to_string(),
                _ => format!("{}", u64::MAX),
            };
        }
        let number = match self.random.below(6) {
            0 => largest,
            1 => 0,
            2 => largest - largest.min(1),
            _ => self.random.number() % (largest + 1),
        };
        number.to_string()
    }

    fn ttl(&mut self) -> String {
        if self.random.one_in(3) {
            let magnitude = self.random.between(1, 1 << 31);
            return format!("-{magnitude}");
        }
        self.number(0x7FFF_FFFF)
    }

    fn question(&mut self) -> String {
        format!(
            "{{\"NAME\":\"{}\",\"TYPE\":{},\"CLASS\":{}}}",
            self.name(),
            self.number(65_535),
            self.number(65_535)
        )
    }

    fn record(&mut self) -> String {
        let (rtype, rdata) = self.type_and_rdata();
        format!(
            "{{\"NAME\":\"{}\",\"TYPE\":{rtype},\"CLASS\":{},\"TTL\":{},\"RDATAHEX\":{}}}",
            self.name(),
            self.number(65_535),
            self.ttl(),
            self.hex(&rdata)
        )
    }

    /// A quoted hex string, on a slip with a letter or count that is wrong.
    fn hex(&mut self, octets: &[u8]) -> String {
        let mut digits = String::from_utf8(hex_of_octets(octets)).expect("digits are letters");
        if self.slip() {
            match self.random.below(3) {
                0 => digits.push('0'),
                1 => digits = digits.to_lowercase(),
                _ => digits.push_str("0G"),
            }
        }
        format!("\"{digits}\"")
    }

    fn name(&mut self) -> String {
        if self.random.one_in(5) {
            return ".".to_string();
        }
        let count = if self.random.one_in(30) {
            self.random.between(4, 8)
        } else {
            self.random.between(1, 3)
        };
        (0..count).map(|_| self.label() + ".").collect()
    }

    fn label(&mut self) -> String {
        if self.slip() {
            return self
                .random
                .pick(&["", "\\\\046", "\\\\256", "\\.", "\\\\", "\"", " ", "\\\\65", "\\\\1a2"])
                .to_string();
        }
        let count = match self.random.below(25) {
            0 => 63,
            1 if self.slip() => 64,
            _ => self.random.between(1, 10),
        };
        (0..count).map(|_| self.label_octet()).collect()
    }

    /// One octet of a label in its one spelling.
    fn label_octet(&mut self) -> String {
        let octet = if self.random.one_in(12) {
            self.random.octet()
        } else {
            b'a' + self.random.octet() % 26
        };
        match octet {
            b'.' => "\\\\.".to_string(),
            b'\\' => "\\\\\\\\".to_string(),
            b'"' => "\\\\034".to_string(),
            0x21..=0x7E => char::from(octet).to_string(),
            _ => format!("\\\\{octet:03}"),
        }
    }

    fn type_and_rdata(&mut self) -> (String, Vec<u8>) {
        let plain_name = |random: &mut Random| match random.below(4) {
            0 => vec![0],
            1 => vec![1, random.octet(), 0],
            2 => vec![2, b'n', b's', 3, b'n', b'e', b't', 0],
            _ => [vec![63; 64], vec![0]].concat(),
        };
        let (rtype, mut rdata) = match self.random.below(8) {
            0 => (*self.random.pick(&[2, 3, 4, 5, 7, 8, 9, 12]), plain_name(self.random)),
            1 => (
                6,
                [plain_name(self.random), plain_name(self.random), self.random.octets(20)].concat(),
            ),
            2 => (14, [plain_name(self.random), plain_name(self.random)].concat()),
            3 => (15, [self.random.octets(2), plain_name(self.random)].concat()),
            4 if self.slip() => (41, self.random.octets(4)),
            _ => {
                let count = self.random.below(30);
                return (
                    self.random.pick(&["1", "16", "28", "999", "65535"]).to_string(),
                    self.random.octets(count),
                );
            }
        };
        if self.random.one_in(10) {
            rdata.clear();
        }
        if self.slip() {
            let random = &mut *self.random;
            harm(&mut rdata, random, Random::octet);
        }
        (rtype.to_string(), rdata)
    }

    fn edns(&mut self, rcode: &str) -> String {
        // On a slip version 1, or for RCODE 16 the name that format 1 had.
        let (version, rcode) = match (self.slip(), rcode) {
            (true, "BADVERS") => ("0", "BADSIG"),
            (true, _) => ("1", rcode),
            (false, _) => ("0", rcode),
        };
        let flags = if self.random.one_in(2) { "[]" } else { "[\"DO\"]" };
        let udp_size = self.number(65_535);
        let options = self.options().concat();
        format!("{{\"EDNS\":{{\"Version\":{version},\"FLAGS\":{flags},\"RCODE\":\"{rcode}\",\"UDPSIZE\":{udp_size}{options}}}}}")
    }

    fn options(&mut self) -> Vec<String> {
        let share = *self.random.pick(&[2, 4, 12]);
        let mut options = Vec::new();
        for code in [0, 3, 4, 5, 6, 7, 8, 9, 10, 11, 12, 14, 15, 16, 65_535] {
            if self.random.one_in(share) {
                options.push(self.option(code));
            }
        }
        if self.slip() && options.len() > 1 {
            let at = self.random.below(options.len() - 1);
            options.swap(at, at + 1);
        }
        options
    }

    fn option(&mut self, code: u16) -> String {
        if self.random.one_in(5) || !(3..=15).contains(&code) {
            return self.numbered_option(code);
        }
        let value = match code {
            3 => return format!(",\"NSID\":{{\"HEX\":{}}}", self.short_hex()),
            5 => format!("\"DAU\":{}", self.numbers(255)),
            6 => format!("\"DHU\":{}", self.numbers(255)),
            7 => format!("\"N3U\":{}", self.numbers(255)),
            9 if self.random.one_in(2) => "\"EXPIRE\":\"NONE\"".to_string(),
            9 => format!("\"EXPIRE\":{}", self.number(0xFFFF_FFFF)),
            10 => format!("\"COOKIE\":[{}]", self.cookie()),
            11 => format!("\"KEEPALIVE\":{}", self.number(65_535)),
            12 => format!("\"PADDING\":{}", self.padding()),
            14 => format!("\"KEYTAG\":{}", self.numbers(65_535)),
            15 => format!("\"EDE\":{}", self.ede()),
            _ => return self.numbered_option(code),
        };
        format!(",{value}")
    }

    /// An option written by its code, which for a known one must have a value
    /// that misses its shape.
    fn numbered_option(&mut self, code: u16) -> String {
        let count = match code {
            3 | 5 | 6 | 7 | 12 if !self.slip() => return String::new(),
            _ if self.slip() => self.random.below(45),
            9 | 11 | 14 => 3,
            10 => self.random.between(9, 15),
            15 => 1,
            _ => self.random.below(20),
        };
        let octets = self.random.octets(count);
        format!(",\"OPT{code}\":{}", self.hex(&octets))
    }

    fn short_hex(&mut self) -> String {
        let count = self.random.below(12);
        let octets = self.random.octets(count);
        self.hex(&octets)
    }

    fn numbers(&mut self, largest: u64) -> String {
        let count = self.random.below(5);
        let numbers: Vec<String> = (0..count).map(|_| self.number(largest)).collect();
        format!("[{}]", numbers.join(","))
    }

    fn cookie(&mut self) -> String {
        let client_count = if self.slip() { self.random.below(18) } else { 8 };
        let client = self.random.octets(client_count);
        let mut strings = vec![self.hex(&client)];
        if self.random.one_in(2) {
            let server_count =
                if self.slip() { self.random.below(45) } else { self.random.between(8, 32) };
            let server = self.random.octets(server_count);
            strings.push(self.hex(&server));
        }
        if self.slip() {
            strings.push(self.short_hex());
        }
        strings.join(",")
    }

    fn padding(&mut self) -> String {
        if self.random.one_in(2) {
            let length = if self.slip() { self.number(1 << 40) } else { self.number(300) };
            return format!("{{\"LENGTH\":{length}}}");
        }
        let count = self.random.between(1, 20);
        let mut octets = self.random.octets(count);
        octets[0] |= 1;
        if self.slip() {
            octets.fill(0);
        }
        let length = if self.slip() { count + 1 } else { count };
        format!("{{\"LENGTH\":{length},\"HEX\":{}}}", self.hex(&octets))
    }

    fn ede(&mut self) -> String {
        let code = self.number(65_535);
        if self.random.one_in(3) {
            return format!("{{\"CODE\":{code}}}");
        }
        if self.slip() {
            let wrong =
                self.random.pick(&["", "\\n", "\\/", "\\u0041", "\t", "\u{e9}", "a\"", "\\"]);
            return format!("{{\"CODE\":{code},\"TEXT\":\"{wrong}\"}}");
        }
        let count = self.random.between(1, 20);
        let text: String = (0..count).map(|_| self.ede_octet()).collect();
        format!("{{\"CODE\":{code},\"TEXT\":\"{text}\"}}")
    }

    fn ede_octet(&mut self) -> String {
        match 0x20 + self.random.octet() % 95 {
            octet @ (b'"' | b'\\') => format!("\\{}", char::from(octet)),
            octet => char::from(octet).to_string(),
        }
    }
}
