//! The cases for `towire`: texts, right and wrong ones.

use std::collections::HashSet;

use super::build::{message as wire_message, name_of, opt_record, rich_message, tsig_rdata};
use super::{totext_groups, totext_places, towire_places, Group, RCODE_16, Z_BIT};
use crate::generate;
use crate::lines::{hex_of_octets, octets_of_hex, LINE_TEXT};
use crate::random::Random;
use crate::text_of;

pub(super) type Texts = Vec<String>;
pub(super) type Lines = Vec<Vec<u8>>;

pub fn groups() -> Vec<Group> {
    // The texts of RCODE 16, those with a Z and those of the cases about places are kinds of
    // their own, so that a choice of cases keeps the same of the others as before.
    let (of_rcode_16, others) = split_kinds(totext_groups(), &[RCODE_16]);
    let (of_z_bit, others) = split_kinds(others, &[Z_BIT]);
    let (of_places, others) = split_kinds(others, &totext_places::KINDS);
    let (mut with_z, without_z): (Lines, Lines) =
        texts_of_cases(others).into_iter().partition(|text| has_z(text));
    with_z.extend(texts_of_cases(of_z_bit));
    let mut groups = vec![
        Group { kind: "texts of the totext cases", lines: without_z },
        Group { kind: "a rich text cut", lines: cut_texts() },
        Group { kind: "a rich text, one octet changed", lines: changed_texts() },
        Group { kind: "a rich text, one octet inserted", lines: inserted_texts() },
        Group { kind: "a rich text, one octet left out", lines: shortened_texts() },
        Group { kind: "octets in names", lines: octets_in_names() },
        Group { kind: "octets in EDE texts", lines: octets_in_ede_texts() },
        Group { kind: "octets in hex strings", lines: octets_in_hex() },
    ];
    let of_texts: [(&'static str, Texts); 30] = [
        ("members left out, doubled, swapped", members_moved()),
        ("numbers", numbers()),
        ("numbers in lists", numbers_in_lists()),
        ("TTLs", ttls()),
        ("counts", counts()),
        ("escapes by their digits", digit_escapes()),
        ("escapes of every spelling", spelled_escapes()),
        ("names and labels at their limits", name_limits()),
        ("layouts", layouts()),
        ("option values", option_values()),
        ("cookies", cookies()),
        ("padding", padding()),
        ("EDE escapes", ede_escapes()),
        ("OPTn by length", numbered_options()),
        ("OPTn by code", option_codes()),
        ("pairs of options", option_pairs()),
        ("EDNS RCODEs", edns_rcodes()),
        (RCODE_16, rcode_16()),
        ("EDNS members", edns_members()),
        ("EDNS and TYPE 41 records", edns_beside_records()),
        ("sizes", sizes()),
        ("order of the refusals", order_of_refusals()),
        ("long lines", long_lines()),
        ("Z beside other members", z_beside_members()),
        ("spellings of Z", spellings_of_z()),
        ("Z in other places", z_elsewhere()),
        ("members of a text with Z moved", members_moved_beside_z()),
        ("a text with Z cut", cut_beside_z()),
        ("a text changed near Z", changed_near_z()),
        ("Z beside faults and EDNS", z_beside_faults_and_edns()),
    ];
    groups.extend(of_texts.into_iter().map(|(kind, texts)| Group {
        kind,
        lines: texts.into_iter().map(String::into_bytes).collect(),
    }));
    groups.push(Group { kind: "texts of RCODE 16", lines: texts_of_cases(of_rcode_16) });
    groups.push(Group { kind: "random texts", lines: random_texts() });
    groups.push(Group { kind: "texts with Z of the totext cases", lines: with_z });
    groups.push(Group { kind: "octets in Z's name", lines: octets_in_z_name() });
    groups.push(Group { kind: "octets in Z's number", lines: octets_in_z_number() });
    groups.push(Group { kind: "random texts with Z", lines: random_texts_with_z() });
    let kind = "texts of the totext cases about places";
    groups.push(Group { kind, lines: texts_of_cases(of_places) });
    groups.extend(towire_places::groups());
    groups.push(Group { kind: "line ends", lines: line_ends() });
    groups
}

/// The parts of a text that a case may set.
#[derive(Clone)]
pub(super) struct Parts {
    pub id: String,
    pub rcode: String,
    pub questions: Vec<String>,
    pub answers: Vec<String>,
    pub authority: Vec<String>,
    pub additional: Vec<String>,
}

impl Parts {
    pub fn empty() -> Parts {
        Parts {
            id: "1".to_string(),
            rcode: "0".to_string(),
            questions: Vec::new(),
            answers: Vec::new(),
            authority: Vec::new(),
            additional: Vec::new(),
        }
    }

    pub fn text(&self) -> String {
        let arrays = [&self.questions, &self.answers, &self.authority, &self.additional];
        let counts = arrays.map(|array| array.len().to_string());
        self.text_saying(&counts)
    }

    /// The text with counts that may disagree with the arrays.
    pub fn text_saying(&self, counts: &[String; 4]) -> String {
        let [qd, an, ns, ar] = counts;
        let Parts { id, rcode, .. } = self;
        let [questions, answers, authority, additional] =
            [&self.questions, &self.answers, &self.authority, &self.additional]
                .map(|array| array.join(","));
        format!(
            "{{\"ID\":{id},\"QR\":0,\"Opcode\":0,\"AA\":0,\"TC\":0,\"RD\":0,\"RA\":0,\"AD\":0,\"CD\":0,\
             \"RCODE\":{rcode},\"QDCOUNT\":{qd},\"ANCOUNT\":{an},\"NSCOUNT\":{ns},\"ARCOUNT\":{ar},\
             \"questionRRs\":[{questions}],\"answerRRs\":[{answers}],\"authorityRRs\":[{authority}],\
             \"additionalRRs\":[{additional}]}}"
        )
    }
}

pub(super) fn question(name: &str) -> String {
    format!("{{\"NAME\":\"{name}\",\"TYPE\":1,\"CLASS\":1}}")
}

pub(super) fn record(name: &str, rtype: &str, ttl: &str, hex: &str) -> String {
    format!(
        "{{\"NAME\":\"{name}\",\"TYPE\":{rtype},\"CLASS\":1,\"TTL\":{ttl},\"RDATAHEX\":\"{hex}\"}}"
    )
}

/// An EDNS element; each option begins with its comma.
pub(super) fn edns(rcode: &str, options: &str) -> String {
    format!(
        "{{\"EDNS\":{{\"Version\":0,\"FLAGS\":[],\"RCODE\":\"{rcode}\",\"UDPSIZE\":512{options}}}}}"
    )
}

pub(super) fn asking(name: &str) -> String {
    Parts { questions: vec![question(name)], ..Parts::empty() }.text()
}

pub(super) fn answering(records: &[String]) -> String {
    Parts { answers: records.to_vec(), ..Parts::empty() }.text()
}

pub(super) fn adding(records: &[String]) -> String {
    Parts { additional: records.to_vec(), ..Parts::empty() }.text()
}

pub(super) fn with_options(options: &str) -> String {
    adding(&[edns("NoError", options)])
}

fn hex(octets: &[u8]) -> String {
    String::from_utf8(hex_of_octets(octets)).expect("digits are letters")
}

fn rich_text() -> Vec<u8> {
    text_of(&rich_message()).expect("the rich message is right")
}

/// The groups of these kinds, and the others.
fn split_kinds(groups: Vec<Group>, kinds: &[&str]) -> (Vec<Group>, Vec<Group>) {
    groups.into_iter().partition(|group| kinds.contains(&group.kind))
}

/// Whether the text of a message has a Z. No string of a text holds these octets.
fn has_z(text: &[u8]) -> bool {
    text.windows(Z.len()).any(|part| part == Z.as_bytes())
}

/// The texts of cases for `totext`.
fn texts_of_cases(groups: Vec<Group>) -> Vec<Vec<u8>> {
    let lines = groups.into_iter().flat_map(|group| group.lines);
    let messages = lines.filter_map(|line| octets_of_hex(&line));
    let texts = messages.filter_map(|message| text_of(&message).ok());
    let mut seen = HashSet::new();
    texts.filter(|text| text.len() <= LINE_TEXT && seen.insert(text.clone())).collect()
}

fn cut_texts() -> Vec<Vec<u8>> {
    let text = rich_text();
    (0..=text.len()).map(|length| text[..length].to_vec()).collect()
}

/// Octets to set into a text, from place to place another one.
const NEW_OCTETS: &[u8] = b"0\" 1\\.A,-a]9}:{[F\r\x00\x7F\xFF";

fn changed_texts() -> Vec<Vec<u8>> {
    let text = rich_text();
    let change = |place: usize| {
        let mut changed = text.clone();
        let octet = NEW_OCTETS[place % NEW_OCTETS.len()];
        changed[place] = if octet == changed[place] { octet ^ 1 } else { octet };
        changed
    };
    // Every second octet also turns into its neighbour.
    let neighbour = |place: usize| {
        let mut changed = text.clone();
        changed[place] += 1;
        changed
    };
    let neighbours = (0..text.len()).step_by(2).map(neighbour);
    (0..text.len()).map(change).chain(neighbours).collect()
}

fn inserted_texts() -> Vec<Vec<u8>> {
    let text = rich_text();
    let insert = |place: usize| {
        let mut longer = text.clone();
        longer.insert(place, NEW_OCTETS[place % NEW_OCTETS.len()]);
        longer
    };
    (0..=text.len()).map(insert).collect()
}

fn shortened_texts() -> Vec<Vec<u8>> {
    let text = rich_text();
    let leave_out = |place: usize| [&text[..place], &text[place + 1..]].concat();
    (0..text.len()).map(leave_out).collect()
}

/// Each octet but the newline in the place of a mark.
fn each_octet(text: &str, mark: char) -> Vec<Vec<u8>> {
    let place = text.find(mark).expect("the mark is there");
    let (before, after) = (&text.as_bytes()[..place], &text.as_bytes()[place + 1..]);
    let octets = (0..=255).filter(|octet| *octet != b'\n');
    octets.map(|octet| [before, &[octet], after].concat()).collect()
}

fn octets_in_names() -> Vec<Vec<u8>> {
    each_octet(&asking("a@1."), '@')
}

fn octets_in_ede_texts() -> Vec<Vec<u8>> {
    each_octet(&with_options(",\"EDE\":{\"CODE\":3,\"TEXT\":\"a@\"}"), '@')
}

fn octets_in_hex() -> Vec<Vec<u8>> {
    each_octet(&answering(&[record(".", "1", "0", "5@")]), '@')
}

/// The members of the rich text's objects left out, doubled, swapped, renamed.
fn members_moved() -> Texts {
    let outer = Parts { questions: vec![question("m.")], ..Parts::empty() }.text();
    let inner_question = question("m.");
    let inner_record = record("r.", "1", "5", "0A");
    let whole_edns = edns("NoError", ",\"NSID\":{\"HEX\":\"\"},\"OPT20\":\"\"");
    let inner_edns = &whole_edns[8..whole_edns.len() - 1];
    let mut texts = moved(&outer);
    let in_question = |text: String| Parts { questions: vec![text], ..Parts::empty() }.text();
    texts.extend(moved(&inner_question).into_iter().map(in_question));
    texts.extend(moved(&inner_record).into_iter().map(|text| answering(&[text])));
    texts.extend(
        moved(inner_edns).into_iter().map(|text| adding(&[format!("{{\"EDNS\":{text}}}")])),
    );
    let entry = [question("m."), inner_record, whole_edns.clone()];
    for one in &entry {
        for other in &entry {
            // The three kinds of entries in each array.
            let sets = [one, other].map(|text| vec![text.clone()]);
            let [ones, others] = sets;
            texts.push(
                Parts { questions: ones.clone(), answers: others.clone(), ..Parts::empty() }.text(),
            );
            texts.push(Parts { authority: ones, additional: others, ..Parts::empty() }.text());
        }
    }
    texts
}

/// An object's text with its members moved in every small way.
fn moved(object: &str) -> Texts {
    let members = split_members(&object[1..object.len() - 1]);
    let join = |members: &[String]| format!("{{{}}}", members.join(","));
    let mut texts = vec![join(&[])];
    for place in 0..members.len() {
        let mut fewer = members.clone();
        fewer.remove(place);
        texts.push(join(&fewer));
        let mut doubled = members.clone();
        doubled.insert(place, members[place].clone());
        texts.push(join(&doubled));
        if place + 1 < members.len() {
            let mut swapped = members.clone();
            swapped.swap(place, place + 1);
            texts.push(join(&swapped));
        }
        for (from, to) in
            [("\":", "x\":"), ("\":", "\": "), ("\":", "\" :"), ("\":", "\":null,\"x\":")]
        {
            let mut renamed = members.clone();
            renamed[place] = renamed[place].replacen(from, to, 1);
            texts.push(join(&renamed));
        }
        let mut lower = members.clone();
        lower[place] = other_case(&lower[place]);
        texts.push(join(&lower));
    }
    texts
}

/// Changes the letter case of a member's first letter.
fn other_case(member: &str) -> String {
    let first = member[1..2].chars().next().expect("a member has a name");
    let other =
        if first.is_lowercase() { first.to_ascii_uppercase() } else { first.to_ascii_lowercase() };
    format!("\"{other}{}", &member[2..])
}

/// Splits an object's members at the commas outside of arrays and objects.
fn split_members(text: &str) -> Vec<String> {
    let mut members = vec![String::new()];
    let mut depth = 0;
    for sign in text.chars() {
        match sign {
            '[' | '{' => depth += 1,
            ']' | '}' => depth -= 1,
            _ => {}
        }
        if sign == ',' && depth == 0 {
            members.push(String::new());
        } else {
            members.last_mut().expect("there is one").push(sign);
        }
    }
    members
}

/// Spellings in the place of a number that may be from 0 to `largest`.
fn spellings(largest: u64) -> Texts {
    let over = largest + 1;
    let mut spellings: Texts =
        [0, 1, largest / 2, largest - 1, largest, over, largest + 2, 10 * largest]
            .iter()
            .map(u64::to_string)
            .collect();
    // Values that come out in range if the high digits or bits are lost.
    for wrapped in [1 << 8, 1 << 16, 1 << 31, 1 << 32, 1 << 63] {
        spellings.push(format!("{}", wrapped + 1_u64));
    }
    let wide = ["18446744073709551615", "18446744073709551616", "18446744073709551617"];
    spellings.extend(wide.map(str::to_string));
    spellings.push(format!("1{}", "0".repeat(300)));
    spellings.push("9".repeat(400));
    let wrong = [
        "", "00", "01", "000", "-0", "-1", "+1", "--1", "1.0", "1.", ".1", "1e1", "1E1", "0x1",
        " 1", "1 ", "\"1\"", "null", "true", "[1]", "1,1",
    ];
    spellings.extend(wrong.map(str::to_string));
    spellings.push(format!("0{largest}"));
    spellings.push(format!("-{largest}"));
    spellings
}

fn numbers() -> Texts {
    let plain = Parts {
        questions: vec![question("q.")],
        answers: vec![record(".", "16", "3", "")],
        ..Parts::empty()
    };
    let options = ",\"EXPIRE\":4,\"KEEPALIVE\":5,\"PADDING\":{\"LENGTH\":6},\"EDE\":{\"CODE\":7}";
    let mut texts = Vec::new();
    let plain_members = [
        ("\"ID\":1", 65_535),
        ("\"QR\":0", 1),
        ("\"Opcode\":0", 15),
        ("\"AA\":0", 1),
        ("\"TC\":0", 1),
        ("\"RD\":0", 1),
        ("\"RA\":0", 1),
        ("\"AD\":0", 1),
        ("\"CD\":0", 1),
        ("\"RCODE\":0", 15),
        ("\"QDCOUNT\":1", 65_535),
        ("\"ANCOUNT\":1", 65_535),
        ("\"NSCOUNT\":0", 65_535),
        ("\"ARCOUNT\":0", 65_535),
        ("\"TYPE\":1", 65_535),
        ("\"CLASS\":1", 65_535),
        ("\"TYPE\":16", 65_535),
        ("\"TTL\":3", 0x7FFF_FFFF),
    ];
    texts.extend(with_spellings(&plain.text(), &plain_members));
    let record_members = [("\"CLASS\":1", 65_535)];
    texts.extend(with_spellings(&answering(&plain.answers), &record_members));
    let edns_members = [
        ("\"Version\":0", 65_535),
        ("\"UDPSIZE\":512", 65_535),
        ("\"EXPIRE\":4", 0xFFFF_FFFF),
        ("\"KEEPALIVE\":5", 65_535),
        ("\"LENGTH\":6", 65_535),
        ("\"CODE\":7", 65_535),
    ];
    texts.extend(with_spellings(&with_options(options), &edns_members));
    texts
}

/// A text with each member's number spelled in many ways.
fn with_spellings(text: &str, members: &[(&str, u64)]) -> Texts {
    let mut texts = Vec::new();
    for (member, largest) in members {
        assert!(text.contains(member));
        let colon = member.find(':').expect("a member has a colon");
        for spelling in spellings(*largest) {
            texts.push(text.replacen(member, &format!("{}:{spelling}", &member[..colon]), 1));
        }
    }
    texts
}

fn numbers_in_lists() -> Texts {
    let mut texts = Vec::new();
    for (member, largest) in [("DAU", 255), ("DHU", 255), ("N3U", 255), ("KEYTAG", 65_535)] {
        for spelling in spellings(largest) {
            texts.push(with_options(&format!(",\"{member}\":[{spelling}]")));
        }
        for list in
            ["", "0,", ",0", "0,,0", "0 ,0", "0,1,2", "255,256", "256,255", "65536,0", "\"\"", "[]"]
        {
            texts.push(with_options(&format!(",\"{member}\":[{list}]")));
        }
        for value in ["0", "\"\"", "{}", "[", "]", "null", "\"00\""] {
            texts.push(with_options(&format!(",\"{member}\":{value}")));
        }
    }
    texts
}

fn ttls() -> Texts {
    let ttls = [
        "2147483646", "2147483647", "2147483648", "4294967295", "4294967296", "-1", "-2", "-9",
        "-10", "-2147483647", "-2147483648", "-2147483649", "-4294967295", "-4294967296",
        "-9223372036854775807", "-9223372036854775808", "-9223372036854775809",
        "9223372036854775808", "-18446744073709551615", "-18446744073709551617",
        "18446744073709551617", "-0", "-00", "-01", "--1", "-", "- 1", "-+1", "-1.0", "-1e0",
        "\u{2212}1", "0", "00",
    ];
    let mut texts: Texts = ttls.iter().map(|ttl| answering(&[record(".", "1", ttl, "")])).collect();
    texts.push(answering(&[record(".", "1", &format!("-1{}", "0".repeat(300)), "")]));
    texts.push(answering(&[record(".", "1", &format!("-{}", "0".repeat(300)), "")]));
    texts
}

fn counts() -> Texts {
    let parts = Parts {
        questions: vec![question("q."); 2],
        answers: vec![record("a.", "1", "0", "")],
        authority: vec![record("b.", "1", "0", ""); 3],
        additional: vec![record("c.", "1", "0", ""), edns("NoError", "")],
        ..Parts::empty()
    };
    let right = [2_u64, 1, 3, 2];
    let mut texts = vec![parts.text()];
    for place in 0..4 {
        let count = right[place];
        for said in [0, count - 1, count + 1, count + 256, count + 65_536, count + (1 << 32)] {
            let mut counts = right.map(|count| count.to_string());
            counts[place] = said.to_string();
            texts.push(parts.text_saying(&counts));
        }
        let mut counts = right.map(|count| count.to_string());
        // 2^64 and the count.
        counts[place] = format!("1844674407370955161{}", 6 + count);
        texts.push(parts.text_saying(&counts));
        for other in 0..4 {
            let mut swapped = right.map(|count| count.to_string());
            swapped.swap(place, other);
            texts.push(parts.text_saying(&swapped));
        }
    }
    for count in [9, 10, 99, 100, 500] {
        let many = Parts { questions: vec![question("."); count], ..Parts::empty() };
        texts.push(many.text());
        let said = [count + 1, 0, 0, 0].map(|count| count.to_string());
        texts.push(many.text_saying(&said));
    }
    texts
}

fn digit_escapes() -> Texts {
    let numbers = (0..=260).chain([299, 300, 511, 512, 999]);
    numbers.map(|number| asking(&format!("\\\\{number:03}."))).collect()
}

/// All short spellings over the signs that escapes are made of.
fn spelled_escapes() -> Texts {
    let mut texts = Vec::new();
    for spelling in all_strings("\\.03", 4) {
        texts.push(asking(&spelling));
        texts.push(asking(&format!("{spelling}.")));
    }
    for spelling in all_strings("\\\".", 3) {
        texts.push(asking(&format!("{spelling}a.")));
    }
    let others = [
        "", "..", "a..", "..a.", ".a.", "a", "a.b", "\\\\.", "\\\\..", "\\\\.\\\\..", "\\\\\\\\.",
        "\\\\\\\\..", "\\\\46.", "\\\\4.", "\\\\046.", "\\\\092.", "\\\\065.", "\\\\034.",
        "\\\\34.", "\\\\0340.", "\\\\x22.", "\\\\u0022.", "\\u0022.", "\\\".", "\\\\\".",
        "\\\\\\\".", "\\\\03a.", "\\\\ 34.", "\\\\-34.", "\\\\+34.", "\\\\1000.", "\\\\a.", "\\a.",
        "\\/.", "\\\\/.", "\\034.", "\\\\\\034.", "\\\\\\\\034.", "\\\\\\\\\\\\034.", "a b.",
        "a\u{7f}.", "\u{e9}.", "\\\\195\\\\169.",
    ];
    texts.extend(others.map(asking));
    texts
}

/// All strings of 1 to `longest` signs.
pub(super) fn all_strings(signs: &str, longest: usize) -> Texts {
    let mut all = Vec::new();
    let mut last = vec![String::new()];
    for _ in 0..longest {
        let longer = |string: &String| {
            signs.chars().map(|sign| format!("{string}{sign}")).collect::<Texts>()
        };
        last = last.iter().flat_map(longer).collect();
        all.extend(last.clone());
    }
    all
}

fn name_limits() -> Texts {
    let spelled = |sign: &str, count: usize| sign.repeat(count) + ".";
    let mut names = Vec::new();
    for sign in ["x", "\\\\.", "\\\\\\\\", "\\\\000", "\\\\255"] {
        for count in [1, 62, 63, 64, 65, 127, 128, 255, 256] {
            names.push(spelled(sign, count));
        }
        for last in 58..=64 {
            // Three labels of 63 octets and one more: 254 to 257 octets for 60 to 63.
            names.push(spelled(sign, 63).repeat(3) + &spelled(sign, last));
        }
        for labels in [126, 127, 128] {
            names.push(spelled(sign, 1).repeat(labels));
        }
    }
    names.push("a".repeat(5_000) + ".");
    names.push("a.".repeat(5_000));
    let in_record = |name: &String| answering(&[record(name, "1", "0", "")]);
    let as_owner: Texts = names.iter().map(in_record).collect();
    names.iter().map(|name| asking(name)).chain(as_owner).collect()
}

fn layouts() -> Texts {
    let short: &[u8] = &[1, b'n', 0];
    let soa_end = [9; 20];
    let rights: [(&str, Vec<u8>); 11] = [
        ("2", short.to_vec()),
        ("3", short.to_vec()),
        ("4", short.to_vec()),
        ("5", short.to_vec()),
        ("7", short.to_vec()),
        ("8", short.to_vec()),
        ("9", short.to_vec()),
        ("12", short.to_vec()),
        ("6", [short, short, &soa_end].concat()),
        ("14", [short, short].concat()),
        ("15", [&[0, 1], short].concat()),
    ];
    let mut texts = Vec::new();
    for (rtype, rdata) in &rights {
        for length in 0..=rdata.len() + 2 {
            let mut resized = rdata.clone();
            resized.resize(length, 0);
            texts.push(answering(&[record(".", rtype, "0", &hex(&resized))]));
        }
        for place in 0..rdata.len().min(8) {
            for octet in [0, 2, 0x3F, 0x40, 0x80, 0xC0] {
                let mut changed = rdata.clone();
                changed[place] = octet;
                texts.push(answering(&[record(".", rtype, "0", &hex(&changed))]));
            }
        }
    }
    for total in 253..=257 {
        let long = name_of(total);
        texts.push(answering(&[record(".", "2", "0", &hex(&long))]));
        texts.push(answering(&[record(
            ".",
            "14",
            "0",
            &hex(&[long.clone(), long.clone()].concat()),
        )]));
        texts.push(answering(&[record(
            ".",
            "6",
            "0",
            &hex(&[&[0], &long[..], &soa_end].concat()),
        )]));
        texts.push(answering(&[record(".", "15", "0", &hex(&[&[0, 0], &long[..]].concat()))]));
    }
    for rtype in ["1", "10", "11", "13", "16", "258"] {
        texts.push(answering(&[record(".", rtype, "0", "C00C")]));
    }
    let in_other_sections = |rdata: &str| Parts {
        authority: vec![record(".", "2", "0", rdata)],
        additional: vec![record(".", "15", "0", rdata)],
        ..Parts::empty()
    };
    for rdata in ["", "00", "C00C", "000000", "40"] {
        texts.push(in_other_sections(rdata).text());
    }
    for wrong in ["0", "000", "0a", "0G", "00 00", "0x00", "-1", "C0 0C"] {
        texts.push(answering(&[record(".", "1", "0", wrong)]));
    }
    texts
}

fn option_values() -> Texts {
    let members = [
        "\"NSID\":{\"HEX\":\"\"}",
        "\"NSID\":{\"HEX\":\"00FF\"}",
        "\"NSID\":{\"HEX\":\"0\"}",
        "\"NSID\":{\"HEX\":\"0a\"}",
        "\"NSID\":{}",
        "\"NSID\":\"00\"",
        "\"NSID\":{\"HEX\":\"00\",\"TEXT\":\"x\"}",
        "\"NSID\":{\"TEXT\":\"x\"}",
        "\"NSID\":{\"HEX\":00}",
        "\"NSID\":{\"hex\":\"00\"}",
        "\"nsid\":{\"HEX\":\"00\"}",
        "\"NSID\":{\"HEX\":\"00\"}}",
        "\"DAU\":[]",
        "\"DAU\":[8,13]",
        "\"DHU\":[1]",
        "\"N3U\":[1,255]",
        "\"DAU\":\"\"",
        "\"DAU\":{}",
        "\"DAU\":8",
        "\"EXPIRE\":\"NONE\"",
        "\"EXPIRE\":0",
        "\"EXPIRE\":4294967295",
        "\"EXPIRE\":4294967296",
        "\"EXPIRE\":\"none\"",
        "\"EXPIRE\":\"\"",
        "\"EXPIRE\":\"0\"",
        "\"EXPIRE\":NONE",
        "\"EXPIRE\":[]",
        "\"EXPIRE\":\"NONE",
        "\"EXPIRE\":-1",
        "\"KEEPALIVE\":0",
        "\"KEEPALIVE\":65535",
        "\"KEEPALIVE\":65536",
        "\"KEEPALIVE\":\"NONE\"",
        "\"KEEPALIVE\":\"0000\"",
        "\"KEEPALIVE\":[0]",
        "\"KEEPALIVE\":{}",
        "\"KEYTAG\":[]",
        "\"KEYTAG\":[0,65535]",
        "\"KEYTAG\":\"\"",
        "\"EDE\":{\"CODE\":0}",
        "\"EDE\":{\"CODE\":65535}",
        "\"EDE\":{\"CODE\":65536}",
        "\"EDE\":{}",
        "\"EDE\":0",
        "\"EDE\":{\"CODE\":1,\"TEXT\":\"\"}",
        "\"EDE\":{\"CODE\":1,\"TEXT\":\"x\"}",
        "\"EDE\":{\"TEXT\":\"x\",\"CODE\":1}",
        "\"EDE\":{\"TEXT\":\"x\"}",
        "\"EDE\":{\"CODE\":1,\"Purpose\":\"x\"}",
        "\"EDE\":{\"CODE\":1,\"TEXT\":x}",
        "\"EDE\":{\"CODE\":1,\"TEXT\":\"x\",\"TEXT\":\"x\"}",
        "\"EDE\":{\"CODE\":1,\"CODE\":1}",
        "\"EDE\":{\"CODE\":\"1\"}",
        "\"EDE\":{\"CODE\":1,\"TEXT\":null}",
        "\"EDE\":{\"CODE\":1,\"HEX\":\"00\"}",
        "\"LLQ\":\"00\"",
        "\"ECS\":\"00\"",
        "\"CHAIN\":\"00\"",
        "\"OPT\":\"00\"",
        "\"OPTn\":\"00\"",
        "\"\":\"00\"",
        "\"x\":0",
        "\"BADVERS\":0",
        "\"OPT1\":\"00\"",
        "\"OPT8\":\"00\"",
        "\"OPT13\":\"00\"",
        "\"OPT1\":[]",
        "\"OPT1\":0",
        "\"OPT1\":{\"HEX\":\"00\"}",
        "\"OPT1\":\"0\"",
        "\"OPT1\":\"0a\"",
        "\"OPT1\":\"\"",
        "\"Version\":0",
        "\"FLAGS\":[]",
        "\"RCODE\":\"NoError\"",
        "\"UDPSIZE\":512",
    ];
    let mut texts: Texts =
        members.iter().map(|member| with_options(&format!(",{member}"))).collect();
    // A wrong comma, and a member in the place of another option.
    texts.push(with_options(","));
    texts.push(with_options("\"NSID\":{\"HEX\":\"00\"}"));
    texts.push(with_options(",\"NSID\":{\"HEX\":\"00\"},"));
    texts.push(with_options(",,\"NSID\":{\"HEX\":\"00\"}"));
    let names = [
        "NSID", "DAU", "DHU", "N3U", "EXPIRE", "COOKIE", "KEEPALIVE", "PADDING", "KEYTAG", "EDE",
        "OPT3", "OPT4",
    ];
    let values = [
        "{\"HEX\":\"00\"}", "[1]", "\"NONE\"", "5", "[\"0102030405060708\"]", "{\"LENGTH\":2}",
        "{\"CODE\":2}", "\"0102\"", "\"\"", "[]", "{}",
    ];
    for name in names {
        for value in values {
            texts.push(with_options(&format!(",\"{name}\":{value}")));
        }
    }
    texts
}

fn cookies() -> Texts {
    let quoted = |count: usize| format!("\"{}\"", "A5".repeat(count));
    let mut texts = Vec::new();
    for client in 0..=17 {
        texts.push(with_options(&format!(",\"COOKIE\":[{}]", quoted(client))));
    }
    for client in [0, 7, 8, 9] {
        for server in (0..=34).filter(|count| client == 8 || count % 8 < 2) {
            texts.push(with_options(&format!(
                ",\"COOKIE\":[{},{}]",
                quoted(client),
                quoted(server)
            )));
        }
    }
    let lists = [
        "[]".to_string(),
        format!("[{0},{0},{0}]", quoted(8)),
        format!("[{0},{0},{1}]", quoted(8), quoted(0)),
        format!("[{0},{0},{0},{0},{0}]", quoted(8)),
        format!("[{},]", quoted(8)),
        format!("[,{}]", quoted(8)),
        quoted(8),
        format!("[{}", quoted(8)),
        format!("[[{}]]", quoted(8)),
        "[\"010203040506070\"]".to_string(),
        "[\"01020304050607Aa\"]".to_string(),
        "[0102030405060708]".to_string(),
        format!("[{},{}]", quoted(8), quoted(400)),
        format!("[{},{}]", quoted(400), quoted(8)),
        format!("[{}]", vec![quoted(0); 300].join(",")),
    ];
    texts.extend(lists.iter().map(|list| with_options(&format!(",\"COOKIE\":{list}"))));
    texts
}

fn padding() -> Texts {
    let mut texts = Vec::new();
    for length in 0..=4 {
        for octets in ["", "00", "01", "0000", "0100", "0001", "000000", "000100", "10", "F0000000"]
        {
            texts.push(with_options(&format!(
                ",\"PADDING\":{{\"LENGTH\":{length},\"HEX\":\"{octets}\"}}"
            )));
        }
        texts.push(with_options(&format!(",\"PADDING\":{{\"LENGTH\":{length}}}")));
    }
    let nines = "9".repeat(3_000);
    for length in
        ["65504", "65536", "4294967296", "18446744073709551616", "18446744073709551617", &nines]
    {
        texts.push(with_options(&format!(",\"PADDING\":{{\"LENGTH\":{length}}}")));
        texts.push(with_options(&format!(",\"PADDING\":{{\"LENGTH\":{length},\"HEX\":\"01\"}}")));
        texts.push(with_options(&format!(",\"PADDING\":{{\"LENGTH\":{length},\"HEX\":\"\"}}")));
    }
    let wrong = [
        "{\"HEX\":\"01\",\"LENGTH\":1}", "{\"HEX\":\"01\"}", "{}", "1", "\"01\"", "[]",
        "{\"LENGTH\":\"1\"}", "{\"LENGTH\":1,\"LENGTH\":1}", "{\"LENGTH\":1,\"HEX\":\"0\"}",
        "{\"LENGTH\":1,\"HEX\":\"0a\"}", "{\"LENGTH\":1,\"HEX\":1}", "{\"LENGTH\":01}",
        "{\"LENGTH\":-1}", "{\"LENGTH\":1,}",
    ];
    texts.extend(wrong.iter().map(|value| with_options(&format!(",\"PADDING\":{value}"))));
    texts
}

fn ede_escapes() -> Texts {
    let with_text =
        |text: &str| with_options(&format!(",\"EDE\":{{\"CODE\":1,\"TEXT\":\"{text}\"}}"));
    let mut texts: Texts = all_strings("\\\"a", 4).iter().map(|text| with_text(text)).collect();
    texts.extend((0x20..0x7F_u8).map(|octet| with_text(&format!("\\{}", char::from(octet)))));
    texts.extend(
        [
            "\\u0041", "\\u0022", "\\x41", "\\\\\\\\", "\\\\.", "\\\\034", "/", " ", "{}", "[],:",
            "\t", "\u{e9}", "\u{7f}",
        ]
        .map(with_text),
    );
    texts.push(with_text(&"t".repeat(3_000)));
    texts
}

fn numbered_options() -> Texts {
    let mut texts = Vec::new();
    for code in [3, 5, 6, 7, 9, 10, 11, 12, 14, 15, 4, 16] {
        let most = if code == 10 { 42 } else { 6 };
        for count in 0..=most {
            for octet in ["00", "41", "FF"] {
                if octet == "41" || count < 5 {
                    texts
                        .push(with_options(&format!(",\"OPT{code}\":\"{}\"", octet.repeat(count))));
                }
            }
        }
    }
    for text in ["4120", "411F", "417E", "417F", "4180", "2220", "5C5C", "7F41", "0A", ""] {
        texts.push(with_options(&format!(",\"OPT15\":\"0000{text}\"")));
    }
    texts
}

fn option_codes() -> Texts {
    let mut texts: Texts =
        (0..=22).map(|code| with_options(&format!(",\"OPT{code}\":\"7F7F7F\""))).collect();
    for code in spellings(65_535) {
        texts.push(with_options(&format!(",\"OPT{code}\":\"7F\"")));
    }
    for code in [
        "65539", "65540", "4294967300", "18446744073709551620", "05", "03", "004", "4\"", "4 ",
        " 4", "4a", "-4",
    ] {
        texts.push(with_options(&format!(",\"OPT{code}\":\"7F\"")));
    }
    texts.push(with_options(&format!(",\"OPT{}\":\"7F\"", "9".repeat(3_000))));
    texts.push(with_options(",\"OPT65536\":\"7\""));
    texts
}

fn option_pairs() -> Texts {
    let options = [
        ",\"OPT0\":\"\"", ",\"NSID\":{\"HEX\":\"01\"}", ",\"OPT4\":\"02\"", ",\"DAU\":[1]",
        ",\"DHU\":[]", ",\"N3U\":[2]", ",\"EXPIRE\":\"NONE\"", ",\"EXPIRE\":9",
        ",\"OPT9\":\"0102\"", ",\"COOKIE\":[\"0102030405060708\"]", ",\"OPT10\":\"\"",
        ",\"KEEPALIVE\":1", ",\"PADDING\":{\"LENGTH\":0}", ",\"KEYTAG\":[3]",
        ",\"EDE\":{\"CODE\":4}", ",\"OPT15\":\"\"", ",\"OPT16\":\"\"", ",\"OPT65535\":\"\"",
    ];
    let mut texts = Vec::new();
    for first in options {
        for second in options {
            texts.push(with_options(&format!("{first}{second}")));
        }
    }
    let rising: Vec<&str> = options
        .iter()
        .enumerate()
        .filter(|(place, _)| ![7, 8, 10, 15].contains(place))
        .map(|(_, option)| *option)
        .collect();
    texts.push(with_options(&rising.concat()));
    for place in 0..rising.len() - 1 {
        let mut swapped = rising.clone();
        swapped.swap(place, place + 1);
        texts.push(with_options(&swapped.concat()));
        let mut doubled = rising.clone();
        doubled.insert(place, rising[place]);
        texts.push(with_options(&doubled.concat()));
    }
    texts
}

fn edns_rcodes() -> Texts {
    let with_rcode = |rcode: u32, name: &str| {
        Parts { rcode: rcode.to_string(), additional: vec![edns(name, "")], ..Parts::empty() }
            .text()
    };
    let mut texts = Vec::new();
    for (name, _) in generate::RCODES {
        texts.extend((0..=16).map(|rcode| with_rcode(rcode, name)));
        texts.push(with_rcode(0, &name.to_lowercase()));
        texts.push(with_rcode(0, &name[1..]));
        texts.push(with_rcode(0, &format!("{name} ")));
    }
    for name in ["", "BADSIG", "0", "NOERROR", "16", "RCODE12", "NoError\\", "NoError\",\"NoError"]
    {
        texts.push(with_rcode(0, name));
    }
    texts
}

/// BADVERS, the name of RCODE 16, and BADSIG, which was its name in format 1.
fn rcode_16() -> Texts {
    let with_header_rcode = |rcode: &str, additional: Vec<String>| {
        Parts { rcode: rcode.to_string(), additional, ..Parts::empty() }.text()
    };
    let mut texts = Vec::new();
    for name in ["BADVERS", "BADSIG"] {
        let plain = edns(name, "");
        let with_do = plain.replacen("[]", "[\"DO\"]", 1);
        texts.push(adding(&[with_do]));
        texts.push(adding(&[edns(name, ",\"NSID\":{\"HEX\":\"16\"},\"OPT16\":\"\"")]));
        // Faults beside the name: 21, then 22 and 23, each one of them 20 with BADSIG.
        for (from, to) in [
            ("\"ID\":1", "\"ID\":65536"),
            ("\"ARCOUNT\":1", "\"ARCOUNT\":2"),
            ("\"Version\":0", "\"Version\":1"),
            ("\"UDPSIZE\":512", "\"UDPSIZE\":65536"),
        ] {
            texts.push(adding(&[plain.clone()]).replacen(from, to, 1));
        }
        for length in ["65536", "5000"] {
            texts.push(adding(&[edns(name, &format!(",\"PADDING\":{{\"LENGTH\":{length}}}"))]));
        }
        // Names in the place of the header's number.
        for rcode in [name.to_string(), format!("\"{name}\"")] {
            texts.push(with_header_rcode(&rcode, vec![]));
            texts.push(with_header_rcode(&rcode, vec![plain.clone()]));
        }
    }
    // No header's RCODE fits BADSIG.
    for rcode in ["1", "9", "15", "16"] {
        texts.push(with_header_rcode(rcode, vec![edns("BADSIG", "")]));
    }
    // Other letter cases, beginnings, longer names, escapes, two names.
    for name in [
        "badsig", "BadSig", "BADSIg", "BadVers", "BADVERs", "B", "BAD", "BADV", "BADVER", "BADSI",
        "BADVERSS", "BADVERSION", "BADSIGS", "BADVERSBADSIG", "BAD\\u0056ERS", "\\u0042ADVERS",
        "BADVER\\u0053", "BAD\\u0053IG", "BAD\\\\086ERS", "BAD\\VERS", "BADVERS\\", "BADVERS\\\"",
        "BADVERS\",\"BADSIG", "BADVERS\",\"RCODE\":\"BADSIG", "BADSIG\",\"RCODE\":\"BADVERS",
    ] {
        texts.push(adding(&[edns(name, "")]));
    }
    // One letter changed.
    for place in 0..7 {
        let mut name = "BADVERS".to_string();
        name.replace_range(place..place + 1, "X");
        texts.push(adding(&[edns(&name, "")]));
    }
    // Not a string.
    for value in ["BADVERS", "[\"BADVERS\"]", "16", "\"BADVERS", "BADVERS\""] {
        texts.push(adding(&[edns("BADVERS", "").replacen("\"BADVERS\"", value, 1)]));
    }
    // Ordinary strings and names, which are carried unchanged.
    for text in ["BADSIG", "BADVERS", "\\\"RCODE\\\":\\\"BADSIG\\\""] {
        let ede = format!(",\"EDE\":{{\"CODE\":16,\"TEXT\":\"{text}\"}}");
        texts.push(with_options(&ede));
        texts.push(adding(&[edns("BADVERS", &ede)]));
    }
    texts.push(asking("BADSIG."));
    texts.push(answering(&[record("badsig.BADVERS.", "16", "0", &hex(b"\x06BADSIG"))]));
    // Beside a second one, and as ordinary records: with DO, other flags, two of them.
    let opt = |ttl: u32| record(".", "41", &ttl.to_string(), "");
    texts.push(adding(&[edns("BADVERS", ""), edns("BADVERS", "")]));
    texts.push(adding(&[edns("BADVERS", ""), edns("BADSIG", "")]));
    texts.push(adding(&[edns("BADVERS", ""), opt(0x0100_0000)]));
    texts.push(adding(&[opt(0x0100_8000)]));
    texts.push(adding(&[opt(0x0100_4000)]));
    texts.push(adding(&[opt(0x0100_0000), opt(0x0100_8000)]));
    // Beside a TSIG record with 16 in its error field.
    let tsig = record("key.", "250", "0", &hex(&tsig_rdata(16)));
    let tsig = tsig.replacen("\"CLASS\":1", "\"CLASS\":255", 1);
    texts.push(with_header_rcode("9", vec![tsig.clone()]));
    for (rcode, name) in [("9", "NotAuth"), ("0", "BADVERS"), ("9", "BADVERS"), ("9", "BADSIG")] {
        texts.push(with_header_rcode(rcode, vec![edns(name, ""), tsig.clone()]));
    }
    texts
}

fn edns_members() -> Texts {
    let element = |version: &str, flags: &str, rcode: &str, size: &str| {
        adding(&[format!("{{\"EDNS\":{{\"Version\":{version},\"FLAGS\":{flags},\"RCODE\":{rcode},\"UDPSIZE\":{size}}}}}")])
    };
    let right = ["0", "[]", "\"NoError\"", "512"];
    let others: [&[&str]; 4] = [
        &["1", "2", "255", "256", "65536", "00", "01", "-1", "-0", "\"0\"", ""],
        &[
            "[\"DO\"]", "[\"DO\",\"DO\"]", "[\"do\"]", "[\"BIT1\"]", "[\"\"]", "[DO]", "\"DO\"",
            "0", "[0]", "[ ]", "{}", "[\"DO\"", "[]]", "", "null", "[[]]",
        ],
        &[
            "NoError", "0", "\"\"", "null", "[]", "\"NoError", "\"NoErro\"", "\"NoErrorr\"",
            "\"Noerror\"",
        ],
        &["0", "65535", "65536", "00", "0512", "-512", "\"512\"", "", "5 12"],
    ];
    let mut texts = Vec::new();
    for (place, choices) in others.iter().enumerate() {
        for choice in *choices {
            let mut values = right;
            values[place] = choice;
            texts.push(element(values[0], values[1], values[2], values[3]));
        }
    }
    let whole = edns("NoError", "");
    for (from, to) in [
        ("EDNS", "edns"),
        ("EDNS", "EDNS0"),
        ("{\"EDNS\":{", "{\"EDNS\":{}"),
        ("}}", "},\"EDNS\":{}}"),
        ("}}", "},\"NAME\":\".\"}"),
        ("}}", "}"),
        ("}}", "}}}"),
        ("}}", "} }"),
    ] {
        texts.push(adding(&[whole.replacen(from, to, 1)]));
    }
    for list in [
        vec![whole.clone(), String::new()],
        vec![String::new(), whole.clone()],
        vec![whole.clone() + " "],
        vec![format!("[{whole}]")],
    ] {
        texts.push(adding(&list));
    }
    texts
}

fn edns_beside_records() -> Texts {
    let option = "00030001AA";
    let opt = |name: &str, ttl: &str, rdata: &str| record(name, "41", ttl, rdata);
    let mut texts = Vec::new();
    // A single TYPE 41 record as an ordinary one: right only if it can't be an EDNS element.
    for name in [".", "a.", "\\\\."] {
        for ttl in [
            "0", "32768", "65536", "1", "16384", "49152", "16777216", "33554432", "16842752", "-1",
            "-2147483648", "-16777216", "-2147483649",
        ] {
            for rdata in ["", option] {
                texts.push(adding(&[opt(name, ttl, rdata)]));
            }
        }
    }
    let rdatas = [
        "00", "0003", "000300", "00030000", "00030001", "00030001AA", "00030001AABB",
        "0003000100050000", "00030001AA00050000", "0003000000030000", "0005000000030000",
        "0003000000050000", "FFFF0000", "FFFF000000000000", "00000000", "0003FFFF",
    ];
    for rdata in rdatas {
        texts.push(adding(&[opt(".", "0", rdata)]));
    }
    for rcode in 0..=16 {
        for ttl in ["0", "16777216", "33554432"] {
            let parts = Parts {
                rcode: rcode.to_string(),
                additional: vec![opt(".", ttl, "")],
                ..Parts::empty()
            };
            texts.push(parts.text());
        }
    }
    // Several of them, and in the other sections.
    let good = edns("NoError", "");
    let could_be = opt(".", "0", "");
    let never = opt("a.", "0", "");
    let plain = record(".", "1", "0", "");
    let kinds = [good, could_be, never, plain];
    for first in &kinds {
        for second in &kinds {
            texts.push(adding(&[first.clone(), second.clone()]));
            for third in &kinds {
                texts.push(adding(&[first.clone(), second.clone(), third.clone()]));
            }
            let sections = Parts {
                answers: vec![first.clone()],
                authority: vec![second.clone()],
                additional: vec![kinds[0].clone()],
                ..Parts::empty()
            };
            texts.push(sections.text());
            texts.push(Parts { additional: vec![], ..sections.clone() }.text());
            texts.push(
                Parts { authority: vec![], additional: vec![second.clone()], ..sections }.text(),
            );
        }
    }
    for rtype in ["40", "42", "65577", "4294967337", "18446744073709551657", "041", "-41"] {
        texts.push(adding(&[record(".", rtype, "0", "")]));
    }
    texts
}

/// A text whose message has exactly `length` octets, most of them padding.
fn padded_to(length: usize) -> String {
    with_options(&format!(",\"PADDING\":{{\"LENGTH\":{}}}", length - 27))
}

fn sizes() -> Texts {
    let mut texts = Vec::new();
    for length in [4_094, 4_095, 4_096, 4_097, 4_098, 65_534, 65_535, 65_536, 65_537] {
        texts.push(padded_to(length));
    }
    for length in 65_520..=65_540_usize {
        // An option's value, and RDATA with the option's code and length, at their limits.
        texts.push(with_options(&format!(",\"PADDING\":{{\"LENGTH\":{length}}}")));
    }
    for length in 4_095..=4_097_usize {
        texts.push(answering(&[record(".", "16", "0", &"5A".repeat(length - 23))]));
        let half = (length - 23) / 2 - 11;
        let rest = length - 12 - 22 - half;
        texts.push(answering(&[
            record(".", "16", "0", &"5A".repeat(half)),
            record(".", "1", "0", &"A5".repeat(rest)),
        ]));
        texts
            .push(with_options(&format!(",\"NSID\":{{\"HEX\":\"{}\"}}", "0F".repeat(length - 27))));
        texts.push(with_options(&format!(",\"DAU\":[{}]", vec!["7"; length - 27].join(","))));
        texts.push(with_options(&format!(
            ",\"EDE\":{{\"CODE\":1,\"TEXT\":\"{}\"}}",
            "e".repeat(length - 29)
        )));
        let roots = Parts { questions: vec![question("."); (length - 12) / 5], ..Parts::empty() };
        texts.push(roots.text());
    }
    // Options and records that are too long only together.
    for length in [65_481, 65_482, 65_483, 65_484, 65_485, 65_486, 65_500] {
        texts.push(with_options(&format!(
            ",\"NSID\":{{\"HEX\":\"{}\"}},\"PADDING\":{{\"LENGTH\":{length}}}",
            "AB".repeat(20)
        )));
        texts.push(with_options(&format!(
            ",\"PADDING\":{{\"LENGTH\":{length}}},\"KEYTAG\":[1,2,3,4,5,6,7,8,9,10]"
        )));
        texts.push(with_options(&format!(
            ",\"PADDING\":{{\"LENGTH\":{length}}},\"EDE\":{{\"CODE\":1,\"TEXT\":\"{}\"}}",
            "t".repeat(18)
        )));
        let name = "n".repeat(22) + ".";
        let parts = Parts { questions: vec![question(&name)], ..Parts::empty() };
        let padding = edns("NoError", &format!(",\"PADDING\":{{\"LENGTH\":{length}}}"));
        texts.push(Parts { additional: vec![padding.clone()], ..parts.clone() }.text());
        texts.push(adding(&[record(&name, "1", "0", "01"), padding]));
    }
    texts
}

/// Texts with every choice of faults, early and late ones.
fn order_of_refusals() -> Texts {
    let late_20 = |text: String, wanted: bool| if wanted { text + "}" } else { text };
    let mut texts = Vec::new();
    for faults in 0..64 {
        let has = |bit: u32| faults >> bit & 1 == 1;
        // 22 and 23 depend on the padding's length.
        let length = if has(3) {
            "65536"
        } else if has(2) {
            "5000"
        } else {
            "5"
        };
        let early_20 = if has(0) {
            "01"
        } else if has(1) {
            "65536"
        } else {
            "1"
        };
        let late_21 = if has(4) { ",\"EDE\":{\"CODE\":65536}" } else { "" };
        let element = edns("NoError", &format!(",\"PADDING\":{{\"LENGTH\":{length}}}{late_21}"));
        let parts = Parts { id: early_20.to_string(), additional: vec![element], ..Parts::empty() };
        texts.push(late_20(parts.text(), has(5)));
    }
    let huge = "9".repeat(500);
    texts.push(with_options(&format!(",\"PADDING\":{{\"LENGTH\":{huge}}},\"KEYTAG\":[{huge}]")));
    texts.push(with_options(&format!(",\"PADDING\":{{\"LENGTH\":{huge}}},\"KEYTAG\":[{huge}a]")));
    texts.push(with_options(&format!(",\"DAU\":[{huge}],\"PADDING\":{{\"LENGTH\":{huge}}}")));
    texts
}

/// Lines around 65,536 octets.
fn long_lines() -> Texts {
    let mut texts = Vec::new();
    let base = answering(&[record(".", "16", "0", "")]).len();
    for length in 65_535..=65_537_usize {
        // Digits of the TYPE make up for the even count of hex digits.
        let odd = (length - base) % 2;
        let rtype = if odd == 1 { "160" } else { "16" };
        let text = answering(&[record(".", rtype, "0", &"C".repeat(length - base - odd))]);
        assert_eq!(text.len(), length);
        if length > LINE_TEXT {
            texts.push(text.replacen("\"ID\":1", "\"ID\":x", 1));
        }
        texts.push(text);
    }
    let fill = |text: &str, mark: &str, sign: &str, length: usize| {
        let count = length - (text.len() - mark.len());
        text.replacen(mark, &sign.repeat(count), 1)
    };
    let long_number = with_options(",\"PADDING\":{\"LENGTH\":@}");
    let long_name = asking("@.");
    texts.push(fill(&long_number, "@", "9", LINE_TEXT));
    texts.push(fill(&long_name, "@", "z", LINE_TEXT));
    texts.push("{".repeat(LINE_TEXT + 1));
    texts
}

/// The member of a Z that is set, with the comma before it.
const Z: &str = ",\"Z\":1";

/// The header's members and the arrays of an empty text, all but the first
/// with their commas, each as a mark of the place before it.
const OUTER_MARKS: [&str; 18] = [
    "\"ID\":", ",\"QR\":", ",\"Opcode\":", ",\"AA\":", ",\"TC\":", ",\"RD\":", ",\"RA\":",
    ",\"AD\":", ",\"CD\":", ",\"RCODE\":", ",\"QDCOUNT\":", ",\"ANCOUNT\":", ",\"NSCOUNT\":",
    ",\"ARCOUNT\":", ",\"questionRRs\":", ",\"answerRRs\":", ",\"authorityRRs\":",
    ",\"additionalRRs\":",
];

/// Puts octets behind the number of RA, the place of Z.
pub(super) fn behind_ra(text: &str, put: &str) -> String {
    replaced(text, ",\"AD\":", &format!("{put},\"AD\":"))
}

pub(super) fn with_z(text: &str) -> String {
    behind_ra(text, Z)
}

/// The text with something else in the place of the first such part.
pub(super) fn replaced(text: &str, from: &str, to: &str) -> String {
    assert!(text.contains(from), "{from}");
    text.replacen(from, to, 1)
}

/// Puts a member and its comma before a mark: a member with or without its
/// comma, or what closes an object.
fn put_member(text: &str, mark: &str, member: &str) -> String {
    let put = if mark.starts_with('"') { format!("{member},") } else { format!(",{member}") };
    replaced(text, mark, &format!("{put}{mark}"))
}

/// An empty text with these numbers of RA and AD, and something between them.
fn between_ra_and_ad(ra: &str, between: &str, ad: &str) -> String {
    let text = replaced(&Parts::empty().text(), "\"RA\":0", &format!("\"RA\":{ra}"));
    behind_ra(&replaced(&text, "\"AD\":0", &format!("\"AD\":{ad}")), between)
}

/// The header's members of one bit, all but Z.
const BITS: [&str; 7] = ["QR", "AA", "TC", "RD", "RA", "AD", "CD"];

/// An empty text with some of the bits set.
pub(super) fn with_bits(is_set: impl Fn(&str) -> bool) -> String {
    let set = |text: String, bit: &&str| {
        replaced(&text, &format!("\"{bit}\":0"), &format!("\"{bit}\":1"))
    };
    BITS.iter().filter(|bit| is_set(bit)).fold(Parts::empty().text(), set)
}

/// Z with every number of the members beside it.
fn z_beside_members() -> Texts {
    let empty = Parts::empty().text();
    let mut texts = Vec::new();
    for z in ["", Z] {
        for (ra, ad) in [("0", "0"), ("0", "1"), ("1", "0"), ("1", "1")] {
            texts.push(between_ra_and_ad(ra, z, ad));
        }
        for bit in BITS {
            // Set alone, and clear alone.
            texts.push(behind_ra(&with_bits(|other| other == bit), z));
            texts.push(behind_ra(&with_bits(|other| other != bit), z));
        }
        for member in ["Opcode", "RCODE"] {
            for number in 0..=16 {
                let set = format!("\"{member}\":{number}");
                let text = replaced(&empty, &format!("\"{member}\":0"), &set);
                texts.push(behind_ra(&text, z));
            }
        }
    }
    texts.extend(with_spellings(&with_z(&empty), &[("\"RA\":0", 1), ("\"AD\":0", 1)]));
    texts.extend(counts().iter().map(|text| with_z(text)));
    texts
}

/// What may be mistaken for Z, in its place.
const NEAR_Z: [&str; 64] = [
    ",\"Z\":0", ",\"Z\":2", ",\"Z\":10", ",\"Z\":01", ",\"Z\":-1", ",\"Z\":\"1\"", ",\"Z\":1.0",
    ",\"Z\":+1", ",\"Z\":true", ",\"Z\":", ",\"z\":1", ",\"Z\" :1", ",\"Z\": 1",
    ",\"Z\":1,\"Z\":1", ",\"Z\":0,\"Z\":1", ",\"Z\":1,\"Z\":0", ",\"Z\":0,\"Z\":0",
    ",\"Z\":1,\"Z\":1,\"Z\":1", ",\"z\":0", ",\"Z\":\"0\"", ",\"Z\":\"\"", ",\"Z\":false",
    ",\"Z\":null", ",\"Z\":[1]", ",\"Z\":[]", ",\"Z\":{\"Z\":1}", ",\"Z\":{}", ",\"Z\"", ",\"Z",
    ",\"Z:1", ",Z:1", ",Z\":1", ",'Z':1", ",\"Z\"1", ",\"Z\"=1", ",\"Z\"::1", ",\"Z\":1:",
    ",\"Z\":11", ",\"Z\":1 ", ", \"Z\":1", " ,\"Z\":1", ",\" Z\":1", ",\"Z \":1", ",\"\":1",
    ",\"ZZ\":1", ",\"MBZ\":1", ",\"Zero\":1", ",\"Y\":1", ",\"A\":1", ",\"\\u005A\":1",
    ",\"\\u005a\":1", ",\"\\Z\":1", ",\"\\\\090\":1", ",\"Z\":\\u0031", "\"Z\":1", ",,\"Z\":1",
    ",\"Z\":1,", ",", ",1", "1", "\t,\"Z\":1", ",\"Z\":1\r", ",\"\u{396}\":1", ",\"Z\":\u{ff11}",
];

fn spellings_of_z() -> Texts {
    let mut texts = Vec::new();
    for near in NEAR_Z {
        texts.push(between_ra_and_ad("0", near, "0"));
        texts.push(between_ra_and_ad("1", near, "1"));
        // Behind a number of RA that is out of range, which would be 21.
        texts.push(between_ra_and_ad("2", near, "0"));
    }
    texts.extend(with_spellings(&with_z(&Parts::empty().text()), &[("\"Z\":1", 1)]));
    // The comma behind Z left out, and AD with it.
    texts.push(replaced(&with_z(&asking("z.")), "1,\"AD\":0", "1\"AD\":0"));
    texts.push(replaced(&with_z(&asking("z.")), "1,\"AD\":0", "1"));
    texts.push(replaced(&with_z(&asking("z.")), "1,\"AD\":0", "1,\"CD\":0"));
    texts
}

/// Z in every place but its own, alone and beside a right one.
fn z_elsewhere() -> Texts {
    let members = [
        "\"Z\":1", "\"Z\":0", "\"Z\":2", "\"Z\":10", "\"Z\":01", "\"Z\":-1", "\"Z\":\"1\"",
        "\"z\":1", "\"Z\":1,\"Z\":1",
    ];
    let empty = Parts::empty().text();
    let at_the_end = |text: &str, member: &str| format!("{},{member}}}", &text[..text.len() - 1]);
    let mut texts = Vec::new();
    for member in members {
        for mark in OUTER_MARKS.iter().filter(|mark| **mark != ",\"AD\":") {
            texts.push(put_member(&empty, mark, member));
        }
        texts.push(at_the_end(&empty, member));
        texts.push(empty.clone() + "," + member);
    }
    for member in &members[..2] {
        for mark in OUTER_MARKS {
            texts.push(put_member(&with_z(&empty), mark, member));
        }
        texts.push(at_the_end(&with_z(&empty), member));
        for text in [inner_text(), with_z(&inner_text())] {
            for mark in INNER_MARKS {
                texts.push(put_member(&text, mark, member));
            }
        }
    }
    // In the place of another member of the header.
    for mark in &OUTER_MARKS[..14] {
        let name = mark.trim_matches([',', '"', ':']);
        let renamed = replaced(&empty, mark, &mark.replacen(name, "Z", 1));
        texts.push(renamed.replacen("\"Z\":0", "\"Z\":1", 1));
        texts.push(renamed);
    }
    texts
}

/// Marks of all places inside the questions, records and EDNS elements of
/// `inner_text`, in the order of the text.
const INNER_MARKS: [&str; 24] = [
    "\"NAME\":\"q.\"", ",\"TYPE\":1,", ",\"CLASS\":1}", "}],\"answerRRs\"", "],\"answerRRs\"",
    "\"NAME\":\"r.\"", ",\"TYPE\":16", ",\"CLASS\":1,", ",\"TTL\":", ",\"RDATAHEX\":",
    "}],\"authorityRRs\"", "\"EDNS\":", "\"Version\":", ",\"FLAGS\":", ",\"RCODE\":\"",
    ",\"UDPSIZE\":", ",\"NSID\":", "\"HEX\":\"01\"", ",\"EDE\":", "\"CODE\":", ",\"TEXT\":",
    "}}}]", "}}]", "}]}",
];

fn inner_text() -> String {
    let options = ",\"NSID\":{\"HEX\":\"01\"},\"EDE\":{\"CODE\":2,\"TEXT\":\"t\"}";
    Parts {
        questions: vec![question("q.")],
        answers: vec![record("r.", "16", "3", "0A")],
        additional: vec![edns("NoError", options)],
        ..Parts::empty()
    }
    .text()
}

fn members_moved_beside_z() -> Texts {
    moved(&with_z(&asking("m.")))
}

fn cut_beside_z() -> Texts {
    let text = with_z(&asking("z."));
    (0..=text.len()).map(|length| text[..length].to_string()).collect()
}

/// A text with Z changed in small ways from RA to AD.
fn changed_near_z() -> Texts {
    let text = with_z(&asking("z."));
    let mut texts = Vec::new();
    let start = text.find("\"RA\":").expect("RA is there");
    let end = text.find(",\"CD\":").expect("CD is there");
    let signs = ["0", "1", "2", "Z", "z", "\"", ":", ",", " ", "\\", "-", "}"];
    for place in start..end {
        let (before, behind) = text.split_at(place);
        for shift in 0..4 {
            let sign = signs[(place + 3 * shift) % signs.len()];
            texts.push(format!("{before}{sign}{}", &behind[1..]));
            texts.push(format!("{before}{sign}{behind}"));
        }
        for count in 1..=6.min(end - place) {
            // A part left out, and a part doubled.
            texts.push(format!("{before}{}", &behind[count..]));
            texts.push(format!("{before}{}{behind}", &behind[..count]));
        }
    }
    texts
}

fn octets_in_z_name() -> Lines {
    each_octet(&behind_ra(&asking("z."), ",\"@\":1"), '@')
}

fn octets_in_z_number() -> Lines {
    each_octet(&behind_ra(&asking("z."), ",\"Z\":@"), '@')
}

/// Z set, and the wrong `"Z":0`, beside faults of each number; Z set beside
/// EDNS elements and ordinary TYPE 41 records, which it leaves as they are.
fn z_beside_faults_and_edns() -> Texts {
    let mut texts = Vec::new();
    for text in order_of_refusals() {
        texts.push(with_z(&text));
        texts.push(behind_ra(&text, ",\"Z\":0"));
    }
    for length in [4_095, 4_096, 4_097, 65_534, 65_535, 65_536, 65_537] {
        texts.push(with_z(&padded_to(length)));
    }
    for (name, rcode) in generate::RCODES {
        for header_rcode in [rcode % 16, (rcode + 1) % 16] {
            let additional = vec![edns(name, ",\"OPT20\":\"40\"")];
            let parts = Parts { rcode: header_rcode.to_string(), additional, ..Parts::empty() };
            texts.push(with_z(&parts.text()));
        }
    }
    texts.extend(edns_beside_records().iter().step_by(2).map(|text| with_z(text)));
    // Faults that are 21: names, layouts, options, ranges.
    texts.push(with_z(&asking(&("n".repeat(64) + "."))));
    texts.push(with_z(&answering(&[record(".", "2", "0", "C00C")])));
    texts.push(with_z(&answering(&[record(".", "1", "2147483648", "")])));
    texts.push(with_z(&with_options(",\"OPT3\":\"\"")));
    texts.push(with_z(&with_options(",\"DAU\":[],\"NSID\":{\"HEX\":\"\"}")));
    // A 20 behind Z: in an array, and behind the text.
    texts.push(with_z(&asking("n")));
    texts.push(with_z(&answering(&[record(".", "1", "-0", "")])));
    texts.push(with_z(&with_options(",\"Z\":1")));
    texts.push(with_z(&asking("n.")) + " ");
    // Lines of 65,536 and 65,537 octets.
    let base = with_z(&asking("@.")).len() - 1;
    for length in [LINE_TEXT, LINE_TEXT + 1] {
        texts.push(with_z(&asking(&("z".repeat(length - base) + "."))));
    }
    texts
}

fn random_texts_with_z() -> Lines {
    let mut random = Random::new(6);
    let mut texts = Vec::new();
    while texts.len() < 200 {
        let text = match texts.len() % 4 {
            0 => generate::valid_text(&mut random),
            1 => generate::damaged_text(&mut random),
            _ => generate::drafted_text(&mut random),
        };
        let text = generate::text_about_z(&mut random, text);
        if text.len() <= 900 {
            texts.push(text);
        }
    }
    texts
}

fn random_texts() -> Vec<Vec<u8>> {
    let mut random = Random::new(1035);
    let mut texts = Vec::new();
    while texts.len() < 600 {
        let text = match texts.len() % 4 {
            0 => generate::damaged_text(&mut random),
            _ => generate::drafted_text(&mut random),
        };
        if text.len() <= 900 {
            texts.push(text);
        }
    }
    texts
}

/// Line ends that are none, empty lines, and a last line that gets no newline.
fn line_ends() -> Vec<Vec<u8>> {
    let text = asking("end.").into_bytes();
    let with_end = |end: &[u8]| [text.as_slice(), end].concat();
    let opt = wire_message(0, &[], [&[], &[], &[opt_record(1, 0, &[])]]);
    vec![
        with_end(b"\r"),
        with_end(b" "),
        with_end(b"\0"),
        with_end(&text),
        b"\r".to_vec(),
        b" ".to_vec(),
        Vec::new(),
        Vec::new(),
        b"refused 20 at 0".to_vec(),
        b"[]".to_vec(),
        b"{}".to_vec(),
        b"null".to_vec(),
        text_of(&opt).expect("the message is right"),
        asking("last.").into_bytes(),
    ]
}
