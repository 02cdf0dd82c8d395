//! The places of refusals by change request A1: the rows of the format's tables and more of
//! their kind, written down by hand.

use std::collections::{BTreeMap, BTreeSet};

use second::generate;
use second::lines::octets_of_hex;
use second::random::Random;
use second::{cases, message_of, reader_takes, text_of, to_text, to_wire, Refusal};

fn octets(hex: &str) -> Vec<u8> {
    octets_of_hex(hex.replace(' ', "").as_bytes()).expect("the example is hexadecimal")
}

#[track_caller]
fn refused(hex: &str, number: u32, place: u64) {
    assert_eq!(text_of(&octets(hex)), Err(Refusal { number, place }), "{hex}");
}

#[track_caller]
fn accepted(hex: &str) {
    assert!(text_of(&octets(hex)).is_ok(), "{hex}");
}

/// A message with one question; these octets follow the header.
fn asking(hex: &str) -> String {
    format!("00000000 00010000 00000000 {hex}")
}

/// A message with one answer; these octets follow the header.
fn answering(hex: &str) -> String {
    format!("00000000 00000001 00000000 {hex}")
}

/// A message with one answer of the root. RDATA begins at 23.
fn with_rdata(rtype: u32, rdata: &str) -> String {
    let length = rdata.replace(' ', "").len() / 2;
    answering(&format!("00 {rtype:04X} 0001 00000000 {length:04X} {rdata}"))
}

/// A name of this many octets: three labels of 63, one more, the root.
fn long_name(octets: usize) -> String {
    let last = octets - 3 * 64 - 2;
    format!("{}{last:02X}{}00", format!("3F{}", "61".repeat(63)).repeat(3), "61".repeat(last))
}

/// The refusals in the format's table of short messages.
#[test]
fn short_messages() {
    refused("", 1, 0);
    refused("00000000000000000000000000", 8, 12);
    refused("000000000001000000000000C00C00010001", 5, 12);
    refused("0000000000010000000000000161C00C00010001", 5, 14);
    refused("0000000000010000000000000361", 1, 12);
    refused("00000000000100000000000000000100", 1, 15);
    refused("0000000000000001000000000000020001000000000004016100", 1, 23);
    refused("00000000000000010000000000000200010000000000020161", 7, 23);
    refused("000000000000000100000000000002000100000000000401610000", 11, 26);
}

#[test]
fn questions_and_their_fields() {
    refused("", 1, 0);
    refused("00000000 00000000 000000", 1, 0);
    refused(&asking(""), 1, 12);
    refused(&asking("0361"), 1, 12);
    refused(&asking("00"), 1, 13);
    refused(&asking("00 00"), 1, 13);
    refused(&asking("00 0001"), 1, 15);
    refused(&asking("00 0001 00"), 1, 15);
    accepted(&asking("00 0001 0001"));
    refused(&asking("00 0001 0001 00"), 8, 17);
    refused(&asking("0161"), 1, 14);
    refused(&asking("0161 02"), 1, 14);
    refused(&asking("0161 0262"), 1, 14);
    refused(&asking("C0"), 1, 12);
    refused(&asking("C00C"), 5, 12);
    refused(&asking("C00C 0001 0001"), 5, 12);
    refused(&asking("0161 C0"), 1, 14);
    refused(&asking("0161 C00C"), 5, 14);
    refused(&asking("0161 C00C 0001 0001"), 5, 14);
    refused(&asking(&format!("40{}00", "61".repeat(64))), 4, 12);
    refused(&asking("016180"), 4, 14);
    refused(&asking("0161 BF"), 4, 14);
    accepted(&asking(&format!("{} 0001 0001", long_name(255))));
    let too_long = long_name(256);
    refused(&asking(&format!("{too_long} 0001 0001")), 6, 204);
    // Cut inside its last label; cut behind it, the label is still too much.
    refused(&asking(&too_long[..too_long.len() - 4]), 1, 204);
    refused(&asking(&too_long[..too_long.len() - 2]), 6, 204);
}

#[test]
fn records_and_their_fields() {
    let whole = "00 0001 0001 00000000 0002 ABCD".replace(' ', "");
    let places = [12, 13, 13, 15, 15, 17, 17, 17, 17, 21, 21, 23, 23];
    for (length, place) in places.into_iter().enumerate() {
        refused(&answering(&whole[..2 * length]), 1, place);
    }
    accepted(&answering(&whole));
    // The same behind a question, and behind a record.
    for (length, place) in places.into_iter().enumerate() {
        let cut = &whole[..2 * length];
        refused(&format!("00000000 00010001 00000000 00 0001 0001 {cut}"), 1, place + 5);
        refused(&format!("00000000 00000001 00010000 {whole} {cut}"), 1, place + 13);
    }
    // RDATA past the end comes before what is in it.
    for rdata in ["", "40", "C0", "C00C", "0161"] {
        refused(&answering(&format!("00 0002 0001 00000000 0005 {rdata}")), 1, 23);
        refused(&answering(&format!("00 0010 0001 00000000 FFFF {rdata}")), 1, 23);
    }
}

#[test]
fn rdata_with_names() {
    for rtype in [2, 3, 4, 5, 7, 8, 9, 12] {
        refused(&with_rdata(rtype, "0161"), 7, 23);
        refused(&with_rdata(rtype, "02"), 7, 23);
        refused(&with_rdata(rtype, "01610000"), 11, 26);
        refused(&with_rdata(rtype, "0000"), 11, 24);
        refused(&with_rdata(rtype, "40"), 4, 23);
        refused(&with_rdata(rtype, "016180"), 4, 25);
        refused(&with_rdata(rtype, "C0"), 7, 23);
        refused(&with_rdata(rtype, "0161C0"), 7, 23);
        refused(&with_rdata(rtype, "C016"), 1, 25);
        refused(&with_rdata(rtype, "C017"), 5, 23);
        refused(&with_rdata(rtype, "C00B"), 5, 23);
        refused(&with_rdata(rtype, "0161C017"), 5, 25);
        accepted(&with_rdata(rtype, "C00C"));
        refused(&with_rdata(rtype, "C00C00"), 11, 25);
        refused(&with_rdata(rtype, "C00CC00C"), 11, 25);
        accepted(&with_rdata(rtype, ""));
        refused(&with_rdata(rtype, &long_name(256)), 6, 215);
        refused(&with_rdata(rtype, &long_name(256)[..508]), 7, 23);
    }
    refused(&with_rdata(15, "00"), 7, 23);
    refused(&with_rdata(15, "0000"), 7, 23);
    refused(&with_rdata(15, "0000 40"), 4, 25);
    refused(&with_rdata(15, "0000 0161"), 7, 23);
    refused(&with_rdata(15, "0000 00 40"), 11, 26);
    refused(&with_rdata(15, "0000 C00C 00"), 11, 27);
    for first in ["00", "0161 00", "C00C", "0161 C00C"] {
        let second_at = 23 + first.replace(' ', "").len() as u64 / 2;
        refused(&with_rdata(14, first), 7, 23);
        refused(&with_rdata(14, &format!("{first} C0")), 7, 23);
        refused(&with_rdata(14, &format!("{first} 0161")), 7, 23);
        refused(&with_rdata(14, &format!("{first} 40")), 4, second_at);
        refused(&with_rdata(14, &format!("{first} C00B")), 5, second_at);
        refused(&with_rdata(14, &format!("{first} C0{second_at:02X}")), 5, second_at);
        refused(&with_rdata(14, &format!("{first} 00 00")), 11, second_at + 1);
        refused(&with_rdata(14, &format!("{first} C00C 0000")), 11, second_at + 2);
        for count in 0..20 {
            refused(&with_rdata(6, &format!("{first} 00 {}", "40".repeat(count))), 7, 23);
        }
        accepted(&with_rdata(6, &format!("{first} 00 {}", "40".repeat(20))));
        for count in [21, 22, 40] {
            let rdata = format!("{first} 00 {}", "40".repeat(count));
            refused(&with_rdata(6, &rdata), 11, second_at + 21);
        }
    }
    refused(&with_rdata(6, &format!("0000 {}", "00".repeat(21))), 11, 45);
    refused(&with_rdata(6, &format!("0000 {}", "00".repeat(19))), 7, 23);
}

#[test]
fn faults_after_jumps() {
    // A first answer with octets in its RDATA at 23, then a name that jumps there.
    let jumping = |held: &str, record: &str| {
        let length = held.len() / 2;
        format!("00000000 00000002 00000000 00 0010 0001 00000000 {length:04X} {held} {record}")
    };
    let ns = "00 0002 0001 00000000 0002 C017";
    let owner = "C017 0001 0001 00000000 0000";
    let second = "00 000E 0001 00000000 0003 00 C017";
    for record in [ns, owner, second] {
        refused(&jumping("40", record), 4, 23);
        refused(&jumping("016180", record), 4, 25);
        refused(&jumping("C017", record), 5, 23);
        refused(&jumping("0161C017", record), 5, 25);
        refused(&jumping("C00B", record), 5, 23);
        refused(&jumping("3F", record), 1, 23);
        accepted(&jumping("C00C", record));
        // A second jump, to the second octet of TYPE, a label of 16 octets. The walk stands at 31.
        for (octets, number) in [("40", 4), ("BF", 4), ("C00E", 5), ("C00F", 5), ("3F", 1)] {
            refused(
                &jumping(&format!("C00E 000000000000 {octets}").replace(' ', ""), record),
                number,
                31,
            );
        }
        accepted(&jumping("C00E000000000000C00D", record));
        let to_the_end = octets(record).len() as u64;
        // A label up to the message's end, and one octet less and more.
        let held = format!("{to_the_end:02X}");
        refused(&jumping(&held, record), 1, 24 + to_the_end);
        let held = format!("{:02X}", to_the_end + 1);
        refused(&jumping(&held, record), 1, 23);
    }
    // The last octet is where the walk stands: C0 without a second octet, 40, a label's length.
    for (last, number) in [("C0", 1), ("40", 4), ("01", 1)] {
        let message = format!(
            "00000000 00000003 00000000 00 0010 0001 00000000 0001 18 {ns} \
             00 0010 0001 00000000 0001 {last}"
        );
        refused(&message, number, 48);
    }
    // 255 octets and more over a jump: the label that is too much is in the question's name.
    let long = long_name(255);
    let question = format!("{long} 0001 0001");
    for (labels, place) in [("0161".to_string(), 204), (format!("3F{}", "62".repeat(63)), 140)] {
        let entry = format!("{labels} C00C 0001 0001 00000000 0000");
        refused(&format!("00000000 00010001 00000000 {question} {entry}"), 6, place);
    }
    // A jump into a TYPE field, and into the middle of a label.
    refused("00000000 00020000 00000000 00 4001 0001 C00D 0001 0001", 4, 13);
    refused("00000000 00020000 00000000 02 6140 00 0001 0001 C00E 0001 0001", 4, 14);
    let into_label = |middle: &str| {
        format!("00000000 00020000 00000000 03 61{middle} 00 0001 0001 C00E 0001 0001")
    };
    refused(&into_label("C00E"), 5, 14);
    refused(&into_label("3F62"), 1, 14);
    refused(&into_label("8000"), 4, 14);
    accepted(&into_label("C00C"));
}

/// A text with these array contents and counts.
fn whole(counts: [u32; 4], arrays: [&str; 4]) -> String {
    let [qd, an, ns, ar] = counts;
    let [questions, answers, authority, additional] = arrays;
    format!(
        "{{\"ID\":0,\"QR\":0,\"Opcode\":0,\"AA\":0,\"TC\":0,\"RD\":0,\"RA\":0,\"AD\":0,\"CD\":0,\
         \"RCODE\":0,\"QDCOUNT\":{qd},\"ANCOUNT\":{an},\"NSCOUNT\":{ns},\"ARCOUNT\":{ar},\
         \"questionRRs\":[{questions}],\"answerRRs\":[{answers}],\"authorityRRs\":[{authority}],\
         \"additionalRRs\":[{additional}]}}"
    )
}

fn with_name(name: &str) -> String {
    let question = format!("{{\"NAME\":{name},\"TYPE\":1,\"CLASS\":1}}");
    whole([1, 0, 0, 0], [&question, "", "", ""])
}

fn with_ttl_and_hex(ttl: &str, hex: &str) -> String {
    let record =
        format!("{{\"NAME\":\".\",\"TYPE\":1,\"CLASS\":1,\"TTL\":{ttl},\"RDATAHEX\":{hex}}}");
    whole([0, 1, 0, 0], ["", &record, "", ""])
}

fn edns(flags: &str, rcode: &str, options: &str) -> String {
    format!(
        "{{\"EDNS\":{{\"Version\":0,\"FLAGS\":{flags},\"RCODE\":{rcode},\
         \"UDPSIZE\":512{options}}}}}"
    )
}

fn with_edns(flags: &str, rcode: &str, options: &str) -> String {
    whole([0, 0, 0, 1], ["", "", "", &edns(flags, rcode, options)])
}

fn with_options(options: &str) -> String {
    with_edns("[]", "\"NoError\"", options)
}

fn behind_ra(put: &str) -> String {
    whole([0; 4], [""; 4]).replacen(",\"AD\"", &format!("{put},\"AD\""), 1)
}

/// Checks that 20 is where the mark `^` stands; the mark is no part of the text. Cut behind the
/// octet at fault the text has the same place, and so it has cut before it, unless that is a text.
#[track_caller]
fn wrong_at_mark(marked: &str) {
    let place = marked.find('^').expect("a mark is there");
    let text = marked.replacen('^', "", 1);
    assert!(!text.contains('^'));
    let refusal = Refusal { number: 20, place: place as u64 };
    assert_eq!(message_of(text.as_bytes()), Err(refusal), "{marked}");
    let behind_fault = &text.as_bytes()[..text.len().min(place + 1)];
    assert_eq!(message_of(behind_fault), Err(refusal), "{marked}");
    let cut = &text.as_bytes()[..place];
    assert!(reader_takes(cut) || message_of(cut) == Err(refusal), "{marked}");
}

#[test]
fn numbers_and_hex() {
    for hex in ["\"A^\"", "\"A^G\"", "\"^a\"", "\"A5A^\"", "\"A5^-\"", "^A5\"", "\"A5\"^\"", "^"] {
        wrong_at_mark(&with_ttl_and_hex("0", hex));
    }
    for ttl in [
        "0^1", "-^0", "-^", "^", "-^-1", "0^-", "1^-", "-1^-", "1^.0", "^+1", "^\"1\"", "-^\"",
        "1^ ",
    ] {
        wrong_at_mark(&with_ttl_and_hex(ttl, "\"\""));
    }
    for number in ["0^1", "^-", "^-1", "^", "0^0", "12^a", "^\"", "^ 1", "1^ ", "^null", "1^e1"] {
        let in_question =
            whole([1, 0, 0, 0], ["{\"NAME\":\".\",\"TYPE\":@,\"CLASS\":1}", "", "", ""]);
        wrong_at_mark(&in_question.replacen('@', number, 1));
        let text = whole([0; 4], [""; 4]);
        for member in ["ID", "QR", "Opcode", "RCODE", "QDCOUNT", "ARCOUNT"] {
            let (from, to) = (format!("\"{member}\":0"), format!("\"{member}\":{number}"));
            wrong_at_mark(&text.replacen(&from, &to, 1));
        }
    }
}

#[test]
fn names() {
    for name in [
        "\"^\"", "\"a^\"", "\".^a.\"", "\"a.^.\"", "\"\\\\0^46.\"", "\"\\\\03^3.\"",
        "\"\\\\12^6.\"", "\"\\\\25^6.\"", "\"\\\\^3.\"", "\"\\\\2^.\"", "\"\\\\25^.\"", "\"\\^.\"",
        "\"\\^\"", "\"\\\\^\"", "\"\\\\\\^.\"", "\"\\\\\\\\^\"", "\"\\\\.^\"", "\"\\\\0^92.\"",
        "\"\\\\0^65.\"", "\"\\\\^9.\"", "\"\\\\03^5.\"", "\"\\\\1^0.\"", "\"\\\\2^6.\"",
        "\"\\\\^a.\"", "\"^ .\"", "\"a^\u{7f}.\"", "\"^\u{e9}.\"", "^.\"", "\"a.\"^.\"", "\".^.\"",
        "\"\\^u002E.\"", "\"\\\\255^\"",
    ] {
        wrong_at_mark(&with_name(name));
    }
    // All strings of three digits.
    for number in 0..1000 {
        let digits = format!("{number:03}");
        let is_right = |number| matches!(number, 0..=32 | 34 | 127..=255);
        if is_right(number) {
            assert!(message_of(with_name(&format!("\"\\\\{digits}.\"")).as_bytes()).is_ok());
            continue;
        }
        // The first digit that no right number has there.
        let begins = |length: usize| {
            (0..256)
                .any(|other| is_right(other) && format!("{other:03}")[..length] == digits[..length])
        };
        let good = (0..3).take_while(|length| begins(length + 1)).count();
        let (before, behind) = digits.split_at(good);
        wrong_at_mark(&with_name(&format!("\"\\\\{before}^{behind}.\"")));
    }
}

#[test]
fn z() {
    for z in [
        ",\"Z\":^0", ",\"Z\":1^0", ",\"Z\":1^\"AD\"", ",\"Z\":^2", ",\"Z\":^01", ",\"Z\":^-1",
        ",\"Z\":^\"1\"", ",\"Z\":1,\"^Z\":1", ",\"Z\"^1", ",\"Z^Z\":1", ",\"^z\":1", ",\"A^Z\":1",
        ",^Z", "^\"Z\":1", "^ ", ",\"Z\":1^ ", ",\"Z\":^true", ",\"Z\":1,^,", ",^,",
    ] {
        wrong_at_mark(&behind_ra(z));
    }
    // In every other place of the header, and behind the last member.
    for member in [
        "QR", "Opcode", "AA", "TC", "RD", "RA", "CD", "RCODE", "QDCOUNT", "questionRRs",
        "answerRRs",
    ] {
        let mark = format!(",\"{member}\"");
        wrong_at_mark(&whole([0; 4], [""; 4]).replacen(&mark, &format!(",\"^Z\":1{mark}"), 1));
    }
    let text = whole([0; 4], [""; 4]);
    wrong_at_mark(&format!("{}^,\"Z\":1}}", &text[..text.len() - 1]));
    wrong_at_mark(&text.replacen("{\"ID\"", "{\"^Z\":1,\"ID\"", 1));
}

#[test]
fn edns_and_options() {
    for rcode in [
        "\"NoErr^\"", "\"BAD^SIG\"", "\"BAD^\"", "\"^\"", "\"N^\"", "\"No^\"", "\"Not^X\"",
        "\"NoError^s\"", "\"^noError\"", "^0", "\"BADT^\"", "\"BADTR^I\"", "\"NX^\"", "\"YX^X\"",
        "\"D^O\"", "\"BADVERS^I\"", "^null",
    ] {
        wrong_at_mark(&with_edns("[]", rcode, ""));
    }
    for flags in [
        "[^0]", "[\"^\"]", "[\"D^\"]", "[\"DO^O\"]", "[\"DO\"^,\"DO\"]", "[]^]", "[^ ]", "^\"DO\"",
        "[\"^do\"]", "^{}", "[^[]]",
    ] {
        wrong_at_mark(&with_edns(flags, "\"NoError\"", ""));
    }
    let options = [
        ",\"KEY^S\":[]", ",\"N^2U\":[]", ",\"NSI^X\":{}", ",\"OPT0^5\":\"\"", ",\"OPT^\":\"\"",
        ",\"OPT^-1\":", ",\"OPT1^X\":\"\"", ",\"OPT^S\":\"\"", ",\"O^\":", ",\"N^\"", ",\"KE^\"",
        ",\"E^\"", ",\"ED^N", ",\"D^\"", ",\"^\"", ",^,", ",^}", "^\"", "^ ", ",\"^Z\":1",
        ",\"^UDPSIZE\":512", ",\"^FLAGS\":[]", ",\"^x\":0", ",\"EXPIRE\":\"^x\"",
        ",\"EXPIRE\":\"^\"", ",\"EXPIRE\":\"N^one\"", ",\"EXPIRE\":\"NONE^,", ",\"EXPIRE\":^-1",
        ",\"EXPIRE\":^[]", ",\"EXPIRE\":0^0", ",\"EXPIRE\":\"NONE\"^0", ",\"EXPIRE\":^N",
        ",\"NSID\":{^}", ",\"NSID\":{\"HEX\":\"0^\"}", ",\"NSID\":{\"HEX\":\"00\"^,",
        ",\"NSID\":^\"00\"", ",\"NSID\":{\"^TEXT\":\"x\"}", ",\"DAU\":[^,1]", ",\"DAU\":[1,^]",
        ",\"DAU\":[0^1]", ",\"DAU\":[^-1]", ",\"DAU\":^8", ",\"DHU\":[1^ ]", ",\"N3U\":[^\"1\"]",
        ",\"KEYTAG\":[1^;2]", ",\"KEYTAG\":^{}", ",\"COOKIE\":[^1]", ",\"COOKIE\":[\"0^\"]",
        ",\"COOKIE\":[\"00\",^]", ",\"COOKIE\":^\"00\"", ",\"COOKIE\":[\"00\"^\"\"]",
        ",\"KEEPALIVE\":^\"NONE\"", ",\"KEEPALIVE\":0^1", ",\"PADDING\":{\"^HEX\":\"01\"}",
        ",\"PADDING\":{\"LENGTH\":^\"1\"}", ",\"PADDING\":{^}",
        ",\"PADDING\":{\"LENGTH\":1,\"^LENGTH\":1}", ",\"PADDING\":{\"LENGTH\":1,\"HEX\":\"01\"^,",
        ",\"PADDING\":{\"LENGTH\":1,^}", ",\"PADDING\":{\"LENGTH\":1,\"HEX\":^1}",
        ",\"EDE\":{\"^TEXT\":\"x\"}", ",\"EDE\":{\"CODE\":1,\"^HEX\":\"00\"}",
        ",\"EDE\":{\"CODE\":1,\"T^YPE\":1}", ",\"EDE\":{\"CODE\":^-1}",
        ",\"EDE\":{\"CODE\":1,\"TEXT\":\"a\\^n\"}", ",\"EDE\":{\"CODE\":1,\"TEXT\":\"\\^/\"}",
        ",\"EDE\":{\"CODE\":1,\"TEXT\":\"a\"^b\"}", ",\"EDE\":{\"CODE\":1,\"TEXT\":\"^\t\"}",
        ",\"EDE\":{\"CODE\":1,\"TEXT\":\"a^\u{e9}\"}", ",\"EDE\":{\"CODE\":1,\"TEXT\":^x}",
        ",\"EDE\":{\"CODE\":1,\"TEXT\":\"a\"^,", ",\"OPT1\":\"0^\"", ",\"OPT1\":\"0^a\"",
        ",\"OPT1\":^[]", ",\"OPT1\":\"00\"^0",
    ];
    for option in options {
        wrong_at_mark(&with_options(option));
        wrong_at_mark(&with_options(&format!(",\"EDE\":{{\"CODE\":2}},\"OPT3\":\"\"{option}")));
    }
    wrong_at_mark(&with_options(",\"^BADVERS\":0"));
    wrong_at_mark(&with_options(",\"EDE\":{\"CODE\":1,\"TEXT\":\"a\"},\"^TEXT\":\"b\""));
    // The EDNS object in each array.
    let element = edns("[]", "\"NoError\"", "");
    let marked = element.replacen("EDNS", "^EDNS", 1);
    let record = "{\"NAME\":\".\",\"TYPE\":1,\"CLASS\":1,\"TTL\":1,\"RDATAHEX\":\"\"}";
    wrong_at_mark(&whole([1, 0, 0, 0], [&marked, "", "", ""]));
    wrong_at_mark(&whole([0, 1, 0, 0], ["", &marked, "", ""]));
    wrong_at_mark(&whole([0, 0, 1, 0], ["", "", &marked, ""]));
    wrong_at_mark(&whole([0, 0, 2, 0], ["", "", &format!("{record},{marked}"), ""]));
    wrong_at_mark(&whole([0, 0, 0, 1], ["", "", "", &element.replacen("EDNS", "E^X", 1)]));
    wrong_at_mark(&whole([0, 0, 0, 1], ["", "", "", &element.replacen("EDNS", "^DNS", 1)]));
    wrong_at_mark(&whole([0, 0, 0, 1], ["", "", "", &format!("{element},^]")]));
    wrong_at_mark(&whole([1, 0, 0, 0], [&record.replacen(",\"TTL\"", "^,\"TTL\"", 1), "", "", ""]));
}

/// Half of a spelling is a beginning: the place is the input's length.
#[test]
fn half_spellings() {
    let cut_at_mark = |marked: String| {
        let text = &marked[..marked.find('^').expect("a mark is there")];
        let refusal = Refusal { number: 20, place: text.len() as u64 };
        assert_eq!(message_of(text.as_bytes()), Err(refusal), "{marked}");
    };
    for hex in ["^", "\"^", "\"A^", "\"A5^", "\"A5A^"] {
        cut_at_mark(with_ttl_and_hex("0", hex));
    }
    for ttl in ["^", "-^", "-1^", "0^", "10^"] {
        cut_at_mark(with_ttl_and_hex(ttl, "\"\""));
    }
    for name in [
        "^", "\"^", "\"\\^", "\"\\\\^", "\"\\\\2^", "\"\\\\25^", "\"\\\\255^", "\"\\\\.^",
        "\"\\\\\\^", "\"\\\\\\\\^", "\".^", "\"a^", "\"a.^", "\"a.\\^", "\"\\\\0^", "\"\\\\03^",
        "\"\\\\1^", "\"\\\\12^",
    ] {
        cut_at_mark(with_name(name));
    }
    for option in [
        "^", ",^", ",\"^", ",\"N^", ",\"OPT^", ",\"OPT0^", ",\"OPT5^", ",\"OPT5\"^", ",\"KE^",
        ",\"KEY^", ",\"E^", ",\"EXPIRE\":\"^", ",\"EXPIRE\":\"NON^",
        ",\"EDE\":{\"CODE\":1,\"TEXT\":\"\\^", ",\"COOKIE\":[\"0^", ",\"DAU\":[^", ",\"DAU\":[1,^",
        ",\"PADDING\":{\"LENGTH\":1,^",
    ] {
        cut_at_mark(with_options(option));
    }
    for rcode in ["\"^", "\"N^", "\"BAD^", "\"NoErr^", "\"BADVERS^"] {
        cut_at_mark(with_edns("[]", rcode, ""));
    }
    for flags in ["^", "[^", "[\"^", "[\"D^", "[\"DO^", "[\"DO\"^"] {
        cut_at_mark(with_edns(flags, "\"NoError\"", ""));
    }
    for z in [
        "^", ",^", ",\"^", ",\"Z^", ",\"Z\"^", ",\"Z\":^", ",\"Z\":1^", ",\"Z\":1,^",
        ",\"Z\":1,\"^",
    ] {
        cut_at_mark(behind_ra(z));
    }
}

/// What is 21 or 22 is in the grammar: a 20 behind it is at its own place.
#[test]
fn what_is_not_20_is_passed_over() {
    let digits = "7".repeat(300);
    let long_label = format!("\"{}.\"", "l".repeat(70));
    let two = format!("{0},{0}", edns("[]", "\"BADCOOKIE\"", ""));
    let texts = [
        whole([0; 4], [""; 4]).replacen("\"ID\":0", &format!("\"ID\":{digits}"), 1),
        whole([0; 4], [""; 4]).replacen("\"QR\":0", "\"QR\":2", 1),
        whole([9; 4], [""; 4]),
        with_name(&long_label),
        with_name(&format!("\"{}\"", "n.".repeat(200))),
        with_ttl_and_hex(&format!("-{digits}"), "\"\""),
        with_options("").replacen("\"Version\":0", "\"Version\":9", 1),
        with_options(",\"OPT3\":\"\",\"OPT65536\":\"\""),
        with_options(",\"EDE\":{\"CODE\":1,\"TEXT\":\"\"},\"DAU\":[256],\"COOKIE\":[\"\"]"),
        with_options(&format!(",\"PADDING\":{{\"LENGTH\":{digits}}}")),
        whole([0, 0, 0, 2], ["", "", "", &two]),
    ];
    for text in texts {
        let refusal = message_of(text.as_bytes()).expect_err("it is 21 or 22");
        assert!(refusal.number > 20 && refusal.place == 0);
        wrong_at_mark(&format!("{text}^ "));
        wrong_at_mark(&format!("{text}^}}"));
        wrong_at_mark(&format!("{}^", &text[..text.len() - 1]));
        wrong_at_mark(&format!("{}^x", &text[..text.len() - 1]));
    }
}

#[test]
fn beginnings_of_texts_have_their_length() {
    let texts = cases::texts_with_every_member();
    assert_eq!(texts.len(), 12);
    for text in &texts {
        assert!(message_of(text).is_ok(), "{}", String::from_utf8_lossy(text));
        for length in 0..text.len() {
            let refusal = Refusal { number: 20, place: length as u64 };
            assert_eq!(message_of(&text[..length]), Err(refusal));
        }
        for octet in 0..=255 {
            let more = [text.as_slice(), &[octet]].concat();
            let refusal = Refusal { number: 20, place: text.len() as u64 };
            assert_eq!(message_of(&more), Err(refusal));
        }
    }
    let all = String::from_utf8(texts.concat()).expect("texts are ASCII");
    for part in [
        "\"Z\":1", "[\"DO\"]", "\"FLAGS\":[]", "\"NSID\":{\"HEX\":\"6", "\"HEX\":\"\"}",
        "\"DAU\":[8,", "\"DAU\":[]", "\"DHU\":[]", "\"DHU\":[2", "\"N3U\":[1]", "\"N3U\":[]",
        "\"EXPIRE\":\"NONE\"", "\"EXPIRE\":0", "\"EXPIRE\":4294967295",
        "\"COOKIE\":[\"24A5C3DE0B9F1D42\"]", "01\",\"FE", "\"KEEPALIVE\":600",
        "\"PADDING\":{\"LENGTH\":4}", "\"LENGTH\":2,\"HEX\":\"0A00\"}", "\"KEYTAG\":[20326,0]",
        "\"KEYTAG\":[]", "\"EDE\":{\"CODE\":22}", "\"TEXT\":\"a \\\"b\\\" \\\\/~\"",
        "\"OPT0\":\"\"", "\"OPT65535\":\"FF\"", "\"TTL\":-1,", "\"TTL\":-2147483648", "\\\\.",
        "\\\\\\\\", "\\\\034", "\\\\000", "\\\\255", "\"NAME\":\".\"",
    ] {
        assert!(all.contains(part), "{part}");
    }
}

#[test]
fn no_place_is_behind_the_input() {
    let check_text = |text: &[u8]| {
        if let Err(refusal) = to_wire(text, &mut []) {
            assert!(refusal.place <= text.len() as u64);
            assert!(refusal.number == 20 || refusal.place == 0);
        }
    };
    let check_message = |message: &[u8]| {
        if let Err(refusal) = to_text(message, &mut []) {
            assert!(refusal.place <= message.len() as u64);
            assert!(![2, 9, 10].contains(&refusal.number) || refusal.place == 0);
            assert!(refusal.number < 4 || refusal.place >= 12 || refusal.number > 8);
        }
    };
    cases::towire().iter().for_each(|text| check_text(text));
    for line in cases::totext() {
        if let Some(message) = octets_of_hex(&line) {
            check_message(&message);
            for length in 0..message.len().min(60) {
                check_message(&message[..length]);
            }
        }
    }
    let mut random = Random::new(41);
    for _ in 0..10_000 {
        check_text(&generate::text(&mut random));
        check_message(&generate::message(&mut random));
        check_message(&generate::misfit_message(&mut random));
    }
}

#[test]
fn random_inputs_meet_many_places() {
    let mut random = Random::new(42);
    let mut places: BTreeMap<u32, BTreeSet<u64>> = BTreeMap::new();
    for _ in 0..20_000 {
        let message = generate::message(&mut random);
        let text = generate::text(&mut random);
        for answer in [text_of(&message), message_of(&text)] {
            if let Err(refusal) = answer {
                places.entry(refusal.number).or_default().insert(refusal.place);
            }
        }
    }
    for (number, least) in [(1, 200), (4, 200), (5, 100), (6, 10), (7, 50), (11, 100), (20, 1_000)]
    {
        let count = places[&number].len();
        assert!(count >= least, "{number}: {count}");
    }
    assert!(places[&21].len() == 1 && places[&22].len() == 1);
}
