//! The worked and the marked examples of the profile's paper, and answers that its
//! rules and those of change requests A1, A6 and A10 decide, written down by hand. The places
//! of refusal 20 are in `places.rs`.

use second::generate::RCODES;
use second::lines::{hex_of_octets, octets_of_hex};
use second::{message_of, text_of, to_text, to_wire, Refusal};

fn octets(hex: &str) -> Vec<u8> {
    octets_of_hex(hex.replace(' ', "").as_bytes()).expect("the example is hexadecimal")
}

fn text(hex: &str) -> String {
    String::from_utf8(text_of(&octets(hex)).expect("the example is accepted")).unwrap()
}

#[track_caller]
fn refused(hex: &str, number: u32, place: u64) {
    assert_eq!(text_of(&octets(hex)), Err(Refusal { number, place }), "{hex}");
}

/// A message's text with these array contents and counts.
fn whole(id: u32, rcode: u32, counts: [u32; 4], arrays: [&str; 4]) -> String {
    let [qd, an, ns, ar] = counts;
    let [questions, answers, authority, additional] = arrays;
    format!(
        "{{\"ID\":{id},\"QR\":0,\"Opcode\":0,\"AA\":0,\"TC\":0,\"RD\":0,\"RA\":0,\"AD\":0,\"CD\":0,\
         \"RCODE\":{rcode},\"QDCOUNT\":{qd},\"ANCOUNT\":{an},\"NSCOUNT\":{ns},\"ARCOUNT\":{ar},\
         \"questionRRs\":[{questions}],\"answerRRs\":[{answers}],\"authorityRRs\":[{authority}],\
         \"additionalRRs\":[{additional}]}}"
    )
}

fn asking(name: &str) -> String {
    let question = format!("{{\"NAME\":\"{name}\",\"TYPE\":1,\"CLASS\":1}}");
    whole(0, 0, [1, 0, 0, 0], [&question, "", "", ""])
}

fn answering(record: &str) -> String {
    whole(0, 0, [0, 1, 0, 0], ["", record, "", ""])
}

fn adding(record: &str) -> String {
    whole(0, 0, [0, 0, 0, 1], ["", "", "", record])
}

/// An EDNS element; each option begins with its comma.
fn edns_element(rcode: &str, options: &str) -> String {
    format!(
        "{{\"EDNS\":{{\"Version\":0,\"FLAGS\":[],\"RCODE\":\"{rcode}\",\"UDPSIZE\":512{options}}}}}"
    )
}

fn edns(options: &str) -> String {
    adding(&edns_element("NoError", options))
}

/// The text with something put behind the number of RA.
fn behind_ra(text: &str, put: &str) -> String {
    let (before, behind) = text.split_once(",\"AD\":").expect("AD is there");
    format!("{before}{put},\"AD\":{behind}")
}

fn with_z(text: &str) -> String {
    behind_ra(text, ",\"Z\":1")
}

#[track_caller]
fn answer_is(text: &str, number: u32) {
    let shown = &text[..text.len().min(900)];
    match number {
        0 => {
            let message = message_of(text.as_bytes()).expect(shown);
            assert_eq!(text_of(&message).unwrap(), text.as_bytes());
        }
        20 => {
            let refusal = message_of(text.as_bytes()).expect_err(shown);
            assert!(refusal.number == 20 && refusal.place <= text.len() as u64, "{shown}");
        }
        _ => assert_eq!(message_of(text.as_bytes()), Err(Refusal { number, place: 0 }), "{shown}"),
    }
}

#[test]
fn worked_example() {
    let hex = "1A2B01000001000000000000016101620000010001";
    let expected = "{\"ID\":6699,\"QR\":0,\"Opcode\":0,\"AA\":0,\"TC\":0,\"RD\":1,\"RA\":0,\"AD\":0,\"CD\":0,\"RCODE\":0,\"QDCOUNT\":1,\"ANCOUNT\":0,\"NSCOUNT\":0,\"ARCOUNT\":0,\"questionRRs\":[{\"NAME\":\"a.b.\",\"TYPE\":1,\"CLASS\":1}],\"answerRRs\":[],\"authorityRRs\":[],\"additionalRRs\":[]}";
    assert_eq!(text(hex), expected);
    assert_eq!(hex_of_octets(&message_of(expected.as_bytes()).unwrap()), hex.as_bytes());
}

#[test]
fn marked_examples() {
    refused("", 1, 0);
    assert_eq!(text("00000000 00000000 00000000"), whole(0, 0, [0; 4], [""; 4]));
    refused("00000000 00000000 00000000 00", 8, 12);
    // Z alone; before change request A6 this was 3.
    let z_alone = text("00000040 00000000 00000000");
    assert_eq!(z_alone, with_z(&whole(0, 0, [0; 4], [""; 4])));
    assert!(z_alone.contains(",\"RA\":0,\"Z\":1,\"AD\":0,"));
    let with_ttl = |ttl: &str| text(&format!("00000000 00000001 00000000 00 0001 0001 {ttl} 0000"));
    assert!(with_ttl("FFFFFFFF").contains("\"TTL\":-1,"));
    assert!(with_ttl("80000000").contains("\"TTL\":-2147483648,"));
    let with_label =
        |label: &str| text(&format!("00000000 00010000 00000000 {label} 00 0001 0001"));
    assert_eq!(with_label("012E"), asking("\\\\.."));
    assert_eq!(with_label("0100"), asking("\\\\000."));
    refused("00000000 00010000 00000000 C00C 0001 0001", 5, 12);
    assert_eq!(
        text("00000000 00000000 00000001 00 0029 04D0 00008000 0004 00090000"),
        adding("{\"EDNS\":{\"Version\":0,\"FLAGS\":[\"DO\"],\"RCODE\":\"NoError\",\"UDPSIZE\":1232,\"EXPIRE\":\"NONE\"}}")
    );
    assert_eq!(
        text("00000000 00000000 00000001 00 0029 04D0 01014000 0006 000F00020015"),
        adding("{\"NAME\":\".\",\"TYPE\":41,\"CLASS\":1232,\"TTL\":16859136,\"RDATAHEX\":\"000F00020015\"}")
    );
    assert!(text("00000007 00000000 00000001 00 0029 04D0 01000000 0000")
        .contains("\"RCODE\":\"BADCOOKIE\""));
}

#[test]
fn names_and_labels_at_their_limits() {
    let question = |name: &str| format!("00000000 00010000 00000000 {name} 0001 0001");
    let label = |count: usize| format!("{count:02X}{}", "61".repeat(count));
    let long = |last: usize| question(&format!("{}{}00", label(63).repeat(3), label(last)));
    assert!(text(&long(61)).contains("\"NAME\":\"aaa"));
    refused(&long(62), 6, 204);
    assert!(text(&question(&(label(63) + "00"))).contains("\"NAME\":\"aaa"));
    refused(&question(&(label(64) + "00")), 4, 12);
    // 250 octets so far, a label of 10, and 7 octets left: 1 before 6.
    let start = format!("{}{}", label(63).repeat(3), label(57));
    refused(&format!("00000000 00010000 00000000 {start} 0A 61616161616161"), 1, 262);
    refused(&format!("00000000 00010000 00000000 {start} 0A 61616161616161616161"), 6, 262);
    // The same in RDATA: 7 before 6.
    let record = |rdata: &str, length: usize| {
        format!("00000000 00000001 00000000 00 0002 0001 00000000 {length:04X} {rdata}")
    };
    refused(&record(&format!("{start} 0A 61616161616161"), 258), 7, 23);
    refused(&record(&format!("{start} 0A 61616161616161616161"), 261), 6, 273);
}

#[test]
fn faults_in_rdata() {
    let ns = |rdata: &str| {
        let length = rdata.len() / 2;
        format!("00000000 00010001 00000000 016100 0001 0001 00 0002 0001 00000000 {length:04X} {rdata}")
    };
    refused(&ns("C0"), 7, 30);
    refused(&ns("40"), 4, 30);
    refused(&ns("C01E"), 5, 30);
    refused(&ns("C00B"), 5, 30);
    refused(&ns("0262"), 7, 30);
    refused(&ns("016200FF"), 11, 33);
    assert!(text(&ns("C00C")).contains("\"RDATAHEX\":\"016100\""));
    assert!(text(&ns("")).contains("\"TYPE\":2,\"CLASS\":1,\"TTL\":0,\"RDATAHEX\":\"\""));
    // A pointer to a root octet.
    assert!(text(&ns("C00E")).contains("\"RDATAHEX\":\"00\""));
    // A run that begins in an earlier RDATA and passes the message's end.
    refused(
        "00000000 00000002 00000000 00 0010 0001 00000000 0001 20 00 0002 0001 00000000 0002 C017",
        1,
        23,
    );
}

#[test]
fn exact_room_and_one_less() {
    let message = octets("1A2B01000001000000000000016101620000010001");
    let text_of_clear = text_of(&message).unwrap();
    check_room(&message, &text_of_clear);
    // Z takes six octets of text and none of the message.
    let message = octets("1A2B01400001000000000000016101620000010001");
    let text = text_of(&message).unwrap();
    assert_eq!(text.len(), text_of_clear.len() + 6);
    check_room(&message, &text);
}

fn check_room(message: &[u8], text: &[u8]) {
    let mut room = vec![0xEE; text.len()];
    assert_eq!(to_text(message, &mut room), Ok(text.len()));
    assert_eq!(room, text);
    let mut small = vec![0xEE; text.len() - 1];
    assert_eq!(to_text(message, &mut small), Err(Refusal { number: 10, place: 0 }));
    assert!(small.iter().all(|octet| *octet == 0xEE));
    let mut room = vec![0xEE; message.len()];
    assert_eq!(to_wire(text, &mut room), Ok(message.len()));
    assert_eq!(room, message);
    let mut small = vec![0xEE; message.len() - 1];
    assert_eq!(to_wire(text, &mut small), Err(Refusal { number: 23, place: 0 }));
    assert!(small.iter().all(|octet| *octet == 0xEE));
}

#[test]
fn messages_over_the_limit() {
    assert_eq!(text_of(&vec![0; 65_536]), Err(Refusal { number: 2, place: 0 }));
    assert_eq!(text_of(&vec![0; 65_535]), Err(Refusal { number: 8, place: 12 }));
    // With Z set the same, and then the first question's fault.
    let mut all_z = vec![0xFF; 65_536];
    assert_eq!(text_of(&all_z), Err(Refusal { number: 2, place: 0 }));
    all_z.pop();
    assert_eq!(text_of(&all_z), Err(Refusal { number: 5, place: 12 }));
}

#[test]
fn every_value_of_the_flags() {
    for flags in 0..=0xFFFF {
        let bit = |place: u32| flags >> place & 1;
        let z = if bit(6) == 1 { ",\"Z\":1" } else { "" };
        let expected = format!(
            "{{\"ID\":7,\"QR\":{},\"Opcode\":{},\"AA\":{},\"TC\":{},\"RD\":{},\"RA\":{}{z},\
             \"AD\":{},\"CD\":{},\"RCODE\":{},\"QDCOUNT\":0,\"ANCOUNT\":0,\"NSCOUNT\":0,\"ARCOUNT\":0,\
             \"questionRRs\":[],\"answerRRs\":[],\"authorityRRs\":[],\"additionalRRs\":[]}}",
            bit(15),
            flags >> 11 & 15,
            bit(10),
            bit(9),
            bit(8),
            bit(7),
            bit(5),
            bit(4),
            flags & 15
        );
        let hex = format!("0007{flags:04X}0000000000000000");
        assert_eq!(text(&hex), expected);
        let message = message_of(expected.as_bytes()).expect("the text is right");
        assert_eq!(hex_of_octets(&message), hex.as_bytes());
    }
}

#[test]
fn z_leaves_other_faults_as_they_are() {
    let asking = |name: &str| format!("00010000 00000000 {name} 0001 0001");
    let ns = |rdata: &str, length: u32| {
        format!("00000001 00000000 00 0002 0001 00000000 {length:04X} {rdata}")
    };
    let long = format!("{0}{0}{0}3E{1}00", "3F".repeat(64), "61".repeat(62));
    let cases = [
        ("00000000 000000".to_string(), 1, 0),
        ("00010000 00000000".to_string(), 1, 12),
        ("00010001 00000000 00 0001 0001 00 0001 00".to_string(), 1, 20),
        (ns("00", 2), 1, 23),
        (asking("40"), 4, 12),
        (ns("80", 1), 4, 23),
        (asking("C00C"), 5, 12),
        (ns("C003", 2), 5, 23),
        (asking(&long), 6, 204),
        (ns("0000", 2), 11, 24),
        (ns("C0", 1), 7, 23),
        ("00000000 00000000 00".to_string(), 8, 12),
        (asking("00") + "40", 8, 17),
    ];
    for (behind_flags, number, place) in cases {
        for flags in ["0000", "0040", "0070", "00C0", "FFFF"] {
            refused(&format!("0000{flags} {behind_flags}"), number, place);
        }
    }
    // Four octets with Z, and the header up to its last octet.
    refused("00000040", 1, 0);
    refused("00000040 00000000 000000", 1, 0);
    // 9: 254 questions for a name of 255 octets; with one octet behind them 8.
    let long = format!("{0}{0}{0}3D{1}00", "3F".repeat(64), "61".repeat(61));
    let many = format!("00FE0000 00000000 {long} 00010001 {}", "C00C00010001".repeat(253));
    for flags in ["0000", "0040"] {
        refused(&format!("0000{flags} {many}"), 9, 0);
        refused(&format!("0000{flags} {many} 00"), 8, 12 + 259 + 253 * 6);
    }
}

#[test]
fn z_has_one_spelling() {
    for (ra, ad) in [(0, 0), (0, 1), (1, 0), (1, 1)] {
        let beside = |z: &str| {
            let text = asking("z.").replacen("\"RA\":0", &format!("\"RA\":{ra}"), 1);
            behind_ra(&text.replacen("\"AD\":0", &format!("\"AD\":{ad}"), 1), z)
        };
        answer_is(&beside(""), 0);
        answer_is(&beside(",\"Z\":1"), 0);
        let message = message_of(beside(",\"Z\":1").as_bytes()).unwrap();
        assert_eq!(message[..4], [0, 0, 0, ra << 7 | 0x40 | ad << 5]);
        let huge = format!(",\"Z\":{}", "1".repeat(100_000));
        for wrong in [
            ",\"Z\":0", ",\"Z\":2", ",\"Z\":10", ",\"Z\":11", ",\"Z\":01", ",\"Z\":00",
            ",\"Z\":-1", ",\"Z\":-0", ",\"Z\":\"1\"", ",\"Z\":1.0", ",\"Z\":+1", ",\"Z\":1e0",
            ",\"Z\":true", ",\"Z\":null", ",\"Z\":[1]", ",\"Z\":", ",\"Z\"", ",\"Z", ",\"z\":1",
            ",\"Z\" :1", ",\"Z\": 1", ",\"Z\":1 ", ", \"Z\":1", " ,\"Z\":1", "\"Z\":1",
            ",\"Z\":1,", ",,\"Z\":1", ",\"\\u005A\":1", ",\"MBZ\":1", ",\"Z\":257", ",\"Z\":65537",
            ",\"Z\":18446744073709551617", ",\"Z\":1,\"Z\":1", ",\"Z\":1,\"Z\":0",
            ",\"Z\":0,\"Z\":1", ",\"Z\":1,\"RA\":0", &huge,
        ] {
            answer_is(&beside(wrong), 20);
        }
    }
    // The comma behind it.
    answer_is(&with_z(&asking(".")).replacen("1,\"AD\"", "1\"AD\"", 1), 20);
    // A text with Z cut anywhere.
    let whole = with_z(&asking("z."));
    for length in 0..whole.len() {
        answer_is(&whole[..length], 20);
    }
}

#[test]
fn z_has_one_place() {
    let text = whole(
        0,
        0,
        [1, 1, 0, 1],
        [
            "{\"NAME\":\"q.\",\"TYPE\":1,\"CLASS\":1}",
            "{\"NAME\":\"r.\",\"TYPE\":1,\"CLASS\":1,\"TTL\":1,\"RDATAHEX\":\"00\"}",
            "",
            &edns_element("NoError", ",\"NSID\":{\"HEX\":\"00\"}"),
        ],
    );
    answer_is(&text, 0);
    answer_is(&with_z(&text), 0);
    let places: Vec<usize> =
        (1..text.len()).filter(|at| matches!(text.as_bytes()[*at], b',' | b'}' | b']')).collect();
    let right = text.find(",\"AD\":").unwrap();
    assert!(places.contains(&right) && places.len() > 30);
    for z in ["\"Z\":1", "\"Z\":0"] {
        for place in places.iter().copied().filter(|place| *place != right) {
            // Alone there, and beside the right one.
            let alone = format!("{},{z}{}", &text[..place], &text[place..]);
            answer_is(&alone, 20);
            answer_is(&with_z(&alone), 20);
        }
        for opening in ["{\"ID\"", "{\"NAME\"", "{\"EDNS\"", "{\"Version\"", "{\"HEX\""] {
            assert!(text.contains(opening));
            answer_is(&text.replacen(opening, &format!("{{{z},{}", &opening[1..]), 1), 20);
        }
        // In the place of the members on both sides.
        for member in ["\"RA\":0", "\"AD\":0"] {
            answer_is(&text.replacen(member, z, 1), 20);
        }
    }
    // In strings it is nothing but octets.
    answer_is(&asking("Z.\\\\034Z\\\\034:1."), 0);
    let ede = edns(",\"EDE\":{\"CODE\":1,\"TEXT\":\"\\\"RA\\\":0,\\\"Z\\\":1,\\\"AD\\\":0\"}");
    answer_is(&ede, 0);
    answer_is(&with_z(&ede), 0);
}

#[test]
fn z_beside_other_refusals_of_texts() {
    let changed = |from: &str, to: &str| {
        let text = asking("z.");
        assert!(text.contains(from));
        text.replacen(from, to, 1)
    };
    let padding = |length: u32| edns(&format!(",\"PADDING\":{{\"LENGTH\":{length}}}"));
    let cases = [
        (changed("\"RA\":0", "\"RA\":2"), 21),
        (changed("\"AD\":0", "\"AD\":2"), 21),
        (changed("\"ID\":0", "\"ID\":65536"), 21),
        (changed("\"QDCOUNT\":1", "\"QDCOUNT\":2"), 21),
        (changed("\"ARCOUNT\":0", "\"ARCOUNT\":65536"), 21),
        (padding(65_509), 22),
        (padding(65_508), 0),
        (changed("\"RA\":0", "\"RA\":00"), 20),
        (changed("\"AD\":0", "\"AD\":-0"), 20),
        (changed("\"z.\"", "\"z\""), 20),
        (asking("z.") + "}", 20),
        (changed("\"RA\":0", "\"RA\":2") + " ", 20),
    ];
    for (text, number) in cases {
        answer_is(&text, number);
        answer_is(&with_z(&text), number);
        // 20 comes before all others.
        answer_is(&behind_ra(&text, ",\"Z\":0"), 20);
        answer_is(&behind_ra(&text, ",\"Z\":2"), 20);
    }
}

#[test]
fn z_has_no_part_in_the_edns_rules() {
    let opt = |flags: &str, ttl: &str| {
        text(&format!("0000{flags} 00000000 00000001 00 0029 0200 {ttl} 0000"))
    };
    let ordinary = |ttl: i32| {
        format!("{{\"NAME\":\".\",\"TYPE\":41,\"CLASS\":512,\"TTL\":{ttl},\"RDATAHEX\":\"\"}}")
    };
    let saying = |rcode: u32, element: &str| whole(0, rcode, [0, 0, 0, 1], ["", "", "", element]);
    for (flags, ttl, rcode, element) in [
        ("0040", "00000000", 0, edns_element("NoError", "")),
        ("0047", "01000000", 7, edns_element("BADCOOKIE", "")),
        ("0040", "01000000", 0, edns_element("BADVERS", "")),
        ("004C", "00000000", 12, ordinary(0)),
        ("0048", "01000000", 8, ordinary(0x0100_0000)),
        ("0040", "00010000", 0, ordinary(0x0001_0000)),
        ("0040", "00004000", 0, ordinary(0x4000)),
        ("0040", "04000000", 0, ordinary(0x0400_0000)),
    ] {
        let expected = with_z(&saying(rcode, &element));
        assert_eq!(opt(flags, ttl), expected);
        answer_is(&expected, 0);
    }
    // The header's RCODE must fit, and an EDNS record can't be an ordinary one.
    answer_is(&with_z(&saying(4, &edns_element("NoError", ""))), 21);
    answer_is(&with_z(&saying(4, &edns_element("BADNAME", ""))), 0);
    answer_is(&with_z(&saying(0, &ordinary(0))), 21);
    answer_is(&with_z(&saying(7, &ordinary(0x0100_0000))), 21);
}

#[test]
fn numbers_in_texts() {
    let with_id = |id: &str| asking(".").replacen("\"ID\":0", &format!("\"ID\":{id}"), 1);
    for (id, number) in [
        ("65535", 0),
        ("65536", 21),
        ("18446744073709551616", 21),
        ("00", 20),
        ("01", 20),
        ("-1", 20),
        ("-0", 20),
        ("", 20),
    ] {
        answer_is(&with_id(id), number);
    }
    answer_is(&with_id(&"9".repeat(1_000_000)), 21);
    answer_is(&with_id(&format!("1{}", "0".repeat(1_000_000))), 21);
    let with_ttl = |ttl: &str| {
        answering(&format!(
            "{{\"NAME\":\".\",\"TYPE\":1,\"CLASS\":1,\"TTL\":{ttl},\"RDATAHEX\":\"\"}}"
        ))
    };
    for (ttl, number) in [
        ("2147483647", 0),
        ("2147483648", 21),
        ("-2147483648", 0),
        ("-2147483649", 21),
        ("-0", 20),
        ("-01", 20),
        ("-1", 0),
        ("4294967295", 21),
    ] {
        answer_is(&with_ttl(ttl), number);
    }
}

#[test]
fn names_in_texts() {
    for (name, number) in [
        (".", 0),
        ("a.", 0),
        ("", 20),
        ("a", 20),
        ("..", 20),
        ("a..", 20),
        (".a.", 20),
        ("\\\\..", 0),
        ("\\\\.", 20),
        ("\\..", 20),
        ("\\\\\\\\.", 0),
        ("\\\\\\\\\\\\.", 20),
        ("\\\\046.", 20),
        ("\\\\092.", 20),
        ("\\\\034.", 0),
        ("\\\".", 20),
        ("\\\\\".", 20),
        ("\\\\065.", 20),
        ("\\\\000.", 0),
        ("\\\\255.", 0),
        ("\\\\256.", 20),
        ("\\\\999.", 20),
        ("\\\\32.", 20),
        ("\\\\032.", 0),
        (" .", 20),
    ] {
        answer_is(&asking(name), number);
    }
    let label = |count: usize| "\\\\000".repeat(count) + ".";
    answer_is(&asking(&label(63)), 0);
    answer_is(&asking(&label(64)), 21);
    answer_is(&asking(&(label(63).repeat(3) + &label(61))), 0);
    answer_is(&asking(&(label(63).repeat(3) + &label(62))), 21);
    answer_is(&asking(&"b".repeat(3_000_000)), 20);
    answer_is(&asking(&("b".repeat(3_000_000) + ".")), 21);
}

#[test]
fn options_in_texts() {
    let eight = "0102030405060708";
    let cases = [
        ("", 0),
        (",\"NSID\":{\"HEX\":\"\"}", 0),
        (",\"OPT3\":\"\"", 21),
        (",\"OPT5\":\"00\"", 21),
        (",\"OPT9\":\"\"", 21),
        (",\"OPT9\":\"00\"", 0),
        (",\"OPT9\":\"00000000\"", 21),
        (",\"OPT10\":\"\"", 0),
        (",\"OPT11\":\"0000\"", 21),
        (",\"OPT11\":\"00\"", 0),
        (",\"OPT12\":\"01\"", 21),
        (",\"OPT14\":\"000000\"", 0),
        (",\"OPT14\":\"\"", 21),
        (",\"OPT15\":\"00\"", 0),
        (",\"OPT15\":\"0000\"", 21),
        (",\"OPT15\":\"00001F\"", 0),
        (",\"OPT15\":\"000020\"", 21),
        (",\"OPT65535\":\"\"", 0),
        (",\"OPT65536\":\"\"", 21),
        (",\"OPT05\":\"\"", 20),
        (",\"OPT\":\"\"", 20),
        (",\"OPT-1\":\"\"", 20),
        (",\"EXPIRE\":4294967295", 0),
        (",\"EXPIRE\":4294967296", 21),
        (",\"EXPIRE\":\"none\"", 20),
        (",\"EXPIRE\":\"NONE\",\"OPT9\":\"00\"", 21),
        (",\"DAU\":[],\"NSID\":{\"HEX\":\"\"}", 21),
        (",\"DAU\":[255]", 0),
        (",\"DAU\":[256]", 21),
        (",\"DAU\":[0,]", 20),
        (",\"PADDING\":{\"LENGTH\":0}", 0),
        (",\"PADDING\":{\"LENGTH\":0,\"HEX\":\"\"}", 21),
        (",\"PADDING\":{\"LENGTH\":1,\"HEX\":\"00\"}", 21),
        (",\"PADDING\":{\"LENGTH\":1,\"HEX\":\"10\"}", 0),
        (",\"PADDING\":{\"LENGTH\":2,\"HEX\":\"10\"}", 21),
        (",\"PADDING\":{\"LENGTH\":65508}", 0),
        (",\"PADDING\":{\"LENGTH\":65509}", 22),
        (",\"PADDING\":{\"LENGTH\":18446744073709551615}", 22),
        (",\"PADDING\":{\"LENGTH\":18446744073709551616}", 22),
        (",\"PADDING\":{\"LENGTH\":18446744073709551616,\"HEX\":\"\"}", 21),
        (",\"EDE\":{\"CODE\":1,\"TEXT\":\"\"}", 21),
        (",\"EDE\":{\"CODE\":1,\"TEXT\":\"\\\"\\\\/\"}", 0),
        (",\"EDE\":{\"CODE\":1,\"TEXT\":\"\\/\"}", 20),
        (",\"EDE\":{\"CODE\":1,\"TEXT\":\"\\u0041\"}", 20),
        (",\"EDE\":{\"TEXT\":\"a\",\"CODE\":1}", 20),
        (",\"COOKIE\":[]", 21),
        (",\"UDPSIZE\":512", 20),
    ];
    for (options, number) in cases {
        answer_is(&edns(options), number);
    }
    answer_is(&edns(&format!(",\"COOKIE\":[\"{eight}\"]")), 0);
    answer_is(&edns(&format!(",\"COOKIE\":[\"{eight}\",\"{eight}\"]")), 0);
    answer_is(&edns(&format!(",\"COOKIE\":[\"{eight}\",\"{}\"]", eight.repeat(4))), 0);
    answer_is(&edns(&format!(",\"COOKIE\":[\"{eight}\",\"{}00\"]", eight.repeat(4))), 21);
    answer_is(&edns(&format!(",\"COOKIE\":[\"{eight}{eight}\"]")), 21);
    answer_is(&edns(&format!(",\"COOKIE\":[\"{eight}\",\"\"]")), 21);
    answer_is(&edns(&format!(",\"COOKIE\":[\"{eight}\",\"{eight}\",\"{eight}\"]")), 21);
    answer_is(&edns(&format!(",\"OPT10\":\"{eight}\"")), 21);
    answer_is(&edns(&format!(",\"OPT10\":\"{eight}00\"")), 0);
}

#[test]
fn edns_rules_in_texts() {
    let opt = |ttl: &str, rdata: &str| {
        format!("{{\"NAME\":\".\",\"TYPE\":41,\"CLASS\":1,\"TTL\":{ttl},\"RDATAHEX\":\"{rdata}\"}}")
    };
    let element = "{\"EDNS\":{\"Version\":0,\"FLAGS\":[],\"RCODE\":\"NoError\",\"UDPSIZE\":512}}";
    let two = |first: &str, second: &str| {
        whole(0, 0, [0, 0, 0, 2], ["", "", "", &format!("{first},{second}")])
    };
    answer_is(&adding(&opt("0", "")), 21);
    answer_is(&adding(&opt("65536", "")), 0);
    answer_is(&adding(&opt("0", "00")), 0);
    answer_is(&adding(&opt("0", "0003000100")), 21);
    answer_is(&adding(&opt("0", "0003000000030000")), 0);
    answer_is(&answering(&opt("0", "")), 0);
    answer_is(&answering(element), 20);
    answer_is(&two(&opt("0", ""), &opt("0", "")), 0);
    answer_is(&two(element, element), 21);
    answer_is(&two(element, &opt("65536", "")), 21);
    answer_is(
        &whole(0, 7, [0, 0, 0, 1], ["", "", "", &element.replace("NoError", "BADCOOKIE")]),
        0,
    );
    answer_is(
        &whole(0, 6, [0, 0, 0, 1], ["", "", "", &element.replace("NoError", "BADCOOKIE")]),
        21,
    );
    answer_is(&whole(0, 0, [0, 0, 0, 1], ["", "", "", &element.replace("NoError", "BADVERS")]), 0);
    answer_is(
        &whole(0, 0, [0, 0, 0, 1], ["", "", "", &element.replace("[]", "[\"DO\",\"DO\"]")]),
        20,
    );
    answer_is(
        &whole(
            0,
            0,
            [0, 0, 0, 1],
            ["", "", "", &element.replace("\"Version\":0", "\"Version\":1")],
        ),
        21,
    );
    answer_is(
        &whole(
            0,
            0,
            [0, 0, 0, 1],
            ["", "", "", &element.replace("\"Version\":0", "\"Version\":00")],
        ),
        20,
    );
}

#[test]
fn rcodes_and_their_names() {
    // Every RCODE that the header and TTL's first octet can make.
    for rcode in 0..4096 {
        let (high, low) = (rcode / 16, rcode % 16);
        let text =
            text(&format!("0000000{low:X} 00000000 00000001 00 0029 0200 {high:02X}000000 0000"));
        let element = match RCODES.iter().find(|(_, listed)| *listed == rcode) {
            Some((name, _)) => edns_element(name, ""),
            None => format!(
                "{{\"NAME\":\".\",\"TYPE\":41,\"CLASS\":512,\"TTL\":{},\"RDATAHEX\":\"\"}}",
                ((high as u32) << 24) as i32
            ),
        };
        assert_eq!(text, whole(0, low as u32, [0, 0, 0, 1], ["", "", "", &element]));
        answer_is(&text, 0);
    }
}

#[test]
fn rcode_16_is_badvers_and_not_badsig() {
    let with_header = |id: u32, rcode: u32, name: &str| {
        whole(id, rcode, [0, 0, 0, 1], ["", "", "", &edns_element(name, "")])
    };
    // The EDNS element's RCODE. The header's is a number.
    assert!(text("00000000 00000000 00000001 00 0029 04D0 01000000 0000")
        .contains("\"RCODE\":\"BADVERS\""));
    for name in ["BADVERS", "BADSIG"] {
        let quoted = format!("\"RCODE\":\"{name}\"");
        answer_is(&asking(".").replacen("\"RCODE\":0", &quoted, 1), 20);
    }
    // The error field of TSIG is data, also beside an EDNS element of RCODE 16.
    let tsig = "0161 00 000000000000 012C 0000 0000 0010 0000";
    let tsig_record = format!(
        "{{\"NAME\":\"k.\",\"TYPE\":250,\"CLASS\":255,\"TTL\":0,\"RDATAHEX\":\"{}\"}}",
        tsig.replace(' ', "")
    );
    let message = format!("00000009 00000000 00000001 016B00 00FA 00FF 00000000 0013 {tsig}");
    let expected = whole(0, 9, [0, 0, 0, 1], ["", "", "", &tsig_record]);
    assert_eq!(text(&message), expected);
    answer_is(&expected, 0);
    let message = format!(
        "00000000 00000000 00000002 00 0029 0200 01000000 0000 016B00 00FA 00FF 00000000 0013 {tsig}"
    );
    let records = format!("{},{tsig_record}", edns_element("BADVERS", ""));
    let expected = whole(0, 0, [0, 0, 0, 2], ["", "", "", &records]);
    assert_eq!(text(&message), expected);
    answer_is(&expected, 0);
    // BADSIG elsewhere is an ordinary string.
    answer_is(&asking("BADSIG."), 0);
    answer_is(&edns(",\"EDE\":{\"CODE\":1,\"TEXT\":\"BADSIG\"}"), 0);
    // No other name is taken.
    for rcode in 0..16 {
        answer_is(&with_header(0, rcode, "BADVERS"), if rcode == 0 { 0 } else { 21 });
        answer_is(&with_header(0, rcode, "BADSIG"), 20);
    }
    for name in ["badsig", "badvers", "BadVers", "BADVER", "BADVERSS", "BAD\\u0056ERS"] {
        answer_is(&with_header(0, 0, name), 20);
    }
    // 20 comes before a number out of range, which is 21.
    answer_is(&with_header(65_536, 0, "BADVERS"), 21);
    answer_is(&with_header(65_536, 0, "BADSIG"), 20);
    answer_is(&with_header(0, 0, "BADVERS").replacen("512", "65536", 1), 21);
    answer_is(&with_header(0, 0, "BADSIG").replacen("512", "65536", 1), 20);
}

#[test]
fn sizes_over_the_limit() {
    let zeros = |count: usize| "00".repeat(count);
    let record = |rtype: &str, rdata: &str| {
        format!(
            "{{\"NAME\":\".\",\"TYPE\":{rtype},\"CLASS\":1,\"TTL\":0,\"RDATAHEX\":\"{rdata}\"}}"
        )
    };
    answer_is(&answering(&record("16", &zeros(65_535 - 23))), 0);
    answer_is(&answering(&record("16", &zeros(65_535 - 22))), 22);
    answer_is(&answering(&record("16", &zeros(70_000))), 22);
    answer_is(&answering(&record("2", &zeros(70_000))), 21);
    answer_is(&answering(&record("16", &(zeros(70_000) + "0"))), 20);
    // TYPE 41 in the additional section that could be an EDNS element but for its size.
    let two_options = format!("0003FFFF{}0005FFFF{}", zeros(65_535), zeros(65_535));
    answer_is(&adding(&record("41", &two_options)), 21);
    answer_is(&adding(&record("41", &(two_options + "00"))), 22);
    answer_is(&edns(&format!(",\"NSID\":{{\"HEX\":\"{}\"}}", zeros(70_000))), 22);
    answer_is(&edns(&format!(",\"OPT14\":\"{}\"", zeros(70_000))), 21);
    answer_is(&edns(&format!(",\"OPT14\":\"{}\"", zeros(70_001))), 22);
    answer_is(&edns(&format!(",\"OPT20\":\"{}\"", zeros(70_000))), 22);
    answer_is(&edns(&format!(",\"DAU\":[{}0]", "1,".repeat(70_000))), 22);
    answer_is(&edns(&format!(",\"EDE\":{{\"CODE\":1,\"TEXT\":\"{}\"}}", "x".repeat(70_000))), 22);
    answer_is(&edns(&format!(",\"COOKIE\":[\"{}\",\"{}\"]", zeros(8), zeros(70_000))), 21);
    answer_is(
        &edns(&format!(",\"PADDING\":{{\"LENGTH\":70000,\"HEX\":\"01{}\"}}", zeros(69_999))),
        22,
    );
    answer_is(
        &edns(&format!(",\"PADDING\":{{\"LENGTH\":70000,\"HEX\":\"{}\"}}", zeros(70_000))),
        21,
    );
    answer_is(&edns(&format!(",\"PADDING\":{{\"LENGTH\":{}}}", "7".repeat(1_000_000))), 22);
    answer_is(
        &edns(&format!(
            ",\"PADDING\":{{\"LENGTH\":{}}},\"EDE\":{{\"CODE\":65536}}",
            "7".repeat(1_000)
        )),
        21,
    );
    // 65,535 and 65,536 questions.
    let question = "{\"NAME\":\".\",\"TYPE\":1,\"CLASS\":1}";
    let many = |count: u32| {
        whole(0, 0, [count, 0, 0, 0], [&vec![question; count as usize].join(","), "", "", ""])
    };
    answer_is(&many(13_104), 0);
    answer_is(&many(13_105), 22);
    answer_is(&many(65_535), 22);
    answer_is(&many(65_536), 21);
}
