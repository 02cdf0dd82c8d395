//! Cases for `towire` about change request A1: where refusal 20 is.

use std::slice::from_ref;

use super::towire::*;
use super::Group;
use crate::generate;

/// Short texts of messages that together have every member: every option in
/// each of its forms, Z, DO, RCODE names, names with octets of each spelling,
/// strings with escapes, and TTLs with a minus.
pub fn texts_with_every_member() -> Vec<Vec<u8>> {
    every_member().into_iter().map(String::into_bytes).collect()
}

fn every_member() -> [String; 12] {
    let edns_do = |rcode: &str, options: &str| replaced(&edns(rcode, options), "[]", "[\"DO\"]");
    let with_rcode = |rcode: u64, additional: Vec<String>| Parts {
        id: (10 * rcode).to_string(),
        rcode: rcode.to_string(),
        additional,
        ..Parts::empty()
    };
    let other_type = |entry: &str| {
        replaced(&replaced(entry, "\"TYPE\":1", "\"TYPE\":65535"), "\"CLASS\":1", "\"CLASS\":254")
    };
    let all_bits = replaced(&with_bits(|_| true), "\"Opcode\":0", "\"Opcode\":15");
    [
        with_z(&replaced(&all_bits, "\"RCODE\":0", "\"RCODE\":12")),
        Parts {
            questions: vec![question("."), other_type(&question("Www.example-1."))],
            ..with_rcode(4, vec![edns("NotImp", "")])
        }
        .text(),
        Parts {
            questions: vec![question(
                "van\\\\.7.a\\\\034b\\\\032.\\\\\\\\.\\\\000\\\\127\\\\199\\\\255~!.",
            )],
            ..with_rcode(5, vec![edns_do("Refused", "")])
        }
        .text(),
        Parts {
            answers: vec![
                record("a.", "2", "-1", "016E00"),
                record(".", "16", "2147483647", ""),
                record("b\\\\..", "41", "-90", "0F"),
            ],
            ..with_rcode(9, vec![])
        }
        .text(),
        Parts {
            authority: vec![record("\\\\..\\\\\\\\\\\\240.", "15", "-2147483648", "000A00")],
            ..with_rcode(9, vec![edns("NotAuth", ",\"OPT10\":\"\"")])
        }
        .text(),
        with_z(
            &with_rcode(
                1,
                vec![record("x.y.", "1", "300", "C0000201"), edns_do("FormErr", ",\"EXPIRE\":0")],
            )
            .text(),
        ),
        with_rcode(
            2,
            vec![edns_do(
                "ServFail",
                ",\"NSID\":{\"HEX\":\"6E73\"},\"DAU\":[8,13],\"DHU\":[],\"N3U\":[1],\
                 \"EXPIRE\":\"NONE\"",
            )],
        )
        .text(),
        with_rcode(
            3,
            vec![edns(
                "NXDomain",
                ",\"EXPIRE\":4294967295,\"COOKIE\":[\"24A5C3DE0B9F1D42\"],\"KEEPALIVE\":600,\
                 \"PADDING\":{\"LENGTH\":4}",
            )],
        )
        .text(),
        with_rcode(
            0,
            vec![edns_do(
                "BADVERS",
                ",\"COOKIE\":[\"0000000000000001\",\"FEDCBA9876543210\"],\
                 \"PADDING\":{\"LENGTH\":2,\"HEX\":\"0A00\"},\"KEYTAG\":[20326,0]",
            )],
        )
        .text(),
        with_rcode(
            11,
            vec![edns(
                "DSOTYPENI",
                ",\"OPT0\":\"\",\"NSID\":{\"HEX\":\"\"},\"DAU\":[],\"N3U\":[],\"OPT8\":\"0001\",\
                 \"KEYTAG\":[],\"EDE\":{\"CODE\":22},\"OPT65535\":\"FF\"",
            )],
        )
        .text(),
        with_rcode(
            7,
            vec![edns_do(
                "BADCOOKIE",
                ",\"DHU\":[2,4],\"OPT11\":\"\",\
                 \"EDE\":{\"CODE\":0,\"TEXT\":\"a \\\"b\\\" \\\\/~\"}",
            )],
        )
        .text(),
        with_z(
            &Parts {
                questions: vec![question("q.")],
                answers: vec![record("q.", "5", "-10", "00")],
                authority: vec![record(".", "6", "0", "")],
                additional: vec![
                    record("r.", "28", "1", ""),
                    edns("YXRRSet", ",\"N3U\":[255,0]"),
                    record("s.", "257", "2", "00"),
                ],
                ..with_rcode(7, vec![])
            }
            .text(),
        ),
    ]
}

pub fn groups() -> Vec<Group> {
    let of_texts: [(&'static str, Texts); 10] = [
        ("texts with every member", every_member().to_vec()),
        ("places in numbers, hex and Z", rows_of_numbers_hex_and_z()),
        ("places in names", rows_of_names()),
        ("places in EDNS", rows_of_edns()),
        ("texts with every member cut", cut_texts()),
        ("digits behind the backslashes of a name", digit_strings()),
        ("beginnings of the header's member names", header_names()),
        ("beginnings of other member names", entry_names()),
        ("beginnings of options' member names", option_names()),
        ("beginnings of RCODE, FLAGS and EXPIRE spellings", spellings()),
    ];
    let group = |(kind, texts): (_, Texts)| Group { kind, lines: into_lines(texts) };
    let mut groups: Vec<Group> = of_texts.into_iter().map(group).collect();
    groups.extend(OCTETS_TO_PUT.iter().map(|(kind, octets)| Group {
        kind,
        lines: octets.iter().flat_map(|octets| texts_with_octets(octets)).collect(),
    }));
    groups
}

fn into_lines(texts: Texts) -> Lines {
    texts.into_iter().map(String::into_bytes).collect()
}

/// Sixteen kinds of octets to put into a text. Of the octets of one kind each
/// place gets another one.
const OCTETS_TO_PUT: [(&str, [&[u8]; 4]); 4] = [
    (
        "an octet of strings put at every place",
        [b"\"", b"\\", b".", b"\x80\xFF\x7F\xA0\x00\xC3\x1F\r\xE9"],
    ),
    ("a bracket put at every place", [b"{", b"}", b"[", b"]"]),
    ("an octet between values put at every place", [b",", b":", b"-", b" "]),
    ("a digit or letter put at every place", [b"0", b"987654321", b"ABCDEF", b"abcdefnoxyz"]),
];

/// Each of the texts with every member, with one octet replaced at every place.
fn texts_with_octets(octets: &[u8]) -> Lines {
    let mut lines = Vec::new();
    for text in texts_with_every_member() {
        for place in 0..text.len() {
            let octet = octets[place % octets.len()];
            if octet != text[place] {
                let mut changed = text.clone();
                changed[place] = octet;
                lines.push(changed);
            }
        }
    }
    lines
}

fn cut_texts() -> Texts {
    let cuts = |text: &String| -> Texts {
        (0..text.len()).map(|length| text[..length].to_string()).collect()
    };
    every_member().iter().flat_map(cuts).collect()
}

/// All strings of one to three digits behind two backslashes.
fn digit_strings() -> Texts {
    let strings = all_strings("0123456789", 3);
    strings.iter().map(|digits| asking(&format!("d\\\\{digits}."))).collect()
}

/// Texts in which each proper beginning of a spelling, also the empty one, has
/// each printable octet behind it and stands in the place of the spelling. The
/// spelling is the first one inside the first such mark.
fn beginnings(text: &str, mark: &str, spelling: &str) -> Texts {
    let mark_at = text.find(mark).expect("the mark is there");
    let start = mark_at + mark.find(spelling).expect("the spelling is in the mark");
    let (before, behind) = (&text[..start], &text[start + spelling.len()..]);
    let mut texts = Vec::new();
    for length in 0..spelling.len() {
        for octet in 0x20..=0x7E_u8 {
            let octet = char::from(octet);
            texts.push(format!("{before}{}{octet}{behind}", &spelling[..length]));
        }
    }
    texts
}

/// The beginnings of member names.
fn beginnings_of_names(text: &str, names: &[&str]) -> Texts {
    names.iter().flat_map(|name| beginnings(text, &format!("\"{name}\":"), name)).collect()
}

fn header_names() -> Texts {
    let names = [
        "ID", "QR", "Opcode", "AA", "TC", "RD", "RA", "AD", "CD", "RCODE", "QDCOUNT", "ANCOUNT",
        "NSCOUNT", "ARCOUNT", "questionRRs", "answerRRs", "authorityRRs", "additionalRRs",
    ];
    let text = Parts::empty().text();
    let mut texts = beginnings_of_names(&text, &names);
    texts.extend(beginnings_of_names(&with_z(&text), &["Z", "AD"]));
    texts
}

fn entry_names() -> Texts {
    let in_record = ["NAME", "TYPE", "CLASS", "TTL", "RDATAHEX"];
    let entry = record("r.", "16", "5", "0A");
    let mut texts = beginnings_of_names(&asking("q."), &in_record[..3]);
    texts.extend(beginnings_of_names(&answering(from_ref(&entry)), &in_record));
    // In the additional section the first name may be NAME or EDNS.
    texts.extend(beginnings_of_names(&adding(&[entry]), &["NAME"]));
    texts.extend(beginnings_of_names(&with_options(""), &["EDNS", "Version", "FLAGS", "UDPSIZE"]));
    texts.extend(beginnings(&with_options(""), ",\"RCODE\":\"", "RCODE"));
    texts
}

fn option_names() -> Texts {
    let options: [(&str, &[&str]); 10] = [
        (",\"NSID\":{\"HEX\":\"01\"}", &["NSID", "HEX"]),
        (",\"DAU\":[1]", &["DAU"]),
        (",\"DHU\":[]", &["DHU"]),
        (",\"N3U\":[2]", &["N3U"]),
        (",\"EXPIRE\":3", &["EXPIRE"]),
        (",\"COOKIE\":[\"0102030405060708\"]", &["COOKIE"]),
        (",\"KEEPALIVE\":4", &["KEEPALIVE"]),
        (",\"PADDING\":{\"LENGTH\":1,\"HEX\":\"05\"}", &["PADDING", "LENGTH", "HEX"]),
        (",\"KEYTAG\":[6]", &["KEYTAG"]),
        (",\"EDE\":{\"CODE\":7,\"TEXT\":\"t\"}", &["EDE", "CODE", "TEXT"]),
    ];
    let mut texts = Vec::new();
    for (option, names) in options {
        texts.extend(beginnings_of_names(&with_options(option), names));
    }
    texts.extend(beginnings(&with_options(",\"OPT20\":\"\""), "\"OPT20\":", "OPT20"));
    // Behind an option.
    let text = with_options(",\"OPT1\":\"\",\"KEYTAG\":[8]");
    texts.extend(beginnings_of_names(&text, &["KEYTAG"]));
    texts
}

fn spellings() -> Texts {
    let mut texts = Vec::new();
    for (name, rcode) in generate::RCODES {
        let additional = vec![edns(name, "")];
        let rcode = (rcode % 16).to_string();
        // With the header's RCODE that fits, and with the same one for all.
        for rcode in [rcode, "0".to_string()] {
            let text = Parts { rcode, additional: additional.clone(), ..Parts::empty() }.text();
            texts.extend(beginnings(&text, &format!("\"RCODE\":\"{name}\""), name));
        }
    }
    let text = with_options("");
    texts.extend(beginnings(&text, "\"FLAGS\":[]", "[]"));
    let text = replaced(&text, "\"FLAGS\":[]", "\"FLAGS\":[\"DO\"]");
    texts.extend(beginnings(&text, "\"FLAGS\":[\"DO\"]", "[\"DO\"]"));
    let text = with_options(",\"EXPIRE\":\"NONE\"");
    texts.extend(beginnings(&text, "\"EXPIRE\":\"NONE\"", "\"NONE\""));
    texts
}

/// The text with something else in the place of a part: whole, and cut behind
/// what was put.
fn put_and_cut(text: &str, part: &str, put: &str) -> Texts {
    let whole = replaced(text, part, put);
    let start = text.find(part).expect("the part is there");
    let cut = whole[..start + put.len()].to_string();
    vec![whole, cut]
}

// The rows of the format's table and more of their kind: texts that are wrong
// where it is said, texts that end there, and texts that are right there and
// wrong behind it.

fn rows_of_numbers_hex_and_z() -> Texts {
    let mut texts = rows_of_numbers_and_hex();
    texts.extend(rows_of_z());
    texts.extend(rows_of_what_is_not_20());
    // A text and more, the beginning of a text, and the empty one.
    let text = asking("m.");
    for more in ["}", " ", "x", "\r", "\u{e9}", ",", &text] {
        texts.push(format!("{text}{more}"));
    }
    for start in ["", "{", "{\"", "{\"I", " {", "[", "\"", "x", "{ ", "{\"i", "{\"IX", "\u{e9}"] {
        texts.push(start.to_string());
    }
    texts
}

fn rows_of_numbers_and_hex() -> Texts {
    let plain = answering(&[record("h.", "16", "77", "A5")]);
    let mut texts = Vec::new();
    for put in ["A\"", "AG\"", "a\"", "Aa\"", "A5\"", "A", "A5", "A5A\"", "g\"", " \"", "A5,\"", ""]
    {
        texts.extend(put_and_cut(&plain, "\"A5\"", &format!("\"{put}")));
    }
    for number in ["01", "-", "-1", "00", "", "1.0", "1e1", "+1", "0x1", " 1", "1 ", "1\"", "\"1"] {
        for (part, member) in
            [("\"QR\":0", "\"QR\":"), ("\"TYPE\":16", "\"TYPE\":"), ("\"ID\":1", "\"ID\":")]
        {
            texts.extend(put_and_cut(&plain, part, &format!("{member}{number}")));
        }
    }
    for ttl in ["-", "-0", "-01", "--1", "-1", "-1-", "0-", "1-1", "01", "-a", "-\"", "-,", "- 1"] {
        texts.extend(put_and_cut(&plain, "\"TTL\":77", &format!("\"TTL\":{ttl}")));
    }
    texts
}

fn rows_of_names() -> Texts {
    let mut texts = Vec::new();
    let names = [
        "", "a", ".a.", "a..", "a.b", "..", "\\", "\\\\", "\\\\2", "\\\\25", "\\\\046", "\\\\033",
        "\\\\126", "\\\\256", "\\\\3", "\\\\035", "\\\\03", "\\\\127", "\\\\12", "\\\\1", "\\\\0",
        "\\\\026", "\\\\26", "\\\\9", "\\\\a", "\\a", "\\.", "\\\"", "\\\\\\", "\\\\\\.",
        "\\\\\\\\", "\\\\\\\"", "\\\\.", "\\\\..", "\\\\-", "\\\\ ", " ", "a b", "a\u{7f}",
        "\u{e9}", "\\u002E", "\\/", "a.\\", "a.\\\\3", ".\\", "..\\\\2",
    ];
    for name in names {
        texts.extend(put_and_cut(&asking("@"), "\"@\"", &format!("\"{name}\"")));
        texts.extend(put_and_cut(&asking("@"), "\"@\"", &format!("\"{name}.\"")));
        texts.extend(put_and_cut(&asking("@"), "\"@\"", &format!("\"x{name}")));
        texts.extend(put_and_cut(&asking("@"), "\"@\"", &format!("\"{name}")));
    }
    texts
}

fn rows_of_edns() -> Texts {
    let mut texts = Vec::new();
    let rcodes = [
        "NoErr\"", "BADSIG\"", "BAD\"", "BADS", "BADT\"", "BADTR\"", "BADTIM\"", "N", "No\"", "NX",
        "NXR", "NotI\"", "NotX\"", "NoErrors\"", "\"", "noError\"", "n", "Y\"", "16\"", "DSO\"",
    ];
    for rcode in rcodes {
        let put = format!("\"RCODE\":\"{rcode}");
        texts.extend(put_and_cut(&with_options(""), "\"RCODE\":\"NoError\"", &put));
    }
    let options = [
        ",\"KEYS", ",\"KEYS\":[]", ",\"N2U\":[]", ",\"NSIX\":{}", ",\"OPT05\":\"\"", ",\"OPT",
        ",\"OPT\"", ",\"OPT5", ",\"OPT5\"", ",\"OPTS\"", ",\"OPT0", ",\"OPT-1\"", ",\"N", ",\"N\"",
        ",\"K", ",\"KE\"", ",\"KEE", ",\"KEY\"", ",\"E", ",\"ED\"", ",\"EX\"", ",\"EDN\"",
        ",\"D\"", ",\"DAU", ",\"DAUX\"", ",\"", ",\"\"", ",", ",,", ",}", "\"", " ", ",\"Z\":1",
        ",\"UDP\"", ",\"EXPIRE\":\"x\"", ",\"EXPIRE\":\"", ",\"EXPIRE\":\"N", ",\"EXPIRE\":\"NONE",
        ",\"EXPIRE\":-", ",\"EXPIRE\":\"NONE\"0", ",\"EXPIRE\":0\"", ",\"EXPIRE\":",
        ",\"EXPIRE\":[", ",\"DAU\":[,", ",\"DAU\":[1,]", ",\"DAU\":[01", ",\"DAU\":[-",
        ",\"DAU\":[\"", ",\"COOKIE\":[1", ",\"COOKIE\":[\"0\"", ",\"COOKIE\":[\"00\",]",
        ",\"COOKIE\":[]]", ",\"NSID\":{}", ",\"NSID\":{\"H\"", ",\"NSID\":{\"HEX\":\"00\",",
        ",\"PADDING\":{\"HEX\":", ",\"EDE\":{\"TEXT\":", ",\"PADDING\":{\"LENGTH\":1,\"T",
        ",\"EDE\":{\"CODE\":1,\"HEX\":", ",\"KEEPALIVE\":\"",
        ",\"EDE\":{\"CODE\":1,\"TEXT\":\"\\n\"}", ",\"EDE\":{\"CODE\":1,\"TEXT\":\"\\\"}",
        ",\"EDE\":{\"CODE\":1,\"TEXT\":\"a\\", ",\"EDE\":{\"CODE\":1,\"TEXT\":\"a\"b\"}",
        ",\"EDE\":{\"CODE\":1,\"TEXT\":\"\t\"}", ",\"EDE\":{\"CODE\":1,\"TEXT\":\"\u{7f}\"}",
    ];
    for option in options {
        let text = with_options("@");
        texts.extend(put_and_cut(&text, "@", option));
        texts.extend(put_and_cut(&text, "@", &format!(",\"DAU\":[9]{option}")));
    }
    // EDNS in the sections that have none, and beginnings of its first name.
    let element = edns("NoError", "");
    for opening in ["{\"EDNS\":", "{\"E\":", "{\"EDNSX\":", "{\"E", "{\"N\":", "{\"X\":", "{\""] {
        let element = replaced(&element, "{\"EDNS\":", opening);
        texts.push(answering(from_ref(&element)));
        texts.push(adding(from_ref(&element)));
        texts.push(Parts { questions: vec![element.clone()], ..Parts::empty() }.text());
        texts.push(Parts { authority: vec![element.clone()], ..Parts::empty() }.text());
        let behind = vec![record(".", "1", "0", ""), element];
        texts.push(Parts { authority: behind.clone(), ..Parts::empty() }.text());
        texts.push(adding(&behind));
    }
    for flags in ["[", "[\"", "[\"D", "[\"DO", "[\"DO\"", "[\"DO\",", "[]]", "[ ]", "\"DO\"", "[0]"]
    {
        texts.extend(put_and_cut(&with_options(""), "\"FLAGS\":[]", &format!("\"FLAGS\":{flags}")));
    }
    texts
}

fn rows_of_z() -> Texts {
    let text = asking("z.");
    let mut texts = Vec::new();
    for z in [
        ",\"Z\":0", ",\"Z\":10", ",\"Z\":1\"AD\"", ",\"Z\":2", ",\"Z\":01", ",\"Z\":-1",
        ",\"Z\":\"1\"", ",\"Z\":1,\"Z\":1", ",\"Z\":1,\"", ",\"Z\":1,\"Z", ",\"Z\":", ",\"Z",
        ",\"Z\"", ",\"ZZ", ",\"z", ",\"AZ", ",\"A", ",\"", ",", ",\"Z\":1", ",\"Z\":1,\"C",
        ",\"Z\":1 ",
    ] {
        texts.push(behind_ra(&text, z));
        texts.push(behind_ra(&text, &format!("{z},\"Q")));
        // Nothing behind it.
        let cut = text.find(",\"AD\":").expect("AD is there");
        texts.push(format!("{}{z}", &text[..cut]));
        // The same behind a Z.
        texts.push(behind_ra(&text, &format!(",\"Z\":1{z}")));
    }
    for member in ["QR", "Opcode", "AA", "TC", "RD", "RA", "CD", "RCODE", "QDCOUNT", "questionRRs"]
    {
        let mark = format!(",\"{member}\":");
        texts.push(replaced(&text, &mark, &format!(",\"Z\":1{mark}")));
        texts.push(replaced(&with_z(&text), &mark, &format!(",\"Z\":1{mark}")));
    }
    texts
}

/// What is 21 or 22 alone, with a 20 behind it, and cut.
fn rows_of_what_is_not_20() -> Texts {
    let digits = "9".repeat(40);
    let element = edns("NoError", "");
    let saying = |from: &str, to: &str| replaced(&with_options(""), from, to);
    let whole = [
        saying("\"ID\":1", &format!("\"ID\":{digits}")),
        saying("\"QR\":0", "\"QR\":2"),
        saying("\"ARCOUNT\":1", &format!("\"ARCOUNT\":{digits}")),
        saying("\"Version\":0", "\"Version\":9"),
        saying("\"UDPSIZE\":512", "\"UDPSIZE\":70000"),
        asking(&("l".repeat(70) + ".")),
        asking(&"n.".repeat(140)),
        answering(&[record(".", "2", "0", "C00C")]),
        answering(&[record(".", "1", "-2147483649", "")]),
        with_options(",\"OPT3\":\"\""),
        with_options(",\"OPT65536\":\"\""),
        with_options(",\"EDE\":{\"CODE\":1},\"DAU\":[256],\"NSID\":{\"HEX\":\"\"}"),
        with_options(",\"COOKIE\":[]"),
        with_options(",\"EDE\":{\"CODE\":1,\"TEXT\":\"\"}"),
        with_options(",\"PADDING\":{\"LENGTH\":65536}"),
        with_options(",\"PADDING\":{\"LENGTH\":5000}"),
        adding(&[element.clone(), element]),
        adding(&[record(".", "41", "0", "")]),
    ];
    let mut texts = Vec::new();
    for text in whole {
        texts.push(format!("{text}x"));
        texts.push(text[..text.len() - 1].to_string());
        texts.push(format!("{},", &text[..text.len() - 1]));
        texts.push(replaced(&text, "\"additionalRRs\":[", "\"additionalRRs\":[,"));
        texts.push(text);
    }
    texts
}
