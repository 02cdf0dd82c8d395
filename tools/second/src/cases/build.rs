//! Small builders for messages, right and wrong ones.

/// The listed TYPEs with RDATA that has their layout, names without pointers.
pub fn listed_types() -> Vec<(u16, Vec<u8>)> {
    let name = name("n");
    let mut types: Vec<(u16, Vec<u8>)> =
        [2, 3, 4, 5, 7, 8, 9, 12].into_iter().map(|rtype| (rtype, name.clone())).collect();
    types.push((6, [name.clone(), name.clone(), soa_numbers()].concat()));
    types.push((14, [name.clone(), name.clone()].concat()));
    types.push((15, [vec![0, 10], name].concat()));
    types
}

/// The 20 octets behind the names of an SOA record.
pub fn soa_numbers() -> Vec<u8> {
    (0..20).map(|index| 0xA0 + index).collect()
}

/// A name from labels with dots between them; the empty text is the root.
pub fn name(labels: &str) -> Vec<u8> {
    let mut octets = label_run(labels);
    octets.push(0);
    octets
}

/// Labels without the root octet.
pub fn label_run(labels: &str) -> Vec<u8> {
    let labels = labels.split('.').filter(|label| !label.is_empty());
    labels.flat_map(|text| label(text.as_bytes())).collect()
}

pub fn label(octets: &[u8]) -> Vec<u8> {
    [&[octets.len() as u8], octets].concat()
}

pub fn pointer(target: usize) -> Vec<u8> {
    vec![0xC0 | (target >> 8) as u8, target as u8]
}

/// Labels that have `count` octets with their length octets; not 1.
pub fn labels_of(count: usize) -> Vec<u8> {
    let mut octets = Vec::new();
    while octets.len() < count {
        let left = count - octets.len();
        // A single octet left over would be no label.
        let take = if left == 65 { 63 } else { left.min(64) };
        octets.extend(label(&vec![b'a' + (octets.len() / 64) as u8; take - 1]));
    }
    octets
}

/// A name without pointers that has `count` octets with its root octet; not 2.
pub fn name_of(count: usize) -> Vec<u8> {
    let mut octets = labels_of(count - 1);
    octets.push(0);
    octets
}

pub fn question(name: &[u8], rtype: u16, class: u16) -> Vec<u8> {
    [name, &rtype.to_be_bytes(), &class.to_be_bytes()].concat()
}

pub fn record(owner: &[u8], rtype: u16, class: u16, ttl: u32, rdata: &[u8]) -> Vec<u8> {
    record_saying(owner, rtype, class, ttl, rdata.len() as u16, rdata)
}

/// A record whose RDLENGTH may disagree with its RDATA.
pub fn record_saying(
    owner: &[u8],
    rtype: u16,
    class: u16,
    ttl: u32,
    rdlength: u16,
    rdata: &[u8],
) -> Vec<u8> {
    let mut octets = owner.to_vec();
    octets.extend(rtype.to_be_bytes());
    octets.extend(class.to_be_bytes());
    octets.extend(ttl.to_be_bytes());
    octets.extend(rdlength.to_be_bytes());
    octets.extend(rdata);
    octets
}

/// A TYPE 41 record with the root as owner.
pub fn opt_record(udp_size: u16, ttl: u32, rdata: &[u8]) -> Vec<u8> {
    record(&[0], 41, udp_size, ttl, rdata)
}

/// The RDATA of a TSIG record without a MAC, with this number in its error field.
pub fn tsig_rdata(error: u16) -> Vec<u8> {
    let time_and_fudge = [0, 0, 0x65, 0x53, 0xF1, 0, 1, 44];
    let no_mac = [0, 0];
    let original_id = [0x12, 0x34];
    let no_other_data = [0, 0];
    let mut octets = name("hmac-sha256");
    octets.extend(time_and_fudge);
    octets.extend(no_mac);
    octets.extend(original_id);
    octets.extend(error.to_be_bytes());
    octets.extend(no_other_data);
    octets
}

pub fn option(code: u16, value: &[u8]) -> Vec<u8> {
    [&code.to_be_bytes(), &(value.len() as u16).to_be_bytes(), value].concat()
}

/// A message with the counts of what it holds.
pub fn message(flags: u16, questions: &[Vec<u8>], sections: [&[Vec<u8>]; 3]) -> Vec<u8> {
    let counts = [questions.len(), sections[0].len(), sections[1].len(), sections[2].len()];
    let entries = [questions, sections[0], sections[1], sections[2]].concat().concat();
    [header(0x1234, flags, counts), entries].concat()
}

pub fn header(id: u16, flags: u16, counts: [usize; 4]) -> Vec<u8> {
    let mut octets = [id.to_be_bytes(), flags.to_be_bytes()].concat();
    octets.extend(counts.iter().flat_map(|count| (*count as u16).to_be_bytes()));
    octets
}

/// A message of questions alone.
pub fn questions(questions: &[Vec<u8>]) -> Vec<u8> {
    message(0, questions, [&[], &[], &[]])
}

/// A message with one question for a name.
pub fn asking(name: &[u8]) -> Vec<u8> {
    questions(&[question(name, 1, 1)])
}

/// A message with the question `q.` and these answers. The first answer's
/// offset is `FIRST_ANSWER`.
pub fn answers(records: &[Vec<u8>]) -> Vec<u8> {
    message(0x8000, &[question(&name("q"), 1, 1)], [records, &[], &[]])
}

/// Where the first record of `answers` starts.
pub const FIRST_ANSWER: usize = 19;

/// A message with these additional records alone.
pub fn additional(flags: u16, records: &[Vec<u8>]) -> Vec<u8> {
    message(flags, &[], [&[], &[], records])
}

/// A message with one TYPE 41 record that holds this RDATA.
pub fn with_options(rdata: &[u8]) -> Vec<u8> {
    additional(0, &[opt_record(1232, 0, rdata)])
}

/// A query as resolvers send it.
pub fn plain_query() -> Vec<u8> {
    let options = option(10, &[1, 2, 3, 4, 5, 6, 7, 8]);
    message(
        0x0120,
        &[question(&name("www.example.com"), 28, 1)],
        [&[], &[], &[opt_record(1232, 0x8000, &options)]],
    )
}

/// A response that is compressed in owners and in RDATA.
pub fn plain_response() -> Vec<u8> {
    let zone = pointer(12);
    let exchange = [vec![0, 10], label_run("mail"), zone.clone()].concat();
    let soa =
        [label_run("ns"), zone.clone(), label_run("host"), zone.clone(), soa_numbers()].concat();
    let mail_owner = [label_run("mail"), zone.clone()].concat();
    let ede = option(15, b"\x00\x12no \"x\"");
    message(
        0x8580,
        &[question(&name("example.com"), 15, 1)],
        [
            &[record(&zone, 15, 1, 300, &exchange)],
            &[record(&zone, 6, 1, 0x8000_0000, &soa)],
            &[record(&mail_owner, 1, 1, 300, &[192, 0, 2, 1]), opt_record(4096, 0, &ede)],
        ],
    )
}

/// Many rules in few octets.
pub fn rich_message() -> Vec<u8> {
    let owner = pointer(12);
    let ns = [label_run("s"), pointer(14)].concat();
    let minfo = [pointer(12), label(b".\\\""), vec![0]].concat();
    let options = [
        option(3, b"n"),
        option(5, &[8]),
        option(9, &[]),
        option(10, b"abcdefgh"),
        option(12, &[0]),
        option(14, &[1, 2]),
        option(15, b"\x00\x01a\\"),
        option(20, &[7]),
    ];
    message(
        0x8583,
        &[question(&name("w.e"), 1, 1)],
        [
            &[record(&owner, 2, 1, 60, &ns)],
            &[record(&owner, 14, 3, 0xFFFF_FFFF, &minfo)],
            &[record(&[0], 16, 1, 0, &[1]), opt_record(1232, 0x0100_8000, &options.concat())],
        ],
    )
}
