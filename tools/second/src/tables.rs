//! The fixed lists of the paper: members, RCODE names, options, RDATA layouts.

/// The header's members in the order of the text, all but Z: what stands
/// before the number, and the largest number its field can hold.
pub const HEADER_MEMBERS: [(&[u8], u64); 14] = [
    (b"{\"ID\":", 65_535),
    (b",\"QR\":", 1),
    (b",\"Opcode\":", 15),
    (b",\"AA\":", 1),
    (b",\"TC\":", 1),
    (b",\"RD\":", 1),
    (b",\"RA\":", 1),
    (b",\"AD\":", 1),
    (b",\"CD\":", 1),
    (b",\"RCODE\":", 15),
    (b",\"QDCOUNT\":", 65_535),
    (b",\"ANCOUNT\":", 65_535),
    (b",\"NSCOUNT\":", 65_535),
    (b",\"ARCOUNT\":", 65_535),
];

/// Where RA stands among the header's members; Z comes behind it.
pub const HEADER_RA: usize = 6;

/// The member of a Z bit that is set. One that is clear has none.
pub const Z_MEMBER: &[u8] = b",\"Z\":1";

/// The Z bit in the header's fourth octet.
pub const Z_BIT: u8 = 0x40;

/// Where the RCODE stands among the header's members.
pub const HEADER_RCODE: usize = 9;

/// Where the first of the four counts stands among the header's members.
pub const HEADER_COUNTS: usize = 10;

pub const QUESTION_ARRAY: &[u8] = b",\"questionRRs\":[";

/// The three arrays of records.
pub const RECORD_ARRAYS: [&[u8]; 3] =
    [b",\"answerRRs\":[", b",\"authorityRRs\":[", b",\"additionalRRs\":["];

/// The index of the additional section in `RECORD_ARRAYS`.
pub const ADDITIONAL: usize = 2;

/// What opens a question and a record alike.
pub const NAME_MEMBER: &[u8] = b"{\"NAME\":";
pub const TYPE_MEMBER: &[u8] = b",\"TYPE\":";
pub const CLASS_MEMBER: &[u8] = b",\"CLASS\":";
pub const TTL_MEMBER: &[u8] = b",\"TTL\":";
pub const RDATA_MEMBER: &[u8] = b",\"RDATAHEX\":";

/// What opens an EDNS element.
pub const EDNS_OPENING: &[u8] = b"{\"EDNS\":{\"Version\":";
pub const FLAGS_MEMBER: &[u8] = b",\"FLAGS\":";
pub const NO_FLAGS: &[u8] = b"[]";
pub const DO_FLAG: &[u8] = b"[\"DO\"]";
pub const EDNS_RCODE_MEMBER: &[u8] = b",\"RCODE\":";
pub const UDPSIZE_MEMBER: &[u8] = b",\"UDPSIZE\":";
pub const EDNS_CLOSING: &[u8] = b"}}";

/// What opens the member of an option without a row of its own; its code follows.
pub const OTHER_OPTION: &[u8] = b",\"OPT";

/// The TYPE of EDNS records.
pub const OPT: u16 = 41;

/// The flag bits an EDNS element can show.
pub const DO_BIT: u16 = 0x8000;

/// The RCODEs with a name, rising. Change request A10 made 16 BADVERS, where
/// it was BADSIG.
const RCODE_NAMES: [(u16, &[u8]); 20] = [
    (0, b"NoError"),
    (1, b"FormErr"),
    (2, b"ServFail"),
    (3, b"NXDomain"),
    (4, b"NotImp"),
    (5, b"Refused"),
    (6, b"YXDomain"),
    (7, b"YXRRSet"),
    (8, b"NXRRSet"),
    (9, b"NotAuth"),
    (10, b"NotZone"),
    (11, b"DSOTYPENI"),
    (16, b"BADVERS"),
    (17, b"BADKEY"),
    (18, b"BADTIME"),
    (19, b"BADMODE"),
    (20, b"BADNAME"),
    (21, b"BADALG"),
    (22, b"BADTRUNC"),
    (23, b"BADCOOKIE"),
];

/// The name of an RCODE, if the list has it.
pub fn rcode_name(rcode: u16) -> Option<&'static [u8]> {
    RCODE_NAMES.iter().find(|(value, _)| *value == rcode).map(|(_, name)| *name)
}

/// The RCODE of a name, if the list has it.
pub fn rcode_of_name(name: &[u8]) -> Option<u16> {
    RCODE_NAMES.iter().find(|(_, listed)| *listed == name).map(|(value, _)| *value)
}

/// The options that have a member name of their own.
pub const OPTION_NAMES: [(u16, &[u8]); 10] = [
    (3, b"NSID"),
    (5, b"DAU"),
    (6, b"DHU"),
    (7, b"N3U"),
    (9, b"EXPIRE"),
    (10, b"COOKIE"),
    (11, b"KEEPALIVE"),
    (12, b"PADDING"),
    (14, b"KEYTAG"),
    (15, b"EDE"),
];

/// How the RDATA of a listed TYPE is laid out: plain octets, names, plain octets.
#[derive(Clone, Copy)]
pub struct Layout {
    pub octets_before: usize,
    pub names: usize,
    pub octets_after: usize,
}

/// The layout of a TYPE whose RDATA holds names, or nothing for other TYPEs.
pub fn layout_of(rtype: u64) -> Option<Layout> {
    let (octets_before, names, octets_after) = match rtype {
        2 | 3 | 4 | 5 | 7 | 8 | 9 | 12 => (0, 1, 0),
        6 => (0, 2, 20),
        14 => (0, 2, 0),
        15 => (2, 1, 0),
        _ => return None,
    };
    Some(Layout { octets_before, names, octets_after })
}
