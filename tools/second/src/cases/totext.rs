//! The cases for `totext`: messages in hexadecimal, and lines that are none.

use std::slice::from_ref;

use super::build::*;
use super::{totext_places, Group, RCODE_16, Z_BIT};
use crate::generate::{self, message_with_z};
use crate::lines::hex_of_octets;
use crate::random::Random;
use crate::text_of;

pub(super) type Messages = Vec<Vec<u8>>;
type Lines = Vec<Vec<u8>>;

pub fn groups() -> Vec<Group> {
    let of_messages: [(&'static str, Messages); 31] = [
        ("worked and marked examples", examples()),
        ("truncations", truncations()),
        ("pointer targets", pointer_targets()),
        ("pointer chains and loops", pointer_chains()),
        ("name lengths", name_lengths()),
        ("name lengths across jumps", name_lengths_across_jumps()),
        ("name lengths in RDATA", name_lengths_in_rdata()),
        ("end before length of name", ends_before_length()),
        ("length octets", length_octets()),
        ("RDLENGTH of listed types", listed_rdlengths()),
        ("listed types elsewhere", listed_elsewhere()),
        ("jumps out of RDATA", jumps_out_of_rdata()),
        ("second names", second_names()),
        ("header flags", header_flags()),
        ("counts", counts()),
        ("trailing octets", trailing_octets()),
        ("option values", option_values()),
        ("EDE text octets", ede_octets()),
        ("option numbers", option_numbers()),
        ("option order", option_order()),
        ("options that don't divide", options_that_do_not_divide()),
        ("EDNS conditions", edns_conditions()),
        ("EDNS RCODEs", edns_rcodes()),
        (RCODE_16, rcode_16()),
        ("TTL and number edges", number_edges()),
        ("octets in labels", octets_in_labels()),
        ("look-alike labels", look_alike_labels()),
        ("long forms and long texts", long_forms_and_texts()),
        ("bit flips", bit_flips()),
        ("random messages", random_messages()),
        (Z_BIT, z_bit()),
    ];
    let group = |(kind, messages): (&'static str, Messages)| Group {
        kind,
        lines: messages.iter().map(|message| hex_of_octets(message)).collect(),
    };
    let mut groups: Vec<Group> = of_messages.into_iter().map(group).collect();
    groups.push(Group { kind: "hexadecimal", lines: hex_lines() });
    groups.push(Group { kind: "long lines", lines: long_lines() });
    groups.extend(totext_places::kinds().into_iter().map(group));
    groups.push(Group { kind: "line ends", lines: line_ends() });
    groups
}

fn examples() -> Messages {
    let edns = |flags, ttl, rdata: &[u8]| additional(flags, &[opt_record(1232, ttl, rdata)]);
    vec![
        [header(0x1A2B, 0x0100, [1, 0, 0, 0]), question(&name("a.b"), 1, 1)].concat(),
        vec![0; 12],
        vec![0; 13],
        header(0, 0x0040, [0; 4]),
        answers(&[record(&[0], 1, 1, 0xFFFF_FFFF, &[])]),
        answers(&[record(&[0], 1, 1, 0x8000_0000, &[])]),
        asking(&[1, 0x2E, 0]),
        asking(&[1, 0, 0]),
        asking(&pointer(12)),
        edns(0, 0x8000, &option(9, &[])),
        edns(0, 16_859_136, &option(15, &[0, 0x15])),
        edns(7, 0x0100_0000, &[]),
    ]
}

fn truncations() -> Messages {
    let listed: Vec<Vec<u8>> = listed_types()
        .into_iter()
        .filter(|(rtype, _)| [2, 6, 14, 15].contains(rtype))
        .map(|(rtype, rdata)| record(&[0], rtype, 1, 5, &rdata))
        .collect();
    let whole = [plain_query(), plain_response(), rich_message(), answers(&listed)];
    whole.iter().flat_map(|message| cuts(message)).collect()
}

/// A message cut at every length, itself included.
pub(super) fn cuts(message: &[u8]) -> Messages {
    (0..=message.len()).map(|length| message[..length].to_vec()).collect()
}

fn pointer_targets() -> Messages {
    let first = question(&name("ab.c"), 1, 1);
    let odd_rdata = record(&[0], 16, 1, 0, &[3, b'x', b'y', b'z', 0, 0xC0, 12, 0x40, 5, b'a', 0]);
    let with_label = |target| [label_run("x"), pointer(target)].concat();
    let mut messages = Vec::new();
    for target in (0..=20).chain([255, 268, 0x3FFF]) {
        messages.push(asking(&pointer(target)));
        messages.push(asking(&with_label(target)));
    }
    for target in (0..=46).chain([256, 268, 0x3FFF]) {
        messages.push(questions(&[first.clone(), question(&pointer(target), 1, 1)]));
        messages.push(questions(&[first.clone(), question(&with_label(target), 1, 1)]));
        messages.push(answers(&[record(&pointer(12), 2, 1, 0, &pointer(target))]));
        messages.push(answers(&[record(&pointer(12), 12, 1, 0, &with_label(target))]));
        messages.push(answers(&[odd_rdata.clone(), record(&pointer(target), 1, 1, 0, &[])]));
        messages.push(answers(&[odd_rdata.clone(), record(&[0], 5, 1, 0, &pointer(target))]));
    }
    messages
}

/// Where the RDATA of the first of `answers` starts if its owner is the root.
pub(super) const FIRST_RDATA: usize = FIRST_ANSWER + 11;

/// A message whose first answer holds octets that two further records point into.
fn pointing_into(octets: &[u8], offset: usize) -> Messages {
    let holder = record(&[0], 16, 1, 0, octets);
    let target = FIRST_RDATA + offset;
    vec![
        answers(&[holder.clone(), record(&pointer(target), 1, 1, 0, &[])]),
        answers(&[holder, record(&[0], 2, 1, 0, &pointer(target))]),
    ]
}

fn pointer_chains() -> Messages {
    let mut messages = Vec::new();
    for links in 1..=8 {
        // Each pointer names the one before it, the first one the question's name.
        let mut falling = pointer(12);
        for link in 1..links {
            falling.extend(pointer(FIRST_RDATA + 2 * (link - 1)));
        }
        messages.extend(pointing_into(&falling, 2 * (links - 1)));
        // Each pointer names the one after it.
        let rising: Vec<u8> =
            (1..=links).flat_map(|link| pointer(FIRST_RDATA + 2 * link)).collect();
        messages.extend(pointing_into(&[rising, vec![0]].concat(), 0));
        // Labels before each pointer.
        let mut labelled = [label_run("k"), pointer(12)].concat();
        for link in 1..links {
            labelled.extend([label_run("k"), pointer(FIRST_RDATA + 4 * (link - 1))].concat());
        }
        messages.extend(pointing_into(&labelled, 4 * (links - 1)));
    }
    let here = FIRST_RDATA;
    let looping = [
        pointer(here),
        pointer(here + 1),
        [label_run("a"), pointer(here)].concat(),
        [label_run("a"), pointer(here + 2)].concat(),
        [label_run("a.b"), pointer(here + 2)].concat(),
        [pointer(here + 2), pointer(here)].concat(),
        [pointer(here + 4), vec![0, 0], pointer(here)].concat(),
        [label_run("a"), pointer(here + 4), label_run("b"), pointer(here)].concat(),
    ];
    for octets in looping {
        for offset in 0..octets.len() {
            messages.extend(pointing_into(&octets, offset));
        }
    }
    messages.push(asking(&[1, b'a', 0xC0, 12]));
    messages.push(asking(&[1, b'a', 0xC0, 13]));
    messages.push(asking(&[1, b'a', 0xC0, 14]));
    messages
}

fn name_lengths() -> Messages {
    let mut messages = Vec::new();
    for count in 250..=260 {
        messages.push(asking(&name_of(count)));
        messages.push(answers(&[record(&name_of(count), 1, 1, 0, &[])]));
    }
    for count in 124..=130 {
        // Labels of one octet each.
        messages.push(asking(&[[1, b'x'].repeat(count), vec![0]].concat()));
    }
    for length in [62, 63, 64, 65] {
        messages.push(asking(&[vec![length], vec![b'l'; usize::from(length)], vec![0]].concat()));
    }
    messages
}

fn name_lengths_across_jumps() -> Messages {
    let mut messages = Vec::new();
    for total in 253..=257 {
        for suffix in [1, 3, 64, 100, 128, 200, 250, 251] {
            let first = question(&name_of(suffix), 1, 1);
            let own = [labels_of(total - suffix), pointer(12)].concat();
            messages.push(questions(&[first.clone(), question(&own, 1, 1)]));
            // The same with a second jump on the way.
            let third = questions(&[first.clone(), question(&pointer(12), 1, 1)]).len();
            let relay = question(&pointer(12), 1, 1);
            let far = [labels_of(total - suffix), pointer(third - 6)].concat();
            messages.push(questions(&[first, relay, question(&far, 1, 1)]));
        }
    }
    messages
}

fn name_lengths_in_rdata() -> Messages {
    let mut messages = Vec::new();
    for total in 254..=256 {
        let jumping = [labels_of(total - 3), pointer(12)].concat();
        for long in [name_of(total), jumping] {
            for rtype in [2, 3, 4, 5, 7, 8, 9, 12] {
                messages.push(answers(&[record(&[0], rtype, 1, 0, &long)]));
            }
            let small = name("m");
            let pairs = [[long.clone(), small.clone()].concat(), [small, long.clone()].concat()];
            for pair in pairs {
                messages.push(answers(&[record(&[0], 14, 1, 0, &pair)]));
                messages.push(answers(&[record(&[0], 6, 1, 0, &[pair, soa_numbers()].concat())]));
            }
            messages.push(answers(&[record(&[0], 15, 1, 0, &[vec![0, 1], long].concat())]));
        }
    }
    messages
}

/// A label that both passes the end and makes the name too long, or only one of them.
fn ends_before_length() -> Messages {
    let mut messages = Vec::new();
    for so_far in [243, 244, 250, 253] {
        for length in [1, 10, 63] {
            for present in [0, 7, length - 1, length] {
                let last = [vec![length as u8], vec![b'z'; present]].concat();
                let octets = [labels_of(so_far), last].concat();
                messages.push([header(0, 0, [1, 0, 0, 0]), octets.clone()].concat());
                messages
                    .push(answers(&[record(&[0], 12, 1, 0, &octets), record(&[0], 1, 1, 0, &[])]));
            }
        }
    }
    messages
}

fn length_octets() -> Messages {
    let behind = [vec![b'a'; 63], vec![0]].concat();
    let mut messages = Vec::new();
    for octet in 0..=255 {
        let octets = [vec![octet], behind.clone()].concat();
        if octet < 66 || octet % 4 == 3 || octet % 64 == 0 {
            messages.push(asking(&octets));
        }
        if octet % 32 < 2 || octet % 32 == 31 {
            messages.push(answers(&[record(&[0], 2, 1, 0, &octets)]));
        }
    }
    for octet in [0, 1, 0x3F, 0x40, 0x7F, 0x80, 0xBF, 0xC0, 0xFF] {
        for rtype in [2, 6, 14, 15] {
            messages.push(answers(&[record(&[0], rtype, 1, 0, &[octet])]));
            messages.push(answers(&[record(&[0], rtype, 1, 0, &[0, octet])]));
            messages.push(answers(&[record(&[0], rtype, 1, 0, &[0, 1, octet])]));
        }
        messages.push([header(0, 0, [1, 0, 0, 0]), vec![octet]].concat());
    }
    messages
}

fn listed_rdlengths() -> Messages {
    let next = record(&[0], 1, 1, 0, &[10, 0, 0, 1]);
    let mut messages = Vec::new();
    for (rtype, plain) in listed_types() {
        for rdata in [plain.clone(), jumping_rdata(rtype)] {
            let length = rdata.len();
            for wrong in 0..=length + 2 {
                // RDATA and RDLENGTH agree, the layout does not.
                let mut resized = rdata.clone();
                resized.resize(wrong, 0);
                messages.push(answers(&[record(&[0], rtype, 1, 0, &resized)]));
            }
            for said in [0, length - 1, length + 1, length + 16] {
                let misled = record_saying(&[0], rtype, 1, 0, said as u16, &rdata);
                messages.push(answers(&[misled.clone(), next.clone()]));
                messages.push(answers(&[misled]));
            }
        }
    }
    messages
}

/// RDATA of a listed TYPE with pointers to the question of `answers`.
fn jumping_rdata(rtype: u16) -> Vec<u8> {
    let name = [label_run("j"), pointer(12)].concat();
    match rtype {
        6 => [name.clone(), pointer(12), soa_numbers()].concat(),
        14 => [name, pointer(12)].concat(),
        15 => [vec![0, 7], name].concat(),
        _ => name,
    }
}

/// Listed TYPEs in other sections and classes, and their neighbours.
fn listed_elsewhere() -> Messages {
    let mut messages = Vec::new();
    for (rtype, rdata) in listed_types() {
        for class in [1, 254] {
            let entry = [record(&[0], rtype, class, 0, &rdata)];
            let broken = [record(&[0], rtype, class, 0, &[rdata.as_slice(), &[9]].concat())];
            let empty = [record(&[0], rtype, class, 0, &[])];
            for records in [&entry, &broken, &empty] {
                let section: [&[Vec<u8>]; 3] =
                    if class == 1 { [&[], records, &[]] } else { [&[], &[], records] };
                messages.push(message(0, &[], section));
            }
        }
    }
    for rtype in [0, 1, 10, 11, 13, 16, 17, 18, 21, 24, 26, 33, 35, 36, 39, 40, 258, 514, 0x0F00] {
        // Not listed, so a pointer in RDATA stays as it is.
        messages.push(answers(&[record(&[0], rtype, 1, 0, &pointer(12))]));
        messages.push(answers(&[record(&[0], rtype, 1, 0, &[0x40])]));
    }
    messages
}

/// Runs that begin in an earlier RDATA and go on over everything behind it.
fn jumps_out_of_rdata() -> Messages {
    let mut messages = Vec::new();
    for length in (0..=42).chain([63]) {
        // The run's label covers the rest of its RDATA and what follows.
        let holder = record(&[0], 16, 1, 0, &[length]);
        let target = pointer(FIRST_RDATA);
        messages.push(answers(&[holder.clone(), record(&[0], 2, 1, 0, &target)]));
        let labelled = [vec![0, 9], label_run("m"), target.clone()].concat();
        let last = record(&[0], 1, 1, 0, &[1, 2, 3, 4]);
        messages.push(answers(&[holder.clone(), record(&[0], 15, 1, 0, &labelled), last]));
        let both = [target.clone(), target.clone()].concat();
        messages.push(answers(&[holder.clone(), record(&[0], 14, 1, 0, &both)]));
        messages.push(answers(&[holder, record(&target, 1, 1, 0, &[0; 4])]));
    }
    for octets in [&[0xC0][..], &[0x40], &[0x80], &[1], &[1, b'a'], &[2, b'a'], &[1, b'a', 0xC0]] {
        // The same ends once before and once after a jump.
        messages.push(answers(&[record(&[0], 2, 1, 0, octets)]));
        messages.extend(pointing_into(octets, 0));
        // The message goes on with an octet that would make a pointer to its
        // header.
        messages.push(answers(&[record(&[0], 2, 1, 0, octets), record(&[0], 1, 1, 0, &[])]));
    }
    for target in [0x40, 0x80, 0xC0, 0x4C0] {
        // The run's label ends before the message's last octet, which is the
        // pointer's second one, read as a length octet now.
        let mut holder = vec![0; target - FIRST_RDATA];
        holder.push(12);
        let holder = record(&[0], 16, 1, 0, &holder);
        messages.push(answers(&[holder.clone(), record(&[0], 2, 1, 0, &pointer(target))]));
        let owner = record(&pointer(target), 1, 1, 0, &[]);
        messages.push(answers(&[holder, owner]));
    }
    messages
}

fn second_names() -> Messages {
    let first_names = [name("f"), [label_run("g"), pointer(12)].concat()];
    let mut messages = Vec::new();
    for first in &first_names {
        let start = FIRST_RDATA + first.len();
        let seconds = [
            vec![0],
            name("s"),
            pointer(12),
            pointer(FIRST_RDATA),
            pointer(FIRST_RDATA + 1),
            pointer(start - 1),
            pointer(start),
            pointer(start + 1),
            pointer(start + 30),
            pointer(11),
            [label_run("t"), pointer(FIRST_RDATA)].concat(),
            [label_run("t"), pointer(start)].concat(),
            vec![],
            vec![0x40],
            vec![0x80],
            vec![0xC0],
            vec![5, b'a'],
            vec![1, b'a'],
            name_of(255),
            name_of(256),
            [labels_of(252), pointer(12)].concat(),
            [labels_of(253), pointer(12)].concat(),
        ];
        for second in seconds {
            let names = [first.clone(), second].concat();
            let soa = |count: usize| [names.clone(), vec![0x11; count]].concat();
            messages.push(answers(&[record(&[0], 14, 1, 0, &names)]));
            for count in [19, 20, 21] {
                messages.push(answers(&[record(&[0], 6, 1, 0, &soa(count))]));
            }
        }
    }
    messages
}

fn header_flags() -> Messages {
    let mut messages: Messages = (0..16).map(|bit| header(0, 1 << bit, [0; 4])).collect();
    messages.extend((0..16).map(|opcode| header(1, opcode << 11, [0; 4])));
    messages.extend((0..16).map(|rcode| header(2, rcode, [0; 4])));
    for flags in [0xFFFF, 0xFFBF, 0x0040, 0x00C0, 0x0060, 0x0050, 0x8040] {
        let whole = header(3, flags, [0; 4]);
        messages.push(whole.clone());
        messages.push([whole.clone(), vec![0]].concat());
        messages.push(whole[..11].to_vec());
        messages.push(header(3, flags, [1, 0, 0, 0]));
    }
    messages
}

fn counts() -> Messages {
    let mut messages = Vec::new();
    for whole in [rich_message(), plain_response(), plain_query()] {
        for place in [4, 6, 8, 10] {
            for count in [0, 1, 2, 3, 4, 256, 65_535_u16] {
                let mut changed = whole.clone();
                changed[place..place + 2].copy_from_slice(&count.to_be_bytes());
                messages.push(changed);
            }
        }
    }
    for place in 0..4 {
        let mut said = [0; 4];
        said[place] = 1;
        messages.push(header(0, 0, said));
        messages.push([header(0, 0, said), question(&[0], 1, 1)].concat());
        messages.push([header(0, 0, said), record(&[0], 1, 1, 0, &[])].concat());
    }
    messages
}

fn trailing_octets() -> Messages {
    let mut messages = Vec::new();
    for whole in [vec![0; 12], asking(&name("t")), plain_query(), rich_message(), plain_response()]
    {
        for tail in [&[0][..], &[0xFF], &[0, 0], &[0xC0, 12], &[0; 5], &[0; 11]] {
            messages.push([whole.as_slice(), tail].concat());
        }
    }
    messages
}

fn option_values() -> Messages {
    let mut messages = Vec::new();
    let mut add = |code, value: &[u8]| messages.push(with_options(&option(code, value)));
    for (code, most) in [(9, 9), (10, 42), (11, 9), (12, 9), (14, 9), (15, 42)] {
        for count in 0..=most {
            add(code, &vec![b'A'; count]);
        }
    }
    for code in [0, 1, 2, 3, 4, 5, 6, 7, 8, 13, 16, 17, 18, 20, 259, 65_001, 65_535] {
        for count in [0, 1, 4, 8] {
            add(code, &vec![0xFA; count]);
        }
    }
    for code in [3, 9, 10, 11, 12, 14, 15] {
        for count in [1, 2, 4, 8, 40] {
            add(code, &vec![0; count]);
            add(code, &vec![0xFF; count]);
        }
    }
    for place in 0..5 {
        let mut value = [0; 5];
        value[place] = 1;
        add(12, &value);
    }
    add(12, &[0; 300]);
    add(3, &[0xAB; 300]);
    add(5, &[200; 300]);
    messages
}

fn ede_octets() -> Messages {
    let value = |octet, text: &[u8]| [&[0, 22], text, &[octet]].concat();
    let alone = (0..=255).map(|octet| with_options(&option(15, &value(octet, b""))));
    let edges = [0, 0x1F, 0x20, 0x22, 0x2F, 0x5C, 0x7E, 0x7F, 0x80, 0xFF];
    let behind = edges.iter().map(|octet| with_options(&option(15, &value(*octet, b"a\"\\"))));
    let codes = [0_u16, 9, 10, 99, 100, 4095, 65_535];
    let numbers = codes.iter().map(|code| with_options(&option(15, &code.to_be_bytes())));
    alone.chain(behind).chain(numbers).collect()
}

fn option_numbers() -> Messages {
    let mut messages = Vec::new();
    for number in [0_u16, 1, 9, 10, 99, 100, 255, 256, 999, 1000, 9999, 10_000, 65_535] {
        let two = number.to_be_bytes();
        messages.push(with_options(&option(11, &two)));
        messages.push(with_options(&option(14, &two)));
        messages.push(with_options(&option(14, &[two, two, [0, 0]].concat())));
        messages.push(with_options(&option(number, &[0x5A])));
        messages.push(with_options(&option(9, &[two, two].concat())));
        for code in [5, 6, 7] {
            messages.push(with_options(&option(code, &[number as u8, 0, number as u8])));
        }
    }
    for number in [9, 10, 99_999, 0x7FFF_FFFF, 0x8000_0000, 0xFFFF_FFFE, 0xFFFF_FFFF_u32] {
        messages.push(with_options(&option(9, &number.to_be_bytes())));
    }
    messages
}

fn option_order() -> Messages {
    let some = [
        option(0, &[1]),
        option(3, b"x"),
        option(5, &[1, 2]),
        option(9, &[]),
        option(10, b"12345678"),
        option(12, &[0, 0]),
        option(15, &[0, 1]),
        option(255, &[]),
        option(256, &[]),
        option(65_535, &[]),
    ];
    let mut messages = Vec::new();
    for first in &some {
        for second in &some {
            messages.push(with_options(&[first.as_slice(), second].concat()));
        }
    }
    messages.push(with_options(&some.concat()));
    for place in 0..some.len() - 1 {
        let mut swapped = some.to_vec();
        swapped.swap(place, place + 1);
        messages.push(with_options(&swapped.concat()));
        let mut repeated = some.to_vec();
        repeated[place] = repeated[place + 1].clone();
        messages.push(with_options(&repeated.concat()));
    }
    messages
}

fn options_that_do_not_divide() -> Messages {
    let options =
        [option(3, b"nsid"), option(9, &[]), option(12, &[0; 3]), option(20, &[1])].concat();
    let mut messages: Messages = cuts(&options).iter().map(|cut| with_options(cut)).collect();
    for place in [3, 11, 15, 22] {
        for length in [0, 1, 2, 3, 4, 5, 10, 255] {
            let mut changed = options.clone();
            changed[place] = length;
            messages.push(with_options(&changed));
        }
    }
    messages.push(with_options(&[0, 3, 0xFF, 0xFF]));
    messages
}

fn edns_conditions() -> Messages {
    let good = opt_record(1232, 0x8000, &option(3, b"n"));
    let address = record(&[0], 1, 1, 0, &[1, 2, 3, 4]);
    let mut messages = Vec::new();
    // The owner: labels, and pointers to a root octet or to a label.
    for owner in [vec![0], name("a"), name("."), pointer(14), pointer(12), pointer(13)] {
        let query = [question(&name("q"), 1, 1)];
        messages.push(message(0, &query, [&[], &[], &[record(&owner, 41, 512, 0, &[])]]));
    }
    for version in 0..=255 {
        if version < 4 || version % 85 == 0 || version == 128 {
            messages.push(additional(0, &[opt_record(1232, version << 16, &[])]));
        }
    }
    for bit in 0..16 {
        messages.push(additional(0, &[opt_record(1232, 1 << bit, &[])]));
        messages.push(additional(0, &[opt_record(1232, 0x8000 | 1 << bit, &[])]));
    }
    for udp_size in [0, 1, 9, 10, 511, 512, 9999, 10_000, 65_535] {
        messages.push(additional(0, &[opt_record(udp_size, 0, &[])]));
    }
    // Two of them, and others beside them.
    let others = [
        good.clone(),
        opt_record(512, 0, &[]),
        opt_record(512, 0x0001_0000, &[]),
        opt_record(512, 0, &[1]),
        record(&name("o"), 41, 1, 0, &[]),
        address.clone(),
        record(&[0], 40, 1, 0, &[]),
        record(&[0], 42, 1, 0, &[]),
    ];
    for other in others {
        let pair = [good.clone(), other.clone()];
        messages.push(additional(0, &pair));
        messages.push(additional(0, &[other.clone(), good.clone()]));
        messages
            .push(additional(0, &[other.clone(), address.clone(), good.clone(), address.clone()]));
        messages.push(additional(0, &[good.clone(), good.clone(), other.clone()]));
        // In other sections.
        messages.push(message(0, &[], [&pair, &[], &[]]));
        messages.push(message(0, &[], [&[], &pair, &[]]));
        let (good, other) = (from_ref(&good), from_ref(&other));
        messages.push(message(0, &[], [good, &[], other]));
        messages.push(message(0, &[], [&[], good, other]));
        messages.push(message(0, &[], [other, other, good]));
    }
    messages
}

fn edns_rcodes() -> Messages {
    let mut messages = Vec::new();
    for rcode in 0..16 {
        for high in [0, 1, 2, 255] {
            messages.push(additional(rcode, &[opt_record(1232, high << 24, &[])]));
        }
    }
    messages
}

/// RCODE 16 in EDNS elements and in TYPE 41 records that are none, and 16 in
/// the error field of TSIG records.
fn rcode_16() -> Messages {
    let options = [option(3, b"n"), option(15, b"\x00\x00BADSIG"), option(20, &[16])];
    let mut messages = Vec::new();
    // With and without DO; then with version 1 and with other flags.
    for rest in [0, 0x8000, 0x0001_0000, 0x0001_8000, 0x4000, 0xC000, 1] {
        for rdata in [vec![], options.concat()] {
            messages.push(additional(0x8000, &[opt_record(1232, 0x0100_0000 | rest, &rdata)]));
        }
    }
    // Options that don't rise, and RDATA that doesn't divide.
    let [nsid, ede, _] = options;
    for rdata in [[ede, nsid.clone()].concat(), [nsid, vec![0]].concat()] {
        messages.push(additional(0x8000, &[opt_record(1232, 0x0100_0000, &rdata)]));
    }
    // Owners: the root by a pointer, and a label.
    let query = [question(&name("q"), 1, 1)];
    for owner in [pointer(14), name("o")] {
        let record = record(&owner, 41, 1232, 0x0100_0000, &[]);
        messages.push(message(0x8000, &query, [&[], &[], &[record]]));
    }
    // Two of them, also with one in another section.
    let good = opt_record(1232, 0x0100_8000, &[]);
    let one = from_ref(&good);
    messages.push(additional(0x8000, &[good.clone(), good.clone()]));
    messages.push(additional(0x8000, &[good.clone(), opt_record(1232, 0x0101_0000, &[])]));
    messages.push(message(0x8000, &[], [one, &[], &[]]));
    messages.push(message(0x8000, &[], [&[], one, one]));
    // TSIG records alone and beside RCODE 0, 9, 16 and 25 in the TYPE 41 record.
    let tsig = record(&name("key"), 250, 255, 0, &tsig_rdata(16));
    messages.push(additional(0x8009, from_ref(&tsig)));
    for flags in [0x8000, 0x8009] {
        for high in [0, 1] {
            let opt = opt_record(1232, high << 24, &[]);
            messages.push(additional(flags, &[opt.clone(), tsig.clone()]));
            messages.push(additional(flags, &[tsig.clone(), opt]));
        }
    }
    // Both names as labels.
    messages.push(asking(&name("BADSIG.BADVERS")));
    // The longest text that `totext` prints, and one more octet.
    let element = "{\"EDNS\":{\"Version\":0,\"FLAGS\":[],\"RCODE\":\"BADVERS\",\"UDPSIZE\":1232}}";
    for length in [65_536, 65_537] {
        let mut long = message_with_text_of(length - element.len());
        long.extend(opt_record(1232, 0x0100_0000, &[]));
        long[11] = 1;
        messages.push(long);
    }
    messages
}

fn number_edges() -> Messages {
    let mut messages = Vec::new();
    let mut ttls =
        vec![0, 0x7FFF_FFFE, 0x7FFF_FFFF, 0x8000_0000, 0x8000_0001, 0xFFFF_FFFE, 0xFFFF_FFFF_u32];
    for power in 0..10 {
        let ten = 10_u32.pow(power);
        ttls.extend([ten - 1, ten, ten.wrapping_neg(), (ten - 1).wrapping_neg()]);
    }
    for ttl in ttls {
        messages.push(answers(&[record(&[0], 1, 1, ttl, &[])]));
    }
    for number in [0, 1, 9, 10, 99, 100, 999, 1000, 9999, 10_000, 32_767, 32_768, 65_534, 65_535] {
        messages.push(header(number, 0, [0; 4]));
        messages.push(questions(&[question(&[0], number, 1)]));
        messages.push(questions(&[question(&[0], 1, number)]));
        messages.push(answers(&[record(&[0], 1, number, 1, &[])]));
        // Types with a layout or 41 show it only where they stand as records.
        messages.push(answers(&[record(&[0], number, 1, 1, &[])]));
    }
    for count in [9, 10, 11, 99, 100, 101, 800] {
        messages.push(questions(&vec![question(&[0], 1, 1); count]));
    }
    for octet in 0..=255 {
        if octet % 16 == octet / 16 || octet % 51 == 0 {
            messages.push(answers(&[record(&[0], 16, 1, 1, &[octet, octet])]));
        }
    }
    messages
}

fn octets_in_labels() -> Messages {
    let mut messages = Vec::new();
    for octet in 0..=255 {
        messages.push(asking(&[1, octet, 0]));
        if octet % 16 == 14 || octet % 32 < 2 {
            messages.push(asking(&[3, b'a', octet, b'1', 2, octet, octet, 0]));
        }
    }
    let all: Vec<u8> = (0..=255).collect();
    let quarters: Vec<Vec<u8>> = all.chunks(63).map(label).collect();
    for quarter in &quarters {
        messages.push(asking(&[quarter.as_slice(), &[0]].concat()));
    }
    messages
}

/// Labels whose spellings could be mixed up.
fn look_alike_labels() -> Messages {
    let signs = [b'.', b'\\', b'"', 0, b'0', b'4', b'6', b'a'];
    let few = [b'.', b'\\', 0, b'0'];
    let mut messages = Vec::new();
    for first in signs {
        for second in signs {
            messages.push(asking(&[2, first, second, 0]));
            messages.push(asking(&[1, first, 1, second, 0]));
        }
    }
    for first in few {
        for second in few {
            for third in few {
                messages.push(asking(&[3, first, second, third, 0]));
            }
        }
    }
    messages.push(asking(&label(b"\\046").into_iter().chain([0]).collect::<Vec<u8>>()));
    messages.push(asking(&label(b"\\\\.").into_iter().chain([0]).collect::<Vec<u8>>()));
    messages
}

/// Messages at the limits of 9 and 10, from lines that `totext` takes.
fn long_forms_and_texts() -> Messages {
    let mut messages = Vec::new();
    for count in 249..=256 {
        messages.push(repeated_long_name(4, count, 0));
    }
    for first_label in 1..=6 {
        // The last question leaves the first label out, so the form comes near 65,535.
        messages.push(repeated_long_name(first_label, 252, 1));
        messages.push(repeated_long_name(first_label, 251, 2));
    }
    let too_long = repeated_long_name(4, 255, 0);
    messages.push([too_long.clone(), vec![0]].concat());
    messages.push(too_long[..too_long.len() - 1].to_vec());
    let mut looping = too_long;
    let last = looping.len() - 6;
    looping[last..last + 2].copy_from_slice(&pointer(last));
    messages.push(looping);
    for length in 65_535..=65_537 {
        messages.push(message_with_text_of(length));
    }
    for count in [10, 60, 200, 240] {
        messages.push(repeated_dark_name(count, 0));
    }
    messages
}

/// One name of 255 octets, `count` questions that point to it, and `short`
/// more that point behind its first label.
fn repeated_long_name(first_label: usize, count: usize, short: usize) -> Vec<u8> {
    let first = label(&vec![b'f'; first_label]);
    let long = [first.clone(), name_of(255 - first.len())].concat();
    let mut all = vec![question(&long, 1, 1)];
    all.extend(vec![question(&pointer(12), 1, 1); count - 1]);
    all.extend(vec![question(&pointer(12 + first.len()), 1, 1); short]);
    questions(&all)
}

/// A name that takes five octets of text for each of its own, `count` times,
/// and `roots` questions for the root.
fn repeated_dark_name(count: usize, roots: usize) -> Vec<u8> {
    let dark =
        [label(&[0; 63]), label(&[0x20; 63]), label(&[0xFF; 63]), label(&[0x22; 61]), vec![0]];
    let mut all = vec![question(&dark.concat(), 1, 1)];
    all.extend(vec![question(&pointer(12), 1, 1); count - 1]);
    all.extend(vec![question(&[0], 1, 1); roots]);
    questions(&all)
}

/// A message whose text has exactly this length, near 65,536.
fn message_with_text_of(length: usize) -> Vec<u8> {
    let text_length = |message: &[u8]| text_of(message).expect("the message is right").len();
    let mut roots = 0;
    while text_length(&repeated_dark_name(50, roots + 1)) <= length {
        roots += 1;
    }
    let mut octets = repeated_dark_name(50, roots);
    // Longer TYPEs and CLASSes of the last questions make up the rest.
    let end = octets.len();
    let mut place = 2;
    while text_length(&octets) < length {
        let missing = length - text_length(&octets);
        let number = [0, 10, 100, 1000, 10_000_u16][missing.min(4)];
        octets[end - place..end - place + 2].copy_from_slice(&number.to_be_bytes());
        place = if place % 5 == 2 { place + 2 } else { place + 3 };
    }
    octets
}

fn bit_flips() -> Messages {
    let whole = rich_message();
    let mut messages = Vec::new();
    for place in 0..whole.len() {
        // Half of the bits, the other half at the next octet.
        for bit in (place % 2..8).step_by(2) {
            let mut flipped = whole.clone();
            flipped[place] ^= 1 << bit;
            messages.push(flipped);
        }
    }
    messages
}

fn random_messages() -> Messages {
    let mut random = Random::new(8427);
    let mut messages = Vec::new();
    while messages.len() < 200 {
        let message = generate::valid_message(&mut random);
        if message.len() <= 400 {
            messages.push(message);
        }
    }
    while messages.len() < 310 {
        let message = generate::damaged_message(&mut random);
        if message.len() <= 300 {
            messages.push(message);
        }
    }
    messages
}

/// Z beside everything else that a message can have or be refused for.
fn z_bit() -> Messages {
    let with_z = |messages: Messages| messages.into_iter().map(message_with_z);
    let mut messages = z_and_other_flags();
    messages.extend(with_z(faults_beside_z()));
    messages.extend(with_z(edns_beside_z()));
    messages.extend(with_z(long_beside_z()));
    messages.extend(with_z(strings_like_z()));
    messages.extend(strings_like_z());
    messages.extend(with_z(random_beside_z()));
    messages
}

/// Each bit of the flags alone and together with Z, in a message of a header
/// and in one with a question; all values of the fields around Z.
fn z_and_other_flags() -> Messages {
    let ask = |flags| message(flags, &[question(&name("z"), 1, 1)], [&[], &[], &[]]);
    let mut messages = Vec::new();
    for bit in 0..16 {
        for flags in [1 << bit, 0x0040 | 1 << bit] {
            messages.push(header(0, flags, [0; 4]));
            messages.push(ask(flags));
        }
    }
    for four_bits in 0..16 {
        // RA, Z, AD and CD; then Opcode and RCODE beside Z.
        messages.push(header(4, four_bits << 4, [0; 4]));
        messages.push(header(5, 0x0040 | four_bits << 11, [0; 4]));
        messages.push(header(6, 0x0040 | four_bits, [0; 4]));
    }
    // The same bit of the octets around the flags' second one.
    for octets in [[0x40, 0, 0, 0], [0, 0x40, 0, 0], [0, 0, 0x40, 0], [0, 0, 0x40, 0x40]] {
        messages.push([&octets[..], &[0; 8]].concat());
        messages.push([&octets[..], &[0x40, 0, 0, 0, 0, 0, 0, 0]].concat());
    }
    messages
}

/// Each number that a message of a line can be refused with, and some beside
/// each other.
fn faults_beside_z() -> Messages {
    let ns = |rdata: &[u8]| answers(&[record(&[0], 2, 1, 0, rdata)]);
    let entries = message(
        0,
        &[question(&name("q"), 1, 1)],
        [
            &[record(&pointer(12), 15, 1, 0, &[0, 1, 0])],
            &[],
            &[opt_record(512, 0, &option(9, &[]))],
        ],
    );
    // 1 under 12 octets and in every entry, also with no fault at the end.
    let mut messages = cuts(&entries);
    messages.extend([
        header(0, 0, [1, 0, 0, 0]),
        header(0, 0, [0, 0, 0, 1]),
        answers(&[record_saying(&[0], 16, 1, 0, 9, &[1])]),
    ]);
    // 4, 5 and 6, in the question and in RDATA.
    for fault in [vec![0x40], vec![0xBF, 0], pointer(12), pointer(3), pointer(11), name_of(256)] {
        messages.push(asking(&fault));
        messages.push(ns(&fault));
    }
    messages.extend([asking(&name_of(255)), ns(&name_of(255)), ns(&pointer(FIRST_RDATA))]);
    // 7.
    for rdata in [&[1][..], &[1, b'a'], &[0, 0], &[0xC0]] {
        messages.push(ns(rdata));
    }
    messages.push(answers(&[record(&[0], 15, 1, 0, &[0])]));
    messages.push(answers(&[record(&[0], 6, 1, 0, &[0; 21])]));
    messages.push(answers(&[record(&[0], 14, 1, 0, &[0])]));
    // 8, without and with entries.
    for tail in [&[0][..], &[0x40], &[0; 3]] {
        messages.push([header(0, 0, [0; 4]).as_slice(), tail].concat());
        messages.push([entries.as_slice(), tail].concat());
    }
    messages
}

/// TYPE 41 records that become EDNS elements and such that don't.
fn edns_beside_z() -> Messages {
    let mut messages = edns_conditions();
    messages.extend(edns_rcodes());
    messages.extend([plain_query(), plain_response(), rich_message()]);
    // The flags of the record have bits of their own.
    for ttl in [0x40, 0x4000, 0x0040_0000, 0x4000_0000, 0x0100_4000, 0x0100_8000] {
        messages.push(additional(0x00B0, &[opt_record(0x0040, ttl, &option(15, &[0, 0x40]))]));
    }
    messages
}

/// Messages at the limits of 8, 9 and 10. Z makes a text longer by the six
/// octets of its member, and a form not at all.
fn long_beside_z() -> Messages {
    let mut messages = Vec::new();
    for count in [252, 253, 255] {
        messages.push(repeated_long_name(4, count, 0));
    }
    messages.push([repeated_long_name(4, 255, 0), vec![0]].concat());
    for first_label in 1..=6 {
        messages.push(repeated_long_name(first_label, 252, 1));
    }
    for length in [65_530, 65_531, 65_536] {
        messages.push(message_with_text_of(length));
    }
    messages
}

/// Names and strings that hold what Z's member is made of.
fn strings_like_z() -> Messages {
    let member = b",\"Z\":1";
    let around = b"\"RA\":0,\"Z\":1,\"AD\":0";
    vec![
        asking(&name("Z")),
        asking(&name("z.Z.1")),
        asking(&[label(member), vec![0]].concat()),
        asking(&[label(around), vec![0]].concat()),
        with_options(&option(15, &[&[0, 1], &member[..]].concat())),
        with_options(&option(15, &[&[0, 1], &around[..]].concat())),
    ]
}

fn random_beside_z() -> Messages {
    let mut random = Random::new(6);
    let mut messages = Vec::new();
    while messages.len() < 100 {
        let message = match messages.len() % 2 {
            0 => generate::valid_message(&mut random),
            _ => generate::damaged_message(&mut random),
        };
        if message.len() <= 300 {
            messages.push(message);
        }
    }
    messages
}

fn hex_lines() -> Lines {
    let good = hex_of_octets(&asking(&name("Hex")));
    let text = String::from_utf8(good.clone()).expect("digits are letters");
    let mut lines = vec![text.to_lowercase().into_bytes()];
    for odd in ["0", "A", "123", &text[1..], &text[..text.len() - 1]] {
        lines.push(odd.as_bytes().to_vec());
    }
    let near_digits = |octet: &u8| matches!(octet, b'/'..=b':' | b'@'..=b'H' | b'`'..=b'h');
    let others =
        |octet: &u8| (*octet).is_multiple_of(16) || matches!(octet, b'\t' | b'\r' | 0x7F | 0xFF);
    for octet in (0..=255).filter(|octet| near_digits(octet) || others(octet)) {
        // Digits and other octets in the place of a digit.
        let mut line = good.clone();
        line[5] = octet;
        lines.push(line);
    }
    for wrong in [
        format!("{text} "),
        format!(" {text}"),
        format!("0x{text}"),
        format!("{text}  "),
        format!("{text}\r"),
    ] {
        lines.push(wrong.into_bytes());
    }
    for wrong in [
        "  ", "\r", "\r\r", "0\r", "G0", "0G", "é", "éé", "٠٠", "-1", "+1", "00 00", "{}",
        "refused 1 at 0",
    ] {
        lines.push(wrong.as_bytes().to_vec());
    }
    lines
}

fn long_lines() -> Lines {
    let longest = questions(&[question(&[0], 1, 1)])[..12].to_vec();
    let text = record(&[0], 16, 1, 0, &vec![0x5A; 4096 - 12 - 11]);
    let mut whole = [longest, text].concat();
    whole[5] = 0;
    whole[7] = 1;
    let mut lines = vec![hex_of_octets(&whole)];
    for length in [8_190, 8_191, 8_192, 8_193, 8_194] {
        lines.push(vec![b'0'; length]);
        for place in [0, length / 2, length - 1] {
            let mut bad = vec![b'0'; length];
            bad[place] = b'x';
            lines.push(bad);
        }
    }
    for length in [8_192, 8_193] {
        lines.push([vec![b'0'; length - 1], vec![b'\r']].concat());
    }
    lines.push("é".repeat(4_096).into_bytes());
    lines.push("é".repeat(4_097).into_bytes());
    lines.push(vec![b'A'; 20_000]);
    lines.push(vec![b'\r'; 70_000]);
    lines
}

/// Empty lines, and one more line that gets no newline.
fn line_ends() -> Lines {
    vec![
        hex_of_octets(&header(0xBEF0, 0, [0; 4])),
        Vec::new(),
        Vec::new(),
        hex_of_octets(&header(0xAF7E, 0, [0; 4])),
        hex_of_octets(&header(0x1A57, 0, [0; 4])),
    ]
}
