//! Cases for `totext` about change request A1: which octet is at fault.

use std::slice::from_ref;

use super::build::*;
use super::totext::{cuts, Messages, FIRST_RDATA};
use crate::text_of;

/// The kinds of these cases.
pub const KINDS: [&str; 7] = [
    "octets at fault", "faults behind jumps", "name lengths behind many jumps",
    "faults in fields, labels and RDATA", "octets left over", "RDATA that ends early",
    "short messages cut",
];

/// The kinds with their messages.
pub fn kinds() -> Vec<(&'static str, Messages)> {
    let messages = [
        octets_at_fault(),
        faults_behind_jumps(),
        lengths_behind_jumps(),
        faults_elsewhere(),
        octets_left_over(),
        rdata_ending_early(),
        short_messages_cut(),
    ];
    KINDS.into_iter().zip(messages).collect()
}

/// A message with one question, and these octets behind the header.
fn one_question(octets: &[u8]) -> Vec<u8> {
    [&header(0, 0, [1, 0, 0, 0]), octets].concat()
}

/// A message with one answer, and these octets behind the header.
fn one_answer(octets: &[u8]) -> Vec<u8> {
    [&header(0, 0, [0, 1, 0, 0]), octets].concat()
}

/// A message with one answer that has the root as owner. RDATA begins at 23.
fn one_rdata(rtype: u16, rdata: &[u8]) -> Vec<u8> {
    one_answer(&record(&[0], rtype, 1, 0, rdata))
}

/// The numbers that the format and its tables name, and what is near them.
fn octets_at_fault() -> Messages {
    let mut messages = Vec::new();
    // Length octets, labels, TYPE and CLASS of a question.
    for octets in [&[][..], &[3, b'a'], &[3, b'a', b'b'], &[0xC0], &[0xC0, 12], &[0xC0, 11]] {
        messages.push(one_question(octets));
    }
    messages.extend(cuts(&question(&[0], 1, 1)).iter().map(|cut| one_question(cut)));
    messages.extend(cuts(&question(&name("a.bc"), 1, 1)).iter().map(|cut| one_question(cut)));
    for run in ["a", "a.b", "ab.cd.ef"] {
        let run = label_run(run);
        for fault in [&[0xC0, 12][..], &[0xC0, 13], &[0xC0], &[0x80], &[0x40], &[1], &[0xFF, 0xFF]]
        {
            messages.push(one_question(&[run.as_slice(), fault].concat()));
            messages.push(one_question(&[run.as_slice(), fault, &[0, 1, 0, 1]].concat()));
        }
    }
    for length in [64, 65, 127, 128, 191] {
        messages.push(one_question(&[vec![length], vec![b'l'; usize::from(length) + 5]].concat()));
    }
    for count in [255, 256, 257, 258] {
        let long = name_of(count);
        messages.push(one_question(&question(&long, 1, 1)));
        for missing in [1, 2, 3, 60, 63, 64] {
            messages.push(one_question(&long[..count - missing]));
        }
        messages.push(one_rdata(2, &long));
        messages.push(one_rdata(2, &long[..count - 2]));
    }
    // The fields of a record, then RDATA that is missing or cut.
    let whole = record(&[0], 1, 1, 0, &[1, 2, 3, 4]);
    messages.extend(cuts(&whole).iter().map(|cut| one_answer(cut)));
    for rtype in [2, 6, 15, 16, 41] {
        for (said, rdata) in [(1, &[][..]), (4, &[0, 0]), (3, &[0xC0, 0x0C]), (0xFFFF, &[0])] {
            messages.push(one_answer(&record_saying(&[0], rtype, 1, 0, said, rdata)));
        }
    }
    // RDATA of the listed types: 7, 11, 4, 5 and 1.
    let names = [
        &[1, b'a'][..],
        &[1, b'a', 0, 0],
        &[0x40],
        &[0x40, 0],
        &[0xC0],
        &[0xC0, 0x16],
        &[0xC0, 12],
        &[0xC0, 12, 0],
        &[0xC0, 12, 0xC0],
        &[0xC0, 23],
        &[0xC0, 11],
        &[0xC0, 13],
        &[0xC0, 14],
        &[0xC0, 22, 0],
        &[1, b'a', 0xC0, 12],
        &[1, b'a', 0xC0, 12, 9],
        &[1, b'a', 0xC0, 23],
        &[1, b'a', 0x80],
        &[0, 0],
        &[0, 0x40],
    ];
    for rdata in names {
        messages.push(one_rdata(2, rdata));
        messages.push(one_rdata(14, &[&[0], rdata].concat()));
        messages.push(one_rdata(15, &[&[0, 9], rdata].concat()));
        messages.push(one_rdata(6, &[&[0], rdata, &[5; 20]].concat()));
    }
    messages.push(one_rdata(15, &[0]));
    messages.push(one_rdata(15, &[0, 0]));
    for count in 18..=23 {
        messages.push(one_rdata(6, &[vec![0, 0], vec![0x40; count]].concat()));
    }
    messages.extend([14, 15, 6, 2].map(|rtype| one_rdata(rtype, &[])));
    messages
}

/// Where the name with a fault stands. The last two are second names of RDATA,
/// behind a first one that jumps.
#[derive(Clone, Copy)]
enum NamePlace {
    Owner,
    Ns,
    Exchange,
    SecondOfMinfo,
    SecondOfSoa,
}

const NAME_PLACES: [NamePlace; 5] = [
    NamePlace::Owner,
    NamePlace::Ns,
    NamePlace::Exchange,
    NamePlace::SecondOfMinfo,
    NamePlace::SecondOfSoa,
];

/// A record with the name in this place.
fn record_with(place: NamePlace, name: &[u8]) -> Vec<u8> {
    let of = |rtype, rdata: &[u8]| record(&[0], rtype, 1, 0, rdata);
    match place {
        NamePlace::Owner => record(name, 1, 1, 0, &[]),
        NamePlace::Ns => of(2, name),
        NamePlace::Exchange => of(15, &[&[0, 1], name].concat()),
        NamePlace::SecondOfMinfo => of(14, &[&pointer(12), name].concat()),
        NamePlace::SecondOfSoa => of(6, &[&pointer(12), name, &[7; 20]].concat()),
    }
}

/// A row of links, each with these labels and a pointer to the link before it,
/// the first one with a pointer to `target`. Gives the octets, to stand at
/// `start`, and where the last link begins: `target` if there are no links.
fn links(start: usize, target: usize, count: usize, labels: &[u8]) -> (Vec<u8>, usize) {
    let mut octets = Vec::new();
    let mut last = target;
    for _ in 0..count {
        let here = start + octets.len();
        octets.extend([labels, &pointer(last)].concat());
        last = here;
    }
    (octets, last)
}

/// A message in which a name in this place comes to the octets `fault` after so
/// many jumps. They stand at `FIRST_RDATA`. Behind the name's record there is
/// one more, whose RDATA is `last`.
fn behind_jumps(place: NamePlace, jumps: usize, fault: &[u8], last: &[u8]) -> Vec<u8> {
    let (row, target) = links(FIRST_RDATA + fault.len(), FIRST_RDATA, jumps - 1, &[]);
    let holder = record(&[0], 16, 1, 0, &[fault, &row].concat());
    answers(&[holder, record_with(place, &pointer(target)), record(&[0], 16, 1, 0, last)])
}

/// Faults of 1, 4, 5 and 6 after one, two and more jumps.
fn faults_behind_jumps() -> Messages {
    let here = FIRST_RDATA;
    let faults = [
        vec![0x40],
        vec![0x7F],
        vec![0x80],
        vec![0xBF],
        pointer(0),
        pointer(11),
        pointer(here),
        pointer(here + 2),
        pointer(0x3FFF),
        [label_run("a"), pointer(here)].concat(),
        [label_run("a"), vec![0x40]].concat(),
        [label_run("abc.d"), pointer(here + 4)].concat(),
        [label_run("abc.d"), vec![0x80]].concat(),
        vec![0],
        name("ok"),
    ];
    let mut messages = Vec::new();
    for place in NAME_PLACES {
        for jumps in [1, 2, 3, 8, 40] {
            messages.extend(faults.iter().map(|fault| behind_jumps(place, jumps, fault, &[1, 2])));
        }
        for jumps in [1, 2, 8] {
            for last in [0xC0, 0xFF, 0x40, 0x80, 0x3F, 1, 0] {
                messages.extend(runs_to_the_end(place, jumps, last));
            }
        }
        for last in [&[63][..], &[1], &[1, 1], &[62, 1, 2], &[0x40], &[0xC0], &[0xC0, 12], &[0]] {
            messages.extend(long_runs_to_the_end(place, last));
        }
        for last_label in [20, 36, 37, 40, 60] {
            let last = [label(&vec![b'e'; last_label]), vec![0]].concat();
            messages.extend(long_runs_to_the_end(place, &last));
        }
    }
    messages
}

/// Messages in which a label that is met after jumps ends one octet before the
/// message's last one, before the last one, at the message's end, and behind
/// it. The message's last octet is `last`.
fn runs_to_the_end(place: NamePlace, jumps: usize, last: u8) -> Messages {
    let whole = behind_jumps(place, jumps, &[0], &[9, last]);
    let to_the_end = whole.len() - FIRST_RDATA - 1;
    (to_the_end - 2..=to_the_end + 1)
        .filter(|length| *length <= 63)
        .map(|length| {
            let mut message = whole.clone();
            message[FIRST_RDATA] = length as u8;
            message
        })
        .collect()
}

/// The same with 192 octets before that label, so that the next label also
/// makes the name too long. The last record's RDATA is `last`.
fn long_runs_to_the_end(place: NamePlace, last: &[u8]) -> Messages {
    let whole = behind_jumps(place, 1, &[labels_of(192), vec![0]].concat(), last);
    let at = FIRST_RDATA + 192;
    let to_last = whole.len() - last.len() - at - 1;
    let mut messages = Vec::new();
    for length in [to_last, to_last + last.len(), to_last + last.len() + 1] {
        if length <= 63 {
            let mut message = whole.clone();
            message[at] = length as u8;
            messages.push(message);
        }
    }
    messages
}

/// Names near 255 octets that are gathered over so many jumps.
fn lengths_behind_jumps() -> Messages {
    let mut messages = Vec::new();
    for jumps in [1, 2, 3, 20, 100, 126, 127, 128, 129] {
        for total in 254..=258_usize {
            // Each link has a label of one octet, and so has the name itself.
            let Some(rest) = total.checked_sub(1 + 2 * jumps).filter(|rest| *rest != 1) else {
                continue;
            };
            messages.extend(gathered(jumps, &labels_of(rest)));
        }
        messages.extend(gathered(jumps, &[]));
        messages.extend(gathered(jumps, &[63; 64]));
    }
    // Labels of 63 octets in each link.
    for labels in 2..=6 {
        let long = label(&[b'l'; 63]);
        let (row, target) = links(FIRST_RDATA, 12, labels, &long);
        let holder = record(&[0], 16, 1, 0, &row);
        for place in NAME_PLACES {
            let entry = record_with(place, &pointer(target));
            messages.push(answers(&[holder.clone(), entry]));
        }
    }
    messages
}

/// A name with a label of one octet before each of its jumps, and these labels
/// at the end.
fn gathered(jumps: usize, end: &[u8]) -> Messages {
    let end = [end, &[0]].concat();
    let (row, target) = links(FIRST_RDATA + end.len(), FIRST_RDATA, jumps - 1, &label_run("k"));
    let holder = record(&[0], 16, 1, 0, &[end, row].concat());
    let name = [label_run("k"), pointer(target)].concat();
    let entries = [NamePlace::Owner, NamePlace::Ns].map(|place| record_with(place, &name));
    entries.map(|entry| answers(&[holder.clone(), entry])).to_vec()
}

/// Jumps to every octet of a question and a record whose labels, fields and
/// RDATA hold octets that no length octet may be, or that lead on.
fn faults_elsewhere() -> Messages {
    let first_labels: [&[u8]; 3] = [
        &[0x40, 0x80, 0x3F, 0xC0, 12, 5, b'a'],
        &[0xC0, 0xC0, 13, 0xFF, 0xFF, 1, 2],
        &[0, 1, 0xBF, 0x7F, 2, 0x40, 0xC0],
    ];
    let fields = [
        (0x4001_u16, 0xC00C_u16, 0x3F80_BF01_u32),
        (0xC00D, 0x0140, 0xC0C0_0C00),
        (0x0180, 0x3F3F, 0x0240_80C0),
    ];
    let mut messages = Vec::new();
    for (first_label, (rtype, class, ttl)) in first_labels.iter().zip(fields) {
        let asked = question(&[label(first_label), name("z")].concat(), class, rtype);
        let holder = record(&pointer(12), rtype, class, ttl, &[1, b'x', 0x80, 0xC0, 12, 0x3F, 0]);
        let start = 12 + asked.len() + holder.len();
        for target in 12..start {
            for place in [NamePlace::Owner, NamePlace::Ns, NamePlace::SecondOfMinfo] {
                let name = pointer(target);
                let entry = record_with(place, &name);
                let records = [holder.clone(), entry];
                messages.push(message(0, from_ref(&asked), [&records, &[], &[]]));
            }
        }
    }
    messages
}

/// The listed TYPEs with RDATA of right layouts: each name without pointers,
/// with a label and a pointer, and as a pointer alone. The pointers lead to the
/// question of `answers`.
fn right_rdata() -> Vec<(u16, Vec<u8>)> {
    let names = [name("n"), [label_run("j"), pointer(12)].concat(), pointer(12)];
    let mut all = Vec::new();
    for first in &names {
        for rtype in [2, 3, 4, 5, 7, 8, 9, 12] {
            all.push((rtype, first.clone()));
        }
        all.push((15, [&[0, 10], first.as_slice()].concat()));
        for second in &names {
            all.push((14, [first.as_slice(), second].concat()));
            all.push((6, [first.as_slice(), second, &soa_numbers()].concat()));
        }
    }
    all
}

/// No, one and two octets behind the layout, in the last record of a message
/// and before another record.
fn octets_left_over() -> Messages {
    let next = record(&[0], 1, 1, 0, &[10, 0, 0, 1]);
    let mut messages = Vec::new();
    for (rtype, rdata) in right_rdata() {
        for rest in [&[][..], &[0xC0], &[0xC0, 12]] {
            let entry = record(&pointer(12), rtype, 1, 60, &[rdata.as_slice(), rest].concat());
            messages.push(answers(&[entry.clone(), next.clone()]));
            messages.push(answers(&[entry]));
        }
    }
    messages
}

/// RDATA cut at every length, in the last record of a message and before
/// another record.
fn rdata_ending_early() -> Messages {
    let next = record(&[0], 1, 1, 0, &[10, 0, 0, 1]);
    let mut messages = Vec::new();
    for (rtype, rdata) in right_rdata() {
        for length in 0..rdata.len() {
            let entry = record(&pointer(12), rtype, 1, 60, &rdata[..length]);
            messages.push(answers(&[entry.clone(), next.clone()]));
            messages.push(answers(&[entry]));
        }
    }
    messages
}

/// Six messages of different make, each cut at every length.
fn short_messages_cut() -> Messages {
    let messages = short_messages();
    assert!(messages.iter().all(|message| message.len() <= 120 && text_of(message).is_ok()));
    messages.iter().flat_map(|message| cuts(message)).collect()
}

fn short_messages() -> [Vec<u8>; 6] {
    let zone = pointer(12);
    let with_label = |text: &str, target| [label_run(text), pointer(target)].concat();
    // Two questions and an answer with RDATA that no name is looked for in.
    let asked = [question(&name("a.example"), 255, 1), question(&with_label("b", 14), 1, 255)];
    let plain = message(0x0100, &asked, [&[record(&pointer(14), 16, 1, 9, b"\x03txt")], &[], &[]]);
    // Names without pointers in all sections.
    let mx = record(&name("m"), 15, 1, 300, &[vec![0, 5], name("mail.m")].concat());
    let ns = record(&[0], 2, 1, 300, &name("ns"));
    let cname = record(&name("c"), 5, 1, 300, &name("d"));
    let without_pointers = message(0x8000, &[], [&[mx], &[ns], &[cname]]);
    // SOA with two compressed names, under a compressed owner.
    let soa = [with_label("ns", 12), with_label("host", 12), soa_numbers()].concat();
    let soa = [record(&zone, 6, 1, 0xFFFF_FFFF, &soa)];
    let with_soa = message(0x8403, &[question(&name("zone.test"), 6, 1)], [&[], &soa, &[]]);
    // MINFO, whose names jump more than once, and PTR into the middle of a label.
    let minfo = [with_label("r", 12), with_label("e", 33)].concat();
    let ptr = with_label("p", 14);
    let records = [record(&zone, 14, 1, 1, &minfo), record(&zone, 12, 1, 1, &ptr)];
    let jumping = message(0x8000, &[question(&[3, 1, 1, b'x', 0], 14, 1)], [&records, &[], &[]]);
    // EDNS with options, behind an address.
    let options = [option(3, b"id"), option(9, &[]), option(15, b"\x00\x01a\"b")].concat();
    let address = record(&zone, 28, 1, 5, &[0x20; 16]);
    let with_edns = message(
        0x8070,
        &[question(&name("e"), 28, 1)],
        [&[], &[], &[address, opt_record(1232, 0x8000, &options)]],
    );
    // A long label, and records without RDATA.
    let long = [label(&[b'w'; 40]), name("x")].concat();
    let empty = [record(&zone, 2, 254, 0, &[]), record(&pointer(53), 6, 254, 0, &[])];
    let with_long = message(0x2800, &[question(&long, 6, 1)], [&empty, &[], &[]]);
    [plain, without_pointers, with_soa, jumping, with_edns, with_long]
}
