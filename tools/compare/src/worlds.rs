//! Small worlds, every message or text of which is compared: tails over a few octets at every cut, every pointer target
//! against short messages, every label of one or two octets, RDATA of every listed type over a few octets, every RCODE,
//! every name of one with its neighbours, all flags of the header, what may be mistaken for Z, for a name and for a
//! TTL, and every octet at every place of a dozen texts.

use crate::checks::{agree, agree_on_text, words};
use crate::proved;
use second::generate;

/// Lengths, label octets, pointers and reserved bits.
const ALPHABET: [u8; 12] = [0, 1, 2, 12, 13, 63, 64, 128, 192, 193, 255, b'a'];

/// What the buffers hold before a call.
const LEFTOVERS: [u8; 1024] = [0xA5; 1024];

/// The header with these counts of questions and answers.
fn header(questions: u8, answers: u8) -> Vec<u8> {
    vec![0, 0, 0, 0, 0, questions, 0, answers, 0, 0, 0, 0]
}

/// A header with one question, and behind it every tail, as octets left over and as the beginning of an answer; and
/// every tail in place of the question's name, with TYPE and CLASS behind it. At every cut.
pub fn every_tail() -> Result<usize, String> {
    let question = [1, b'a', 0, 0, 1, 0, 1];
    let mut compared = 0;
    for tail in words(&ALPHABET, 3) {
        let behind = [&question[..], &tail].concat();
        let named = [&tail[..], &[0, 0, 1, 0, 1]].concat();
        for (answers, rest) in [(0, &behind), (1, &behind), (0, &named)] {
            let message = [&header(1, answers)[..], rest].concat();
            for cut in 0..=message.len() {
                agree(&message[..cut], &LEFTOVERS)?;
                compared += 1;
            }
        }
    }
    Ok(compared)
}

/// Every pointer target in a question's name at the end of a message, against every length of the message from 14 to
/// 64, with labels before the pointer; two different leftovers stand behind the message in memory, and the answers and
/// the buffers must be the same.
pub fn every_target() -> Result<usize, String> {
    let leftovers = [vec![0; 64], [1, b'v', 0xC0, 12].repeat(16)];
    let mut compared = 0;
    for length in 14..=64 {
        for target in 0..=0x3FFF_u16 {
            let mut message = header(1, 0);
            while message.len() + 2 < length {
                let label = (length - message.len() - 3).min(5);
                message.push(label as u8);
                message.extend(std::iter::repeat(b'x').take(label));
            }
            message.truncate(length - 2);
            message.extend((0xC000 | target).to_be_bytes());
            agree(&message, &LEFTOVERS)?;
            let [first, second] = leftovers.each_ref().map(|leftover| {
                let pool = [&message[..], leftover].concat();
                let mut text = LEFTOVERS;
                (proved::to_text(&pool[..length], &mut text), text)
            });
            if first != second {
                return Err(format!("{message:02X?}: {:?} and {:?} with different leftovers", first.0, second.0));
            }
            compared += 1;
        }
    }
    Ok(compared)
}

/// Every label of one or two octets as a question's name, so that the widths of any two are written and measured.
pub fn every_label() -> Result<usize, String> {
    let octets: Vec<u8> = (0..=255).collect();
    let mut compared = 0;
    for label in words(&octets, 2).iter().filter(|label| !label.is_empty()) {
        let name = [&[label.len() as u8][..], label, &[0]].concat();
        compared += in_three_rooms(&[&header(1, 0)[..], &name, &[0, 1, 0, 1]].concat())?;
    }
    Ok(compared)
}

/// The types whose RDATA has names.
const LISTED: [u8; 11] = [2, 3, 4, 5, 6, 7, 8, 9, 12, 14, 15];

/// A record of every listed type with every RDATA of up to four octets over a few, of which RDLENGTH counts all, one
/// less, or one more; for SOA twenty octets follow the first two.
pub fn every_rdata() -> Result<usize, String> {
    let mut compared = 0;
    for rtype in LISTED {
        for word in words(&ALPHABET, 4) {
            let mut rdata = word;
            if rtype == 6 {
                let names = rdata.len().min(2);
                rdata.splice(names..names, [0x55; 20]);
            }
            let length = rdata.len() as u16;
            for rdlength in [length, length.saturating_sub(1), length + 1] {
                let fields = [0, 0, rtype, 0, 1, 0, 0, 0, 0];
                agree(&[&header(0, 1)[..], &fields, &rdlength.to_be_bytes(), &rdata].concat(), &LEFTOVERS)?;
                compared += 1;
            }
        }
    }
    Ok(compared)
}

/// An accepted message: in a buffer with room to spare, in one of the text's length, and in one an octet shorter.
fn in_three_rooms(message: &[u8]) -> Result<usize, String> {
    let length = text_of(message)?.len();
    let rooms = [LEFTOVERS.len(), length, length - 1];
    for room in rooms {
        agree(message, &LEFTOVERS[..room])?;
    }
    Ok(rooms.len())
}

fn text_of(message: &[u8]) -> Result<String, String> {
    let text = second::text_of(message).map_err(|refusal| format!("{message:02X?}: {refusal:?}"))?;
    String::from_utf8(text).map_err(|fault| format!("{message:02X?}: {fault}"))
}

/// A message whose only record is TYPE 41 in the additional section, with this RCODE and these flags.
fn extended(rcode: u16, flags: u16) -> Vec<u8> {
    let [high, low] = flags.to_be_bytes();
    let header = [0, 0, 0, (rcode % 16) as u8, 0, 0, 0, 0, 0, 0, 0, 1];
    let record = [0, 0, 41, 4, 208, (rcode / 16) as u8, 0, high, low, 0, 0];
    [&header[..], &record].concat()
}

/// Every RCODE that 4 bits of the header and 8 of the TTL can say, with and without DO, to text and back.
pub fn every_rcode() -> Result<usize, String> {
    let mut compared = 0;
    for rcode in 0..4096 {
        for flags in [0, 0x8000] {
            let message = extended(rcode, flags);
            compared += in_three_rooms(&message)? + 1;
            agree_on_text(text_of(&message)?.as_bytes(), &LEFTOVERS)?;
        }
    }
    Ok(compared)
}

/// Every name of an RCODE, and BADSIG, which format 1 had for 16: with every RCODE of the header; and with the one that
/// belongs to it, cut short at each place, with each octet in place of one of its own, and with each octet inserted.
pub fn every_rcode_name() -> Result<usize, String> {
    let text = text_of(&extended(0, 0))?;
    let (start, end) = text.split_once("NoError").ok_or("the text of RCODE 0 has another name")?;
    let mut compared = 0;
    let mut compare = |rcode: u64, name: &[u8]| {
        let start = start.replacen("\"RCODE\":0", &format!("\"RCODE\":{rcode}"), 1);
        compared += 1;
        agree_on_text(&[start.as_bytes(), name, end.as_bytes()].concat(), &LEFTOVERS)
    };
    for (name, number) in generate::RCODES.into_iter().chain([("BADSIG", 16)]) {
        for rcode in 0..=16 {
            compare(rcode, name.as_bytes())?;
        }
        for place in 0..=name.len() {
            let (before, after) = name.as_bytes().split_at(place);
            compare(number % 16, before)?;
            for octet in 0..=255 {
                compare(number % 16, &[before, &[octet], after].concat())?;
                if let [_, after @ ..] = after {
                    compare(number % 16, &[before, &[octet], after].concat())?;
                }
            }
        }
    }
    Ok(compared)
}

/// All flags of the header, Z among them, in a message without entries: to text and back; and with an octet left over.
pub fn every_flags() -> Result<usize, String> {
    let mut compared = 0;
    for flags in 0..=u16::MAX {
        let mut message = header(0, 0);
        message[2..4].copy_from_slice(&flags.to_be_bytes());
        compared += in_three_rooms(&message)? + 2;
        agree_on_text(text_of(&message)?.as_bytes(), &LEFTOVERS)?;
        message.push(0);
        agree(&message, &LEFTOVERS)?;
    }
    Ok(compared)
}

/// Behind the number of RA, 0 and 1, every word that is no longer than Z's member and made of its octets and 0.
pub fn every_z() -> Result<usize, String> {
    let mut compared = 0;
    for ra in [0, 0x80] {
        let mut message = header(0, 0);
        message[3] = ra;
        let text = text_of(&message)?;
        let place = text.find(",\"AD\":").ok_or("the text has no AD")?;
        let (before, after) = text.as_bytes().split_at(place);
        for word in words(b",\"Z:10", 6) {
            agree_on_text(&[before, &word, after].concat(), &LEFTOVERS)?;
            compared += 1;
        }
    }
    Ok(compared)
}

/// Every word of up to six octets over those that names are made of, in the place of a question's name; and every word
/// of up to five over those of a TTL, in the place of a record's TTL.
pub fn every_name_and_ttl() -> Result<usize, String> {
    let question = [&header(1, 0)[..], &[0, 0, 1, 0, 1]].concat();
    let record = [&header(0, 1)[..], &[0, 0, 1, 0, 1, 0, 0, 0, 7, 0, 0]].concat();
    let mut compared = 0;
    for (message, value, octets, most) in [
        (question, "\".\"", &b"\"\\.0a2"[..], 6),
        (record, "7", &b"\"0-1,"[..], 5),
    ] {
        let text = text_of(&message)?;
        let (before, after) = text.rsplit_once(&format!(":{value},")).ok_or("the text has no such value")?;
        for word in words(octets, most) {
            agree_on_text(&[before.as_bytes(), b":", &word, b",", after.as_bytes()].concat(), &LEFTOVERS)?;
            compared += 1;
        }
    }
    Ok(compared)
}

/// A dozen texts that use every member, with every octet value at every place.
pub fn every_octet() -> Result<usize, String> {
    let mut compared = 0;
    for mut text in second::cases::texts_with_every_member() {
        for place in 0..text.len() {
            let own = text[place];
            for octet in 0..=255 {
                text[place] = octet;
                agree_on_text(&text, &LEFTOVERS)?;
                compared += 1;
            }
            text[place] = own;
        }
    }
    Ok(compared)
}
