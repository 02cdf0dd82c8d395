//! Makes messages. Valid ones use pointers, names at their limits, every
//! listed TYPE, EDNS records of every kind, and unknown records.

use super::damage::harm;
use crate::lines::LINE_MESSAGE;
use crate::random::Random;
use crate::tables::{layout_of, OPT, Z_BIT};

const LISTED_TYPES: [u16; 11] = [2, 3, 4, 5, 6, 7, 8, 9, 12, 14, 15];
const OTHER_TYPES: [u16; 12] = [0, 1, 10, 11, 13, 16, 28, 33, 43, 46, 257, 65_535];
const OPTION_CODES: [u16; 22] =
    [0, 1, 2, 3, 4, 5, 6, 7, 8, 9, 10, 11, 12, 13, 14, 15, 16, 20, 26_946, 65_001, 65_534, 65_535];

/// A message of at most 4,096 octets: mostly a valid one, else a damaged one.
/// One in four has Z set, and one in twelve is one whose RDATA misses its
/// layout. Both are decided aside: the others are what the same seed gave
/// before there were such.
pub fn message(random: &mut Random) -> Vec<u8> {
    let mut aside = random.aside();
    let z = aside.one_in(4);
    let mut message =
        if random.below(5) < 3 { valid_message(random) } else { damaged_message(random) };
    if aside.one_in(12) {
        message = misfit_message(&mut aside);
    }
    if z {
        message_with_z(message)
    } else {
        message
    }
}

/// The message with Z set. One that ends before Z stays as it is.
pub fn message_with_z(mut message: Vec<u8>) -> Vec<u8> {
    if let Some(octet) = message.get_mut(3) {
        *octet |= Z_BIT;
    }
    message
}

/// A message of at most 4,096 octets that is accepted, with Z clear.
pub fn valid_message(random: &mut Random) -> Vec<u8> {
    loop {
        let mut maker = Maker::new(random);
        maker.make_message();
        if maker.octets.len() <= LINE_MESSAGE {
            return maker.octets;
        }
    }
}

/// A message of at most 4,096 octets with one to three harms done to it. To
/// set Z, which harms nothing, is among them, and some others are accepted too.
pub fn damaged_message(random: &mut Random) -> Vec<u8> {
    let mut octets = valid_message(random);
    for _ in 0..random.between(1, 3) {
        harm_message(&mut octets, random);
    }
    octets.truncate(LINE_MESSAGE);
    octets
}

/// A message of at most 4,096 octets in which the RDATA of a listed TYPE ends
/// early or has octets left over. Some are accepted or have another fault.
pub fn misfit_message(random: &mut Random) -> Vec<u8> {
    loop {
        let mut maker = Maker::new(random);
        maker.make_message();
        let Maker { mut octets, layouts, .. } = maker;
        if layouts.is_empty() || octets.len() + 4 > LINE_MESSAGE {
            continue;
        }
        let (start, end) = *random.pick(&layouts);
        let part = if random.one_in(2) {
            let count = random.between(1, 4);
            random.octets(count)
        } else {
            Vec::new()
        };
        let first = if part.is_empty() { random.between(start, end - 1) } else { end };
        let length = first - start + part.len();
        octets.splice(first..end, part);
        octets[start - 2..start].copy_from_slice(&(length as u16).to_be_bytes());
        return octets;
    }
}

/// A valid message of about `size` octets, for sizes up to 60,000, with Z clear.
pub fn message_of_size(random: &mut Random, size: usize) -> Vec<u8> {
    let mut maker = Maker::new(random);
    maker.pointers = size <= 20_000;
    maker.make_large_message(size);
    maker.octets
}

fn harm_message(octets: &mut Vec<u8>, random: &mut Random) {
    let length = octets.len();
    match random.below(10) {
        0 if length > 3 => octets[3] |= Z_BIT,
        1 => octets.extend(random.octets(2)),
        2 if length > 11 => {
            let count = &mut octets[*random.pick(&[5, 7, 9, 11])];
            *count = if random.one_in(2) { count.wrapping_add(1) } else { count.wrapping_sub(1) };
        }
        3 | 4 if length > 14 => {
            let at = random.between(12, length - 2);
            let target = random.below(length + 4);
            octets[at] = 0xC0 | (target >> 8) as u8;
            octets[at + 1] = target as u8;
        }
        5 | 6 if length > 0 => {
            let octet = &mut octets[random.below(length)];
            *octet = if random.one_in(2) { octet.wrapping_add(1) } else { octet.wrapping_sub(1) };
        }
        7 if length > 0 => octets[random.below(length)] ^= 1 << random.below(8),
        _ => harm(octets, random, Random::octet),
    }
}

/// A place that a pointer may name.
#[derive(Clone, Copy)]
struct Target {
    offset: usize,
    /// The uncompressed length of the name that starts there.
    name_length: usize,
}

struct Maker<'r> {
    random: &'r mut Random,
    octets: Vec<u8>,
    targets: Vec<Target>,
    /// Where the RDATA of listed TYPEs starts and ends, but for empty RDATA.
    layouts: Vec<(usize, usize)>,
    pointers: bool,
}

impl<'r> Maker<'r> {
    fn new(random: &'r mut Random) -> Maker<'r> {
        let (octets, targets, layouts) = (Vec::new(), Vec::new(), Vec::new());
        Maker { random, octets, targets, layouts, pointers: true }
    }

    fn make_message(&mut self) {
        let most = *self.random.pick(&[1, 1, 2, 3, 6]);
        let questions = if self.random.one_in(6) { self.random.below(4) } else { 1 };
        let records = [(); 3].map(|()| self.random.below(most + 1));
        let edns_records = *self.random.pick(&[0, 0, 1, 1, 1, 1, 1, 2]);
        self.put_header([questions, records[0], records[1], records[2] + edns_records]);
        for _ in 0..questions {
            self.put_question();
        }
        for _ in 0..records[0] + records[1] {
            self.put_record();
        }
        let before_edns = self.random.below(records[2] + 1);
        for _ in 0..before_edns {
            self.put_record();
        }
        for _ in 0..edns_records {
            self.put_edns_record();
        }
        for _ in before_edns..records[2] {
            self.put_record();
        }
    }

    /// One question, answers up to the size, and one EDNS record.
    fn make_large_message(&mut self, size: usize) {
        self.put_header([1, 0, 0, 1]);
        self.put_question();
        let mut answers: u16 = 0;
        while self.octets.len() + 100 < size {
            self.put_record();
            answers += 1;
        }
        self.put_edns_record();
        self.octets[6..8].copy_from_slice(&answers.to_be_bytes());
    }

    fn put_header(&mut self, counts: [usize; 4]) {
        let id = self.random.number() as u16;
        self.put_two(id);
        let high = self.random.octet();
        let mut low = self.random.octet() & 0xB0;
        low |= if self.random.one_in(8) {
            self.random.octet() & 15
        } else {
            *self.random.pick(&[0, 0, 0, 2, 3, 5])
        };
        self.octets.extend([high, low]);
        for count in counts {
            self.put_two(count as u16);
        }
    }

    fn put_two(&mut self, number: u16) {
        self.octets.extend(number.to_be_bytes());
    }

    fn put_question(&mut self) {
        self.put_name();
        let rtype = self.any_type();
        self.put_two(rtype);
        self.put_class();
    }

    fn any_type(&mut self) -> u16 {
        match self.random.below(8) {
            0..=3 => *self.random.pick(&LISTED_TYPES),
            4..=6 => *self.random.pick(&OTHER_TYPES),
            _ => self.random.number() as u16,
        }
    }

    fn put_class(&mut self) {
        let class = if self.random.one_in(6) {
            *self.random.pick(&[0, 3, 254, 255, 9_999, 10_000, 65_535])
        } else {
            1
        };
        self.put_two(class);
    }

    fn put_record(&mut self) {
        self.put_name();
        let rtype = self.type_of_ordinary_record();
        self.put_two(rtype);
        self.put_class();
        let ttl = self.ttl();
        self.octets.extend(ttl.to_be_bytes());
        self.put_rdata(|maker| maker.put_rdata_of(rtype));
    }

    /// Any TYPE; 41 comes seldom, since one beside an EDNS record changes both.
    fn type_of_ordinary_record(&mut self) -> u16 {
        if self.random.one_in(60) {
            return OPT;
        }
        self.any_type()
    }

    fn ttl(&mut self) -> u32 {
        match self.random.below(4) {
            0 => *self
                .random
                .pick(&[0, 1, 9, 10, 0x7FFF_FFFF, 0x8000_0000, 0x8000_0001, 0xFFFF_FFFF]),
            1 => self.random.number() as u32,
            _ => self.random.below(100_000) as u32,
        }
    }

    /// Writes RDLENGTH and the RDATA that `put` writes.
    fn put_rdata(&mut self, put: impl FnOnce(&mut Self)) {
        self.put_two(0);
        let start = self.octets.len();
        put(self);
        let length = (self.octets.len() - start) as u16;
        self.octets[start - 2..start].copy_from_slice(&length.to_be_bytes());
    }

    fn put_rdata_of(&mut self, rtype: u16) {
        if self.random.one_in(12) {
            return;
        }
        let Some(layout) = layout_of(u64::from(rtype)) else {
            self.put_unlisted_rdata(rtype);
            return;
        };
        let start = self.octets.len();
        self.put_random(layout.octets_before);
        for _ in 0..layout.names {
            self.put_name();
        }
        self.put_random(layout.octets_after);
        self.layouts.push((start, self.octets.len()));
    }

    fn put_unlisted_rdata(&mut self, rtype: u16) {
        match rtype {
            1 => self.put_random(4),
            28 => self.put_random(16),
            // Octets that look like a name, which later names may point to.
            _ if self.random.one_in(6) => self.put_name(),
            _ => {
                let most = *self.random.pick(&[3, 20, 60, 260]);
                let count = self.random.below(most + 1);
                self.put_random(count);
            }
        }
    }

    fn put_random(&mut self, count: usize) {
        let octets = self.random.octets(count);
        self.octets.extend(octets);
    }

    /// Writes a name: new labels, then the root or a pointer.
    fn put_name(&mut self) {
        let ending = self.ending();
        let mut room = 255 - ending.map_or(1, |target| target.name_length);
        let mut starts = Vec::new();
        for wanted in self.label_lengths() {
            let length = wanted.min(room.saturating_sub(1));
            if length == 0 {
                break;
            }
            starts.push(self.octets.len());
            self.octets.push(length as u8);
            for _ in 0..length {
                let octet = self.label_octet();
                self.octets.push(octet);
            }
            room -= 1 + length;
        }
        starts.push(self.octets.len());
        match ending {
            None => self.octets.push(0),
            Some(target) => self.put_two(0xC000 | target.offset as u16),
        }
        self.remember(&starts, ending);
    }

    /// Where the new labels are continued, or nothing for the root.
    fn ending(&mut self) -> Option<Target> {
        let use_pointer = self.pointers && !self.targets.is_empty() && self.random.below(3) > 0;
        use_pointer.then(|| *self.random.pick(&self.targets))
    }

    /// Lengths that the labels of a name shall have, as far as there is room.
    fn label_lengths(&mut self) -> Vec<usize> {
        match self.random.below(24) {
            0 => vec![63; 5],
            1 => vec![1; 130],
            2 => (0..20).map(|_| self.random.between(1, 63)).collect(),
            _ => {
                let count = self.random.below(5);
                (0..count).map(|_| self.random.between(1, 12)).collect()
            }
        }
    }

    fn label_octet(&mut self) -> u8 {
        match self.random.below(40) {
            0 => *self.random.pick(b".\\\"\0 0123/:@[`{~!\x7F\x80\xFF\n\r\t"),
            1 => self.random.octet(),
            _ => *self.random.pick(b"abcdefghijklmnopqrstuvwxyzABCXYZ0123456789-_"),
        }
    }

    /// Makes each label of a written name, and its ending, a target for later.
    fn remember(&mut self, starts: &[usize], ending: Option<Target>) {
        let last = starts[starts.len() - 1];
        let ending_length = ending.map_or(1, |target| target.name_length);
        for start in starts.iter().filter(|start| **start < 0x4000) {
            let name_length = last - start + ending_length;
            self.targets.push(Target { offset: *start, name_length });
        }
    }

    /// Writes a TYPE 41 record that mostly becomes an EDNS element.
    fn put_edns_record(&mut self) {
        if self.random.one_in(25) {
            self.put_name();
        } else {
            self.octets.push(0);
        }
        self.put_two(OPT);
        let udp_size = *self.random.pick(&[512, 1232, 1232, 4096, 0, 65_535]);
        self.put_two(udp_size);
        let rcode_high = if self.random.one_in(4) { self.random.below(3) as u8 } else { 0 };
        let version = u8::from(self.random.one_in(25));
        let mut flags = *self.random.pick(&[0, 0x8000]);
        if self.random.one_in(25) {
            flags ^= 1 << self.random.below(15);
        }
        self.octets.extend([rcode_high, version]);
        self.put_two(flags);
        self.put_rdata(Self::put_options);
    }

    fn put_options(&mut self) {
        let share = *self.random.pick(&[2, 5, 10, 30]);
        let mut codes: Vec<u16> = OPTION_CODES.to_vec();
        codes.retain(|_| self.random.one_in(share));
        if self.random.one_in(15) && codes.len() > 1 {
            let at = self.random.below(codes.len() - 1);
            codes[at] = codes[at + 1];
        }
        for code in codes {
            let value = self.option_value(code);
            self.put_two(code);
            self.put_two(value.len() as u16);
            self.octets.extend(value);
        }
        if self.random.one_in(20) {
            let count = self.random.between(1, 4);
            self.put_random(count);
        }
    }

    fn option_value(&mut self, code: u16) -> Vec<u8> {
        let count = match code {
            _ if self.random.one_in(5) => self.random.below(44),
            9 => *self.random.pick(&[0, 4]),
            10 => *self.random.pick(&[8, 16, 24, 40]),
            11 => 2,
            14 => 2 * self.random.below(5),
            15 => *self.random.pick(&[2, 3, 12, 40]),
            _ => self.random.below(20),
        };
        match code {
            12 if self.random.below(3) > 0 => vec![0; count],
            15 => self.ede_value(count),
            _ => self.random.octets(count),
        }
    }

    fn ede_value(&mut self, count: usize) -> Vec<u8> {
        let mut value = self.random.octets(count);
        let any_text = self.random.one_in(6);
        for octet in value.iter_mut().skip(2) {
            if !any_text {
                *octet = if self.random.one_in(10) {
                    *self.random.pick(b"\"\\/")
                } else {
                    0x20 + *octet % 95
                };
            }
        }
        value
    }
}
