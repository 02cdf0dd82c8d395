//! What the proved library answers and leaves, compared with the independent converter.

use crate::proved;
use second::generate;
use second::random::Random;
use second::Refusal;
use std::collections::BTreeMap;
use std::fmt;

type Converter = fn(&[u8], &mut [u8]) -> Result<usize, Refusal>;

/// Converts with both into buffers that held the same octets; the answers and every octet afterwards must agree.
fn same(ours: Converter, theirs: Converter, input: &[u8], before: &[u8]) -> Result<(), String> {
    let mut our_buffer = before.to_vec();
    let mut their_buffer = before.to_vec();
    let first = ours(input, &mut our_buffer);
    let second = theirs(input, &mut their_buffer);
    if first != second {
        return Err(format!("{first:?} and {second:?}"));
    }
    if our_buffer != their_buffer {
        return Err("the buffers differ".to_string());
    }
    Ok(())
}

pub fn agree(message: &[u8], before: &[u8]) -> Result<(), String> {
    same(proved::to_text, second::to_text, message, before).map_err(|fault| format!("{message:02X?}: {fault}"))
}

pub fn agree_on_text(text: &[u8], before: &[u8]) -> Result<(), String> {
    same(proved::to_wire, second::to_wire, text, before)
        .map_err(|fault| format!("{} in {} octets: {fault}", String::from_utf8_lossy(text), before.len()))
}

/// Random messages, valid and damaged, with buffers of random length and random leftovers.
pub fn random_messages(seed: u64, count: usize) -> Result<usize, String> {
    let mut random = Random::new(seed);
    for _ in 0..count {
        let message = generate::message(&mut random);
        let room = if random.one_in(4) {
            random.below(300)
        } else {
            random.below(20_000)
        };
        let before = random.octets(room);
        agree(&message, &before)?;
    }
    Ok(count)
}

/// A conversion by both programs, and how messages or texts for it are made.
struct Direction {
    ours: Converter,
    input: fn(&mut Random) -> Vec<u8>,
    output: fn(&[u8]) -> Result<Vec<u8>, Refusal>,
    agree: fn(&[u8], &[u8]) -> Result<(), String>,
}

/// Buffers of the exact length of the output, one less and one more, full of leftovers of an earlier call.
fn exact(direction: &Direction, seed: u64, count: usize) -> Result<usize, String> {
    let mut random = Random::new(seed);
    let mut leftovers = vec![0xA5; 1 << 20];
    let mut compared = 0;
    for _ in 0..count {
        let input = (direction.input)(&mut random);
        let Ok(output) = (direction.output)(&input) else {
            continue;
        };
        for room in [output.len() - 1, output.len(), output.len() + 1] {
            (direction.agree)(&input, &leftovers[..room])?;
            compared += 1;
        }
        (direction.ours)(&input, &mut leftovers).map_err(|refusal| format!("{refusal:?}"))?;
    }
    Ok(compared)
}

pub fn exact_rooms(seed: u64, count: usize) -> Result<usize, String> {
    let to_text = Direction {
        ours: proved::to_text,
        input: generate::valid_message,
        output: second::text_of,
        agree,
    };
    exact(&to_text, seed, count)
}

pub fn exact_message_rooms(seed: u64, count: usize) -> Result<usize, String> {
    let to_wire = Direction {
        ours: proved::to_wire,
        input: generate::text,
        output: second::message_of,
        agree: agree_on_text,
    };
    exact(&to_wire, seed, count)
}

/// Random texts, valid and damaged, with buffers of random length and random leftovers.
pub fn random_texts(seed: u64, count: usize) -> Result<Tally, String> {
    let mut random = Random::new(seed);
    let mut tally = Tally::new();
    for _ in 0..count {
        let text = if random.one_in(2) {
            generate::text(&mut random)
        } else {
            generate::damaged_text(&mut random)
        };
        let room = if random.one_in(4) {
            random.below(300)
        } else {
            random.below(5_000)
        };
        let before = random.octets(room);
        agree_on_text(&text, &before)?;
        tally.add(second::to_wire(&text, &mut before.clone()));
    }
    Ok(tally)
}

/// Texts of large messages, as they are and with a harm done to them. The message of some has no room.
pub fn large_texts(seed: u64, count: usize) -> Result<usize, String> {
    let mut random = Random::new(seed);
    let mut compared = 0;
    for _ in 0..count {
        let size = random.between(4_000, 60_000);
        let message = generate::message_of_size(&mut random, size);
        let Ok(text) = second::text_of(&message) else {
            continue;
        };
        let room = random.between(1_000, 120_000);
        let before = random.octets(room);
        agree_on_text(&text, &before)?;
        agree_on_text(&generate::harmed_text(&mut random, text), &before)?;
        compared += 2;
    }
    Ok(compared)
}

/// The text with a PADDING of so many octets behind the last option of its last record, if that is an EDNS element.
fn padded(text: &[u8], length: usize) -> Option<Vec<u8>> {
    let body = text.strip_suffix(b"}}]}")?;
    let padding = format!(",\"PADDING\":{{\"LENGTH\":{length}}}}}}}]}}");
    Some([body, padding.as_bytes()].concat())
}

/// Texts whose message has about 65,535 octets, most of them padding; and those whose padding alone is about as long.
pub fn padded_texts(seed: u64, count: usize) -> Result<Tally, String> {
    let mut random = Random::new(seed);
    let mut tally = Tally::new();
    let before = random.octets(second::LARGEST_MESSAGE);
    for _ in 0..count {
        let message = generate::valid_message(&mut random);
        let (Some(form), Ok(text)) = (second::uncompressed(&message), second::text_of(&message)) else {
            continue;
        };
        let others = if random.one_in(4) { 0 } else { form.len() + 4 };
        let length = second::LARGEST_MESSAGE - others + random.below(5) - 2;
        let Some(text) = padded(&text, length) else {
            continue;
        };
        let room = second::LARGEST_MESSAGE - random.below(3);
        agree_on_text(&text, &before[..room])?;
        tally.add(second::to_wire(&text, &mut before[..room].to_vec()));
    }
    Ok(tally)
}

/// There and back with the proved library alone: the text of a message is read as its uncompressed form, and that has
/// the same text.
pub fn there_and_back(seed: u64, count: usize) -> Result<usize, String> {
    let mut random = Random::new(seed);
    let mut text = vec![0; 1 << 20];
    let mut again = vec![0; 1 << 20];
    let mut message = vec![0; second::LARGEST_MESSAGE];
    for _ in 0..count {
        let given = generate::valid_message(&mut random);
        let failed = |what: &str| format!("{given:02X?}: {what}");
        let length = proved::to_text(&given, &mut text).map_err(|_| failed("refused"))?;
        let size = proved::to_wire(&text[..length], &mut message).map_err(|_| failed("the text is refused"))?;
        if second::uncompressed(&given).as_deref() != Some(&message[..size]) {
            return Err(failed("the text is not read as the uncompressed form"));
        }
        let second_length = proved::to_text(&message[..size], &mut again).map_err(|_| failed("the form is refused"))?;
        if text[..length] != again[..second_length] {
            return Err(failed("the form has another text"));
        }
    }
    Ok(count)
}

/// How often each answer came.
pub struct Tally {
    counts: BTreeMap<u32, usize>,
}

impl Tally {
    fn new() -> Tally {
        Tally {
            counts: BTreeMap::new(),
        }
    }

    fn add(&mut self, answer: Result<usize, Refusal>) {
        let number = answer.map_or_else(|refusal| refusal.number, |_| 0);
        *self.counts.entry(number).or_default() += 1;
    }
}

impl fmt::Display for Tally {
    fn fmt(&self, formatter: &mut fmt::Formatter) -> fmt::Result {
        let total: usize = self.counts.values().sum();
        write!(formatter, "{total}")?;
        for (number, count) in &self.counts {
            match number {
                0 => write!(formatter, ", {count} read")?,
                _ => write!(formatter, ", {count} refused by {number}")?,
            }
        }
        Ok(())
    }
}

/// All lists of up to `longest` octets of the alphabet.
pub fn words(alphabet: &[u8], longest: usize) -> Vec<Vec<u8>> {
    let mut all = vec![vec![]];
    let mut last = all.clone();
    for _ in 0..longest {
        last = last
            .iter()
            .flat_map(|word: &Vec<u8>| alphabet.iter().map(move |octet| [&word[..], &[*octet]].concat()))
            .collect();
        all.extend(last.iter().cloned());
    }
    all
}

/// All names of one or two labels of up to `longest` octets over a small alphabet, as the question of a message: two
/// texts are equal exactly when the two names are. The texts of different names are all different exactly if no two of
/// them, sorted, stand side by side equal.
pub fn look_alikes(longest: usize) -> Result<usize, String> {
    let alphabet = [b'.', b'\\', b'"', 0, b'0', b'4', b'6', b'a'];
    let labels = words(&alphabet, longest);
    let mut texts = Vec::new();
    let mut buffer = vec![0; 4096];
    for first in &labels {
        for second in &labels {
            if first.is_empty() {
                continue;
            }
            let mut message = vec![0, 0, 0, 0, 0, 1, 0, 0, 0, 0, 0, 0];
            for label in [first, second] {
                if !label.is_empty() {
                    message.push(label.len() as u8);
                    message.extend(label);
                }
            }
            message.extend([0, 0, 1, 0, 1]);
            let length = proved::to_text(&message, &mut buffer).map_err(|refusal| format!("{refusal:?}"))?;
            texts.push(buffer[..length].to_vec());
        }
    }
    let count = texts.len();
    texts.sort();
    match texts.windows(2).find(|pair| pair[0] == pair[1]) {
        Some(pair) => Err(format!("two names share {}", String::from_utf8_lossy(&pair[0]))),
        None => Ok(count),
    }
}
