//! The two line programs as filters between a reader and a writer. Each keeps
//! one line at most, and answers every line that has arrived before it reads on.

use std::io::{self, ErrorKind, Read, Write};

use crate::text::hex_digits;
use crate::{to_text, to_wire, Refusal};

/// The longest message that `totext` takes and `towire` gives.
pub const LINE_MESSAGE: usize = 4_096;

/// The longest text that `totext` gives and `towire` takes.
pub const LINE_TEXT: usize = 65_536;

/// How many octets of answers are gathered before they are written.
const ANSWERS_AT_ONCE: usize = 1 << 18;

/// Answers each line of hexadecimal with its message's text or the refusal.
pub fn totext(input: impl Read, output: impl Write) -> io::Result<()> {
    let mut text = vec![0; LINE_TEXT];
    filter(input, output, 2 * LINE_MESSAGE, |line, answer| {
        let message = octets_of_hex(line).ok_or(Refusal::without_place(30))?;
        let length = to_text(&message, &mut text)?;
        answer.extend_from_slice(&text[..length]);
        Ok(())
    })
}

/// Answers each text with its message in hexadecimal or the refusal.
pub fn towire(input: impl Read, output: impl Write) -> io::Result<()> {
    let mut message = vec![0; LINE_MESSAGE];
    filter(input, output, LINE_TEXT, |line, answer| {
        let length = to_wire(line, &mut message)?;
        answer.extend_from_slice(&hex_of_octets(&message[..length]));
        Ok(())
    })
}

/// The uppercase hexadecimal of some octets.
pub fn hex_of_octets(octets: &[u8]) -> Vec<u8> {
    octets.iter().flat_map(|octet| hex_digits(*octet)).collect()
}

/// The octets that hexadecimal of either letter case stands for, if it is such.
pub fn octets_of_hex(hex: &[u8]) -> Option<Vec<u8>> {
    if !hex.len().is_multiple_of(2) {
        return None;
    }
    let mut octets = Vec::with_capacity(hex.len() / 2);
    for pair in hex.chunks_exact(2) {
        octets.push(16 * digit_value(pair[0])? + digit_value(pair[1])?);
    }
    Some(octets)
}

fn digit_value(digit: u8) -> Option<u8> {
    match digit {
        b'0'..=b'9' => Some(digit - b'0'),
        b'A'..=b'F' => Some(digit - b'A' + 10),
        b'a'..=b'f' => Some(digit - b'a' + 10),
        _ => None,
    }
}

/// Runs `convert` over the lines of the input that have at most `longest`
/// octets, and writes what it appends or the refusal, a line each.
fn filter(
    mut input: impl Read,
    mut output: impl Write,
    longest: usize,
    mut convert: impl FnMut(&[u8], &mut Vec<u8>) -> Result<(), Refusal>,
) -> io::Result<()> {
    let mut answer_line = |line: &Line, answers: &mut Vec<u8>| {
        let result = if line.too_long {
            Err(Refusal::without_place(31))
        } else {
            convert(&line.octets, answers)
        };
        if let Err(refusal) = result {
            let words = format!("refused {} at {}", refusal.number, refusal.place);
            answers.extend_from_slice(words.as_bytes());
        }
        answers.push(b'\n');
    };
    let mut line = Line { octets: Vec::new(), too_long: false };
    let mut answers = Vec::new();
    let mut chunk = vec![0; 65_536];
    loop {
        let arrived = read_some(&mut input, &mut chunk)?;
        if arrived == 0 {
            break;
        }
        let mut rest = &chunk[..arrived];
        while let Some(end) = rest.iter().position(|octet| *octet == b'\n') {
            line.append(&rest[..end], longest);
            answer_line(&line, &mut answers);
            line.clear();
            rest = &rest[end + 1..];
            if answers.len() >= ANSWERS_AT_ONCE {
                output.write_all(&answers)?;
                answers.clear();
            }
        }
        line.append(rest, longest);
        output.write_all(&answers)?;
        output.flush()?;
        answers.clear();
    }
    if !line.is_empty() {
        answer_line(&line, &mut answers);
        output.write_all(&answers)?;
    }
    output.flush()
}

fn read_some(input: &mut impl Read, chunk: &mut [u8]) -> io::Result<usize> {
    loop {
        match input.read(chunk) {
            Err(error) if error.kind() == ErrorKind::Interrupted => {}
            result => return result,
        }
    }
}

/// The line being read. Of a line that is too long nothing more is kept.
struct Line {
    octets: Vec<u8>,
    too_long: bool,
}

impl Line {
    fn append(&mut self, octets: &[u8], longest: usize) {
        if self.too_long || octets.len() > longest - self.octets.len() {
            self.too_long = true;
        } else {
            self.octets.extend_from_slice(octets);
        }
    }

    fn is_empty(&self) -> bool {
        self.octets.is_empty() && !self.too_long
    }

    fn clear(&mut self) {
        self.octets.clear();
        self.too_long = false;
    }
}
