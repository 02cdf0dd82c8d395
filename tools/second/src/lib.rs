//! A converter between DNS messages and their JSON profile, written from the
//! profile's paper, change requests A1, A6 and A10 and the RFCs they name, with nothing
//! but the standard library. It makes test inputs and says what the answers must be.
//!
//! The way from a message to its text has two steps. `wire` reads the message
//! and gives its uncompressed form or the refusal; `text` prints that form,
//! once to learn the length and once into the buffer. The way back has four:
//! `reader` knows the grammar, `meaning` knows which texts belong to a message,
//! and `encode` measures and writes the message. For a text that the reader does
//! not take, `viable` finds the place of the refusal, with a grammar of its own.

pub mod cases;
pub mod generate;
pub mod lines;
pub mod random;
pub mod viable;

mod encode;
mod meaning;
mod reader;
mod shape;
mod tables;
mod text;
mod wire;

/// The most octets a message may have, uncompressed or not.
pub const LARGEST_MESSAGE: usize = 65_535;

/// Why an input was refused: the paper's number, and the place it names.
#[derive(Clone, Copy, Debug, PartialEq, Eq)]
pub struct Refusal {
    pub number: u32,
    pub place: u64,
}

impl Refusal {
    /// A refusal whose place the paper does not name.
    fn without_place(number: u32) -> Refusal {
        Refusal { number, place: 0 }
    }
}

/// Writes the text of a message to the start of the buffer and gives its
/// length. A refusal leaves the buffer as it was.
pub fn to_text(message: &[u8], buffer: &mut [u8]) -> Result<usize, Refusal> {
    let form = wire::uncompress(message)?;
    let length = text::length(&form);
    if length > buffer.len() {
        return Err(Refusal::without_place(10));
    }
    text::write(&form, &mut buffer[..length]);
    Ok(length)
}

/// Writes the message of a text to the start of the buffer and gives its
/// length. A refusal leaves the buffer as it was.
pub fn to_wire(text: &[u8], buffer: &mut [u8]) -> Result<usize, Refusal> {
    let Some(draft) = reader::read(text) else {
        return Err(Refusal { number: 20, place: viable::longest_beginning(text) as u64 });
    };
    if !meaning::has_meaning(&draft) {
        return Err(Refusal::without_place(21));
    }
    let length = encode::length(&draft);
    if length > LARGEST_MESSAGE as u64 {
        return Err(Refusal::without_place(22));
    }
    let length = length as usize;
    if length > buffer.len() {
        return Err(Refusal::without_place(23));
    }
    encode::write(&draft, &mut buffer[..length]);
    Ok(length)
}

/// Whether the reader takes a text: whether it is anything but 20.
pub fn reader_takes(text: &[u8]) -> bool {
    reader::read(text).is_some()
}

/// The uncompressed form of a message, if the message is accepted.
pub fn uncompressed(message: &[u8]) -> Option<Vec<u8>> {
    wire::uncompress(message).ok()
}

/// The text of a message, however long it is.
pub fn text_of(message: &[u8]) -> Result<Vec<u8>, Refusal> {
    let form = wire::uncompress(message)?;
    let mut text = vec![0; text::length(&form)];
    text::write(&form, &mut text);
    Ok(text)
}

/// The message of a text, if the text is accepted.
pub fn message_of(text: &[u8]) -> Result<Vec<u8>, Refusal> {
    let mut buffer = vec![0; LARGEST_MESSAGE];
    let length = to_wire(text, &mut buffer)?;
    buffer.truncate(length);
    Ok(buffer)
}
