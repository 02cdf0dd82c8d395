//! What goes to text comes back, and what is refused leaves the buffer alone.

use second::generate;
use second::random::Random;
use second::viable::longest_beginning;
use second::{message_of, text_of, to_text, to_wire, uncompressed, Refusal};

const MESSAGES: usize = 6_000;

/// The message with Z set or clear.
fn message_saying(z: bool, message: &[u8]) -> Vec<u8> {
    let mut message = message.to_vec();
    if let Some(octet) = message.get_mut(3) {
        *octet = *octet & !0x40 | u8::from(z) << 6;
    }
    message
}

/// The place of Z, if the text has the member behind it.
fn place_of_z(text: &[u8]) -> Option<usize> {
    text.windows(6).position(|part| part == b",\"AD\":")
}

/// The text with Z put into its place, if there is such a place.
fn text_saying_z(text: &[u8]) -> Option<Vec<u8>> {
    let place = place_of_z(text)?;
    Some([&text[..place], b",\"Z\":1", &text[place..]].concat())
}

/// Whether a text has a member Z; a string can't hold these octets.
fn has_z(text: &[u8]) -> bool {
    text.windows(4).any(|part| part == b"\"Z\":")
}

/// Checks that Z adds its member to the text of a message, or changes nothing
/// about its refusal.
fn check_z(message: &[u8]) {
    let clear = text_of(&message_saying(false, message));
    let set = text_of(&message_saying(true, message));
    match clear {
        Ok(text) => {
            assert!(!has_z(&text));
            assert_eq!(set.ok(), text_saying_z(&text));
        }
        Err(refusal) => assert_eq!(set, Err(refusal)),
    }
}

fn check_message(message: &[u8]) {
    let form = uncompressed(message).expect("the message is accepted");
    let text = text_of(message).expect("the message is accepted");
    assert!(text.iter().all(|octet| (0x20..=0x7E).contains(octet)));
    assert_eq!(text_of(&form).as_ref(), Ok(&text));
    assert_eq!(uncompressed(&form).as_ref(), Some(&form));
    assert_eq!(message_of(&text).as_ref(), Ok(&form));
}

#[test]
fn valid_messages_go_there_and_back() {
    let mut random = Random::new(1);
    for _ in 0..MESSAGES {
        let message = generate::valid_message(&mut random);
        check_message(&message);
        check_message(&message_saying(true, &message));
        check_z(&message);
    }
}

#[test]
fn large_messages_go_there_and_back() {
    let mut random = Random::new(2);
    for size in [500, 1_000, 5_000, 10_000, 20_000, 40_000, 60_000] {
        for _ in 0..5 {
            let message = generate::message_of_size(&mut random, size);
            assert!(message.len() <= 65_535 && message.len() + 200 > size);
            check_message(&message);
            check_message(&message_saying(true, &message));
            check_z(&message);
        }
    }
}

#[test]
fn damaged_messages_are_refused_or_go_there_and_back() {
    let mut random = Random::new(3);
    for _ in 0..MESSAGES {
        let message = generate::damaged_message(&mut random);
        check_z(&message);
        match text_of(&message) {
            Ok(_) => check_message(&message),
            Err(refusal) => {
                assert!([1, 4, 5, 6, 7, 8, 9, 11].contains(&refusal.number));
                assert!(refusal.place <= message.len() as u64);
                assert_eq!(uncompressed(&message), None);
            }
        }
    }
}

#[test]
fn random_messages_set_z_in_some() {
    let mut random = Random::new(7);
    let (mut accepted, mut refused) = (0, 0);
    for _ in 0..MESSAGES {
        let message = generate::message(&mut random);
        if message.len() > 3 && message[3] & 0x40 != 0 {
            match text_of(&message) {
                Ok(_) => accepted += 1,
                Err(_) => refused += 1,
            }
        }
    }
    assert!((MESSAGES / 10..MESSAGES / 2).contains(&accepted));
    assert!((MESSAGES / 50..MESSAGES / 4).contains(&refused));
}

#[test]
fn z_adds_its_bit_to_the_message_of_a_text() {
    let mut random = Random::new(8);
    let (mut accepted, mut refused) = (0, 0);
    for _ in 0..MESSAGES {
        let text = generate::text(&mut random);
        let Some(with_z) = text_saying_z(&text).filter(|_| !has_z(&text)) else {
            continue;
        };
        match message_of(&text) {
            Ok(message) => {
                accepted += 1;
                assert_eq!(message_of(&with_z), Ok(message_saying(true, &message)));
                assert_eq!(message_saying(false, &message), message);
            }
            Err(mut refusal) => {
                refused += 1;
                if refusal.number == 20 {
                    refusal.place = place_with_z(&text, &with_z, refusal.place);
                }
                assert_eq!(message_of(&with_z), Err(refusal));
            }
        }
    }
    assert!(accepted > MESSAGES / 4 && refused > MESSAGES / 10);
}

/// Where 20 is if Z is put into a text that has it at `place`: the same octet,
/// or where Z itself can't stand.
fn place_with_z(text: &[u8], with_z: &[u8], place: u64) -> u64 {
    let start = place_of_z(text).expect("Z was put there");
    let end = start + b",\"Z\":1".len();
    if place <= start as u64 {
        place
    } else if longest_beginning(&with_z[..end]) == end {
        place + (end - start) as u64
    } else {
        longest_beginning(&with_z[..end]) as u64
    }
}

#[test]
fn accepted_texts_come_back() {
    let mut random = Random::new(4);
    let mut accepted = 0;
    let mut accepted_with_z = 0;
    for _ in 0..2 * MESSAGES {
        let text = generate::text(&mut random);
        assert!(!text.contains(&b'\n'));
        match message_of(&text) {
            Ok(message) => {
                accepted += 1;
                accepted_with_z += usize::from(message[3] & 0x40 != 0);
                assert_eq!(text_of(&message), Ok(text));
                assert_eq!(uncompressed(&message), Some(message));
            }
            Err(refusal) => {
                assert!((20..=22).contains(&refusal.number));
                assert!(refusal.place <= text.len() as u64);
                assert!(refusal.number == 20 || refusal.place == 0);
            }
        }
    }
    assert!(accepted > MESSAGES / 2 && accepted < 2 * MESSAGES);
    assert!(accepted_with_z > MESSAGES / 20 && accepted_with_z < accepted / 2);
}

#[test]
fn valid_texts_are_accepted() {
    let mut random = Random::new(5);
    for _ in 0..MESSAGES {
        assert!(message_of(&generate::valid_text(&mut random)).is_ok());
    }
}

/// A buffer of random length and content; with it a copy.
fn leftovers(random: &mut Random, around: usize) -> (Vec<u8>, Vec<u8>) {
    let length = match random.below(4) {
        0 => around,
        1 => around.saturating_sub(1),
        2 => random.below(around + 1),
        _ => around + random.below(100),
    };
    let buffer = random.octets(length);
    (buffer.clone(), buffer)
}

/// What a call must have left: the output and the octets behind it, or all as before.
fn check_buffer(
    answer: Result<usize, Refusal>,
    whole: Result<Vec<u8>, Refusal>,
    no_room: u32,
    before: &[u8],
    after: &[u8],
) {
    match whole {
        Ok(output) if output.len() <= before.len() => {
            assert_eq!(answer, Ok(output.len()));
            assert_eq!(after[..output.len()], output);
            assert_eq!(after[output.len()..], before[output.len()..]);
        }
        Ok(_) => {
            assert_eq!(answer, Err(Refusal { number: no_room, place: 0 }));
            assert_eq!(after, before);
        }
        Err(refusal) => {
            assert_eq!(answer, Err(refusal));
            assert_eq!(after, before);
        }
    }
}

#[test]
fn buffers_keep_what_is_not_written() {
    let mut random = Random::new(6);
    for _ in 0..MESSAGES {
        let message = generate::message(&mut random);
        let whole = text_of(&message);
        let (before, mut buffer) = leftovers(&mut random, whole.as_ref().map_or(50, Vec::len));
        let answer = to_text(&message, &mut buffer);
        check_buffer(answer, whole, 10, &before, &buffer);

        let text = generate::text(&mut random);
        let whole = message_of(&text);
        let (before, mut buffer) = leftovers(&mut random, whole.as_ref().map_or(50, Vec::len));
        let answer = to_wire(&text, &mut buffer);
        check_buffer(answer, whole, 23, &before, &buffer);
    }
}

#[test]
fn the_same_seed_gives_the_same_inputs() {
    let made = |seed| {
        let mut random = Random::new(seed);
        (generate::message(&mut random), generate::text(&mut random))
    };
    assert_eq!(made(9), made(9));
    assert_ne!(made(9), made(10));
    let mut random = Random::new(0);
    // What is drawn aside leaves the numbers as they are.
    assert_ne!(random.aside().number(), 0xE220_A839_7B1D_CDAF);
    assert_eq!(random.number(), 0xE220_A839_7B1D_CDAF);
    assert_eq!(random.number(), 0x6E78_9E6A_A1B9_65F4);
}
