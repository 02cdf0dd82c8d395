//! The line filters against the library functions, on the fixed cases and on
//! random input that arrives in pieces of any size.

use std::io::{self, Read};

use second::lines::{self, hex_of_octets, octets_of_hex, LINE_MESSAGE, LINE_TEXT};
use second::random::Random;
use second::{cases, generate, to_text, to_wire, Refusal};

/// A reader that hands out its octets in pieces of random size.
struct Pieces<'o> {
    octets: &'o [u8],
    random: Random,
    largest: usize,
}

impl Read for Pieces<'_> {
    fn read(&mut self, buffer: &mut [u8]) -> io::Result<usize> {
        let wanted = 1 + self.random.below(self.largest);
        let count = wanted.min(buffer.len()).min(self.octets.len());
        buffer[..count].copy_from_slice(&self.octets[..count]);
        self.octets = &self.octets[count..];
        Ok(count)
    }
}

fn in_pieces(octets: &[u8], largest: usize) -> Pieces<'_> {
    Pieces { octets, random: Random::new(largest as u64), largest }
}

fn run_totext(input: &[u8], largest: usize) -> Vec<u8> {
    let mut output = Vec::new();
    lines::totext(in_pieces(input, largest), &mut output).unwrap();
    output
}

fn run_towire(input: &[u8], largest: usize) -> Vec<u8> {
    let mut output = Vec::new();
    lines::towire(in_pieces(input, largest), &mut output).unwrap();
    output
}

fn answer(result: Result<Vec<u8>, Refusal>) -> Vec<u8> {
    let refused =
        |refusal: Refusal| format!("refused {} at {}", refusal.number, refusal.place).into_bytes();
    [result.unwrap_or_else(refused), vec![b'\n']].concat()
}

fn totext_answer(line: &[u8]) -> Vec<u8> {
    if line.len() > 8_192 {
        return b"refused 31 at 0\n".to_vec();
    }
    let Some(message) = octets_of_hex(line) else {
        return b"refused 30 at 0\n".to_vec();
    };
    let mut buffer = vec![0; LINE_TEXT];
    answer(to_text(&message, &mut buffer).map(|length| buffer[..length].to_vec()))
}

fn towire_answer(line: &[u8]) -> Vec<u8> {
    if line.len() > 65_536 {
        return b"refused 31 at 0\n".to_vec();
    }
    let mut buffer = vec![0; LINE_MESSAGE];
    answer(to_wire(line, &mut buffer).map(|length| hex_of_octets(&buffer[..length])))
}

#[test]
fn totext_agrees_on_its_cases() {
    let cases = cases::totext();
    let expected: Vec<u8> = cases.iter().flat_map(|line| totext_answer(line)).collect();
    let input = cases.join(&b'\n');
    assert!(cases.len() >= 3_000 && input.len() < 2_000_000);
    assert!(!cases[cases.len() - 1].is_empty());
    for largest in [100, 70_000] {
        assert!(run_totext(&input, largest) == expected);
    }
}

#[test]
fn towire_agrees_on_its_cases() {
    let cases = cases::towire();
    let expected: Vec<u8> = cases.iter().flat_map(|line| towire_answer(line)).collect();
    let input = cases.join(&b'\n');
    assert!((100_000..250_000).contains(&cases.len()) && input.len() < 80_000_000);
    assert!(!cases[cases.len() - 1].is_empty());
    for largest in [1_000, 70_000] {
        assert!(run_towire(&input, largest) == expected);
    }
}

/// The refusal numbers among some answers, each once.
fn numbers(answers: Vec<Vec<u8>>) -> Vec<u32> {
    let words = answers.iter().map(|answer| String::from_utf8_lossy(answer).into_owned());
    let mut numbers: Vec<u32> = words
        .filter_map(|answer| answer.strip_prefix("refused ")?.split(' ').next()?.parse().ok())
        .collect();
    numbers.sort_unstable();
    numbers.dedup();
    numbers
}

#[test]
fn some_cases_keep_every_kind_and_number() {
    let some = cases::some_towire(400);
    assert!(some.len() >= 4_000 && some.join(&b'\n').len() < 8_000_000);
    let groups = cases::towire_groups();
    assert_eq!(some.len(), groups.iter().map(|group| group.lines.len().min(400)).sum());
    for group in groups {
        assert!(some.contains(&group.lines[group.lines.len() - 1]), "{}", group.kind);
    }
    assert_eq!(some.last(), cases::towire().last());
    let answers = some.iter().map(|line| towire_answer(line)).collect();
    assert_eq!(numbers(answers), [20, 21, 22, 23, 31]);
    assert_eq!(cases::some_towire(usize::MAX), cases::towire());
}

#[test]
fn cases_hold_no_newline_and_meet_every_number() {
    let (totext, towire) = (cases::totext(), cases::towire());
    assert!(totext.iter().chain(&towire).all(|line| !line.contains(&b'\n')));
    let answers = totext.iter().map(|line| totext_answer(line)).collect();
    assert_eq!(numbers(answers), [1, 4, 5, 6, 7, 8, 9, 10, 11, 30, 31]);
    let answers = towire.iter().map(|line| towire_answer(line)).collect();
    assert_eq!(numbers(answers), [20, 21, 22, 23, 31]);
}

/// Whether a line holds a message with Z set.
fn sets_z(line: &[u8]) -> bool {
    octets_of_hex(line).is_some_and(|message| message.len() > 3 && message[3] & 0x40 != 0)
}

fn holds(line: &[u8], part: &[u8]) -> bool {
    line.windows(part.len()).any(|window| window == part)
}

#[test]
fn cases_meet_every_number_with_z() {
    let totext: Vec<Vec<u8>> = cases::totext().into_iter().filter(|line| sets_z(line)).collect();
    let answers: Vec<Vec<u8>> = totext.iter().map(|line| totext_answer(line)).collect();
    let accepted: Vec<&Vec<u8>> = answers.iter().filter(|line| line[0] == b'{').collect();
    assert!(accepted.len() >= 300);
    assert!(accepted.iter().all(|text| holds(text, b",\"Z\":1,\"AD\":")));
    for kind in [&b"{\"EDNS\":"[..], b"\"TYPE\":41,", b"\"RCODE\":\"BADVERS\"", b"\"RA\":1,\"Z\""] {
        assert!(accepted.iter().any(|text| holds(text, kind)));
    }
    assert_eq!(numbers(answers), [1, 4, 5, 6, 7, 8, 9, 10, 11]);
    for lines in [cases::towire(), cases::some_towire(400)] {
        let (right, others): (Vec<Vec<u8>>, Vec<Vec<u8>>) =
            lines.into_iter().partition(|line| holds(line, b",\"Z\":1,\"AD\":"));
        let answers: Vec<Vec<u8>> = right.iter().map(|line| towire_answer(line)).collect();
        let accepted = answers.iter().filter(|line| !line.starts_with(b"refused"));
        assert!(accepted.clone().count() >= 300 && accepted.clone().all(|line| sets_z(&line[..8])));
        assert_eq!(numbers(answers), [20, 21, 22, 23, 31]);
        // Every other Z is wrong.
        let wrong = others.iter().filter(|line| holds(line, b"\"Z\":"));
        assert!(wrong.clone().count() >= 500);
        assert!(wrong.clone().all(|line| towire_answer(line).starts_with(b"refused 20 at ")));
    }
}

#[test]
fn filters_agree_on_random_input() {
    let mut random = Random::new(77);
    let messages: Vec<Vec<u8>> =
        (0..2_000).map(|_| hex_of_octets(&generate::message(&mut random))).collect();
    let expected: Vec<u8> = messages.iter().flat_map(|line| totext_answer(line)).collect();
    assert!(run_totext(&messages.join(&b'\n'), 5_000) == expected);
    let texts: Vec<Vec<u8>> = (0..2_000).map(|_| generate::text(&mut random)).collect();
    let expected: Vec<u8> = texts.iter().flat_map(|line| towire_answer(line)).collect();
    assert!(run_towire(&texts.join(&b'\n'), 5_000) == expected);
}

#[test]
fn line_ends() {
    let zero = "00".repeat(12);
    assert_eq!(run_totext(b"", 9), b"");
    assert_eq!(run_totext(b"\n", 9), b"refused 1 at 0\n");
    assert_eq!(run_totext(b"\n\n", 9), b"refused 1 at 0\nrefused 1 at 0\n");
    assert_eq!(run_totext(b"0", 9), b"refused 30 at 0\n");
    assert_eq!(run_totext(b"00\r\n", 9), b"refused 30 at 0\n");
    assert_eq!(run_totext(b"00\n00", 9), b"refused 1 at 0\nrefused 1 at 0\n");
    assert_eq!(run_totext(zero.as_bytes(), 9), run_totext(format!("{zero}\n").as_bytes(), 9));
    assert_eq!(run_totext(&[b'x'; 8_192], 999), b"refused 30 at 0\n");
    assert_eq!(run_totext(&[b'x'; 8_193], 999), b"refused 31 at 0\n");
    assert_eq!(run_totext(&[b'0'; 8_191], 999), b"refused 30 at 0\n");
    assert_eq!(run_towire(b"", 9), b"");
    assert_eq!(run_towire(b"\n", 9), b"refused 20 at 0\n");
    assert_eq!(run_towire(&[b'x'; 65_536], 999), b"refused 20 at 0\n");
    assert_eq!(
        run_towire(b"{\"ID\":x\n{\"ID\":\r\n{\n{", 9),
        b"refused 20 at 6\n\
        refused 20 at 6\nrefused 20 at 1\nrefused 20 at 1\n"
    );
    assert_eq!(run_towire(&[b'x'; 65_537], 999), b"refused 31 at 0\n");
}
