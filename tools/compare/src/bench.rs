//! Both converters over the same messages and their texts, in one run.

use crate::proved;
use second::generate;
use second::random::Random;
use second::Refusal;
use std::time::Instant;

type Converter = fn(&[u8], &mut [u8]) -> Result<usize, Refusal>;

/// A conversion by the proved library, and the same by the independent converter.
struct Pair {
    ours: Converter,
    theirs: Converter,
}

const TO_TEXT: Pair = Pair {
    ours: proved::to_text,
    theirs: second::to_text,
};

const TO_WIRE: Pair = Pair {
    ours: proved::to_wire,
    theirs: second::to_wire,
};

/// The seconds that a converter takes for all inputs, over one buffer that is never cleared, and the octets it writes.
fn timed(convert: Converter, inputs: &[Vec<u8>], buffer: &mut [u8]) -> (f64, usize) {
    let start = Instant::now();
    let mut octets = 0;
    for input in inputs {
        if let Ok(length) = convert(input, buffer) {
            octets += length;
        }
    }
    (start.elapsed().as_secs_f64(), octets)
}

/// The best of five turns for each, taken in turn.
fn best(pair: &Pair, inputs: &[Vec<u8>], buffer: &mut [u8]) -> (f64, f64, usize) {
    let mut ours = f64::MAX;
    let mut theirs = f64::MAX;
    let mut octets = 0;
    for _ in 0..5 {
        let (seconds, written) = timed(pair.ours, inputs, buffer);
        ours = ours.min(seconds);
        let (seconds, again) = timed(pair.theirs, inputs, buffer);
        theirs = theirs.min(seconds);
        assert_eq!(written, again, "both write the same");
        octets = written;
    }
    (ours, theirs, octets)
}

fn report(title: &str, things: &str, pair: &Pair, inputs: &[Vec<u8>], buffer: &mut [u8]) {
    let (ours, theirs, octets) = best(pair, inputs, buffer);
    let input: usize = inputs.iter().map(Vec::len).sum();
    println!(
        "{title}: {} {things}, {input} octets in, {octets} octets out: proved {ours:.3} s, plain {theirs:.3} s, \
         ratio {:.2}",
        inputs.len(),
        ours / theirs
    );
}

/// The texts of the messages that are accepted.
fn texts_of(messages: &[Vec<u8>]) -> Vec<Vec<u8>> {
    messages.iter().filter_map(|message| second::text_of(message).ok()).collect()
}

pub fn run(seed: u64) {
    let mut random = Random::new(seed);
    let mut buffer = vec![0; 1 << 24];
    let messages: Vec<Vec<u8>> = (0..100_000).map(|_| generate::message(&mut random)).collect();
    report("accepted and refused", "messages", &TO_TEXT, &messages, &mut buffer);
    report("of the accepted", "texts", &TO_WIRE, &texts_of(&messages), &mut buffer);
    for kilobytes in [1, 10, 60] {
        let messages: Vec<Vec<u8>> = (0..6000 / kilobytes)
            .map(|_| generate::message_of_size(&mut random, kilobytes * 1000))
            .collect();
        report(&format!("{kilobytes} kB each"), "messages", &TO_TEXT, &messages, &mut buffer);
        report(&format!("of {kilobytes} kB messages"), "texts", &TO_WIRE, &texts_of(&messages), &mut buffer);
    }
    let texts: Vec<Vec<u8>> = (0..100_000).map(|_| generate::text(&mut random)).collect();
    report("read and refused", "texts", &TO_WIRE, &texts, &mut buffer);
    long_texts();
}

/// The proved reader on texts with one part of two and of twenty million repetitions: the time for an octet must not
/// grow.
fn long_texts() {
    let head = |questions: u8, additional: u8| {
        format!(
            "{{\"ID\":0,\"QR\":0,\"Opcode\":0,\"AA\":0,\"TC\":0,\"RD\":0,\"RA\":0,\"AD\":0,\"CD\":0,\"RCODE\":0,\"QDCOUNT\":{questions},\"ANCOUNT\":0,\"NSCOUNT\":0,\
             \"ARCOUNT\":{additional},\"questionRRs\":["
        )
    };
    let arrays = "],\"answerRRs\":[],\"authorityRRs\":[],\"additionalRRs\":[";
    let named = format!("{}{{\"NAME\":\"", head(1, 0));
    let asked = |end: &str| format!("{end}\",\"TYPE\":1,\"CLASS\":1}}{arrays}]}}");
    let record = format!(
        "{}{arrays}{{\"NAME\":\".\",\"TYPE\":41,\"CLASS\":1,\"TTL\":0,\"RDATAHEX\":\"",
        head(0, 1)
    );
    let element = format!("{}{arrays}{{\"EDNS\":{{\"Version\":0,\"FLAGS\":[],\"RCODE\":\"NoError\",\"UDPSIZE\":0,\"DAU\":[0", head(0, 1));
    let parts = [
        ("a number", "{\"ID\":1".to_string(), "7", "}".to_string()),
        ("a label", named.clone(), "a", asked(".")),
        ("a name", named, "a.", asked("")),
        ("hex", record, "00", "\"}]}".to_string()),
        ("a list", element, ",1", "]}}]}".to_string()),
    ];
    let mut buffer = vec![0; 65_535];
    for (title, front, part, end) in parts {
        for count in [2_000_000, 20_000_000] {
            let text = format!("{front}{}{end}", part.repeat(count)).into_bytes();
            let start = Instant::now();
            let answer = proved::to_wire(&text, &mut buffer);
            let time = start.elapsed().as_secs_f64() * 1e9 / text.len() as f64;
            println!(
                "{title} in a text of {} octets: {answer:?}, {time:.2} ns an octet",
                text.len()
            );
        }
    }
}
