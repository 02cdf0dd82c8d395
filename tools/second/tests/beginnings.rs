//! The place of refusal 20 against the reader. A beginning is tried by completions that the reader
//! takes, and the grammar of `viable` is held against the reader over many texts.

use std::collections::HashMap;

use second::random::Random;
use second::viable::{is_text, longest_beginning};
use second::{cases, generate, reader_takes, text_of, to_wire};

/// All words of up to `longest` of these octets, the empty one too.
fn words(octets: &[u8], longest: usize) -> Vec<Vec<u8>> {
    let mut all = vec![Vec::new()];
    let mut last = all.clone();
    for _ in 0..longest {
        let longer = |word: &Vec<u8>| -> Vec<Vec<u8>> {
            octets.iter().map(|octet| [word.as_slice(), &[*octet]].concat()).collect()
        };
        last = last.iter().flat_map(longer).collect();
        all.extend(last.clone());
    }
    all
}

/// Finds beginnings of texts by trying completions: each word of a list, followed by each of a
/// list of endings.
struct Search {
    words: Vec<Vec<u8>>,
    endings: Vec<Vec<u8>>,
    known: HashMap<Vec<u8>, bool>,
}

impl Search {
    fn is_beginning(&mut self, beginning: &[u8]) -> bool {
        if let Some(known) = self.known.get(beginning) {
            return *known;
        }
        let found = self.words.iter().any(|word| {
            let completed = |ending: &Vec<u8>| [beginning, word, ending].concat();
            self.endings.iter().any(|ending| reader_takes(&completed(ending)))
        });
        self.known.insert(beginning.to_vec(), found);
        found
    }

    /// The length of the longest beginning of the input for which a completion is found; `start`
    /// octets of it are one. What begins a beginning is one too, so the search goes upwards.
    fn longest(&mut self, start: usize, input: &[u8]) -> usize {
        let goes_on = |length: &usize| self.is_beginning(&input[..*length]);
        (start..=input.len()).take_while(goes_on).last().expect("the start is a beginning")
    }
}

/// The place that the program gives, or nothing if the text is not refused with 20.
fn place(text: &[u8]) -> Option<usize> {
    match to_wire(text, &mut []) {
        Err(refusal) if refusal.number == 20 => Some(refusal.place as usize),
        _ => None,
    }
}

/// Puts each word between `head` and each of `tails`, and compares the places.
fn compare(search: &mut Search, head: &str, words: &[Vec<u8>], tails: &[&str]) -> [usize; 2] {
    let (mut taken, mut refused) = (0, 0);
    for word in words {
        for tail in tails {
            let text = [head.as_bytes(), word, tail.as_bytes()].concat();
            let shown = || String::from_utf8_lossy(&text[head.len() - 1..]).into_owned();
            match place(&text) {
                None => {
                    taken += 1;
                    assert!(reader_takes(&text), "{}", shown());
                }
                Some(place) => {
                    refused += 1;
                    assert!(place <= text.len() && !reader_takes(&text));
                    assert_eq!(search.longest(head.len(), &text), place, "{}", shown());
                }
            }
        }
    }
    [taken, refused]
}

const HEADER: &str = "{\"ID\":0,\"QR\":0,\"Opcode\":0,\"AA\":0,\"TC\":0,\"RD\":0,\"RA\":0,\
                      \"AD\":0,\"CD\":0,\"RCODE\":0,\"QDCOUNT\":1,\"ANCOUNT\":0,\
                      \"NSCOUNT\":0,\"ARCOUNT\":0,";

/// The endings of a text that begin anywhere in its first octets, and the empty one.
fn endings(tail: &str, first: usize) -> Vec<Vec<u8>> {
    let mut endings: Vec<Vec<u8>> =
        (0..first).map(|start| tail.as_bytes()[start..].to_vec()).collect();
    endings.push(Vec::new());
    endings
}

#[test]
fn all_short_names() {
    let head = format!("{HEADER}\"questionRRs\":[{{\"NAME\":\"");
    let tail =
        "\",\"TYPE\":1,\"CLASS\":1}],\"answerRRs\":[],\"authorityRRs\":[],\"additionalRRs\":[]}";
    // What is missing of a name is at most two digits and a dot, or an escape's second half.
    let mut search =
        Search { words: words(b"\\.0", 3), endings: endings(tail, 2), known: HashMap::new() };
    let [taken, refused] = compare(&mut search, &head, &words(b"\"\\.0a", 6), &[tail, ""]);
    assert_eq!(taken + refused, 2 * 19_531);
    assert!(taken > 100);
}

#[test]
fn all_short_ttls_and_titles() {
    let head = format!(
        "{HEADER}\"questionRRs\":[],\"answerRRs\":[{{\"NAME\":\".\",\"TYPE\":1,\"CLASS\":1,\"TTL\":"
    )
    .replacen("\"QDCOUNT\":1,\"ANCOUNT\":0", "\"QDCOUNT\":0,\"ANCOUNT\":1", 1);
    let tail = ",\"RDATAHEX\":\"\"}],\"authorityRRs\":[],\"additionalRRs\":[]}";
    let mut search =
        Search { words: words(b"\"0-1,", 2), endings: endings(tail, 4), known: HashMap::new() };
    // The whole title, the title without its comma, without its quote, and nothing.
    let tails = [tail, &tail[1..], &tail[2..], ""];
    let [taken, refused] = compare(&mut search, &head, &words(b"\"0-1,", 5), &tails);
    assert_eq!(taken + refused, 4 * 3_906);
    // 1 + 31 numbers without a minus and 15 with one, then 23 with a comma, 11 with a quote too.
    assert_eq!(taken, 47 + 23 + 11);
}

#[test]
fn all_short_escapes_in_strings() {
    let head = format!(
        "{HEADER}\"questionRRs\":[],\"answerRRs\":[],\"authorityRRs\":[],\"additionalRRs\":[\
         {{\"EDNS\":{{\"Version\":0,\"FLAGS\":[],\"RCODE\":\"NoError\",\"UDPSIZE\":512,\
         \"EDE\":{{\"CODE\":1,\"TEXT\":\""
    );
    let tail = "\"}}}]}";
    // Behind the string another option may begin.
    let mut endings = endings(tail, 6);
    endings.extend([b"\"DAU\":[]}}]}".to_vec(), b"DAU\":[]}}]}".to_vec()]);
    let mut search = Search { words: words(b"\\\"}", 2), endings, known: HashMap::new() };
    let [taken, refused] = compare(&mut search, &head, &words(b"\"\\,}n", 4), &[tail, ""]);
    assert_eq!(taken + refused, 2 * 781);
    assert!(taken > 10);
}

/// An octet changed in the texts with every member: where the place says that no text goes on,
/// no ending of these texts completes it.
#[test]
fn no_ending_completes_what_is_no_beginning() {
    let texts = cases::texts_with_every_member();
    let mut random = Random::new(20);
    let mut dead = 0;
    for _ in 0..1_500 {
        let text = random.pick(&texts);
        let at = random.below(text.len());
        let octet = *random.pick(b"\"\\.,:[]{}0123456789-ABCDEFOTUaeor XZ\x7F");
        let beginning = [&text[..at], &[octet]].concat();
        if longest_beginning(&beginning) == beginning.len() {
            continue;
        }
        dead += 1;
        assert_eq!(longest_beginning(&beginning), at);
        for ending in &texts {
            for start in 0..=ending.len() {
                assert!(!reader_takes(&[&beginning, &ending[start..]].concat()));
            }
        }
    }
    assert!(dead > 1_000);
}

/// Checks that the reader and the grammar agree about a text, and that the program gives the
/// grammar's place.
fn check(text: &[u8]) {
    let taken = reader_takes(text);
    assert_eq!(is_text(text), taken, "{}", String::from_utf8_lossy(text));
    let longest = longest_beginning(text);
    assert!(longest <= text.len() && (!taken || longest == text.len()));
    assert_eq!(place(text), (!taken).then_some(longest));
}

#[test]
fn reader_and_grammar_agree_on_the_cases() {
    for text in cases::towire() {
        check(&text);
    }
    for line in cases::totext() {
        let message = second::lines::octets_of_hex(&line);
        if let Some(Ok(text)) = message.map(|message| text_of(&message)) {
            check(&text);
        }
    }
}

#[test]
fn reader_and_grammar_agree_on_random_texts() {
    let mut random = Random::new(21);
    for _ in 0..20_000 {
        check(&generate::text(&mut random));
        check(&generate::drafted_text(&mut random));
        let text = generate::drafted_text(&mut random);
        check(&generate::text_harmed_late(&mut random, text));
    }
}

#[test]
fn long_texts_are_followed_to_their_ends() {
    let head = format!("{HEADER}\"questionRRs\":[{{\"NAME\":\"");
    for (part, count) in [("a", 65_000), ("a.", 30_000), ("\\\\000", 13_000), ("\\\\\\\\", 16_000)]
    {
        let text = head.clone() + &part.repeat(count);
        assert_eq!(place(text.as_bytes()), Some(text.len()));
        assert_eq!(place(format!("{text} ").as_bytes()), Some(text.len()));
    }
    let number = "{\"ID\":1".to_string() + &"0".repeat(65_000);
    assert_eq!(place(number.as_bytes()), Some(number.len()));
    assert_eq!(place(format!("{number}-").as_bytes()), Some(number.len()));
}
