//! The place of refusal 20: the length of the longest beginning of an input that
//! is also a beginning of some text in the grammar.
//!
//! The grammar is regular. It stands here once more, as data, in the order and
//! the words of the format's sections 2, 3 and 5, and takes nothing from `reader`
//! or `tables`. It becomes a nondeterministic automaton in which every state can
//! reach the end. The set of all states that a beginning can be in is followed
//! octet by octet; where it becomes empty, no text in the grammar goes on. Where
//! the reader stopped has no part in this.

use std::sync::LazyLock;

/// The length of the longest beginning of the input that is also a beginning
/// of some text in the grammar.
pub fn longest_beginning(input: &[u8]) -> usize {
    let mut walk = Walk::new(&AUTOMATON);
    input.iter().position(|octet| !walk.step(*octet)).unwrap_or(input.len())
}

/// Whether the input is a text in the grammar, found without the reader.
pub fn is_text(input: &[u8]) -> bool {
    let mut walk = Walk::new(&AUTOMATON);
    input.iter().all(|octet| walk.step(*octet)) && walk.is_at_end()
}

static AUTOMATON: LazyLock<Automaton> = LazyLock::new(|| Automaton::new(&text()));

// The grammar.

/// A set of words over octets.
enum Words {
    /// One octet of a set.
    Octet(OctetSet),
    /// A word of each part, one after the other; without parts the empty word.
    Sequence(Vec<Words>),
    /// A word of one of these.
    Choice(Vec<Words>),
    /// One or more words of `item`, and a word of `between` between each two.
    Row { item: Box<Words>, between: Box<Words> },
}

fn text() -> Words {
    object([
        member("ID", number()),
        member("QR", number()),
        member("Opcode", number()),
        member("AA", number()),
        member("TC", number()),
        member("RD", number()),
        // Z, if it is there, has one spelling and stands behind RA.
        sequence([member("RA", number()), optional(fixed(",\"Z\":1"))]),
        member("AD", number()),
        member("CD", number()),
        member("RCODE", number()),
        member("QDCOUNT", number()),
        member("ANCOUNT", number()),
        member("NSCOUNT", number()),
        member("ARCOUNT", number()),
        member("questionRRs", array(question())),
        member("answerRRs", array(record())),
        member("authorityRRs", array(record())),
        member("additionalRRs", array(choice([record(), edns()]))),
    ])
}

fn question() -> Words {
    object([member("NAME", name()), member("TYPE", number()), member("CLASS", number())])
}

fn record() -> Words {
    object([
        member("NAME", name()),
        member("TYPE", number()),
        member("CLASS", number()),
        member("TTL", ttl()),
        member("RDATAHEX", hex()),
    ])
}

/// An EDNS object. Any number of options in any order follow its fixed members.
fn edns() -> Words {
    let fixed_members = commas_between([
        member("Version", number()),
        member("FLAGS", flags()),
        member("RCODE", rcode()),
        member("UDPSIZE", number()),
    ]);
    let options = repeated(sequence([fixed(","), option()]));
    object([member("EDNS", sequence([fixed("{"), fixed_members, options, fixed("}")]))])
}

fn flags() -> Words {
    choice([fixed("[]"), fixed("[\"DO\"]")])
}

fn rcode() -> Words {
    let names = [
        "NoError", "FormErr", "ServFail", "NXDomain", "NotImp", "Refused", "YXDomain", "YXRRSet",
        "NXRRSet", "NotAuth", "NotZone", "DSOTYPENI", "BADVERS", "BADKEY", "BADTIME", "BADMODE",
        "BADNAME", "BADALG", "BADTRUNC", "BADCOOKIE",
    ];
    quoted(choice(names.map(fixed)))
}

fn option() -> Words {
    choice([
        member("NSID", object([member("HEX", hex())])),
        member("DAU", array(number())),
        member("DHU", array(number())),
        member("N3U", array(number())),
        member("EXPIRE", choice([fixed("\"NONE\""), number()])),
        member("COOKIE", array(hex())),
        member("KEEPALIVE", number()),
        member("PADDING", object_with_last(member("LENGTH", number()), member("HEX", hex()))),
        member("KEYTAG", array(number())),
        member("EDE", object_with_last(member("CODE", number()), member("TEXT", string()))),
        sequence([fixed("\"OPT"), number(), fixed("\":"), hex()]),
    ])
}

/// Digits without a leading zero, any number of them.
fn number() -> Words {
    choice([fixed("0"), nonzero_number()])
}

fn nonzero_number() -> Words {
    sequence([octet(set(b"123456789")), repeated(octet(digits()))])
}

/// A number, or a minus and a number that is not zero.
fn ttl() -> Words {
    choice([number(), sequence([fixed("-"), nonzero_number()])])
}

/// Any even number of uppercase digits, in quotes.
fn hex() -> Words {
    let digit = || octet(set(b"0123456789ABCDEF"));
    quoted(repeated(sequence([digit(), digit()])))
}

/// The root, or one or more labels, each with a dot behind it.
fn name() -> Words {
    let label = sequence([one_or_more(label_octet()), fixed(".")]);
    quoted(choice([fixed("."), one_or_more(label)]))
}

/// An octet of a label in its one spelling.
fn label_octet() -> Words {
    let plain = octet(without(&range(0x21, 0x7E), b"\".\\"));
    // The octets that are spelled by their three decimal digits.
    let numbered = (0x00..=0x20).chain([0x22]).chain(0x7F..=0xFF);
    let digits = choice(numbered.map(|octet| fixed(&format!("{octet:03}"))));
    choice([plain, sequence([fixed("\\\\"), choice([fixed("."), fixed("\\\\"), digits])])])
}

/// Octets 0x20 to 0x7E in quotes, with a backslash before quote and backslash.
fn string() -> Words {
    let plain = octet(without(&range(0x20, 0x7E), b"\"\\"));
    quoted(repeated(choice([plain, fixed("\\\""), fixed("\\\\")])))
}

// What the grammar is put together from.

/// These octets and no others.
fn fixed(octets: &str) -> Words {
    sequence(octets.bytes().map(|single| octet(set(&[single]))))
}

fn octet(octets: OctetSet) -> Words {
    Words::Octet(octets)
}

fn sequence(parts: impl IntoIterator<Item = Words>) -> Words {
    Words::Sequence(parts.into_iter().collect())
}

fn choice(alternatives: impl IntoIterator<Item = Words>) -> Words {
    Words::Choice(alternatives.into_iter().collect())
}

fn nothing() -> Words {
    sequence([])
}

fn optional(words: Words) -> Words {
    choice([nothing(), words])
}

fn row(item: Words, between: Words) -> Words {
    Words::Row { item: Box::new(item), between: Box::new(between) }
}

fn one_or_more(item: Words) -> Words {
    row(item, nothing())
}

fn repeated(item: Words) -> Words {
    optional(one_or_more(item))
}

fn quoted(words: Words) -> Words {
    sequence([fixed("\""), words, fixed("\"")])
}

/// A member: its name in quotes, a colon and its value.
fn member(name: &str, value: Words) -> Words {
    sequence([quoted(fixed(name)), fixed(":"), value])
}

/// The members in this order, with commas between them.
fn commas_between(members: impl IntoIterator<Item = Words>) -> Words {
    let with_comma = |(place, member)| match place {
        0 => member,
        _ => sequence([fixed(","), member]),
    };
    sequence(members.into_iter().enumerate().map(with_comma))
}

/// An object of exactly these members in this order.
fn object(members: impl IntoIterator<Item = Words>) -> Words {
    sequence([fixed("{"), commas_between(members), fixed("}")])
}

/// An object of a member and perhaps one more.
fn object_with_last(first: Words, last: Words) -> Words {
    object([sequence([first, optional(sequence([fixed(","), last]))])])
}

/// An array of any number of items, with commas between them.
fn array(item: Words) -> Words {
    sequence([fixed("["), optional(row(item, fixed(","))), fixed("]")])
}

/// A set of octets: one bit for each.
#[derive(Clone, Copy)]
struct OctetSet([u64; 4]);

impl OctetSet {
    fn has(&self, octet: u8) -> bool {
        self.0[usize::from(octet >> 6)] >> (octet & 63) & 1 == 1
    }
}

fn set_where(is_in: impl Fn(u8) -> bool) -> OctetSet {
    let mut bits = [0; 4];
    for octet in (0..=255).filter(|octet| is_in(*octet)) {
        bits[usize::from(octet >> 6)] |= 1 << (octet & 63);
    }
    OctetSet(bits)
}

fn set(octets: &[u8]) -> OctetSet {
    set_where(|octet| octets.contains(&octet))
}

fn range(first: u8, last: u8) -> OctetSet {
    set_where(|octet| (first..=last).contains(&octet))
}

fn without(octets: &OctetSet, others: &[u8]) -> OctetSet {
    set_where(|octet| octets.has(octet) && !others.contains(&octet))
}

fn digits() -> OctetSet {
    range(b'0', b'9')
}

// The automaton.

/// A place in the grammar: an octet of a set is awaited there, or nothing more.
struct State {
    awaited: OctetSet,
    /// The states behind the octet.
    behind: Vec<usize>,
}

/// The state in which a text is complete. It awaits nothing.
const END: usize = 0;

struct Automaton {
    states: Vec<State>,
    /// The states before the first octet.
    start: Vec<usize>,
}

impl Automaton {
    fn new(words: &Words) -> Automaton {
        let mut plan = Plan { nodes: vec![Node::End] };
        let start = plan.add(words, END);
        let behind = |node: &Node| match node {
            Node::Octet { awaited, then } => {
                State { awaited: *awaited, behind: plan.waiting_at(*then) }
            }
            Node::End | Node::Fork(_) => State { awaited: set(&[]), behind: Vec::new() },
        };
        Automaton { states: plan.nodes.iter().map(behind).collect(), start: plan.waiting_at(start) }
    }
}

/// The automaton while it is made. A fork goes on at several nodes and awaits
/// no octet itself; the states are the other nodes, under the same numbers.
struct Plan {
    nodes: Vec<Node>,
}

enum Node {
    End,
    Octet { awaited: OctetSet, then: usize },
    Fork(Vec<usize>),
}

impl Plan {
    /// Adds nodes for some words, behind which the node `then` follows. Gives
    /// the node before the words.
    fn add(&mut self, words: &Words, then: usize) -> usize {
        match words {
            Words::Octet(awaited) => self.push(Node::Octet { awaited: *awaited, then }),
            Words::Sequence(parts) => {
                parts.iter().rev().fold(then, |then, part| self.add(part, then))
            }
            Words::Choice(alternatives) => {
                let ways = alternatives.iter().map(|words| self.add(words, then)).collect();
                self.push(Node::Fork(ways))
            }
            Words::Row { item, between } => {
                let behind_item = self.push(Node::Fork(Vec::new()));
                let first = self.add(item, behind_item);
                let again = self.add(between, first);
                self.nodes[behind_item] = Node::Fork(vec![again, then]);
                first
            }
        }
    }

    fn push(&mut self, node: Node) -> usize {
        self.nodes.push(node);
        self.nodes.len() - 1
    }

    /// The nodes that can be next at a node: all that are no forks and are
    /// reached from it over forks alone.
    fn waiting_at(&self, node: usize) -> Vec<usize> {
        let mut seen = vec![node];
        let mut place = 0;
        while place < seen.len() {
            if let Node::Fork(ways) = &self.nodes[seen[place]] {
                for way in ways {
                    if !seen.contains(way) {
                        seen.push(*way);
                    }
                }
            }
            place += 1;
        }
        seen.retain(|node| !matches!(self.nodes[*node], Node::Fork(_)));
        seen
    }
}

/// The set of all states that the octets so far can lead to.
struct Walk<'a> {
    automaton: &'a Automaton,
    here: Vec<usize>,
    /// The next set, which takes the place of `here` after each step.
    next: Vec<usize>,
    /// The step in which each state was put into a set the last time.
    put: Vec<usize>,
    steps: usize,
}

impl Walk<'_> {
    fn new(automaton: &Automaton) -> Walk<'_> {
        let put = vec![0; automaton.states.len()];
        Walk { automaton, here: automaton.start.clone(), next: Vec::new(), put, steps: 0 }
    }

    /// Goes on by an octet. If there is no state left, the octet can't stand
    /// here, and the set stays as it was.
    fn step(&mut self, octet: u8) -> bool {
        self.steps += 1;
        self.next.clear();
        for state in &self.here {
            let State { awaited, behind } = &self.automaton.states[*state];
            if !awaited.has(octet) {
                continue;
            }
            for state in behind {
                if self.put[*state] != self.steps {
                    self.put[*state] = self.steps;
                    self.next.push(*state);
                }
            }
        }
        let goes_on = !self.next.is_empty();
        if goes_on {
            std::mem::swap(&mut self.here, &mut self.next);
        }
        goes_on
    }

    fn is_at_end(&self) -> bool {
        self.here.contains(&END)
    }
}

#[cfg(test)]
mod tests {
    use super::*;
    use crate::cases;
    use crate::generate;
    use crate::random::Random;
    use crate::reader;

    /// For each state from which the end can be reached, the next octet and
    /// state of a shortest way there.
    fn ways_to_the_end(automaton: &Automaton) -> Vec<Option<(u8, usize)>> {
        let mut ways = vec![None; automaton.states.len()];
        let mut reached = vec![END];
        let mut place = 0;
        while place < reached.len() {
            for (number, state) in automaton.states.iter().enumerate() {
                let is_new = ways[number].is_none() && number != END;
                if is_new && state.behind.contains(&reached[place]) {
                    let octet = (0..=255).find(|octet| state.awaited.has(*octet));
                    ways[number] = Some((octet.expect("an octet is awaited"), reached[place]));
                    reached.push(number);
                }
            }
            place += 1;
        }
        ways
    }

    #[test]
    fn every_state_reaches_the_end() {
        let ways = ways_to_the_end(&AUTOMATON);
        let mut found = AUTOMATON.start.clone();
        let mut place = 0;
        while place < found.len() {
            let state = found[place];
            assert!(state == END || ways[state].is_some());
            for next in &AUTOMATON.states[state].behind {
                if !found.contains(next) {
                    found.push(*next);
                }
            }
            place += 1;
        }
        assert!(found.contains(&END) && found.len() > 1_000);
    }

    /// The beginning up to the place of 20, completed from each state it can be
    /// in by a shortest way to the end, is a text that the reader takes.
    #[test]
    fn beginnings_are_completed_to_texts() {
        let ways = ways_to_the_end(&AUTOMATON);
        let mut random = Random::new(22);
        let mut inputs: Vec<Vec<u8>> = (0..5_000).map(|_| generate::text(&mut random)).collect();
        inputs.extend(cases::some_towire(400));
        for input in inputs {
            let beginning = &input[..longest_beginning(&input)];
            let mut walk = Walk::new(&AUTOMATON);
            assert!(beginning.iter().all(|octet| walk.step(*octet)));
            for state in &walk.here {
                let mut text = beginning.to_vec();
                let mut state = *state;
                while let Some((octet, next)) = ways[state] {
                    text.push(octet);
                    state = next;
                }
                assert!(reader::read(&text).is_some(), "{}", String::from_utf8_lossy(&text));
            }
        }
    }
}
