//! `compare check SEED COUNT`: compares the proved library with the independent converter.
//! `compare bench SEED`: measures both.

mod bench;
mod checks;
mod cuts;
mod proved;
mod worlds;

fn check(seed: u64, count: usize) -> Result<(), String> {
    println!("random messages: {} agree", checks::random_messages(seed, count)?);
    println!("exact rooms: {} agree", checks::exact_rooms(seed, count / 20)?);
    println!("look-alike names: {} texts, all different", checks::look_alikes(3)?);
    println!("tails of small messages: {} cuts agree", worlds::every_tail()?);
    println!("pointer targets in short messages: {} agree", worlds::every_target()?);
    println!("labels of one or two octets: {} agree", worlds::every_label()?);
    println!("RDATA of listed types: {} agree", worlds::every_rdata()?);
    println!("messages of the cases cut at every length: {} agree", cuts::messages()?);
    println!("RCODEs: {} agree", worlds::every_rcode()?);
    println!("names of RCODEs and their neighbours: {} agree", worlds::every_rcode_name()?);
    println!("flags of the header: {} agree", worlds::every_flags()?);
    println!("words in the place of Z: {} agree", worlds::every_z()?);
    println!("words in the place of a name or TTL: {} agree", worlds::every_name_and_ttl()?);
    println!("octets in texts with every member: {} agree", worlds::every_octet()?);
    println!("stored texts cut at every length: {} agree", cuts::texts()?);
    println!("random texts: {} agree", checks::random_texts(seed, count)?);
    println!("texts of large messages: {} agree", checks::large_texts(seed, count / 200)?);
    println!("texts padded to the limits: {} agree", checks::padded_texts(seed, count / 20)?);
    println!("exact rooms of messages: {} agree", checks::exact_message_rooms(seed, count / 20)?);
    println!("there and back: {} messages", checks::there_and_back(seed, count / 4)?);
    Ok(())
}

fn main() {
    let words: Vec<String> = std::env::args().skip(1).collect();
    let number = |place: usize| words.get(place).and_then(|word| word.parse::<u64>().ok());
    let result = match (words.first().map(String::as_str), number(1), number(2)) {
        (Some("check"), Some(seed), Some(count)) => check(seed, count as usize),
        (Some("bench"), Some(seed), None) => {
            bench::run(seed);
            Ok(())
        }
        _ => Err("compare check SEED COUNT, or compare bench SEED".to_string()),
    };
    if let Err(message) = result {
        eprintln!("{message}");
        std::process::exit(1);
    }
}
