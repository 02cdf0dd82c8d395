//! The command line: two line filters, two makers of random input, and two
//! fixed lists of cases.

use std::env;
use std::io::{self, BufWriter, Write};
use std::process::ExitCode;

use second::random::Random;
use second::{cases, generate, lines};

const USAGE: &str = "usage: second totext | towire | messages SEED COUNT | texts SEED COUNT \
                     | cases-totext | cases-towire [MOST] | case-kinds";

fn main() -> ExitCode {
    let arguments: Vec<String> = env::args().skip(1).collect();
    let words: Vec<&str> = arguments.iter().map(String::as_str).collect();
    match run(&words) {
        Some(Ok(())) => ExitCode::SUCCESS,
        Some(Err(error)) => {
            eprintln!("second: {error}");
            ExitCode::FAILURE
        }
        None => {
            eprintln!("{USAGE}");
            ExitCode::from(2)
        }
    }
}

/// Runs a command; nothing if there is no such command.
fn run(words: &[&str]) -> Option<io::Result<()>> {
    let input = io::stdin().lock();
    let output = BufWriter::new(io::stdout().lock());
    match words {
        ["totext"] => Some(lines::totext(input, output)),
        ["towire"] => Some(lines::towire(input, output)),
        ["messages", seed, count] => {
            let (mut random, count) = seed_and_count(seed, count)?;
            let next = || lines::hex_of_octets(&generate::message(&mut random));
            Some(print_made(output, count, next))
        }
        ["texts", seed, count] => {
            let (mut random, count) = seed_and_count(seed, count)?;
            Some(print_made(output, count, || generate::text(&mut random)))
        }
        ["cases-totext"] => Some(print_cases(output, &cases::totext())),
        ["cases-towire"] => Some(print_cases(output, &cases::towire())),
        ["cases-towire", most] => {
            Some(print_cases(output, &cases::some_towire(most.parse().ok()?)))
        }
        ["case-kinds"] => Some(print_kinds(output)),
        _ => None,
    }
}

fn seed_and_count(seed: &str, count: &str) -> Option<(Random, u64)> {
    Some((Random::new(seed.parse().ok()?), count.parse().ok()?))
}

fn print_made(
    mut output: impl Write,
    count: u64,
    mut next: impl FnMut() -> Vec<u8>,
) -> io::Result<()> {
    for _ in 0..count {
        output.write_all(&next())?;
        output.write_all(b"\n")?;
    }
    output.flush()
}

/// Prints the lines with a newline between them and none at the end, so that
/// the last one is a case of a line without newline.
fn print_cases(mut output: impl Write, lines: &[Vec<u8>]) -> io::Result<()> {
    output.write_all(&lines.join(&b'\n'))?;
    output.flush()
}

/// Prints how many cases there are of each kind.
fn print_kinds(mut output: impl Write) -> io::Result<()> {
    for (program, groups) in
        [("totext", cases::totext_groups()), ("towire", cases::towire_groups())]
    {
        for group in groups {
            writeln!(output, "{program} {:6} {}", group.lines.len(), group.kind)?;
        }
    }
    output.flush()
}
