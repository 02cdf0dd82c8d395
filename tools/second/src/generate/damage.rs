//! Small harms done to a row of octets.

use crate::random::Random;

/// Does one harm that makes sense for messages and texts alike. New octets
/// come from `fresh`.
pub fn harm(octets: &mut Vec<u8>, random: &mut Random, fresh: impl Fn(&mut Random) -> u8) {
    let at = random.below(octets.len() + 1);
    match random.below(7) {
        0 => octets.truncate(at),
        1 => remove(octets, at, random.between(1, 4)),
        2 => octets.insert(at, fresh(random)),
        3 => repeat_part(octets, at, random.between(1, 30)),
        4 => {
            let other = random.below(octets.len() + 1);
            swap(octets, at, other);
        }
        _ if at < octets.len() => octets[at] = fresh(random),
        _ => octets.push(fresh(random)),
    }
}

fn remove(octets: &mut Vec<u8>, at: usize, count: usize) {
    let end = octets.len().min(at + count);
    octets.drain(at..end);
}

fn repeat_part(octets: &mut Vec<u8>, at: usize, count: usize) {
    let end = octets.len().min(at + count);
    let part = octets[at..end].to_vec();
    octets.splice(at..at, part);
}

fn swap(octets: &mut [u8], one: usize, other: usize) {
    if one < octets.len() && other < octets.len() {
        octets.swap(one, other);
    }
}
