//! The fixed lists of cases: systematic inputs for the two line programs.
//! Neither list depends on anything but the code here.

mod build;
mod totext;
mod totext_places;
mod towire;
mod towire_places;

use std::collections::HashSet;

pub use towire_places::texts_with_every_member;

/// The kind of the cases about RCODE 16, in both lists.
const RCODE_16: &str = "RCODE 16";

/// The kind of the messages about the Z bit.
const Z_BIT: &str = "the Z bit";

/// The lines of one kind of case.
pub struct Group {
    pub kind: &'static str,
    pub lines: Vec<Vec<u8>>,
}

/// The cases for `totext`, kind by kind, no line twice but the empty one.
pub fn totext_groups() -> Vec<Group> {
    without_repeats(totext::groups())
}

/// The cases for `towire`, kind by kind, no line twice but the empty one.
pub fn towire_groups() -> Vec<Group> {
    without_repeats(towire::groups())
}

/// All lines of the cases for `totext`. The last one is to have no newline.
pub fn totext() -> Vec<Vec<u8>> {
    all_lines(totext_groups())
}

/// All lines of the cases for `towire`. The last one is to have no newline.
pub fn towire() -> Vec<Vec<u8>> {
    all_lines(towire_groups())
}

/// The cases for `towire` with at most so many lines of each kind.
pub fn some_towire(most: usize) -> Vec<Vec<u8>> {
    towire_groups().into_iter().flat_map(|group| spread(group.lines, most)).collect()
}

/// At most so many of the lines, at even distances, the last one among them.
fn spread(lines: Vec<Vec<u8>>, most: usize) -> Vec<Vec<u8>> {
    let count = lines.len();
    if count <= most {
        return lines;
    }
    (1..=most).map(|part| lines[part * count / most - 1].clone()).collect()
}

fn all_lines(groups: Vec<Group>) -> Vec<Vec<u8>> {
    groups.into_iter().flat_map(|group| group.lines).collect()
}

fn without_repeats(mut groups: Vec<Group>) -> Vec<Group> {
    let mut seen = HashSet::new();
    for group in &mut groups {
        group.lines.retain(|line| line.is_empty() || seen.insert(line.clone()));
    }
    groups
}
