//! Which bound the questions of a sheet keep to, and how deep they are: document 01, section "Questions", sentence by sentence.

use super::sheets::{Entry, Sheet, Step};

/// The numbers that an entry names.
pub fn named(entry: &Entry) -> Vec<u16> {
    match entry {
        Entry::Not(a) => vec![*a],
        Entry::And(a, b) | Entry::Or(a, b) => vec![*a, *b],
        _ => entry.steps().map(|step| step.test).collect(),
    }
}

/// Whether each question of an accepted sheet keeps to bound c: "in every same or differ in it, at any nesting, both ways have
/// length at most c". "Length of a way: its steps outside tests".
pub fn keeping(sheet: &Sheet, c: usize) -> Vec<bool> {
    let mut keeps: Vec<bool> = Vec::new();
    for entry in &sheet.entries {
        let within = match entry {
            Entry::Same(w, v) | Entry::Differ(w, v) => w.len() <= c && v.len() <= c,
            _ => true, // "'There is a way' is not limited"
        };
        let nested = named(entry).iter().all(|&number| keeps[number as usize]);
        keeps.push(within && nested);
    }
    keeps
}

/// The depth of each question of an accepted sheet.
pub fn depths(sheet: &Sheet) -> Vec<usize> {
    let mut depths: Vec<usize> = Vec::new();
    for entry in &sheet.entries {
        let largest = named(entry).iter().map(|&a| depths[a as usize]).max();
        depths.push(match entry {
            // "Always true 0; not, the same; and, or, choice, the larger."
            Entry::True | Entry::Not(_) | Entry::And(..) | Entry::Or(..) => largest.unwrap_or(0),
            // "A same or differ: 1 + the largest depth of its tests (1 if none)."
            Entry::Same(..) | Entry::Differ(..) => 1 + largest.unwrap_or(0),
            Entry::Way(w) => depth_of_way(w, &depths),
        });
    }
    depths
}

/// "'There is a way': stay 0; a step adds 1 to the depth of what follows it; a test at the present cell, the larger of its depth
/// and the rest's."
fn depth_of_way(way: &[Step], depths: &[usize]) -> usize {
    let Some((step, rest)) = way.split_first() else {
        return 0;
    };
    1 + depths[step.test as usize].max(depth_of_way(rest, depths))
}
