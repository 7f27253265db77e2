//! Chains of 1,024 references, which are the longest that are written, and longer ones.

use crate::expected::{Expected, MOST_REFERENCES};
use crate::references::{self, Reference};
use crate::support::random::Random;
use crate::support::sheets::{step, Entry};
use crate::support::versions::{all_labels, VERSIONS};
use crate::tally::Tally;

const MOST_ENTRIES: usize = 16_385;

pub fn all(tally: &mut Tally) {
    let random = &mut Random::new(10);
    each_reference(tally, random);
    mixed(tally, random);
    longest(tally);
    doubled(tally);
}

/// The entry that is asked for has a chain of so many references.
fn ask(tally: &mut Tally, expected: &Expected, entry: usize, references: usize) {
    assert_eq!(expected.chains[entry], references);
    tally.entry(expected, entry);
}

/// Always true, and so many entries that refer each to the one before, in a version that has the labels.
pub fn chain(version: u8, references: usize, entry: impl FnMut(u16) -> Entry) -> Expected {
    let mut entries = vec![Entry::True];
    entries.extend((0..references as u16).map(entry));
    Expected::of_entries(version, entries)
}

/// A chain by each kind of reference alone.
fn each_reference(tally: &mut Tally, random: &mut Random) {
    for reference in references::all() {
        let (version, label) =
            random.pick(&[(1, 7), (1, 77), (1, 177), (2, 7), (2, 1_777), (2, 17_777)]);
        let expected = chain(version, MOST_REFERENCES + 2, |number| {
            reference.entry(number, label)
        });
        for references in [0, 1, 2, 3, 1_022, 1_023, 1_024, 1_025, 1_026] {
            ask(tally, &expected, references, references);
        }
    }
}

/// Chains of all kinds of references in any order, which end at any entry without references, with other entries between.
fn mixed(tally: &mut Tally, random: &mut Random) {
    let kinds = references::all();
    let ends = [
        Entry::True,
        Entry::Way(vec![]),
        Entry::Same(vec![], vec![]),
        Entry::Differ(vec![], vec![]),
    ];
    for round in 0..20 {
        let labels = random.pick(&VERSIONS.map(all_labels));
        let mut entries = vec![Entry::True, ends[round % 4].clone()];
        let mut numbers = vec![1];
        while numbers.len() <= MOST_REFERENCES + 2 {
            let between = random.pick(&[0, 0, 1, 3]);
            entries.resize(entries.len() + between, Entry::Not(0));
            let last = numbers[numbers.len() - 1] as u16;
            numbers.push(entries.len());
            let label = random.below(labels) as u16;
            entries.push(random.pick(&kinds).entry(last, label));
        }
        let expected = Expected::of_any(random, entries);
        for references in [0, 1, 2, 1_023, 1_024, 1_025, 1_026] {
            ask(tally, &expected, numbers[references], references);
        }
    }
}

/// The longest chain that a sheet can hold.
fn longest(tally: &mut Tally) {
    let expected = chain(1, MOST_ENTRIES - 1, |number| {
        Reference::Not.entry(number, 0)
    });
    for references in [1_024, 1_025, 1_026, 2_048, 2_049, 16_383, 16_384] {
        ask(tally, &expected, references, references);
    }
}

/// Each entry names the one before at all places: soon the text is too long (29), and later the chain as well (28).
fn doubled(tally: &mut Tally) {
    let kinds: [fn(u16) -> Entry; 5] = [
        |number| Entry::And(number, number),
        |number| Entry::Or(number, number),
        |number| Entry::Way(vec![step(1, number); 60]),
        |number| Entry::Same(vec![step(1, number); 4], vec![step(1, number); 4]),
        |number| Entry::Differ(vec![step(1, number)], vec![step(1, number)]),
    ];
    for (turn, kind) in kinds.into_iter().enumerate() {
        let expected = chain(VERSIONS[turn % 2], MOST_REFERENCES + 2, kind);
        for references in (0..40).chain(60..70).chain(1_020..=1_026) {
            ask(tally, &expected, references, references);
        }
        let refusal = |entry| expected.length(entry).refusal;
        assert_eq!([40, 1_024, 1_025].map(refusal), [29, 29, 28]);
    }
}
