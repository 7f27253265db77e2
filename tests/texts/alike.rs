//! Two questions have one text only if they are one question.

use crate::expected::Expected;
use crate::reading::read;
use crate::support::random::Random;
use crate::support::sheets::{random_sheet, step, Entry, Step};
use crate::support::versions::VERSIONS;
use crate::tally::Tally;
use std::collections::{HashMap, HashSet};

pub fn all(tally: &mut Tally) {
    let random = &mut Random::new(9);
    every_small(tally);
    random_sheets(tally, random);
    damaged_texts(tally, random);
}

/// All questions of one kind over always true, and of one kind over these: no two have one text.
fn every_small(tally: &mut Tally) {
    let first = [vec![Entry::True], over(1)].concat();
    let mut texts = HashSet::from(["<.>".to_string()]);
    // Each is an entry of its own over the first ones, so no two are one question.
    for (turn, some) in over(first.len() as u16).chunks(100).enumerate() {
        let expected = Expected::of_entries(VERSIONS[turn % 2], [&first, some].concat());
        for entry in first.len()..expected.entries.len() {
            let text = tally.exactly(&expected, entry);
            assert!(texts.insert(text), "entry {entry}");
        }
    }
}

/// The entries of every kind, but always true, that name those below `count`: with two labels, and with two steps at most.
fn over(count: u16) -> Vec<Entry> {
    let mut ways: Vec<Vec<Step>> = vec![vec![]];
    for test in 0..count {
        ways.extend([1, 11].map(|label| vec![step(label, test)]));
    }
    let (none, one) = ways.split_at(1);
    let mut all = Vec::new();
    for a in 0..count {
        all.push(Entry::Not(a));
        all.extend((0..count).flat_map(|b| [Entry::And(a, b), Entry::Or(a, b)]));
    }
    all.extend(one.iter().map(|way| Entry::Way(way.clone())));
    for first in one {
        all.extend(
            one.iter()
                .map(|last| Entry::Way([&first[..], last].concat())),
        );
    }
    for w in none.iter().chain(one) {
        for v in none.iter().chain(one) {
            all.push(Entry::Same(w.clone(), v.clone()));
            all.push(Entry::Differ(w.clone(), v.clone()));
        }
    }
    all
}

/// Random sheets of which many entries spell the same: two have one text exactly if they do.
fn random_sheets(tally: &mut Tally, random: &mut Random) {
    let mut alike = 0;
    for _ in 0..200 {
        let (bound, entries) = (random.between(0, 2) as u8, random.between(10, 40));
        let longest = random.between(0, 2);
        let sheet = random_sheet(random, bound, entries, longest, 2);
        let expected = Expected::of_bytes(sheet.any_bytes(random));
        let mut first_with = HashMap::new();
        for (number, first) in first_alike(&sheet.entries).into_iter().enumerate() {
            if let Some(text) = tally.entry(&expected, number) {
                assert_eq!(*first_with.entry(text).or_insert(number), first);
                alike += (first != number) as usize;
            }
        }
    }
    assert!(alike > 500);
}

/// Of each entry the first that spells the same question: one of the same kind over the same questions. Always true has two kinds.
fn first_alike(entries: &[Entry]) -> Vec<usize> {
    let mut firsts: Vec<usize> = Vec::new();
    let mut seen = HashMap::new();
    for entry in entries {
        let number = firsts.len();
        let entry = match entry {
            Entry::True => Entry::Way(vec![]),
            _ => entry.renamed(|a| firsts[a as usize] as u16),
        };
        firsts.push(*seen.entry(entry.body(2)).or_insert(number));
    }
    firsts
}

/// Texts with a byte changed, taken out or put in: what can still be read is written just so.
fn damaged_texts(tally: &mut Tally, random: &mut Random) {
    let mut read_still = 0;
    for _ in 0..300 {
        let labels = random.pick(&[30, 300, 65_536]);
        let sheet = random_sheet(random, 2, 6, 2, labels);
        let expected = Expected::of_bytes(sheet.any_bytes(random));
        let text = tally.exactly(&expected, 5).into_bytes();
        for _ in 0..40 {
            let mut damaged = text.clone();
            let (place, byte) = (random.below(text.len()), random.pick(b"019!&()./<=>[]| "));
            match random.below(3) {
                0 => damaged[place] = byte,
                1 => drop(damaged.remove(place)),
                _ => damaged.insert(place, byte),
            }
            if let Some(question) = read(&damaged) {
                assert_eq!(question.to_string().into_bytes(), damaged);
                read_still += (damaged != text) as usize;
            }
        }
    }
    assert!(read_still > 200);
}
