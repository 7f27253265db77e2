//! Sheets that are accepted.

use crate::expected::Expected;
use crate::support::random::Random;
use crate::support::sheets::{random_sheet, step, Entry};
use crate::support::versions::{all_labels, VERSIONS};
use crate::tally::Tally;

const MOST_ENTRIES: usize = 16_385;
const MOST_STEPS: usize = 60;

pub fn all(tally: &mut Tally) {
    let random = &mut Random::new(8);
    by_hand(tally);
    each_label(tally);
    each_count(tally, random);
    small(tally, random);
    long_ways(tally, random);
    shared(tally, random);
    most_entries(tally, random);
}

/// Texts found by hand, which are the same in both versions.
fn by_hand(tally: &mut Tally) {
    let (entries, texts): (Vec<Entry>, Vec<&str>) = forms().into_iter().unzip();
    for version in VERSIONS {
        let expected = Expected::of_entries(version, entries.clone());
        for (number, text) in texts.iter().enumerate() {
            assert_eq!(tally.entry(&expected, number).as_deref(), Some(*text));
        }
    }
    // Labels of two bytes.
    let entries = vec![
        Entry::True,
        Entry::Way(vec![step(256, 0), step(65_535, 0)]),
        Entry::Differ(vec![step(999, 1)], vec![step(1_000, 0), step(10_000, 0)]),
    ];
    let expected = Expected::of_entries(2, entries);
    let way = "</256[<.>]/65535[<.>]>";
    let differ = format!("</999[{way}]!=/1000[<.>]/10000[<.>]>");
    assert_eq!(tally.entry(&expected, 1).as_deref(), Some(way));
    assert_eq!(tally.entry(&expected, 2), Some(differ));
}

/// Each form of the request, alone and in others, with its text.
fn forms() -> Vec<(Entry, &'static str)> {
    let one = |label, test| vec![step(label, test)];
    vec![
        (Entry::True, "<.>"),
        (Entry::Differ(vec![], one(1, 0)), "<.!=/1[<.>]>"), // document 01, P1
        (Entry::Not(1), "!(<.!=/1[<.>]>)"),
        (Entry::And(0, 2), "(<.>&!(<.!=/1[<.>]>))"),
        (Entry::Or(2, 0), "(!(<.!=/1[<.>]>)|<.>)"),
        (Entry::Way(vec![]), "<.>"),
        (Entry::Way(one(0, 5)), "</0[<.>]>"),
        (Entry::Way(one(255, 6)), "</255[</0[<.>]>]>"),
        (Entry::Same(vec![], vec![]), "<.=.>"),
        (Entry::Differ(vec![], vec![]), "<.!=.>"),
        (Entry::Same(one(9, 0), vec![]), "</9[<.>]=.>"),
        (Entry::Differ(one(10, 8), vec![]), "</10[<.=.>]!=.>"),
        (Entry::Same(one(99, 0), one(100, 0)), "</99[<.>]=/100[<.>]>"),
        (
            Entry::Way(vec![step(1, 0), step(20, 9), step(255, 8)]),
            "</1[<.>]/20[<.!=.>]/255[<.=.>]>",
        ),
        (
            Entry::Differ(vec![step(7, 0), step(7, 8)], vec![step(8, 8), step(8, 0)]),
            "</7[<.>]/7[<.=.>]!=/8[<.=.>]/8[<.>]>",
        ),
        (Entry::Or(8, 9), "(<.=.>|<.!=.>)"),
        (Entry::And(15, 15), "((<.=.>|<.!=.>)&(<.=.>|<.!=.>))"),
        (Entry::Not(16), "!(((<.=.>|<.!=.>)&(<.=.>|<.!=.>)))"),
        (Entry::True, "<.>"),
        (Entry::Not(18), "!(<.>)"),
    ]
}

/// Every label, in a way and in both ways of a same.
fn each_label(tally: &mut Tally) {
    for version in VERSIONS {
        let last = (all_labels(version) - 1) as u16;
        for label in 0..=last {
            let (w, v) = (vec![step(label, 0)], vec![step(last - label, 1)]);
            let entries = vec![Entry::True, Entry::Way(w.clone()), Entry::Same(w, v)];
            let expected = Expected::of_entries(version, entries);
            let text = format!("</{label}[<.>]>");
            assert_eq!(tally.exactly(&expected, 1), text);
            let text = format!("</{label}[<.>]=/{}[{text}]>", last - label);
            assert_eq!(tally.exactly(&expected, 2), text);
        }
    }
}

/// How many labels there are: of one digit, up to two, or up to five.
fn any_labels(random: &mut Random) -> usize {
    random.pick(&[1, 3, 10, 12, 100, 102, 256, 1_000, 1_002, 10_002, 65_536])
}

/// Ways of every number of steps, and two ways of every two numbers of steps.
fn each_count(tally: &mut Tally, random: &mut Random) {
    let steps = |random: &mut Random, count: usize| {
        let labels = any_labels(random);
        let mut any = || step(random.below(labels) as u16, random.below(3) as u16);
        (0..count).map(|_| any()).collect::<Vec<_>>()
    };
    let mut entries = vec![Entry::True, Entry::Not(0), Entry::Or(0, 1)];
    for count in 0..=MOST_STEPS {
        entries.push(Entry::Way(steps(random, count)));
    }
    for (j, k) in (0..25).map(|counts| (counts / 5, counts % 5)) {
        entries.push(Entry::Same(steps(random, j), steps(random, k)));
        entries.push(Entry::Differ(steps(random, j), steps(random, k)));
    }
    let expected = Expected::of_any(random, entries);
    for entry in 0..expected.entries.len() {
        tally.entry(&expected, entry);
    }
}

/// Each entry of a random sheet.
fn ask(tally: &mut Tally, random: &mut Random, entries: usize, longest: usize) {
    let (bound, labels) = (random.between(0, 4) as u8, any_labels(random));
    let sheet = random_sheet(random, bound, entries, longest, labels);
    let expected = Expected::of_bytes(sheet.any_bytes(random));
    for entry in 0..entries {
        tally.entry(&expected, entry);
    }
}

/// Thousands of small sheets.
fn small(tally: &mut Tally, random: &mut Random) {
    for _ in 0..3_000 {
        let entries = random.between(1, 14);
        let longest = random.pick(&[0, 1, 2, 4, 6]);
        ask(tally, random, entries, longest);
    }
}

/// Few entries, with the longest ways.
fn long_ways(tally: &mut Tally, random: &mut Random) {
    for _ in 0..300 {
        let entries = random.between(2, 6);
        ask(tally, random, entries, MOST_STEPS);
    }
}

/// Many entries: questions that are nested deeply, and shared so often that many texts are too long.
fn shared(tally: &mut Tally, random: &mut Random) {
    for longest in [0, 0, 1, 1, 2, 4] {
        let entries = random.between(100, 300);
        ask(tally, random, entries, longest);
    }
}

/// The most entries, each as long as it can be but for the first: the first and the last ones.
fn most_entries(tally: &mut Tally, random: &mut Random) {
    let named: [(u8, fn(&mut Random, usize) -> usize); 3] = [
        (1, |_, _| 0),
        (2, |_, number| number - 1),
        (2, |random, number| random.below(number.min(3))),
    ];
    for (version, named) in named {
        let labels = all_labels(version);
        let mut entries = vec![Entry::True];
        for number in 1..MOST_ENTRIES {
            let mut any = || step(random.below(labels) as u16, named(random, number) as u16);
            entries.push(Entry::Way((0..MOST_STEPS).map(|_| any()).collect()));
        }
        let expected = Expected::of_entries(version, entries);
        for entry in [0, 1, 2, 3, 1_025, 16_383, 16_384, 16_385] {
            tally.entry(&expected, entry);
        }
    }
}
