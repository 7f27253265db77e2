//! The books and sheets that Truth is timed on, the same in every run. Not every program times all of them.
#![allow(dead_code)]

use crate::support::books::{most_links, random_book, Book};
use crate::support::random::Random;
use crate::support::sheets::{random_entry, random_number, random_steps, Entry, Sheet, Step};

/// A book and a sheet.
pub struct Case {
    pub name: String,
    pub book: Book,
    pub sheet: Sheet,
}

/// What the entries of a sheet are, but for entry 0.
#[derive(Clone, Copy)]
pub enum Kind {
    /// Not, and and or.
    Plain,
    /// Ways of so many steps.
    Ways(usize),
    /// Same and differ by turns, their two ways of so many steps each.
    Compared(usize),
    /// All, with ways of at most so many steps.
    All(usize),
}

impl Kind {
    fn name(self) -> String {
        match self {
            Kind::Plain => "not, and, or".to_string(),
            Kind::Ways(steps) => format!("ways of {}", counted(steps, "step")),
            Kind::Compared(steps) => format!("same and differ, {steps} + {steps} steps"),
            Kind::All(steps) => format!("all kinds, {}", counted(steps, "step")),
        }
    }

    /// An entry for this number, which is not 0.
    fn entry(self, random: &mut Random, number: usize, labels: usize) -> Entry {
        let steps = |random: &mut Random, count| tested_steps(random, number, count, labels);
        match self {
            Kind::Plain => {
                let (i, j) = (random_number(random, number), random_number(random, number));
                match number % 3 {
                    0 => Entry::Not(i),
                    1 => Entry::And(i, j),
                    _ => Entry::Or(i, j),
                }
            }
            Kind::Ways(count) => Entry::Way(steps(random, count)),
            Kind::Compared(count) => {
                let (w, v) = (steps(random, count), steps(random, count));
                match number % 2 {
                    0 => Entry::Same(w, v),
                    _ => Entry::Differ(w, v),
                }
            }
            Kind::All(longest) => random_entry(random, number, 4, longest, labels),
        }
    }
}

/// Steps whose tests are mostly true at all cells, so that ways have many ends.
fn tested_steps(random: &mut Random, number: usize, count: usize, labels: usize) -> Vec<Step> {
    let mut steps = random_steps(random, number, count, labels);
    for step in &mut steps {
        if !random.one_in(8) {
            step.test = 0;
        }
    }
    steps
}

fn counted(count: usize, what: &str) -> String {
    format!("{count} {what}{}", ["s", ""][(count == 1) as usize])
}

/// A random book, and a sheet of so many entries of the kind.
fn case(cells: usize, links: usize, labels: usize, entries: usize, kind: Kind) -> Case {
    let random = &mut Random::new((cells * links + labels) as u64);
    let mut sheet = vec![Entry::True];
    while sheet.len() < entries {
        let number = sheet.len();
        sheet.push(kind.entry(random, number, labels));
    }
    Case {
        name: format!(
            "{}, {}, {}; {}",
            counted(links, "link"),
            counted(labels, "label"),
            if entries == 1 {
                "one entry".to_string()
            } else {
                format!("{entries} entries")
            },
            kind.name()
        ),
        book: random_book(random, cells, links, labels, 1 + cells / 4),
        sheet: Sheet {
            bound: 4,
            entries: sheet,
        },
    }
}

/// The largest books and sheets. By one label every link is a step's; by 8 labels one in 8 is.
pub fn largest() -> Vec<Case> {
    let kinds = [Kind::Compared(4), Kind::Ways(60), Kind::All(60)];
    let cases = |labels| kinds.map(|kind| case(64, 512, labels, 16_385, kind));
    [1, 8].into_iter().flat_map(cases).collect()
}

/// Books and sheets of all sizes: small ones, where a call is little more than the reading of the book, and larger ones.
pub fn of_all_sizes() -> Vec<Case> {
    let kinds = [
        Kind::Plain,
        Kind::Ways(1),
        Kind::Ways(12),
        Kind::Compared(1),
        Kind::Compared(4),
        Kind::All(4),
    ];
    let mut cases = Vec::new();
    for cells in [1, 2, 4, 8, 16, 32, 64] {
        for (most, of) in [(0, 1), (1, 1), (2, 1), (5, 2), (8, 1)] {
            for labels in [1, 3, 16] {
                let links = cells * most / of;
                if links > most_links(cells, labels)
                    || links > 0 && links < labels
                    || links == 0 && labels > 1
                {
                    continue;
                }
                cases.push(case(cells, links, labels, 1, Kind::Plain));
                for entries in [2, 9, 100, 1000] {
                    cases.extend(kinds.map(|kind| case(cells, links, labels, entries, kind)));
                }
            }
        }
    }
    cases
}
