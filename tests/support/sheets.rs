//! Sheets as data, and their bytes.

use super::random::Random;
use super::set_length;
use super::versions::{any_version, label_bytes, label_of, label_width, step_width};

/// A step along a label, with the number of a test at the cell reached.
#[derive(Clone, Copy, PartialEq, Eq, Debug)]
pub struct Step {
    pub label: u16,
    pub test: u16,
}

/// The kinds 0 to 6. A number names an earlier entry.
#[derive(Clone, PartialEq, Eq, Debug)]
pub enum Entry {
    True,
    Not(u16),
    And(u16, u16),
    Or(u16, u16),
    Way(Vec<Step>),
    Same(Vec<Step>, Vec<Step>),
    Differ(Vec<Step>, Vec<Step>),
}

#[derive(Clone, PartialEq, Eq, Debug)]
pub struct Sheet {
    pub bound: u8,
    pub entries: Vec<Entry>,
}

pub fn step(label: u16, test: u16) -> Step {
    Step { label, test }
}

impl Entry {
    /// The kind byte and what follows it, in a version that has the labels.
    pub fn body(&self, version: u8) -> Vec<u8> {
        let mut body = Vec::new();
        match self {
            Entry::True => body.push(0),
            Entry::Not(a) => {
                body.push(1);
                body.extend(a.to_be_bytes());
            }
            Entry::And(a, b) | Entry::Or(a, b) => {
                body.push(if matches!(self, Entry::And(..)) { 2 } else { 3 });
                body.extend(a.to_be_bytes());
                body.extend(b.to_be_bytes());
            }
            Entry::Way(steps) => {
                body.extend([4, steps.len() as u8]);
                push_steps(&mut body, version, steps);
            }
            Entry::Same(w, v) | Entry::Differ(w, v) => {
                body.push(if matches!(self, Entry::Same(..)) {
                    5
                } else {
                    6
                });
                body.extend([w.len() as u8, v.len() as u8]);
                push_steps(&mut body, version, w);
                push_steps(&mut body, version, v);
            }
        }
        body
    }

    /// The entry of this kind byte and what follows it, which a check accepts in this version.
    pub fn of_body(version: u8, body: &[u8]) -> Entry {
        let number = |place: usize| u16::from_be_bytes([body[place], body[place + 1]]);
        let steps = |place: usize, count: u8| -> Vec<Step> {
            body[place..][..step_width(version) * count as usize]
                .chunks(step_width(version))
                .map(|field| field.split_at(label_width(version)))
                .map(|(label, test)| step(label_of(label), label_of(test)))
                .collect()
        };
        match body[0] {
            0 => Entry::True,
            1 => Entry::Not(number(1)),
            2 => Entry::And(number(1), number(3)),
            3 => Entry::Or(number(1), number(3)),
            4 => Entry::Way(steps(2, body[1])),
            kind => {
                let w = steps(3, body[1]);
                let v = steps(3 + step_width(version) * w.len(), body[2]);
                match kind {
                    5 => Entry::Same(w, v),
                    _ => Entry::Differ(w, v),
                }
            }
        }
    }

    /// The entry with its count byte, in a version that has the labels.
    pub fn bytes(&self, version: u8) -> Vec<u8> {
        counted(&self.body(version))
    }

    /// The entry with other numbers.
    pub fn renamed(&self, number: impl Fn(u16) -> u16) -> Entry {
        self.remade(number, |label| label)
    }

    /// The entry with other labels.
    pub fn relabelled(&self, label: impl FnMut(u16) -> u16) -> Entry {
        self.remade(|number| number, label)
    }

    fn remade(&self, number: impl Fn(u16) -> u16, mut label: impl FnMut(u16) -> u16) -> Entry {
        let mut way = |steps: &[Step]| {
            let remade = |s: &Step| step(label(s.label), number(s.test));
            steps.iter().map(remade).collect()
        };
        match self {
            Entry::True => Entry::True,
            Entry::Not(a) => Entry::Not(number(*a)),
            Entry::And(a, b) => Entry::And(number(*a), number(*b)),
            Entry::Or(a, b) => Entry::Or(number(*a), number(*b)),
            Entry::Way(w) => Entry::Way(way(w)),
            Entry::Same(w, v) => Entry::Same(way(w), way(v)),
            Entry::Differ(w, v) => Entry::Differ(way(w), way(v)),
        }
    }

    /// The steps of its ways.
    pub fn steps(&self) -> impl Iterator<Item = &Step> {
        let (w, v) = match self {
            Entry::Way(w) => (&w[..], &[][..]),
            Entry::Same(w, v) | Entry::Differ(w, v) => (&w[..], &v[..]),
            _ => Default::default(),
        };
        w.iter().chain(v)
    }
}

fn push_steps(body: &mut Vec<u8>, version: u8, steps: &[Step]) {
    for step in steps {
        body.extend(label_bytes(version, step.label));
        body.extend(step.test.to_be_bytes());
    }
}

/// What an entry holds, after the byte that counts it.
pub fn counted(body: &[u8]) -> Vec<u8> {
    [&[body.len() as u8], body].concat()
}

/// The bytes of a sheet with these header fields, of entries that are bytes already.
pub fn sheet_bytes(version: u8, bound: u8, q: u16, entries: &[Vec<u8>]) -> Vec<u8> {
    let mut bytes = vec![0, 0, 0, 0, version, bound];
    bytes.extend(q.to_be_bytes());
    bytes.extend(entries.iter().flatten());
    set_length(&mut bytes);
    bytes
}

impl Sheet {
    /// The bytes of these entries in a version that has their labels, whether or not a check would accept them.
    pub fn bytes(&self, version: u8) -> Vec<u8> {
        let entries = self.entry_bytes(version);
        sheet_bytes(version, self.bound, self.entries.len() as u16, &entries)
    }

    /// The bytes in any version that has the labels.
    pub fn any_bytes(&self, random: &mut Random) -> Vec<u8> {
        self.bytes(any_version(random, self.labels()))
    }

    /// Some entry is a "not".
    pub fn denies(&self) -> bool {
        let mut entries = self.entries.iter();
        entries.any(|entry| matches!(entry, Entry::Not(_)))
    }

    /// The labels of the steps.
    pub fn labels(&self) -> impl Iterator<Item = u16> + '_ {
        self.entries
            .iter()
            .flat_map(|entry| entry.steps().map(|step| step.label))
    }

    /// The bytes of each entry, in a version that has the labels.
    pub fn entry_bytes(&self, version: u8) -> Vec<Vec<u8>> {
        let entries = self.entries.iter();
        entries.map(|entry| entry.bytes(version)).collect()
    }

    /// The sheet that these bytes hold, which a check accepts.
    pub fn of_bytes(bytes: &[u8]) -> Sheet {
        let body = |start: usize| &bytes[start + 1..][..bytes[start] as usize];
        let read = |&start: &usize| Entry::of_body(bytes[4], body(start));
        Sheet {
            bound: bytes[5],
            entries: entry_starts(bytes).iter().map(read).collect(),
        }
    }
}

/// Where each entry of an accepted sheet starts, by its count byte.
pub fn entry_starts(bytes: &[u8]) -> Vec<usize> {
    let mut starts = Vec::new();
    let mut start = 8;
    while start < bytes.len() {
        starts.push(start);
        start += 1 + bytes[start] as usize;
    }
    starts
}

/// The number of an entry before entry `number`, which is not 0: any, or the one just before.
pub fn random_number(random: &mut Random, number: usize) -> u16 {
    if random.one_in(4) {
        return number as u16 - 1;
    }
    random.below(number) as u16
}

/// Steps with labels below `labels` (1 to 65,536) and tests before entry `number`, which is not 0.
pub fn random_steps(random: &mut Random, number: usize, count: usize, labels: usize) -> Vec<Step> {
    (0..count)
        .map(|_| step(random.below(labels) as u16, random_number(random, number)))
        .collect()
}

/// An entry of any kind that may stand at `number` in a sheet of this bound. Its ways have at most `longest` steps (0 to 60).
pub fn random_entry(
    random: &mut Random,
    number: usize,
    bound: u8,
    longest: usize,
    labels: usize,
) -> Entry {
    if number == 0 {
        return Entry::True;
    }
    let kind = random.below(7);
    let most = if kind == 4 {
        longest
    } else {
        longest.min(bound as usize)
    };
    let (j, k) = (random.between(0, most), random.between(0, most));
    match kind {
        0 => Entry::True,
        1 => Entry::Not(random_number(random, number)),
        2 => Entry::And(random_number(random, number), random_number(random, number)),
        3 => Entry::Or(random_number(random, number), random_number(random, number)),
        4 => Entry::Way(random_steps(random, number, k, labels)),
        5 => Entry::Same(
            random_steps(random, number, j, labels),
            random_steps(random, number, k, labels),
        ),
        _ => Entry::Differ(
            random_steps(random, number, j, labels),
            random_steps(random, number, k, labels),
        ),
    }
}

/// A sheet that is accepted: bound 0 to 4, 1 to 16,385 entries.
pub fn random_sheet(
    random: &mut Random,
    bound: u8,
    entries: usize,
    longest: usize,
    labels: usize,
) -> Sheet {
    let entries = (0..entries)
        .map(|number| random_entry(random, number, bound, longest, labels))
        .collect();
    Sheet { bound, entries }
}
