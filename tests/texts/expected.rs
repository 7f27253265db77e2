//! The two operations of document 02, request 2026-01, written from its sentences.

use crate::question::{spelled, Question};
use crate::support::checks::check_sheet;
use crate::support::measures::named;
use crate::support::outcome::{of_length, refused, Outcome, CALL};
use crate::support::random::Random;
use crate::support::sheets::{Entry, Sheet, Step};
use std::rc::Rc;

/// "28, a chain of more than 1,024 references leads from the entry; 29, the length exceeds 4,294,967,295".
pub const MOST_REFERENCES: usize = 1_024;
pub const MOST_LENGTH: u128 = 4_294_967_295;

/// What is expected of a sheet.
pub struct Expected {
    pub bytes: Vec<u8>,
    check: Outcome,
    /// None where the sheet is refused.
    pub entries: Vec<Entry>,
    /// Of each entry, how many references the longest chain from it has.
    pub chains: Vec<usize>,
    /// Of each entry, how long the text of its question is; the most that there is where it is longer.
    pub lengths: Vec<u128>,
}

impl Expected {
    pub fn of_bytes(bytes: Vec<u8>) -> Expected {
        let check = check_sheet(&bytes);
        let entries = match check.refusal {
            0 => Sheet::of_bytes(&bytes).entries,
            _ => vec![],
        };
        let mut chains: Vec<usize> = Vec::new();
        let mut lengths: Vec<u128> = Vec::new();
        for entry in &entries {
            let references = named(entry).into_iter().map(|a| 1 + chains[a as usize]);
            chains.push(references.max().unwrap_or(0));
            lengths.push(entry_length(entry, |a| lengths[a as usize]));
        }
        Expected {
            bytes,
            check,
            entries,
            chains,
            lengths,
        }
    }

    /// Of a sheet of these entries, with the largest bound, in a version that has the labels.
    pub fn of_entries(version: u8, entries: Vec<Entry>) -> Expected {
        Expected::of_bytes(Sheet { bound: 4, entries }.bytes(version))
    }

    /// The same, in any version that has the labels.
    pub fn of_any(random: &mut Random, entries: Vec<Entry>) -> Expected {
        Expected::of_bytes(Sheet { bound: 4, entries }.any_bytes(random))
    }

    /// "A second operation gives the exact length without writing." "Both come after the sheet's refusals and 25."
    pub fn length(&self, entry: usize) -> Outcome {
        if self.check.refusal != 0 {
            return self.check;
        }
        if entry >= self.entries.len() {
            return refused(CALL, 25);
        }
        if self.chains[entry] > MOST_REFERENCES {
            return refused(CALL, 28);
        }
        if self.lengths[entry] > MOST_LENGTH {
            return refused(CALL, 29);
        }
        of_length(self.lengths[entry] as u32)
    }

    /// "For writing only, 30, less room than the length."
    pub fn text(&self, entry: usize, room: usize) -> Outcome {
        let answer = self.length(entry);
        if answer.refusal == 0 && room < answer.length() {
            return refused(CALL, 30);
        }
        answer
    }

    /// The question of an entry that is not refused.
    pub fn question(&self, entry: usize) -> Rc<Question> {
        spelled(&self.entries, entry)
    }
}

/// The length of an entry's text, `named` giving that of an earlier entry's.
pub fn entry_length(entry: &Entry, named: impl Fn(u16) -> u128) -> u128 {
    let way = |steps: &[Step]| match steps {
        [] => 1,
        _ => sum(steps.iter().map(|step| {
            let label = step.label.to_string();
            sum([3, label.len() as u128, named(step.test)])
        })),
    };
    match entry {
        Entry::True => 3,
        Entry::Not(a) => sum([3, named(*a)]),
        Entry::And(a, b) | Entry::Or(a, b) => sum([3, named(*a), named(*b)]),
        Entry::Way(w) => sum([2, way(w)]),
        Entry::Same(w, v) => sum([3, way(w), way(v)]),
        Entry::Differ(w, v) => sum([4, way(w), way(v)]),
    }
}

/// The sum, or the most that there is.
fn sum(lengths: impl IntoIterator<Item = u128>) -> u128 {
    lengths.into_iter().fold(0, u128::saturating_add)
}
