//! Every place from which an entry can refer to an earlier one.

use crate::support::sheets::{step, Entry, Step};

/// Where the number stands. All others in its entry name entry 0.
#[derive(Clone, Copy, Debug)]
pub enum Reference {
    Not,
    FirstOfAnd,
    SecondOfAnd,
    FirstOfOr,
    SecondOfOr,
    /// A way of so many steps, the number at this one.
    Way(usize, usize),
    /// Two ways of so many steps, the number at this one of all.
    Same([usize; 2], usize),
    Differ([usize; 2], usize),
}

/// The places in each kind; in a way of 60 steps and in two ways of 4, first, last and between.
pub fn all() -> Vec<Reference> {
    let mut all = vec![
        Reference::Not,
        Reference::FirstOfAnd,
        Reference::SecondOfAnd,
        Reference::FirstOfOr,
        Reference::SecondOfOr,
        Reference::Way(1, 0),
        Reference::Way(2, 0),
        Reference::Way(2, 1),
    ];
    all.extend([0, 1, 30, 58, 59].map(|place| Reference::Way(60, place)));
    for ways in [[1, 0], [0, 1], [1, 1], [4, 4]] {
        for place in 0..ways[0] + ways[1] {
            all.extend([Reference::Same(ways, place), Reference::Differ(ways, place)]);
        }
    }
    all
}

impl Reference {
    /// The entry, with one label for all steps.
    pub fn entry(self, number: u16, label: u16) -> Entry {
        let steps = |count: usize, place: usize| {
            let mut steps = vec![step(label, 0); count];
            steps[place].test = number;
            steps
        };
        let two = |[first, second]: [usize; 2], place| -> (Vec<Step>, Vec<Step>) {
            let mut w = steps(first + second, place);
            let v = w.split_off(first);
            (w, v)
        };
        match self {
            Reference::Not => Entry::Not(number),
            Reference::FirstOfAnd => Entry::And(number, 0),
            Reference::SecondOfAnd => Entry::And(0, number),
            Reference::FirstOfOr => Entry::Or(number, 0),
            Reference::SecondOfOr => Entry::Or(0, number),
            Reference::Way(count, place) => Entry::Way(steps(count, place)),
            Reference::Same(counts, place) => {
                let (w, v) = two(counts, place);
                Entry::Same(w, v)
            }
            Reference::Differ(counts, place) => {
                let (w, v) = two(counts, place);
                Entry::Differ(w, v)
            }
        }
    }
}
