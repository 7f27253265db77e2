//! "Where the map names a same or a differ, no question of that kind within the bound, with fewer steps in all and only always true as
//! tests, is true at the left and false at the right cell" (document 02, request 2026-05). All of them, of either kind and by the
//! labels of the two books, are asked. Pairs that stay keep them all.

use crate::support::books::Book;
use crate::support::call::Call;
use crate::support::meaning::sheet_cells;
use crate::support::measures::named;
use crate::support::sheets::{step, Entry, Sheet, Step};
use crate::support::sides::Sides;
use std::collections::BTreeSet;

#[derive(Default)]
pub struct Shorter {
    /// The comparisons that maps name, and those of them that have only always true as tests.
    comparisons: usize,
    plain: usize,
    /// The questions that were asked of two books.
    asked: usize,
    /// How often one was true at the left cell of a pair that stays, and at the right one.
    kept: usize,
}

impl Shorter {
    /// Asks all questions with fewer steps than a comparison in the map.
    pub fn check(
        &mut self,
        call: &Call,
        sides: Sides,
        left: &Book,
        right: &Book,
        map: &[u16],
        sheet: &Sheet,
    ) {
        let m = right.cells();
        let entry = |place: usize| &sheet.entries[map[place] as usize];
        let steps = |place: usize| match entry(place) {
            Entry::Same(w, v) | Entry::Differ(w, v) => w.len() + v.len(),
            _ => 0,
        };
        let most = (0..map.len()).map(steps).max().unwrap_or(0);
        let labels: BTreeSet<u16> = left.labels().chain(right.labels()).collect();
        for total in 0..most {
            let questions = questions(&labels, sheet.bound as usize, total);
            let of_left = sheet_cells(left, &questions);
            let of_right = sheet_cells(right, &questions);
            for place in (0..map.len()).filter(|&place| steps(place) > total) {
                let parts = |&k: &usize| of_left[k][place / m] && !of_right[k][place % m];
                if let Some(k) = (0..questions.entries.len()).find(parts) {
                    call.fail(&format!(
                        "place {place} names {:?}, but {:?} parts the cells",
                        entry(place),
                        questions.entries[k]
                    ));
                }
            }
            for place in (0..map.len()).filter(|&place| map[place] == 0) {
                for (of_left, of_right) in of_left.iter().zip(&of_right) {
                    let (at_left, at_right) = (of_left[place / m], of_right[place % m]);
                    if at_left && !at_right || sides == Sides::Two && at_right && !at_left {
                        call.fail(&format!("place {place} does not keep some question"));
                    }
                    self.kept += at_left as usize;
                }
            }
            self.asked += questions.entries.len() - 1;
        }
        for place in (0..map.len()).filter(|&place| steps(place) > 0) {
            self.comparisons += 1;
            self.plain += named(entry(place)).iter().all(|&test| test == 0) as usize;
        }
    }

    pub fn report(&self) {
        println!(
            "shorter questions than the {} comparisons at the left, of which {} have only always true as tests: {} were asked of two books; pairs that stay keep {}",
            self.comparisons, self.plain, self.asked, self.kept
        );
    }
}

/// Every same and differ within the bound of so many steps in all, after always true, which is the only test.
fn questions(labels: &BTreeSet<u16>, bound: usize, total: usize) -> Sheet {
    let mut entries = vec![Entry::True];
    for first in total.saturating_sub(bound)..=total.min(bound) {
        let seconds = ways(labels, total - first);
        for w in ways(labels, first) {
            for v in &seconds {
                entries.push(Entry::Same(w.clone(), v.clone()));
                entries.push(Entry::Differ(w.clone(), v.clone()));
            }
        }
    }
    Sheet {
        bound: bound as u8,
        entries,
    }
}

/// The ways of so many steps.
fn ways(labels: &BTreeSet<u16>, steps: usize) -> Vec<Vec<Step>> {
    let mut all: Vec<Vec<Step>> = vec![vec![]];
    for _ in 0..steps {
        let longer = |&label: &u16| {
            let last = [step(label, 0)];
            all.iter().map(move |way| [&way[..], &last].concat())
        };
        all = labels.iter().flat_map(longer).collect();
    }
    all
}
