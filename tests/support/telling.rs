//! Random books of many shapes, and random sheets whose questions tell the cells of a book apart: ways go along the book's
//! links, and an entry that is true at every cell or at none is drawn again a few times.

use super::books::{link, most_links, random_book, silenced, Book};
use super::meaning::{entry_cells, Cells};
use super::random::Random;
use super::remade::any_labels;
use super::sheets::{step, Entry, Sheet, Step};
use std::collections::BTreeSet;

/// A book of so many cells (1 to 64), with any labels.
pub fn any_book(random: &mut Random, cells: usize) -> Book {
    let labels = random.pick(&[1, 1, 2, 3, 5, 256]);
    let most = most_links(cells, labels);
    let recordings = random.pick(&[1, 2, 2, 3, cells, u32::MAX as usize]);
    let links = match random.below(5) {
        0 => most,
        1 => random.between(0, most),
        2 => random.between(0, cells.min(most)), // few
        _ => random.between(cells, 4 * cells + 1).min(most), // several from a cell
    };
    let mut book = random_book(random, cells, links, labels, recordings);
    let label = random.below(labels) as u16;
    let mut rising: BTreeSet<_> = book.links.iter().copied().collect();
    match random.below(6) {
        // All cells in a ring.
        0 => rising.extend((0..cells).map(|x| link(x as u8, label, ((x + 1) % cells) as u8))),
        // A chain.
        1 => {
            rising = (1..cells)
                .map(|x| link(x as u8 - 1, label, x as u8))
                .collect()
        }
        // Each cell loops.
        2 => rising.extend((0..cells).map(|x| link(x as u8, label, x as u8))),
        _ => {}
    }
    book.links = rising.into_iter().take(512).collect();
    if random.one_in(4) {
        // Recordings that have bytes in common.
        let values = [1, 257, 1 << 8, 1 << 16, 1 << 24, 1 << 31, u32::MAX];
        for recording in &mut book.recordings {
            *recording = random.pick(&values);
        }
    }
    let book = silenced(random, book);
    let [book] = any_labels(random, [book]);
    book
}

/// Which earlier entries an entry names.
#[derive(Clone, Copy, PartialEq, Eq)]
pub enum Naming {
    Any,
    /// The two before it: questions as deep as the sheet is long.
    Last,
    /// The first ones: shared by all.
    First,
}

/// A sheet for a book: its bound, how many entries, the longest way, which entries are named, whether some are "not", and how often an
/// entry that does not tell cells apart is drawn.
#[derive(Clone, Copy)]
pub struct Plan {
    pub bound: u8,
    pub entries: usize,
    pub longest: usize,
    pub naming: Naming,
    pub denials: bool,
    pub draws: usize,
}

pub fn telling_sheet(random: &mut Random, book: &Book, plan: Plan) -> Sheet {
    let mut known: Vec<Cells> = Vec::new();
    let mut entries = Vec::new();
    while entries.len() < plan.entries {
        let mut left = plan.draws;
        loop {
            let entry = any_entry(random, book, plan, &known);
            let cells = entry_cells(book, &entry, &|number| known[number as usize].clone());
            left -= 1;
            if left == 0 || cells.contains(&true) && cells.contains(&false) {
                entries.push(entry);
                known.push(cells);
                break;
            }
        }
    }
    Sheet {
        bound: plan.bound,
        entries,
    }
}

fn any_entry(random: &mut Random, book: &Book, plan: Plan, known: &[Cells]) -> Entry {
    let number = known.len();
    if number == 0 {
        return Entry::True;
    }
    let longest = plan.longest.min(plan.bound as usize);
    let start = random.below(book.cells());
    let way = |random: &mut Random, most: usize| {
        let count = if random.one_in(3) {
            most
        } else {
            random.between(0, most)
        };
        walked(random, book, plan, known, start, count)
    };
    match random.below(20) {
        0 => Entry::True,
        1..=3 if plan.denials => Entry::Not(earlier(random, plan, number)),
        1..=5 => Entry::And(earlier(random, plan, number), earlier(random, plan, number)),
        6..=7 => Entry::Or(earlier(random, plan, number), earlier(random, plan, number)),
        8..=11 => Entry::Way(way(random, plan.longest)),
        12..=15 => Entry::Same(way(random, longest), way(random, longest)),
        _ => Entry::Differ(way(random, longest), way(random, longest)),
    }
}

/// The number of an entry before entry `number`.
fn earlier(random: &mut Random, plan: Plan, number: usize) -> u16 {
    (match plan.naming {
        Naming::Any => random.below(number),
        Naming::Last => number - random.between(1, number.min(2)),
        Naming::First => random.below(number.min(6)),
    }) as u16
}

/// The steps of a way along links from the start, its tests true at the cells reached where such are found; now and then one
/// step is any.
fn walked(
    random: &mut Random,
    book: &Book,
    plan: Plan,
    known: &[Cells],
    start: usize,
    count: usize,
) -> Vec<Step> {
    let mut steps = Vec::new();
    let mut cell = start;
    for _ in 0..count {
        let out: Vec<_> = book
            .links
            .iter()
            .filter(|link| link.from as usize == cell)
            .collect();
        if out.is_empty() || random.one_in(40) {
            let label = random.pick(&[0, 1, 2, 255]);
            steps.push(step(label, earlier(random, plan, known.len())));
            continue;
        }
        let link = random.pick(&out);
        cell = link.to as usize;
        let mut test = earlier(random, plan, known.len());
        for _ in 0..4 {
            if !known[test as usize][cell] {
                test = earlier(random, plan, known.len());
            }
        }
        steps.push(step(link.label, test));
    }
    steps
}
