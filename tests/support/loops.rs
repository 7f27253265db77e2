//! By what two cells are parted: the rounds of `partners`, and in each the plain search of all pairs of paths, fewest links first.
//! Sets of cells are words, so it is in reach for larger books than the naive comparison.

use super::books::Book;
use super::recordings::COMPARISONS;
use super::sheets::{Entry, Sheet};
use super::sides::Sides;

/// What parts a pair, but for its labels and cells.
#[derive(Clone, Copy, PartialEq, Eq, Debug)]
pub struct Reason {
    /// It is found from the left cell, and true there; else from the right.
    pub from_left: bool,
    /// It is a link without counterpart; else a comparison.
    pub link: bool,
    /// The links of its one or two paths in all.
    pub steps: usize,
}

impl Reason {
    /// The reason that an entry puts, or denies.
    pub fn of_entry(sheet: &Sheet, number: u16) -> Reason {
        match &sheet.entries[number as usize] {
            Entry::Not(denied) => Reason {
                from_left: false,
                ..Reason::of_entry(sheet, *denied)
            },
            Entry::Way(way) => Reason {
                from_left: true,
                link: true,
                steps: way.len(),
            },
            Entry::Same(w, v) | Entry::Differ(w, v) => Reason {
                from_left: true,
                link: false,
                steps: w.len() + v.len(),
            },
            entry => panic!("{entry:?} is no reason"),
        }
    }
}

/// The round in which a pair is dropped, and by what.
#[derive(Clone, Copy, PartialEq, Eq, Debug)]
pub struct Dropped {
    pub round: usize,
    pub reason: Reason,
}

/// The end of a path, and the ends of the other book's paths that are alike to it.
#[derive(Clone, Copy)]
struct Tip {
    end: usize,
    alike: u64,
}

/// A book, by its cells: the labels and targets of their links, and the cells of the same and of other recordings, of heard ones alone.
struct Side {
    links: Vec<Vec<(u16, usize)>>,
    passing: [Vec<u64>; 2],
}

impl Side {
    fn of(book: &Book) -> Side {
        let mut links = vec![Vec::new(); book.cells()];
        for l in &book.links {
            links[l.from as usize].push((l.label, l.to as usize));
        }
        let passing = COMPARISONS.map(|comparison| {
            let pass = |x: u32| move |&y: &usize| comparison.passes(x, book.recordings[y]);
            let row = |&x: &u32| word((0..book.cells()).filter(pass(x)));
            book.recordings.iter().map(row).collect()
        });
        Side { links, passing }
    }

    /// Where the label leads to from these cells.
    fn image(&self, cells: u64, label: u16) -> u64 {
        let out = members(cells).flat_map(|x| &self.links[x]);
        word(out.filter(|link| link.0 == label).map(|link| link.1))
    }
}

fn word(cells: impl Iterator<Item = usize>) -> u64 {
    cells.fold(0, |word, x| word | 1 << x)
}

fn members(mut word: u64) -> impl Iterator<Item = usize> {
    std::iter::from_fn(move || {
        let x = word.trailing_zeros() as usize;
        word &= word.checked_sub(1)?;
        Some(x)
    })
}

/// The tips of the paths of one link more.
fn longer(one: &Side, other: &Side, related: &[u64], tips: &[Tip]) -> Vec<Tip> {
    let mut next = Vec::new();
    for tip in tips {
        for &(label, end) in &one.links[tip.end] {
            let alike = other.image(tip.alike, label) & related[end];
            next.push(Tip { end, alike });
        }
    }
    next
}

/// Two paths that end at these tips, one each, have no counterpart by some comparison.
fn unmatched(one: &Side, other: &Side, firsts: &[Tip], seconds: &[Tip]) -> bool {
    firsts.iter().any(|first| {
        (0..2).any(|t| {
            let ends = one.passing[t][first.end];
            let answers = members(first.alike).fold(0, |all, y| all | other.passing[t][y]);
            seconds
                .iter()
                .any(|second| ends >> second.end & 1 == 1 && answers & second.alike == 0)
        })
    })
}

/// Whether a link of x parts it from y, and how many links part them in all: one, or the fewest of two paths of at most c each.
fn parted(
    one: &Side,
    other: &Side,
    related: &[u64],
    x: usize,
    y: usize,
    c: usize,
) -> Option<(bool, usize)> {
    let stay = Tip {
        end: x,
        alike: 1 << y,
    };
    let mut tips = vec![vec![stay]];
    if longer(one, other, related, &tips[0])
        .iter()
        .any(|tip| tip.alike == 0)
    {
        return Some((true, 1));
    }
    for len in 0..c {
        tips.push(longer(one, other, related, &tips[len]));
    }
    for steps in 0..=2 * c {
        for first in steps.saturating_sub(c)..=steps / 2 {
            if unmatched(one, other, &tips[first], &tips[steps - first]) {
                return Some((false, steps));
            }
        }
    }
    None
}

/// When and by what each pair of cells (i, j) is dropped, at place i × m + j, or none: the pairs that stay.
pub fn partings(left: &Book, right: &Book, c: usize, sides: Sides) -> Vec<Option<Dropped>> {
    let (n, m) = (left.cells(), right.cells());
    let (left, right) = (Side::of(left), Side::of(right));
    let mut dropped = vec![None; n * m];
    for round in 1.. {
        let before = dropped.clone();
        let related = |i: usize, j: usize| before[i * m + j].is_none();
        let rows: Vec<u64> = (0..n)
            .map(|i| word((0..m).filter(|&j| related(i, j))))
            .collect();
        let columns: Vec<u64> = (0..m)
            .map(|j| word((0..n).filter(|&i| related(i, j))))
            .collect();
        for place in (0..n * m).filter(|&place| before[place].is_none()) {
            let (i, j) = (place / m, place % m);
            let drop = |from_left| {
                move |(link, steps)| {
                    let reason = Reason {
                        from_left,
                        link,
                        steps,
                    };
                    Dropped { round, reason }
                }
            };
            let back = || parted(&right, &left, &columns, j, i, c);
            dropped[place] = parted(&left, &right, &rows, i, j, c)
                .map(drop(true))
                .or_else(|| sides.from_right(back).map(drop(false)));
        }
        if dropped == before {
            break;
        }
    }
    dropped
}
