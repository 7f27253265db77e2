//! Which cells of two books are matched, or covered where the clauses from left to right alone count: document 01, section "Partners",
//! with every way of cells written out. Slow and plain on purpose: for books whose cells have few ways.

use super::books::Book;
use super::recordings::COMPARISONS;
use super::sides::Sides;

/// A way of cells: the labels of its links in order, and the cells of its places, from the first to its end.
#[derive(Clone)]
struct Way {
    labels: Vec<u16>,
    cells: Vec<usize>,
}

/// The ways of 0 to c links from a cell.
fn ways_from(book: &Book, cell: usize, c: usize) -> Vec<Way> {
    let stay = Way {
        labels: vec![],
        cells: vec![cell],
    };
    let mut ways = vec![stay.clone()];
    let mut last = vec![stay];
    for _ in 0..c {
        last = last.iter().flat_map(|way| longer(book, way)).collect();
        ways.extend(last.iter().cloned());
    }
    ways
}

/// The ways of one link more.
fn longer(book: &Book, way: &Way) -> Vec<Way> {
    let end = way.cells[way.cells.len() - 1];
    let out = book.links.iter().filter(|link| link.from as usize == end);
    out.map(|link| Way {
        labels: [&way.labels[..], &[link.label]].concat(),
        cells: [&way.cells[..], &[link.to as usize]].concat(),
    })
    .collect()
}

/// The most ways of 0 to c links that a cell of the book has: what the comparison's time depends on.
pub fn most_ways(book: &Book, c: usize) -> usize {
    // How many ways of so many links each cell has.
    let mut last = vec![1usize; book.cells()];
    let mut all = last.clone();
    for _ in 0..c {
        let mut next = vec![0; book.cells()];
        for link in &book.links {
            next[link.from as usize] += last[link.to as usize];
        }
        for (all, next) in all.iter_mut().zip(&next) {
            *all += next;
        }
        last = next;
    }
    all.into_iter().max().unwrap_or(0)
}

/// A book with the ways from each of its cells.
struct Side<'a> {
    book: &'a Book,
    ways: Vec<Vec<Way>>,
}

impl Side<'_> {
    fn of(book: &Book, c: usize) -> Side<'_> {
        Side {
            book,
            ways: (0..book.cells())
                .map(|cell| ways_from(book, cell, c))
                .collect(),
        }
    }

    fn recording_at_end(&self, way: &Way) -> u32 {
        self.book.recordings[way.cells[way.cells.len() - 1]]
    }
}

/// "The same labels in order, cells related place by place".
fn alike(way: &Way, other: &Way, related: &impl Fn(usize, usize) -> bool) -> bool {
    way.labels == other.labels
        && way
            .cells
            .iter()
            .zip(&other.cells)
            .all(|(&x, &y)| related(x, y))
}

/// "For every two ways of cells from a, each of 0 to c links, with same (or different) recordings at their ends, there are two
/// from b with the same labels in order, cells related place by place, and ends likewise same (or different)". The clause "counts only
/// such ends" as have nonzero recordings, "of the ways given and of their counterparts alike" (document 02, request 2026-04).
fn ways_answered(
    one: &Side,
    other: &Side,
    a: usize,
    b: usize,
    related: &impl Fn(usize, usize) -> bool,
) -> bool {
    let answers: Vec<Vec<u32>> = one.ways[a]
        .iter()
        .map(|way| {
            let alike = other.ways[b].iter().filter(|w| alike(way, w, related));
            alike.map(|w| other.recording_at_end(w)).collect()
        })
        .collect();
    for (first, first_answers) in one.ways[a].iter().zip(&answers) {
        for (second, second_answers) in one.ways[a].iter().zip(&answers) {
            let (x, y) = (one.recording_at_end(first), one.recording_at_end(second));
            for comparison in COMPARISONS.iter().filter(|asked| asked.passes(x, y)) {
                let likewise = |x: &u32| second_answers.iter().any(|&y| comparison.passes(*x, y));
                if !first_answers.iter().any(likewise) {
                    return false;
                }
            }
        }
    }
    true
}

/// "Each link from a has a link from b with its label, its target related".
fn links_answered(
    one: &Side,
    other: &Side,
    a: usize,
    b: usize,
    related: &impl Fn(usize, usize) -> bool,
) -> bool {
    let from = |side: &Side, cell| -> Vec<_> {
        let links = side.book.links.iter();
        links
            .filter(|link| link.from as usize == cell)
            .copied()
            .collect()
    };
    let links = from(other, b);
    from(one, a).iter().all(|link| {
        links
            .iter()
            .any(|l| l.label == link.label && related(link.to as usize, l.to as usize))
    })
}

/// The clauses hold for the pair (i, j) under a relation: from left to right and, where both sides count, "with the sides exchanged".
fn clauses_hold(
    left: &Side,
    right: &Side,
    sides: Sides,
    (i, j): (usize, usize),
    related: &impl Fn(usize, usize) -> bool,
) -> bool {
    let exchanged = |j: usize, i: usize| related(i, j);
    let ahead =
        ways_answered(left, right, i, j, related) && links_answered(left, right, i, j, related);
    let back = || {
        ways_answered(right, left, j, i, &exchanged)
            && links_answered(right, left, j, i, &exchanged)
    };
    ahead && (sides == Sides::One || back())
}

/// The round in which each pair of cells (i, j) is dropped, at place i × m + j, or none: the pairs that stay. All pairs are related
/// at first; a round drops those that break a clause under the relation that it began with, and the first round that drops none
/// leaves one that keeps all clauses. None that does holds a pair that was dropped, so it is the greatest.
pub fn rounds(left: &Book, right: &Book, c: usize, sides: Sides) -> Vec<Option<usize>> {
    let m = right.cells();
    let (left, right) = (Side::of(left, c), Side::of(right, c));
    let mut dropped = vec![None; left.book.cells() * m];
    for round in 1.. {
        let before = dropped.clone();
        let related = |i: usize, j: usize| before[i * m + j].is_none();
        for place in 0..before.len() {
            let (i, j) = (place / m, place % m);
            if related(i, j) && !clauses_hold(&left, &right, sides, (i, j), &related) {
                dropped[place] = Some(round);
            }
        }
        if dropped == before {
            break;
        }
    }
    dropped
}

/// "The greatest is the union of all": whether some relation that keeps all clauses holds each pair. Every relation is tried, so it is
/// for few pairs.
pub fn union_of_all(left: &Book, right: &Book, c: usize, sides: Sides) -> Vec<bool> {
    let m = right.cells();
    let places = left.cells() * m;
    let (left, right) = (Side::of(left, c), Side::of(right, c));
    let mut union = 0;
    for relation in 0..1u32 << places {
        let held = |place: &usize| relation >> place & 1 == 1;
        let related = |i: usize, j: usize| held(&(i * m + j));
        let holds = |place| clauses_hold(&left, &right, sides, (place / m, place % m), &related);
        if (0..places).filter(held).all(holds) {
            union |= relation;
        }
    }
    (0..places).map(|place| union >> place & 1 == 1).collect()
}
