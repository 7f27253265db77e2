//! The first reason to part two cells: the plain nested loops of crates/theory/specs/Choosing.antt, over links and over paths that are
//! written out. A counterpart is looked for by walking. Slow and plain on purpose: for books whose cells have few paths.

use super::books::{Book, Link};
use super::recordings::{Comparison, COMPARISONS};

/// A path, by its links in order, from a cell that is said beside it.
pub type Path = Vec<Link>;

/// What one cell has and the other lacks: a link, or two paths whose ends pass a comparison.
pub enum Reason {
    Link(Link),
    Paths(Comparison, Path, Path),
}

/// A book, and the paths from each of its cells, by their number of links.
pub struct Side<'a> {
    book: &'a Book,
    paths: Vec<Vec<Vec<Path>>>,
}

impl Side<'_> {
    /// With the paths of at most c links.
    pub fn of(book: &Book, c: usize) -> Side<'_> {
        let from = |cell| (0..=c).map(|links| paths(book, cell, links)).collect();
        Side {
            book,
            paths: (0..book.cells()).map(from).collect(),
        }
    }

    fn passes(&self, comparison: Comparison, x: usize, y: usize) -> bool {
        comparison.passes(self.book.recordings[x], self.book.recordings[y])
    }
}

/// The links out of a cell, in their order.
fn out(book: &Book, cell: usize) -> impl Iterator<Item = &Link> {
    let links = book.links.iter();
    links.filter(move |link| link.from as usize == cell)
}

/// The paths of so many links from a cell, in the order of the links.
fn paths(book: &Book, cell: usize, links: usize) -> Vec<Path> {
    if links == 0 {
        return vec![vec![]];
    }
    let mut all = Vec::new();
    for link in out(book, cell) {
        for rest in paths(book, link.to as usize, links - 1) {
            all.push([&[*link], &rest[..]].concat());
        }
    }
    all
}

/// Where a path from a cell ends.
fn end(cell: usize, path: &[Link]) -> usize {
    path.last().map_or(cell, |link| link.to as usize)
}

/// Two books as one of them sees them: cells of the one are parted from cells of the other, under a relation between them.
pub struct View<'a, Related: Fn(usize, usize) -> bool> {
    pub one: &'a Side<'a>,
    pub other: &'a Side<'a>,
    pub related: Related,
}

impl<Related: Fn(usize, usize) -> bool> View<'_, Related> {
    /// Some path from b with the same labels in order, and cells related place by place, ends where `pass` says.
    fn followed(&self, path: &[Link], b: usize, pass: &impl Fn(usize) -> bool) -> bool {
        let Some((link, rest)) = path.split_first() else {
            return pass(b);
        };
        out(self.other.book, b).any(|step| {
            step.label == link.label
                && (self.related)(link.to as usize, step.to as usize)
                && self.followed(rest, step.to as usize, pass)
        })
    }

    /// Two paths have a counterpart from b: their followers' ends pass the comparison.
    fn met(&self, b: usize, comparison: Comparison, first: &[Link], second: &[Link]) -> bool {
        self.followed(first, b, &|y| {
            self.followed(second, b, &|z| self.other.passes(comparison, y, z))
        })
    }

    /// The first link out of a without counterpart.
    fn first_link(&self, a: usize, b: usize) -> Option<Reason> {
        let link = out(self.one.book, a).find(|&&link| !self.followed(&[link], b, &|_| true));
        link.map(|&link| Reason::Link(link))
    }

    /// The first two paths of at most c links each without counterpart.
    fn first_paths(&self, a: usize, b: usize, c: usize) -> Option<Reason> {
        let paths = &self.one.paths[a];
        for total in 0..=2 * c {
            for i in total.saturating_sub(c)..=total / 2 {
                for first in &paths[i] {
                    for second in &paths[total - i] {
                        for comparison in COMPARISONS {
                            if self.one.passes(comparison, end(a, first), end(a, second))
                                && !self.met(b, comparison, first, second)
                            {
                                let (first, second) = (first.clone(), second.clone());
                                return Some(Reason::Paths(comparison, first, second));
                            }
                        }
                    }
                }
            }
        }
        None
    }

    /// The first reason to part a and b: a link, or else two paths.
    pub fn first_reason(&self, a: usize, b: usize, c: usize) -> Option<Reason> {
        self.first_link(a, b).or_else(|| self.first_paths(a, b, c))
    }
}
