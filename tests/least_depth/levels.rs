//! All questions within a bound, depth by depth. There is no end of them, but few cells have few sets: a level is the sets of cells where
//! the questions of its depth, or less, are true. Written from document 01, section "Questions".

use crate::support::books::Book;
use crate::support::recordings::COMPARISONS;
use crate::support::sides::Sides;
use std::collections::BTreeSet;

/// A set of cells: bit x is cell x.
pub type Set = u16;

/// For each cell, the set of the ends of a way from it.
type Ends = Vec<Set>;

/// A level is searched where there are at most so many ways.
const MOST_WAYS: usize = 500;

/// The sets of one level.
#[derive(Clone)]
struct Level {
    sides: Sides,
    every: Set,
    held: Vec<bool>,
    sets: Vec<Set>,
}

impl Level {
    /// Depth 0: "stay 0", and of always true what and, or and not make of it.
    fn first(sides: Sides, cells: usize) -> Level {
        let mut level = Level {
            sides,
            every: ((1u32 << cells) - 1) as Set,
            held: vec![false; 1 << cells],
            sets: Vec::new(),
        };
        level.add(level.every);
        level
    }

    /// Adds a set, and what "not, the same; and, or, choice, the larger" make of it and the others. One-way there is no "not".
    fn add(&mut self, set: Set) {
        let mut waiting = vec![set];
        while let Some(set) = waiting.pop() {
            if self.held[set as usize] {
                continue;
            }
            self.held[set as usize] = true;
            self.sets.push(set);
            if self.sides == Sides::Two {
                waiting.push(self.every & !set);
            }
            for other in &self.sets {
                waiting.extend([set & other, set | other]);
            }
        }
    }
}

/// The book's links and recordings as sets.
struct Moves {
    /// By label: for each cell where the links lead. The last is of all labels that no link has.
    steps: Vec<Ends>,
    /// By comparison: for each cell those that pass it with this one.
    passing: Vec<Ends>,
}

impl Moves {
    fn of(book: &Book) -> Moves {
        let labels: BTreeSet<u16> = book.labels().collect();
        let step = |label: u16| {
            let mut step = vec![0; book.cells()];
            for link in book.links.iter().filter(|link| link.label == label) {
                step[link.from as usize] |= 1 << link.to;
            }
            step
        };
        let of = &book.recordings;
        let passing = COMPARISONS.map(|comparison| {
            let with = |&x: &u32| {
                let pass = |&y: &usize| comparison.passes(x, of[y]);
                (0..of.len()).filter(pass).map(|y| 1 << y).sum()
            };
            of.iter().map(with).collect()
        });
        let nowhere = vec![0; book.cells()];
        Moves {
            steps: labels.into_iter().map(step).chain([nowhere]).collect(),
            passing: passing.to_vec(),
        }
    }

    /// Every way of at most `c` steps whose tests are of the level, each by its ends; if they are not too many. A test at the first cell
    /// is left out, since it is an "and" with what is asked; so are choices, since a comparison of a choice is an "or" of two.
    fn ways(&self, level: &Level, c: usize) -> Option<Vec<Ends>> {
        let cells = level.every.count_ones();
        let stay: Ends = (0..cells).map(|x| 1 << x).collect();
        let mut all = BTreeSet::from([stay]);
        for _ in 0..c {
            let mut longer = all.clone();
            for way in &all {
                for step in &self.steps {
                    let ends: Ends = way.iter().map(|&set| image(step, set)).collect();
                    for test in &level.sets {
                        longer.insert(ends.iter().map(|set| set & test).collect());
                        if longer.len() > MOST_WAYS {
                            return None;
                        }
                    }
                }
            }
            all = longer;
        }
        Some(all.into_iter().collect())
    }
}

/// Where these steps lead from the cells of a set.
fn image(step: &Ends, set: Set) -> Set {
    let from = (0..step.len()).filter(|x| set >> x & 1 == 1);
    from.fold(0, |ends, x| ends | step[x])
}

/// The cells of which something holds.
fn cells_with(cells: usize, holds: impl Fn(usize) -> bool) -> Set {
    (0..cells).filter(|&x| holds(x)).map(|x| 1 << x).sum()
}

/// The levels from depth 0, until one more has no more sets.
pub struct Levels(Vec<Level>);

impl Levels {
    /// Those of a book's questions within the bound; if there are not too many ways.
    pub fn of(book: &Book, c: usize, sides: Sides) -> Option<Levels> {
        let moves = Moves::of(book);
        let mut levels = vec![Level::first(sides, book.cells())];
        loop {
            let next = deeper(&moves, &levels[levels.len() - 1], c)?;
            if next.sets.len() == levels[levels.len() - 1].sets.len() {
                return Some(Levels(levels));
            }
            levels.push(next);
        }
    }

    /// Whether a question of this depth, or less, is true in exactly these cells.
    pub fn has(&self, depth: usize, set: Set) -> bool {
        self.0[depth.min(self.0.len() - 1)].held[set as usize]
    }

    /// The smallest depth of a question that is true at a cell and false at another.
    pub fn least(&self, x: usize, y: usize) -> Option<usize> {
        let parts = |set: &Set| set >> x & 1 == 1 && set >> y & 1 == 0;
        self.0.iter().position(|level| level.sets.iter().any(parts))
    }
}

/// The level that is one deeper.
fn deeper(moves: &Moves, level: &Level, c: usize) -> Option<Level> {
    let cells = moves.passing[0].len();
    let mut next = level.clone();
    // "There is a way": "a step adds 1 to the depth of what follows it; a test at the present cell, the larger of its depth and the rest's". So
    // and and or make a way of this depth from steps before something one less deep.
    for step in &moves.steps {
        for rest in &level.sets {
            next.add(cells_with(cells, |x| step[x] & rest != 0));
        }
    }
    // "A same or differ: 1 + the largest depth of its tests."
    let ways = moves.ways(level, c)?;
    for passing in &moves.passing {
        for first in &ways {
            let first: Ends = first.iter().map(|&ends| image(passing, ends)).collect();
            for second in &ways {
                next.add(cells_with(cells, |x| first[x] & second[x] != 0));
            }
        }
    }
    Some(next)
}
