//! Compare in plain Rust, by the library's method: the same rounds over the same pairs in the same order, without those near which the round before
//! parted none, and those that a row before tells to stay where both sides count; the same search over classes of paths, level by level in a table, without
//! covered tips, for whether there is a reason, and then link by link for the first. So map and sheet are the library's to the byte, with tables of whatever
//! size. Hidden cells are cut from the books when these are read.

use crate::support::checks::check_book;
use crate::support::hidden::{beyond_refusal, hides, Hidden, HIDDEN};
use crate::support::outcome::{accepted, refused, Outcome, CALL, LEFT_BOOK, RIGHT_BOOK};
use crate::support::recordings::{recording, COMPARISONS};
use crate::support::sides::Sides;
use crate::support::versions::{label_of, label_width, link_width, step_width, written_version};
use std::sync::atomic::{AtomicUsize, Ordering};

/// The kinds of an entry.
const TRUE: u8 = 0;
const NOT: u8 = 1;
const AND: u8 = 2;
const WAY: u8 = 4;
const SAME: u8 = 5; // and differ is 6

/// The most links of a way in a same or differ.
const LONGEST: usize = 4;

/// A book, read once, without the links and recordings of hidden cells. Cells and links are counted from 0.
struct Graph {
    cells: usize,
    /// The cells that are hidden.
    hidden: u64,
    /// The links out of cell x are those from `starts[x]` up to `starts[x + 1]`.
    starts: [u16; 65],
    labels: [u16; 512],
    to: [u8; 512],
    /// For each cell the cells of the same recording, and those of another; none where it or they are silent or hidden.
    ends: [[u64; 64]; 2],
}

fn read(book: &[u8], hidden: u64) -> Graph {
    let width = link_width(book[4]);
    let cells = book[5] as usize;
    let (recordings, links) = book[8..].split_at(4 * cells);
    let recordings: Vec<u32> = recordings.chunks(4).map(recording).collect();
    let shown = |cell: usize| !hides(hidden, cell);
    let mut graph = Graph {
        cells,
        hidden,
        starts: [0; 65],
        labels: [0; 512],
        to: [0; 512],
        ends: [[0; 64]; 2],
    };
    for x in (0..cells).filter(|&x| shown(x)) {
        for y in (0..cells).filter(|&y| shown(y)) {
            for (ends, comparison) in graph.ends.iter_mut().zip(COMPARISONS) {
                ends[x] |= (comparison.passes(recordings[x], recordings[y]) as u64) << y;
            }
        }
    }
    let links = links.chunks(width);
    let links = links.filter(|link| shown(link[0] as usize) && shown(link[width - 1] as usize));
    for (k, link) in links.enumerate() {
        graph.labels[k] = label_of(&link[1..width - 1]);
        graph.to[k] = link[width - 1] & 63; // below 64, so that no index is tested
        graph.starts[link[0] as usize + 1] += 1;
    }
    for x in 0..64 {
        graph.starts[x + 1] += graph.starts[x];
    }
    graph
}

impl Graph {
    /// The cells that a link with the label leads to from cell x; and the next label of its links, if it is below `best`. The links are in the order
    /// of their labels.
    fn row(&self, x: usize, label: u16, best: usize) -> (u64, usize) {
        let links = self.starts[x] as usize..self.starts[x + 1] as usize;
        let mut out = 0;
        for (&of_link, &to) in self.labels[links.clone()].iter().zip(&self.to[links]) {
            if of_link > label {
                return (out, best.min(of_link as usize));
            }
            if of_link == label {
                out |= 1 << to;
            }
        }
        (out, best)
    }

    /// The cells that a link with the label leads to from cell x.
    fn targets(&self, x: usize, label: u16) -> u64 {
        self.row(x, label, 0).0
    }

    /// The cells that a link with the label leads to from a cell of the word.
    fn image(&self, mut word: u64, label: u16) -> u64 {
        let mut out = 0;
        while word != 0 {
            out |= self.targets(word.trailing_zeros() as usize, label);
            word &= word - 1;
        }
        out
    }

    /// Writes for each cell of the word where the label leads to from it, and gives the next label of their links, as `next_label` does.
    fn put_rows(&self, mut word: u64, label: u16, rows: &mut [u64; 64]) -> usize {
        let mut next = EVERY_LABEL;
        while word != 0 {
            let x = word.trailing_zeros() as usize;
            (rows[x], next) = self.row(x, label, next);
            word &= word - 1;
        }
        next
    }

    /// The cells that at most so many links lead from to a cell of the word.
    fn near(&self, mut word: u64, links: usize) -> u64 {
        for _ in 0..links {
            let mut more = 0;
            for x in 0..self.cells {
                let out = self.starts[x] as usize..self.starts[x + 1] as usize;
                if self.to[out].iter().any(|&to| word >> to & 1 == 1) {
                    more |= 1 << x;
                }
            }
            word |= more;
        }
        word
    }

    /// The smallest label from `least` on of the links out of the cells of the word; where there is none, the number of all labels.
    fn next_label(&self, mut word: u64, least: usize) -> usize {
        let mut out = EVERY_LABEL;
        while word != 0 {
            let x = word.trailing_zeros() as usize;
            let labels = &self.labels[self.starts[x] as usize..self.starts[x + 1] as usize];
            if let Some(&label) = labels.iter().find(|&&label| least <= label as usize) {
                out = out.min(label as usize);
            }
            word &= word - 1;
        }
        out
    }
}

/// The cells that pass with some cell of the word.
fn passing(rows: &[u64; 64], mut word: u64) -> u64 {
    let mut out = 0;
    while word != 0 {
        out |= rows[word.trailing_zeros() as usize];
        word &= word - 1;
    }
    out
}

/// The cells that pass a comparison with some cell of the word: of those that pass same with each other one is asked. The first rows are those of same.
fn by_value(ends: &[[u64; 64]; 2], t: usize, mut word: u64) -> u64 {
    let mut out = 0;
    while word != 0 {
        let x = word.trailing_zeros() as usize;
        out |= ends[t][x];
        word = minus(word & (word - 1), ends[0][x]);
    }
    out
}

/// Before two paths of so many links in all are looked for, all levels are filled.
const LATE: usize = 3;

/// How many classes there is room for in a table. One class and label give at most so many tips.
const ROOM: usize = 64;

/// How many labels there can be: each is below. The place of a label and class e in the order in which a table is gone through is
/// `ROOM` × the label + e, and the last is where all are.
const EVERY_LABEL: usize = 1 << 16;
const LAST_PLACE: usize = ROOM * EVERY_LABEL;

/// How often a part was full, for the tests.
pub static FULL: AtomicUsize = AtomicUsize::new(0);

/// How often a pair was left out since the round before parted none near it, for the tests.
pub static IDLE: AtomicUsize = AtomicUsize::new(0);

/// For how many pairs there was no room for all levels with their tips as they are, and for how many of these one tip a cell told that they stay, for the
/// tests.
pub static LARGE: AtomicUsize = AtomicUsize::new(0);
pub static BY_CELLS: AtomicUsize = AtomicUsize::new(0);

/// For how many pairs no two tips of all levels clash, some do, or there was no room for all levels, for the tests.
pub static QUIET: AtomicUsize = AtomicUsize::new(0);
pub static CLASHED: AtomicUsize = AtomicUsize::new(0);
pub static UNKNOWN: AtomicUsize = AtomicUsize::new(0);

fn count(counter: &AtomicUsize) {
    counter.fetch_add(1, Ordering::Relaxed);
}

/// The cells of a that are not in b.
fn minus(a: u64, b: u64) -> u64 {
    a & !b
}

/// Every cell of a is in b.
fn inside(a: u64, b: u64) -> bool {
    minus(a, b) == 0
}

/// The cells whose row is the row.
fn rowmates(related: &[u64; 64], mut cells: u64, row: u64) -> u64 {
    let mut out = 0;
    while cells != 0 {
        let x = cells.trailing_zeros();
        if related[x as usize] == row {
            out |= 1 << x;
        }
        cells &= cells - 1;
    }
    out
}

/// Paths from a cell of one book, each with the paths of the other book that are alike to it, taken together in classes: `lefts[e]`
/// has the cells where the paths of class e end, `rights[e]` the ends of the paths of the other book alike to each of them. A tip
/// (x, w) is an end and such a set: the tips of class e have the ends of `lefts[e]` and the set `rights[e]`. Of tips of one cell only
/// those with the smallest sets are kept: whatever fails with a set fails with each set inside of it.
#[derive(Clone)]
struct Table {
    count: usize,
    lefts: [u64; ROOM],
    rights: [u64; ROOM],
}

impl Table {
    fn empty() -> Table {
        Table {
            count: 0,
            lefts: [0; ROOM],
            rights: [0; ROOM],
        }
    }

    /// The table of the one tip (x, w).
    fn one(x: usize, w: u64) -> Table {
        let mut table = Table::empty();
        table.count = 1;
        table.lefts[0] = 1 << x;
        table.rights[0] = w;
        table
    }

    /// The cells and the set of each class.
    fn classes(&self) -> impl DoubleEndedIterator<Item = (u64, u64)> + '_ {
        let lefts = self.lefts[..self.count].iter();
        let rights = self.rights[..self.count].iter();
        lefts.zip(rights).map(|(&left, &right)| (left, right))
    }

    /// The cells that are in no class with a set inside of w. The last classes are asked first.
    fn uncovered(&self, mut cells: u64, w: u64) -> u64 {
        for (left, right) in self.classes().rev() {
            if inside(right, w) {
                cells = minus(cells, left);
                if cells == 0 {
                    break;
                }
            }
        }
        cells
    }

    /// The first class from `base` on with the set w or no cells, or the number of classes.
    fn place(&self, base: usize, w: u64) -> usize {
        let mut classes = self.classes().skip(base);
        let place = classes.position(|(left, right)| right == w || left == 0);
        place.map_or(self.count, |place| base + place)
    }

    /// Puts the tips of the cells with the set w into class e, which has that set or no cells or is the next.
    fn join(&mut self, e: usize, cells: u64, w: u64) {
        if e == self.count {
            self.lefts[e] = 0;
            self.count += 1;
        }
        self.lefts[e] |= cells;
        self.rights[e] = w;
    }

    /// Puts the tip (y, o) into class y, which is for no other cell: where it has a tip already, the set is cut with o.
    fn cut(&mut self, y: usize, o: u64) {
        self.rights[y] = match self.lefts[y] {
            0 => o,
            _ => self.rights[y] & o,
        };
        self.lefts[y] = 1 << y;
    }

    /// Takes the cells out of each class from `base` on whose set is wider than w.
    fn narrow(&mut self, base: usize, cells: u64, w: u64) {
        let rights = &self.rights[base..];
        for (left, &right) in self.lefts[base..self.count].iter_mut().zip(rights) {
            if right != w && inside(w, right) {
                *left = minus(*left, cells);
            }
        }
    }

    /// Puts the tips of the cells with the set w in, from class `base` on, but for those that the table covers; false where they need another
    /// class than the `most` there are. With rows of same, the tips of all cells that pass same with one of them are put in.
    fn put(
        &mut self,
        base: usize,
        cells: u64,
        w: u64,
        most: usize,
        same: Option<&[u64; 64]>,
    ) -> bool {
        let mut new = self.uncovered(cells, w);
        if new == 0 {
            return true;
        }
        if let Some(same) = same {
            new |= passing(same, new);
        }
        let e = self.place(base, w);
        if e == self.count && e >= most {
            return false;
        }
        self.join(e, new, w);
        self.narrow(base, new, w);
        true
    }
}

fn union(sets: &[u64]) -> u64 {
    sets.iter().fold(0, |all, set| all | set)
}

/// A path by the numbers of its first `len` links.
#[derive(Clone, Copy)]
struct Path {
    len: usize,
    links: [u16; LONGEST],
}

/// The path with no links.
const STAY: Path = Path {
    len: 0,
    links: [0; LONGEST],
};

/// A reason to part two cells: the kind of its entry, the only or first path and the second.
struct Reason {
    kind: u8,
    first: Path,
    second: Path,
}

/// A path and its tip.
#[derive(Clone, Copy)]
struct Tail {
    cell: usize,
    word: u64,
    path: Path,
}

/// What a class of first paths asks of a class of second ones: the ends that pass with one of its own, and the other book's ends
/// that pass with an end of a path alike to it.
struct Asked {
    ends: u64,
    answers: u64,
}

impl Asked {
    /// Some path of the class with these ends and this set has no counterpart.
    fn fails(&self, ends: u64, set: u64) -> bool {
        self.ends & ends != 0 && set & self.answers == 0
    }
}

/// Classes of a table, from the one on that is first.
#[derive(Clone, Copy)]
struct Classes<'a> {
    table: &'a Table,
    first: usize,
    count: usize,
}

impl Table {
    /// The first so many classes.
    fn upto(&self, count: usize) -> Classes<'_> {
        Classes {
            table: self,
            first: 0,
            count,
        }
    }

    fn whole(&self) -> Classes<'_> {
        self.upto(self.count)
    }
}

/// The tips of the paths from a pair, level by level in one table: the levels up to level k have `ends[k]` classes, for k up to `known`; those up to
/// `exact` have their tips as they are, the others widened.
struct Levels {
    table: Table,
    ends: [usize; LONGEST + 1],
    known: usize,
    exact: usize,
}

impl Levels {
    /// Level 0: the tip (x, {y}).
    fn new(x: usize, y: usize) -> Levels {
        Levels {
            table: Table::one(x, 1 << y),
            ends: [1; LONGEST + 1],
            known: 0,
            exact: 0,
        }
    }

    fn upto(&self, k: usize) -> Classes<'_> {
        self.table.upto(self.ends[k])
    }
}

/// The search for a reason to part a cell of one book and a cell of the other, from the one's side: row i of the relation has the
/// cells related to cell i. A table takes `PLACES` classes, or, where it was empty, what one class and label give.
struct Search<'a, const PLACES: usize> {
    one: &'a Graph,
    other: &'a Graph,
    related: &'a [u64; 64],
}

impl<const PLACES: usize> Search<'_, PLACES> {
    /// A set as it is, or all cells that have the recording of one of its cells: comparisons see no more of it.
    fn seen_as(&self, wide: bool, w: u64) -> u64 {
        match wide {
            true => passing(&self.other.ends[0], w),
            false => w,
        }
    }

    /// Puts the tips (y, s cut with row y) of these cells y in, as they are or widened, those with the same row at once; false where there
    /// is no room for all of them.
    fn grow(&self, wide: bool, part: &mut Table, base: usize, mut cells: u64, s: u64) -> bool {
        let most = match part.count {
            0 => ROOM,
            _ => PLACES,
        };
        let same = wide.then_some(&self.one.ends[0]);
        while cells != 0 {
            let row = self.related[cells.trailing_zeros() as usize];
            let mates = rowmates(self.related, cells, row);
            if !part.put(base, mates, self.seen_as(wide, s & row), most, same) {
                return false;
            }
            cells = minus(cells, mates);
        }
        true
    }

    /// Puts the tips one link beyond the classes, as they are or widened, into a table from class `base` on, from the place `at` on, until there is no room. Gives
    /// the place where to go on.
    fn fill(&self, wide: bool, from: Classes, at: usize, part: &mut Table, base: usize) -> usize {
        let (lefts, rights) = (&from.table.lefts, &from.table.rights);
        let here = union(&lefts[from.first..from.count]);
        let there = union(&rights[from.first..from.count]);
        let (mut rows, mut other_rows) = ([0; 64], [0; 64]);
        let mut label = self.one.next_label(here, at / ROOM);
        let mut first = from.first;
        if label == at / ROOM {
            first = first.max(at % ROOM);
        }
        while label < EVERY_LABEL {
            let next = self.one.put_rows(here, label as u16, &mut rows);
            self.other.put_rows(there, label as u16, &mut other_rows);
            for e in first..from.count {
                let cells = passing(&rows, lefts[e]);
                let s = passing(&other_rows, rights[e]);
                if !self.grow(wide, part, base, cells, s) {
                    return ROOM * label + e;
                }
            }
            first = from.first;
            label = next;
        }
        LAST_PLACE
    }

    /// Makes `part` the tips one link beyond the classes, from the place `at` on, until it is full. Gives the place where to go on.
    fn next_part(&self, from: Classes, at: usize, part: &mut Table) -> usize {
        part.count = 0;
        let next = self.fill(false, from, at, part, 0);
        if next < LAST_PLACE {
            count(&FULL);
        }
        next
    }

    /// The set of the tip that link k leads to from a tip with the set w.
    fn step(&self, w: u64, k: u16) -> u64 {
        let to = self.one.to[k as usize] as usize;
        self.other.image(w, self.one.labels[k as usize]) & self.related[to]
    }

    /// What the class with the ends l and the set r asks for one comparison.
    fn asked(&self, t: usize, l: u64, r: u64) -> Asked {
        Asked {
            ends: by_value(&self.one.ends, t, l),
            answers: by_value(&self.other.ends, t, r),
        }
    }

    /// Whether two tips, one of each table, have no counterpart.
    fn two_tips(&self, firsts: Classes, seconds: Classes) -> bool {
        for p in 0..firsts.count {
            let (l, r) = (firsts.table.lefts[p], firsts.table.rights[p]);
            let same = self.asked(0, l, r);
            let differ = self.asked(1, l, r);
            for q in 0..seconds.count {
                let (m, s) = (seconds.table.lefts[q], seconds.table.rights[q]);
                if same.fails(m, s) || differ.fails(m, s) {
                    return true;
                }
            }
        }
        false
    }

    /// Whether there are two paths without counterpart: one `more` links beyond the tips of the table p, the other `rest` beyond those
    /// of q. The one is the first of the two, or the second where they are turned; then the other goes no further.
    fn seek(&self, p: Classes, more: usize, q: Classes, rest: usize, turned: bool) -> bool {
        if more == 0 {
            if turned {
                return self.two_tips(q, p);
            }
            return self.seek(q, rest, p, 0, true);
        }
        let mut part = Table::empty();
        let mut at = 0;
        while at < LAST_PLACE {
            at = self.next_part(p, at, &mut part);
            if self.seek(part.whole(), more - 1, q, rest, turned) {
                return true;
            }
        }
        false
    }

    /// The first path of `len` links from the tip that has no counterpart with one of the others; there is one.
    fn first_path(&self, tip: Tail, len: usize, q: Classes, rest: usize, turned: bool) -> Tail {
        let mut tail = tip;
        while tail.path.len < len {
            let more = len - tail.path.len - 1;
            let end = self.one.starts[tail.cell + 1];
            let mut k = self.one.starts[tail.cell];
            loop {
                let cell = self.one.to[k as usize] as usize;
                let word = self.step(tail.word, k);
                let table = Table::one(cell, word);
                if k + 1 >= end || self.seek(table.whole(), more, q, rest, turned) {
                    let mut path = tail.path;
                    path.links[path.len] = k;
                    path.len += 1;
                    tail = Tail { cell, word, path };
                    break;
                }
                k += 1;
            }
        }
        tail
    }

    /// The first two paths of i and j links from x without counterpart from y; there are some. The second are told by the paths with `rest` links
    /// further than the classes q.
    fn first_pair(&self, x: usize, y: usize, i: usize, j: usize, q: Classes, rest: usize) -> Reason {
        let tip = Tail {
            cell: x,
            word: 1 << y,
            path: STAY,
        };
        let p = self.first_path(tip, i, q, rest, false);
        let q = self.first_path(tip, j, Table::one(p.cell, p.word).whole(), 0, true);
        let same = self.asked(0, 1 << p.cell, p.word);
        Reason {
            kind: if same.fails(1 << q.cell, q.word) {
                SAME
            } else {
                SAME + 1
            },
            first: p.path,
            second: q.path,
        }
    }

    /// The first two paths of i and j links from x without counterpart from y, where no two of fewer links in all are: by the levels, as far as they
    /// reach.
    fn pair_at(&self, levels: &Levels, x: usize, y: usize, i: usize, j: usize) -> Option<Reason> {
        if j <= levels.known {
            let (p, q) = (levels.upto(i), levels.upto(j));
            return self
                .two_tips(p, q)
                .then(|| self.first_pair(x, y, i, j, q, 0));
        }
        let root = Table::one(x, 1 << y);
        self.seek(root.whole(), i, root.whole(), j, false)
            .then(|| self.first_pair(x, y, i, j, root.whole(), j))
    }

    /// Puts the tips of all paths of `more` links, at least one, from the classes into a table, from class `base` on; false where there is no room
    /// for all.
    fn gather(&self, wide: bool, from: Classes, more: usize, all: &mut Table, base: usize) -> bool {
        if more == 1 {
            return self.fill(wide, from, 0, all, base) == LAST_PLACE;
        }
        let mut part = Table::empty();
        let mut at = 0;
        while at < LAST_PLACE {
            at = self.next_part(from, at, &mut part);
            if !self.gather(wide, part.whole(), more - 1, all, base) {
                return false;
            }
        }
        true
    }

    /// One level more, with its tips as they are or widened; false, and the same levels, where there is no room for it.
    fn deepen(&self, levels: &mut Levels, wide: bool) -> bool {
        let (known, exact) = (levels.known, levels.exact);
        let base = levels.ends[known];
        let old = levels.table.clone();
        let from = Classes {
            table: &old,
            first: exact.checked_sub(1).map_or(0, |below| levels.ends[below]),
            count: levels.ends[exact],
        };
        if !self.gather(wide, from, known + 1 - exact, &mut levels.table, base) {
            levels.table.count = base;
            return false;
        }
        levels.known += 1;
        levels.ends[known + 1] = levels.table.count;
        if !wide {
            levels.exact = known + 1;
        }
        true
    }

    /// More levels, up to level n or until there is no room for the next. They are widened where the table is too small for them as they are, above one that
    /// is, and at the bound.
    fn reach(&self, levels: &mut Levels, n: usize, bound: usize, small: bool) {
        while levels.known < n {
            let wide = small || levels.exact < levels.known || levels.known + 1 == bound;
            if !self.deepen(levels, wide) {
                return;
            }
        }
    }

    /// Puts the tips one link beyond the tip (cell, w) into a table with one tip a cell. Links with one label come one after another.
    fn cut_links(&self, cell: usize, w: u64, table: &mut Table) {
        let (mut known, mut image) = (0, self.other.image(w, 0));
        for k in self.one.starts[cell] as usize..self.one.starts[cell + 1] as usize {
            let (label, to) = (self.one.labels[k], self.one.to[k] as usize);
            if label != known {
                (known, image) = (label, self.other.image(w, label));
            }
            table.cut(to, image & self.related[to]);
        }
    }

    /// A table with one tip a cell tells that no two paths of at most `bound` links from x are without counterpart from y: the tip's set
    /// is inside those of all paths to the cell.
    fn by_cells(&self, x: usize, y: usize, bound: usize) -> bool {
        let mut table = Table::empty();
        table.count = 64;
        table.cut(x, 1 << y);
        for _ in 0..bound {
            let old = table.clone();
            for cell in (0..64).filter(|&cell| old.lefts[cell] != 0) {
                self.cut_links(cell, old.rights[cell], &mut table);
            }
        }
        !self.two_tips(table.whole(), table.whole())
    }

    /// Fills all levels, as far as there is room for them. Whether they, or one tip a cell where some are too large, tell that no two paths of at most
    /// `bound` links from x are without counterpart from y.
    fn none_fails(&self, levels: &mut Levels, x: usize, y: usize, bound: usize) -> bool {
        self.reach(levels, bound, bound, false);
        if levels.known < bound {
            count(&LARGE);
            if self.by_cells(x, y, bound) {
                count(&BY_CELLS);
                return true;
            }
            self.reach(levels, bound, bound, true);
        }
        if levels.known < bound {
            count(&UNKNOWN);
            return false;
        }
        let all = levels.table.whole();
        let clash = self.two_tips(all, all);
        count(if clash { &CLASHED } else { &QUIET });
        !clash
    }

    /// A link from x without counterpart from y.
    fn one_link(&self, x: usize, y: usize) -> Option<u16> {
        let mut links = self.one.starts[x]..self.one.starts[x + 1];
        links.find(|&k| self.step(1 << y, k) == 0)
    }

    /// First a link without counterpart; else two paths of at most `bound` links each, fewest in all first. Before those of `LATE`
    /// links all levels are filled, and asked whether there are any.
    fn reason(&self, x: usize, y: usize, bound: usize) -> Option<Reason> {
        if let Some(k) = self.one_link(x, y) {
            return Some(Reason {
                kind: WAY,
                first: Path {
                    len: 1,
                    links: [k, 0, 0, 0],
                },
                second: STAY,
            });
        }
        let mut levels = Levels::new(x, y);
        for total in 0..=2 * bound {
            if total < LATE {
                self.reach(&mut levels, total.min(bound), bound, false);
            }
            if total == LATE && self.none_fails(&mut levels, x, y, bound) {
                return None;
            }
            for i in total.saturating_sub(bound)..=total / 2 {
                let reason = self.pair_at(&levels, x, y, i, total - i);
                if reason.is_some() {
                    return reason;
                }
            }
        }
        None
    }
}

/// The sheet that is written: its version and room, the byte where the next entry goes, and its number.
struct Sheet<'a> {
    version: u8,
    room: &'a mut [u8],
    at: usize,
    next: u16,
}

impl Sheet<'_> {
    fn put(&mut self, bytes: &[u8]) {
        self.room[self.at..self.at + bytes.len()].copy_from_slice(bytes);
        self.at += bytes.len();
    }

    /// Writes an entry of this kind and these numbers.
    fn put_numbers(&mut self, kind: u8, numbers: &[u16]) {
        self.put(&[1 + 2 * numbers.len() as u8, kind]);
        for number in numbers {
            self.put(&number.to_be_bytes());
        }
        self.next += 1;
    }

    /// Writes the steps along a path, each with the entry that describes the cell reached.
    fn put_steps(&mut self, graph: &Graph, path: &Path, described: &[u16; 64]) {
        for &k in &path.links[..path.len] {
            let label = graph.labels[k as usize].to_be_bytes();
            let test = described[graph.to[k as usize] as usize];
            self.put(&label[2 - label_width(self.version)..]);
            self.put(&test.to_be_bytes());
        }
    }

    /// Writes the entry that puts the reason. Where it is a link the second path is empty.
    fn put_reason(&mut self, graph: &Graph, reason: &Reason, described: &[u16; 64]) {
        let (first, second) = (&reason.first, &reason.second);
        let steps = (step_width(self.version) * (first.len + second.len)) as u8;
        if reason.kind == WAY {
            self.put(&[2 + steps, WAY, first.len as u8]);
        } else {
            self.put(&[3 + steps, reason.kind, first.len as u8, second.len as u8]);
        }
        self.put_steps(graph, first, described);
        self.put_steps(graph, second, described);
        self.next += 1;
    }

    /// Adds a question to what describes a cell.
    fn describe(&mut self, described: &mut u16, question: u16) {
        if *described == 0 {
            *described = question;
            return;
        }
        let old = std::mem::replace(described, self.next);
        self.put_numbers(AND, &[old, question]);
    }

    /// Parts the pair (i, j), of this place of the map: the last entry is true at i and false at j or, unless `ahead`, the other way round.
    /// Where both sides count it is denied, and the cells of both are described.
    fn part(
        &mut self,
        sides: Sides,
        place: &mut u16,
        described: &mut Described,
        (i, j): (usize, usize),
        ahead: bool,
    ) {
        let asked = self.next - 1;
        let denied = self.next;
        if sides == Sides::Two {
            self.put_numbers(NOT, &[asked]);
        }
        let (at_left, at_right) = match ahead {
            true => (asked, denied),
            false => (denied, asked),
        };
        *place = at_left;
        self.describe(&mut described.left[i], at_left);
        if sides == Sides::Two {
            self.describe(&mut described.right[j], at_right);
        }
    }

    fn put_header(&mut self, bound: u8) {
        self.room[..4].copy_from_slice(&(self.at as u32).to_be_bytes());
        self.room[4] = self.version;
        self.room[5] = bound;
        self.room[6..8].copy_from_slice(&self.next.to_be_bytes());
    }
}

/// Every place holds 0, or 65,535 where a cell of the pair is hidden.
fn begin(map: &mut [u16], left: &Graph, right: &Graph) {
    for (k, place) in map.iter_mut().enumerate() {
        let (i, j) = (k / right.cells, k % right.cells);
        *place = match hides(left.hidden, i) || hides(right.hidden, j) {
            true => HIDDEN,
            false => 0,
        };
    }
}

/// The relation that the map tells: for each left cell the right cells whose place holds 0, and for each right cell the left ones.
fn relation(map: &[u16], n: usize, m: usize) -> ([u64; 64], [u64; 64]) {
    let (mut rows, mut columns) = ([0; 64], [0; 64]);
    for i in 0..n {
        for j in 0..m {
            if map[i * m + j] == 0 {
                rows[i] |= 1 << j;
                columns[j] |= 1 << i;
            }
        }
    }
    (rows, columns)
}

/// What describes each left and each right cell.
#[derive(Clone, Copy)]
struct Described {
    left: [u16; 64],
    right: [u16; 64],
}

/// The first row before row i whose place in column j holds 0, or i. A row has m places.
fn first_row(map: &[u16], m: usize, i: usize, j: usize) -> usize {
    (0..i).find(|x| map[x * m + j] == 0).unwrap_or(i)
}

/// The left and the right cells that a round has to look at: a pair stays, unless both of its cells are among them.
#[derive(Clone, Copy)]
struct Live {
    left: u64,
    right: u64,
}

impl Live {
    fn has(&self, i: usize, j: usize) -> bool {
        self.left >> i & 1 == 1 && self.right >> j & 1 == 1
    }
}

/// The cells whose row is not what it was.
fn changed(before: &[u64; 64], after: &[u64; 64]) -> u64 {
    (0..64).fold(0, |word, i| word | ((before[i] != after[i]) as u64) << i)
}

/// One round: every pair whose place holds 0, under the relation and by the descriptions that the round began with. Where both sides count,
/// rows that share a pair that stays are equal: where the twin of a row, a row before that shares one, tells that a pair stays, it is not
/// searched. The answer is what the next round has to look at.
fn round<const PLACES: usize>(
    sides: Sides,
    left: &Graph,
    right: &Graph,
    bound: usize,
    map: &mut [u16],
    sheet: &mut Sheet,
    described: &mut Described,
    live: Live,
) -> Live {
    let (n, m) = (left.cells, right.cells);
    let (rows, columns) = relation(map, n, m);
    let ahead = Search::<PLACES> {
        one: left,
        other: right,
        related: &rows,
    };
    let back = Search::<PLACES> {
        one: right,
        other: left,
        related: &columns,
    };
    let began = *described;
    for i in 0..n {
        let mut twin = i;
        for j in 0..m {
            let place = i * m + j;
            let follows = twin < i && map[twin * m + j] == 0;
            if map[place] == 0 && !live.has(i, j) {
                count(&IDLE);
            } else if map[place] == 0 && !follows {
                let place = &mut map[place];
                if let Some(reason) = ahead.reason(i, j, bound) {
                    sheet.put_reason(left, &reason, &began.left);
                    sheet.part(sides, place, described, (i, j), true);
                } else if let Some(reason) = sides.from_right(|| back.reason(j, i, bound)) {
                    sheet.put_reason(right, &reason, &began.right);
                    sheet.part(sides, place, described, (i, j), false);
                }
            }
            if sides == Sides::Two && twin == i && map[place] == 0 {
                twin = first_row(map, m, i, j);
            }
        }
    }
    let (rows_after, columns_after) = relation(map, n, m);
    Live {
        left: left.near(changed(&rows, &rows_after), bound.max(1)),
        right: right.near(changed(&columns, &columns_after), bound.max(1)),
    }
}

/// Compare, or its one-way form, with all refusals. The library's tables have 64 places.
pub fn compare<const PLACES: usize>(
    sides: Sides,
    left: &[u8],
    right: &[u8],
    bound: usize,
    hidden: Hidden,
    map: &mut [u16],
    room: &mut [u8],
    scratch: &mut [u8],
) -> Outcome {
    const { assert!(0 < PLACES && PLACES <= ROOM) };
    if bound > 4 {
        return refused(CALL, 20);
    }
    for (book, part) in [(left, LEFT_BOOK), (right, RIGHT_BOOK)] {
        let check = check_book(book, part);
        if check.refusal != 0 {
            return check;
        }
    }
    let words = [
        (left, hidden.left, LEFT_BOOK),
        (right, hidden.right, RIGHT_BOOK),
    ];
    if let Some(refusal) = beyond_refusal(&words) {
        return refusal;
    }
    let version = written_version(left[4], right[4]);
    let pairs = left[5] as usize * right[5] as usize;
    if map.len() != pairs {
        return refused(CALL, 21);
    }
    if room.len() < 10 + (20 + 8 * step_width(version)) * pairs {
        return refused(CALL, 22);
    }
    if scratch.len() < 16 * pairs {
        return refused(CALL, 23);
    }

    let (left, right) = (read(left, hidden.left), read(right, hidden.right));
    begin(map, &left, &right);
    let mut sheet = Sheet {
        version,
        room,
        at: 8,
        next: 0,
    };
    sheet.put_numbers(TRUE, &[]);
    let mut described = Described {
        left: [0; 64],
        right: [0; 64],
    };
    let mut live = Live {
        left: !0,
        right: !0,
    };
    loop {
        let entries = sheet.next;
        live = round::<PLACES>(
            sides,
            &left,
            &right,
            bound,
            map,
            &mut sheet,
            &mut described,
            live,
        );
        if sheet.next == entries {
            break;
        }
    }
    sheet.put_header(bound as u8);
    scratch.fill(0);
    let stay = map.iter().filter(|&&place| place == 0).count();
    accepted(sheet.at as u32, stay as u32)
}
