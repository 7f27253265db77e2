//! Where the questions of a sheet are true in a book: source 000, figure 3, line by line, with sets of cells and sets of
//! pairs of cells. Slow and plain on purpose.

use super::books::Book;
use super::recordings::Comparison;
use super::sheets::{Entry, Sheet, Step};

/// A set of cells, as whether each cell is in it.
pub type Cells = Vec<bool>;

/// A set of pairs of cells, as whether (x, y) is in it, at place x × cells + y.
struct Pairs {
    cells: usize,
    held: Vec<bool>,
}

impl Pairs {
    fn none(book: &Book) -> Pairs {
        Pairs {
            cells: book.cells(),
            held: vec![false; book.cells() * book.cells()],
        }
    }

    fn add(&mut self, x: usize, y: usize) {
        self.held[x * self.cells + y] = true;
    }

    fn has(&self, x: usize, y: usize) -> bool {
        self.held[x * self.cells + y]
    }
}

/// {x | condition}
fn cells_with(book: &Book, condition: impl Fn(usize) -> bool) -> Cells {
    (0..book.cells()).map(condition).collect()
}

// Ways: sets of pairs of a cell and an end.

/// ε: {(x, x) | x a cell}
fn stay(book: &Book) -> Pairs {
    let mut pairs = Pairs::none(book);
    for x in 0..book.cells() {
        pairs.add(x, x);
    }
    pairs
}

/// ↓a: {(x, y) | (x, a, y) a link}
fn step(book: &Book, label: u16) -> Pairs {
    let mut pairs = Pairs::none(book);
    for link in &book.links {
        if link.label == label {
            pairs.add(link.from as usize, link.to as usize);
        }
    }
    pairs
}

/// [φ]: {(x, x) | x in φ}
fn test(book: &Book, cells: &Cells) -> Pairs {
    let mut pairs = Pairs::none(book);
    for x in 0..book.cells() {
        if cells[x] {
            pairs.add(x, x);
        }
    }
    pairs
}

/// αβ: {(x, z) | for some y: (x, y) in α and (y, z) in β}
fn then(book: &Book, a: &Pairs, b: &Pairs) -> Pairs {
    let mut pairs = Pairs::none(book);
    for x in 0..book.cells() {
        for y in 0..book.cells() {
            if a.has(x, y) {
                for z in 0..book.cells() {
                    if b.has(y, z) {
                        pairs.add(x, z);
                    }
                }
            }
        }
    }
    pairs
}

// Questions: sets of cells.

/// ⟨α⟩: {x | for some y: (x, y) in α}
fn there_is(book: &Book, a: &Pairs) -> Cells {
    cells_with(book, |x| (0..book.cells()).any(|y| a.has(x, y)))
}

/// {x | for some y, z: (x, y) in α, (x, z) in β, and the recordings of y and z pass}: heard ones alone do
fn compared(book: &Book, a: &Pairs, b: &Pairs, comparison: Comparison) -> Cells {
    let pass = |y: usize, z: usize| comparison.passes(book.recordings[y], book.recordings[z]);
    cells_with(book, |x| {
        (0..book.cells())
            .any(|y| a.has(x, y) && (0..book.cells()).any(|z| b.has(x, z) && pass(y, z)))
    })
}

/// ⟨α = β⟩
fn same(book: &Book, a: &Pairs, b: &Pairs) -> Cells {
    compared(book, a, b, Comparison::Same)
}

/// ⟨α ≠ β⟩
fn differ(book: &Book, a: &Pairs, b: &Pairs) -> Cells {
    compared(book, a, b, Comparison::Differ)
}

/// φ ∧ ψ
fn and(book: &Book, a: &Cells, b: &Cells) -> Cells {
    cells_with(book, |x| a[x] && b[x])
}

/// φ ∨ ψ: true where either part is (document 01).
fn or(book: &Book, a: &Cells, b: &Cells) -> Cells {
    cells_with(book, |x| a[x] || b[x])
}

/// ¬φ
fn not(book: &Book, a: &Cells) -> Cells {
    cells_with(book, |x| !a[x])
}

/// A sheet's way: its steps one after another, each followed by its test at the cell reached; stay if there are none.
fn way(book: &Book, steps: &[Step], named: &impl Fn(u16) -> Cells) -> Pairs {
    let Some((first, rest)) = steps.split_first() else {
        return stay(book);
    };
    let tested = then(
        book,
        &test(book, &named(first.test)),
        &way(book, rest, named),
    );
    then(book, &step(book, first.label), &tested)
}

/// Where the question of an entry is true, `named` giving where the question of an earlier entry is.
pub fn entry_cells(book: &Book, entry: &Entry, named: &impl Fn(u16) -> Cells) -> Cells {
    match entry {
        Entry::True => there_is(book, &stay(book)),
        Entry::Not(a) => not(book, &named(*a)),
        Entry::And(a, b) => and(book, &named(*a), &named(*b)),
        Entry::Or(a, b) => or(book, &named(*a), &named(*b)),
        Entry::Way(w) => there_is(book, &way(book, w, named)),
        Entry::Same(w, v) => same(book, &way(book, w, named), &way(book, v, named)),
        Entry::Differ(w, v) => differ(book, &way(book, w, named), &way(book, v, named)),
    }
}

/// Where each entry of an accepted sheet is true, from the first to the last.
pub fn sheet_cells(book: &Book, sheet: &Sheet) -> Vec<Cells> {
    let mut known: Vec<Cells> = Vec::new();
    for entry in &sheet.entries {
        let cells = entry_cells(book, entry, &|number| known[number as usize].clone());
        known.push(cells);
    }
    known
}

/// Where one entry is true, its question spelled out anew wherever a number names it: for small sheets only.
pub fn spelled_out(book: &Book, sheet: &Sheet, number: u16) -> Cells {
    // A trait object, since the type of this closure would hold itself.
    let named: &dyn Fn(u16) -> Cells = &|earlier| spelled_out(book, sheet, earlier);
    entry_cells(book, &sheet.entries[number as usize], &named)
}

/// The sum of 2^i for each cell i of the set.
pub fn word(cells: &Cells) -> u64 {
    (0..cells.len())
        .filter(|&i| cells[i])
        .map(|i| 2u64.pow(i as u32))
        .sum()
}
