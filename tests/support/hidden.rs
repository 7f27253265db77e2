//! Cells that a word hides: "a hidden cell and all links at it count as absent" (document 02, request 2026-07). The naive way: they are taken
//! out, which leaves a smaller book, and what is found of that one is put where its cells were. So no naive version knows of hidden cells.

use super::books::{link, Book, Link};
use super::meaning::Cells;
use super::outcome::{refused, Outcome};
use super::random::Random;
use super::recordings::SILENT;
use std::collections::BTreeSet;

/// "Map places with a hidden cell get 65,535", and Pair says so by its first value.
pub const HIDDEN: u16 = 65_535;

/// The words of the left and the right book: bit i hides cell i.
#[derive(Clone, Copy, PartialEq, Eq, Debug, Default)]
pub struct Hidden {
    pub left: u64,
    pub right: u64,
}

pub const NOTHING: Hidden = Hidden { left: 0, right: 0 };

/// The word hides the cell.
pub fn hides(word: u64, cell: usize) -> bool {
    word >> cell & 1 == 1
}

/// "31, a word has a bit at or above its book's cell count", of accepted books, each with its word and the part that it is; "the left word
/// first".
pub fn beyond_refusal(books: &[(&[u8], u64, u8)]) -> Option<Outcome> {
    let beyond = |book: &[u8], word| (book[5] as usize..64).any(|cell| hides(word, cell));
    let first = books.iter().find(|(book, word, _)| beyond(book, *word));
    first.map(|&(_, _, part)| refused(part, 31))
}

/// A book, and the word that hides some of its cells.
#[derive(Clone, PartialEq, Eq, Debug)]
pub struct Masked {
    pub book: Book,
    pub hidden: u64,
}

impl Masked {
    /// Nothing is hidden.
    pub fn open(book: &Book) -> Masked {
        let book = book.clone();
        Masked { book, hidden: 0 }
    }

    pub fn shown(&self) -> Shown {
        Shown::of(&self.book, self.hidden)
    }
}

/// A book without its hidden cells.
pub struct Shown {
    /// The cells that are left, in their order and numbered from 0, and the links between them.
    pub book: Book,
    /// The number that each has in the whole book.
    numbers: Vec<usize>,
    /// The cells of the whole book.
    cells: usize,
}

impl Shown {
    pub fn of(book: &Book, hidden: u64) -> Shown {
        let cells = book.cells();
        let numbers: Vec<usize> = (0..cells).filter(|&x| !hides(hidden, x)).collect();
        let place = |cell: u8| numbers.iter().position(|&x| x == cell as usize);
        let kept = |of: &Link| Some(link(place(of.from)? as u8, of.label, place(of.to)? as u8));
        let book = Book {
            recordings: numbers.iter().map(|&x| book.recordings[x]).collect(),
            links: book.links.iter().filter_map(kept).collect(),
        };
        Shown {
            book,
            numbers,
            cells,
        }
    }

    /// The sum of 2^i for each cell i of the whole book that is in the set, which is one of shown cells.
    pub fn word(&self, cells: &Cells) -> u64 {
        let shown = self.numbers.iter().zip(cells);
        shown.map(|(x, &is_in)| (is_in as u64) << x).sum()
    }
}

/// The map of the whole books that holds these numbers for the pairs that are shown, and 65,535 for all others.
pub fn whole_map(left: &Shown, right: &Shown, map: &[u16]) -> Vec<u16> {
    let mut whole = vec![HIDDEN; left.cells * right.cells];
    let m = right.numbers.len();
    for (i, x) in left.numbers.iter().enumerate() {
        for (j, y) in right.numbers.iter().enumerate() {
            whole[x * right.cells + y] = map[i * m + j];
        }
    }
    whole
}

/// The numbers that a map of the whole books holds for the pairs that are shown; none where another does not hold 65,535, or one of these
/// does.
pub fn shown_map(left: &Shown, right: &Shown, whole: &[u16]) -> Option<Vec<u16>> {
    let row = |x: &usize| {
        let start = x * right.cells;
        let places = right.numbers.iter();
        places.map(move |y| whole[start + y]).collect::<Vec<u16>>()
    };
    let map: Vec<u16> = left.numbers.iter().flat_map(row).collect();
    (whole_map(left, right, &map) == whole && !map.contains(&HIDDEN)).then_some(map)
}

/// A word that hides none of so many cells, one, a few, about half, all but one or all.
pub fn any_word(random: &mut Random, cells: usize) -> u64 {
    let every = u64::MAX >> (64 - cells);
    let one = 1 << random.below(cells);
    let few = one | random.next() & random.next() & random.next();
    let half = random.next();
    every & random.pick(&[0, one, one, few, few, half, half, !one, u64::MAX])
}

/// A word with a bit at or above the number of cells, which is below 64: bit n alone, bit 63, any, or all, beside any word.
pub fn word_beyond(random: &mut Random, cells: usize) -> u64 {
    let any = random.between(cells, 63);
    let bit = 1 << random.pick(&[cells, cells, 63, any]);
    let beside = any_word(random, cells);
    random.pick(&[bit, u64::MAX, bit | beside])
}

/// The book with any word.
pub fn worded(random: &mut Random, book: &Book) -> Masked {
    Masked {
        hidden: any_word(random, book.cells()),
        book: book.clone(),
    }
}

/// The book among one to three further cells, as far as there can be so many, which are hidden: what is shown is the book.
pub fn disguised(random: &mut Random, book: &Book) -> Masked {
    let mut numbers: Vec<u8> = (0..book.cells() as u8).collect();
    let mut hidden = 0u64;
    for cells in book.cells()..(book.cells() + random.between(1, 3)).min(64) {
        let place = random.between(0, cells);
        let (below, above) = (hidden & ((1 << place) - 1), hidden >> place);
        hidden = below | 1 << place | above << place << 1;
        for number in numbers.iter_mut().filter(|x| **x as usize >= place) {
            *number += 1;
        }
    }
    let cells = book.cells() + hidden.count_ones() as usize;
    let mut recordings = vec![SILENT; cells];
    for (&number, &recording) in numbers.iter().zip(&book.recordings) {
        recordings[number as usize] = recording;
    }
    let moved = |of: &Link| link(numbers[of.from as usize], of.label, numbers[of.to as usize]);
    let links = book.links.iter().map(moved).collect();
    let book = Book { recordings, links };
    rewritten(random, &Masked { book, hidden })
}

/// What is hidden drawn anew, and nothing else: recordings of hidden cells; links to them, from them, between them and from one to itself. Labels
/// are those of the book, or of one byte.
pub fn rewritten(random: &mut Random, masked: &Masked) -> Masked {
    let Masked { book, hidden } = masked;
    let hidden = *hidden;
    let cells = book.cells();
    let (inside, shown): (Vec<u8>, Vec<u8>) =
        (0..cells as u8).partition(|&x| hides(hidden, x as usize));
    if inside.is_empty() {
        return masked.clone();
    }
    let touches = |of: &Link| hides(hidden, of.from as usize) || hides(hidden, of.to as usize);
    let labels: Vec<u16> = book.labels().chain([1, random.below(256) as u16]).collect();
    let mut links: BTreeSet<Link> = book.links.iter().copied().filter(|l| !touches(l)).collect();
    let wanted = random.between(0, 4 * inside.len());
    for _ in 0..wanted.min(512 - links.len()) {
        let (one, other) = (random.pick(&inside), random.pick(&inside));
        let outside = match shown.is_empty() {
            true => other,
            false => random.pick(&shown),
        };
        let (from, to) = random.pick(&[(one, outside), (outside, one), (one, other), (one, one)]);
        links.insert(link(from, random.pick(&labels), to));
    }
    let mut recordings = book.recordings.clone();
    for &x in &inside {
        let alike = random.pick(&book.recordings);
        let any = random.next() as u32;
        recordings[x as usize] = random.pick(&[SILENT, alike, alike, 1 + any % 3, any]);
    }
    Masked {
        book: Book {
            recordings,
            links: links.into_iter().collect(),
        },
        hidden,
    }
}

/// The book with nothing hidden, with any word, or among further cells that are hidden.
pub fn masked(random: &mut Random, book: &Book) -> Masked {
    match random.below(5) {
        0 | 1 => Masked::open(book),
        2 => worded(random, book),
        _ => disguised(random, book),
    }
}

/// The book with nothing hidden, or among further cells that are hidden: what is shown is the book.
pub fn perhaps_disguised(random: &mut Random, book: &Book) -> Masked {
    match random.one_in(2) {
        true => Masked::open(book),
        false => disguised(random, book),
    }
}
