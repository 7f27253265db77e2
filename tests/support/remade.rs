//! Books made from others as a studio returns them: renumbered, split, grown and joined; and books with other labels. Where it is said so,
//! each cell has the one it comes from for a partner, or is covered by it, at every bound.

use super::books::{link, Book, Link};
use super::random::Random;
use super::recordings::SILENT;
use std::collections::{BTreeMap, BTreeSet};

/// Puts the values into any order.
fn shuffle<T>(random: &mut Random, values: &mut [T]) {
    for last in (1..values.len()).rev() {
        values.swap(last, random.below(last + 1));
    }
}

/// The numbers below `count` in any order.
fn shuffled(random: &mut Random, count: usize) -> Vec<u8> {
    let mut numbers: Vec<u8> = (0..count as u8).collect();
    shuffle(random, &mut numbers);
    numbers
}

/// So many different values of those that are drawn, in rising order.
fn different<T: Ord>(random: &mut Random, count: usize, draw: impl Fn(&mut Random) -> T) -> Vec<T> {
    let mut values = BTreeSet::new();
    while values.len() < count {
        values.insert(draw(random));
    }
    values.into_iter().collect()
}

/// The book with its cells in any order, and any other recordings of which the same are the same and silent ones stay so. Each cell is the partner of the
/// one it comes from.
pub fn renumbered(random: &mut Random, book: &Book) -> Book {
    let kinds: BTreeSet<u32> = book.recordings.iter().copied().collect();
    let kinds: Vec<u32> = kinds.into_iter().filter(|&kind| kind != SILENT).collect();
    let renamed = different(random, kinds.len(), |random| {
        let any = (random.next() as u32).max(1);
        let few = 1 + random.below(2 * kinds.len()) as u32;
        random.pick(&[any, few])
    });
    let order = shuffled(random, kinds.len()); // of the new recordings
    let numbers = shuffled(random, book.cells());
    let mut recordings = vec![SILENT; book.cells()];
    for (x, recording) in book.recordings.iter().enumerate() {
        if let Ok(kind) = kinds.binary_search(recording) {
            recordings[numbers[x] as usize] = renamed[order[kind] as usize];
        }
    }
    let links = book.links.iter().map(|l| Link {
        from: numbers[l.from as usize],
        label: l.label,
        to: numbers[l.to as usize],
    });
    Book {
        recordings,
        links: rising(links),
    }
}

/// The links in the order of a book, each once.
fn rising(links: impl Iterator<Item = Link>) -> Vec<Link> {
    let set: BTreeSet<Link> = links.collect();
    set.into_iter().collect()
}

/// The book with `more` cells more, each a copy of a cell. Every copy of a cell has each link of that cell, to one copy of where it
/// leads or, once in `several` times, to two. Each cell is the partner of the one it is a copy of.
pub fn split(random: &mut Random, book: &Book, more: usize, several: usize) -> Book {
    // The cell that each cell is a copy of.
    let mut copied: Vec<u8> = (0..book.cells() as u8).collect();
    for _ in 0..more {
        let cell = random.below(book.cells()) as u8;
        copied.push(cell);
    }
    let mut links = Vec::new();
    for (x, &of) in copied.iter().enumerate() {
        for l in book.links.iter().filter(|l| l.from == of) {
            let copies: Vec<u8> = (0..copied.len() as u8)
                .filter(|&y| copied[y as usize] == l.to)
                .collect();
            for _ in 0..=random.one_in(several) as usize {
                links.push(link(x as u8, l.label, random.pick(&copies)));
            }
        }
    }
    Book {
        recordings: copied
            .iter()
            .map(|&of| book.recordings[of as usize])
            .collect(),
        links: rising(links.into_iter()),
    }
}

/// The cells and links of both books in one, the first book's cells first. Each cell is the partner of the one it comes from.
pub fn both(first: &Book, second: &Book) -> Book {
    let after = first.cells() as u8;
    let moved = second
        .links
        .iter()
        .map(|l| link(l.from + after, l.label, l.to + after));
    Book {
        recordings: [&first.recordings[..], &second.recordings[..]].concat(),
        links: rising(first.links.iter().copied().chain(moved)),
    }
}

/// The book with cells and links more, to and from any. Each cell is covered by itself, at every bound.
pub fn grown(random: &mut Random, book: &Book, cells: usize, links: usize) -> Book {
    let mut book = book.clone();
    for _ in 0..cells {
        let other = random.pick(&book.recordings);
        book.recordings
            .push(random.pick(&[other, other.wrapping_add(1)]));
    }
    let labels: Vec<u16> = book.labels().chain([0]).collect();
    for _ in 0..links {
        let [from, to] = [0; 2].map(|_: u8| random.below(book.cells()) as u8);
        book.links.push(link(from, random.pick(&labels), to));
    }
    Book {
        links: rising(book.links.into_iter()),
        ..book
    }
}

/// The book with two of its cells made one, which has the first's recording and the links of both. The two may have had different
/// partners.
pub fn joined(random: &mut Random, book: &Book) -> Book {
    if book.cells() == 1 {
        return book.clone();
    }
    let numbers = shuffled(random, book.cells());
    let (kept, gone) = (numbers[0], numbers[1]);
    let number = |x: u8| {
        let x = if x == gone { kept } else { x };
        x - (x > gone) as u8
    };
    let mut recordings = book.recordings.clone();
    recordings.remove(gone as usize);
    let links = book
        .links
        .iter()
        .map(|l| link(number(l.from), l.label, number(l.to)));
    Book {
        recordings,
        links: rising(links),
    }
}

/// The book with one recording, label or target changed, or one link left out.
pub fn damaged(random: &mut Random, book: &Book) -> Book {
    let mut book = book.clone();
    let cell = random.below(book.cells());
    if book.links.is_empty() || random.one_in(3) {
        let other = random.pick(&book.recordings.clone());
        book.recordings[cell] = random.pick(&[other, other.wrapping_add(1)]);
        return book;
    }
    let place = random.below(book.links.len());
    match random.below(3) {
        0 => {
            book.links.remove(place);
        }
        1 => book.links[place].label ^= 1,
        _ => book.links[place].to = cell as u8,
    }
    book.links = rising(book.links.into_iter());
    book
}

/// Any label. Many of these agree in their low or in their high byte.
pub fn any_label(random: &mut Random) -> u16 {
    let any = random.next() as u16;
    let bytes = [0; 2].map(|_: u8| random.pick(&[0, 0, 1, 255]));
    random.pick(&[any, u16::from_be_bytes(bytes), u16::from_be_bytes(bytes)])
}

/// The books with other labels, of those that are drawn: the same for the same, different ones for different ones. Cells that were
/// partners still are.
fn relabelled<const N: usize>(
    random: &mut Random,
    books: [Book; N],
    draw: fn(&mut Random) -> u16,
) -> [Book; N] {
    let labels: BTreeSet<u16> = books.iter().flat_map(Book::labels).collect();
    let mut others = different(random, labels.len(), draw);
    shuffle(random, &mut others);
    let renamed: BTreeMap<u16, u16> = labels.into_iter().zip(others).collect();
    books.map(|book| Book {
        links: rising(
            book.links
                .iter()
                .map(|l| link(l.from, renamed[&l.label], l.to)),
        ),
        ..book
    })
}

/// The books, of at most 256 labels, as they are or with others of one byte or of two, or with one label changed in its high byte alone.
pub fn any_labels<const N: usize>(random: &mut Random, mut books: [Book; N]) -> [Book; N] {
    match random.below(10) {
        0 => relabelled(random, books, |random| random.byte() as u16),
        1 | 2 => relabelled(random, books, any_label),
        3 => {
            let links = &mut books[random.below(N)].links;
            let place = random.below(links.len().max(1));
            if let Some(link) = links.get_mut(place) {
                link.label ^= 256;
            }
            *links = rising(links.iter().copied());
            books
        }
        _ => books,
    }
}
