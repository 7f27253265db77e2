//! Pairs of small random books, by shape.

use super::books::{chain, link, most_links, random_book, ring, silenced, Book};
use super::partners::most_ways;
use super::random::Random;
use super::remade::{any_labels, both, damaged, grown, joined, renumbered, split};

/// The naive comparison takes long where a cell has many ways.
const MOST_WAYS: usize = 48;

pub struct Shape {
    pub name: &'static str,
    /// Two books for a bound.
    draw: fn(&mut Random, usize) -> (Book, Book),
}

/// The place of all that is of no shape, after those of `SHAPES`.
pub const OTHERS: usize = SHAPES.len();

pub const SHAPES: [Shape; 12] = [
    Shape {
        name: "random",
        draw: |random, _| (any_book(random, 3), any_book(random, 3)),
    },
    Shape {
        name: "one label",
        draw: |random, _| (any_book(random, 1), any_book(random, 1)),
    },
    Shape {
        name: "several by a label",
        draw: several_by_a_label,
    },
    Shape {
        name: "chains",
        draw: chains,
    },
    Shape {
        name: "cycles",
        draw: cycles,
    },
    Shape {
        name: "branches",
        draw: branches,
    },
    Shape {
        name: "forks",
        draw: forks,
    },
    Shape {
        name: "renumbered",
        draw: |random, _| {
            let book = any_book(random, 3);
            let other = renumbered(random, &book);
            (book, other)
        },
    },
    Shape {
        name: "split",
        draw: |random, _| {
            let book = any_book(random, 2);
            let other = split_book(random, &book);
            either_way(random, book, other)
        },
    },
    Shape {
        name: "grown",
        draw: grown_books,
    },
    Shape {
        name: "joined",
        draw: joined_books,
    },
    Shape {
        name: "one change",
        draw: |random, _| {
            let book = any_book(random, 2);
            let other = match random.below(2) {
                0 => renumbered(random, &book),
                _ => split_book(random, &book),
            };
            let other = damaged(random, &other);
            either_way(random, book, other)
        },
    },
];

/// Two books of the shape with any labels, with at most `MOST_WAYS` ways of 0 to `bound` links from a cell.
pub fn draw(random: &mut Random, shape: &Shape, bound: usize) -> (Book, Book) {
    loop {
        let (left, right) = (shape.draw)(random, bound);
        if most_ways(&left, bound).max(most_ways(&right, bound)) <= MOST_WAYS {
            return any_labels(random, [left, right]).into();
        }
    }
}

/// A book of 1 to 5 cells, with at most so many labels.
fn any_book(random: &mut Random, labels: usize) -> Book {
    let cells = random.between(1, 5);
    let labels = random.between(1, labels);
    let most = most_links(cells, labels).min(2 * cells + 1);
    let links = random.between(0, most);
    let recordings = random.pick(&[1, 2, 2, 3, cells]);
    let book = random_book(random, cells, links, labels, recordings);
    silenced(random, book)
}

fn either_way(random: &mut Random, one: Book, other: Book) -> (Book, Book) {
    match random.one_in(2) {
        true => (one, other),
        false => (other, one),
    }
}

fn split_book(random: &mut Random, book: &Book) -> Book {
    let more = random.between(1, 3);
    let several = random.pick(&[2, 4, 100]);
    let book = split(random, book, more, several);
    renumbered(random, &book)
}

/// Cells with two or three links by one label, and some without links; the other book is another or a split one.
fn several_by_a_label(random: &mut Random, _: usize) -> (Book, Book) {
    let draw = |random: &mut Random| {
        let cells = random.between(2, 5);
        let mut book = random_book(random, cells, 0, 1, 2);
        for from in 0..cells as u8 {
            let label = random.pick(&[1, 1, 2]);
            for _ in 0..random.pick(&[0, 0, 2, 3]) {
                book.links
                    .push(link(from, label, random.below(cells) as u8));
            }
        }
        book.links.sort();
        book.links.dedup();
        silenced(random, book)
    };
    let book = draw(random);
    let other = match random.one_in(2) {
        true => draw(random),
        false => split_book(random, &book),
    };
    (book, other)
}

/// Chains: of any recordings, or the second much like the first; or with one recording twice, as far apart as the bound.
fn chains(random: &mut Random, bound: usize) -> (Book, Book) {
    let labels = random.pick(&[1, 1, 2]);
    let label = |x| (x % labels) as u16; // by one, or by two in turn
    let cells = random.between(1, 7);
    if random.one_in(2) {
        let apart = (1..=cells.max(bound + 1) as u32).collect();
        let book = silenced(random, chain(apart, label));
        let mut other = book.clone();
        let place = random.below(book.cells() - bound);
        other.recordings[place + bound] = book.recordings[place];
        return either_way(random, book, other);
    }
    let kinds = random.between(1, 3);
    let any = |random: &mut Random, cells: usize| {
        let bare = random_book(random, cells, 0, 1, kinds);
        chain(silenced(random, bare).recordings, label)
    };
    let book = any(random, cells);
    let other = match random.below(3) {
        0 => {
            let cells = random.between(1, 7);
            any(random, cells)
        }
        1 => renumbered(random, &book),
        _ => damaged(random, &book),
    };
    (book, other)
}

/// Rings of which the recordings recur, of several rounds; now and then with one change, or with recordings that recur later.
fn cycles(random: &mut Random, bound: usize) -> (Book, Book) {
    if random.one_in(4) {
        // Each cell meets its own recording again after so many links, or after twice as many.
        let period = random.between(bound.max(1), bound + 1) as u32;
        let once = silenced(random, ring((1..=period).collect()));
        let twice = ring((1..=2 * period).collect());
        let twice = silenced(random, twice);
        return either_way(random, once, twice);
    }
    let period = random.between(1, 4);
    let kinds = random.between(1, 3);
    let recurring = random_book(random, period, 0, 1, kinds);
    let recurring = silenced(random, recurring).recordings;
    let any = |random: &mut Random| {
        let cells = period * random.between(1, if period < 3 { 3 } else { 2 });
        let book = ring(recurring.iter().copied().cycle().take(cells).collect());
        let book = renumbered(random, &book);
        match random.one_in(3) {
            true => damaged(random, &book),
            false => book,
        }
    };
    (any(random), any(random))
}

/// Branches from one cell, a label each, that end at few cells, one of them after as many links as the bound: the recordings of
/// their ends recur, and no others do. The other book is the same but for one end.
fn branches(random: &mut Random, bound: usize) -> (Book, Book) {
    let ends = random.between(1, 3);
    let mut book = random_book(random, 1 + ends, 0, 1, 3);
    book.recordings[0] = 4;
    for label in 1..=random.between(2, 3) as u16 {
        let length = match label {
            1 => bound,
            _ => random.between(1, bound.max(1)),
        };
        let mut from = 0;
        for _ in 1..length {
            let cell = book.cells() as u8;
            book.recordings.push(cell as u32 + 4);
            book.links.push(link(from, label, cell));
            from = cell;
        }
        for _ in 0..random.pick(&[1, 2]) {
            let end = random.between(1, ends) as u8;
            book.links.push(link(from, label, end));
        }
    }
    let book = silenced(random, book);
    let mut other = book.clone();
    let end = random.between(1, ends) as u8;
    match random.below(4) {
        0 => {}
        1 => other.recordings[end as usize] = random.between(1, 3) as u32,
        _ => {
            let last: Vec<usize> = (0..book.links.len())
                .filter(|&place| (1..=ends).contains(&(book.links[place].to as usize)))
                .collect();
            other.links[random.pick(&last)].to = end;
        }
    }
    (renumbered(random, &book), renumbered(random, &other))
}

/// A cell with several followers by one label, which marks by other labels tell apart, and which lead to two cells that marks and
/// recordings tell apart. In the other book some lead elsewhere, or these two have their recordings exchanged: the cells on the way
/// decide.
fn forks(random: &mut Random, bound: usize) -> (Book, Book) {
    let followers = random.between(2, 3) as u8;
    let levels = random.between(1, bound.clamp(2, 4) - 1) as u8;
    // The first cell, the followers by level, two last cells, and one where marks lead.
    let last = 1 + levels * followers;
    let mut book = Book {
        recordings: vec![7; last as usize + 3],
        links: (1..=followers).map(|x| link(0, 1, x)).collect(),
    };
    book.recordings[0] = 5;
    book.recordings[last as usize] = 5;
    book.recordings[last as usize + 1] = random.pick(&[5, 6, 6]);
    let mut book = silenced(random, book);
    for x in 1..last + 2 {
        for label in 2..=random.pick(&[1, 2, 3]) {
            book.links.push(link(x, label, last + 2));
        }
    }
    let on = |random: &mut Random, x: u8| {
        let level = (x - 1) / followers + 1;
        match level == levels {
            true => last + random.below(2) as u8,
            false => 1 + level * followers + random.below(followers as usize) as u8,
        }
    };
    let mut other = book.clone();
    for x in 1..last {
        for _ in 0..random.pick(&[1, 1, 2]) {
            let to = on(random, x);
            book.links.push(link(x, 1, to));
            let to = if random.one_in(3) { on(random, x) } else { to };
            other.links.push(link(x, 1, to));
        }
    }
    if random.one_in(3) {
        other.recordings.swap(last as usize, last as usize + 1);
    }
    (renumbered(random, &book), renumbered(random, &other))
}

/// A book and one that offers more, often only by one link; sometimes the other way round.
fn grown_books(random: &mut Random, _: usize) -> (Book, Book) {
    let book = any_book(random, 2);
    let cells = random.pick(&[0, 0, 1, 2]);
    let links = random.between(1, 3);
    let other = grown(random, &book, cells, links);
    let other = renumbered(random, &other);
    match random.one_in(4) {
        true => (other, book),
        false => (book, other),
    }
}

/// Books of which parts, or cells, were put together.
fn joined_books(random: &mut Random, _: usize) -> (Book, Book) {
    let book = any_book(random, 2);
    let other = match random.below(3) {
        0 => {
            let more = any_book(random, 2);
            both(&book, &more)
        }
        1 => joined(random, &book),
        // Copies that are one again, by chance of the same cell.
        _ => {
            let copies = split(random, &book, 2, 3);
            joined(random, &copies)
        }
    };
    let other = renumbered(random, &other);
    either_way(random, book, other)
}
