//! Pairs of small books whose questions are searched, in both forms.

use crate::support::books::{
    book, chain, link, marked_ring, most_links, random_book, ring, silenced, Book,
};
use crate::support::hidden::{disguised, worded, Masked};
use crate::support::random::Random;
use crate::support::remade::{any_labels, damaged, grown, joined, renumbered, split};
use crate::tally::Tally;

/// How many pairs of books are drawn at each bound.
const DRAWN: usize = 3_200;

/// The bounds.
pub const BOUNDS: usize = 3;

pub fn all(tally: &mut Tally) {
    let random = &mut Random::new(18);
    let masks = &mut Random::new(22);
    every_small(tally);
    rings(tally);
    for bound in 0..BOUNDS {
        for _ in 0..DRAWN {
            let books = drawn(random).map(|book| any_mask(masks, &book));
            tally.check(&books, bound);
        }
    }
}

/// The book as it is, among further cells that are hidden, or with any word.
fn any_mask(random: &mut Random, book: &Book) -> Masked {
    match random.below(8) {
        0..=2 => Masked::open(book),
        3 => worded(random, book),
        _ => disguised(random, book),
    }
}

/// Every two books of two cells and one label: with one recording, with two, with a silent cell. Nothing is hidden, and once more at one bound
/// something is.
fn every_small(tally: &mut Tally) {
    let mut books = Vec::new();
    for recordings in [[5, 5], [5, 6], [5, 0]] {
        let links = [link(0, 1, 0), link(0, 1, 1), link(1, 1, 0), link(1, 1, 1)];
        for chosen in 0..1 << links.len() {
            let there = (0..links.len()).filter(|place| chosen >> place & 1 == 1);
            let there: Vec<_> = there.map(|place| links[place]).collect();
            books.push(book(&recordings, &there));
        }
    }
    let mut words = 1;
    for left in &books {
        for right in &books {
            for bound in 0..BOUNDS {
                tally.check(&[Masked::open(left), Masked::open(right)], bound);
            }
            let masks = [(left, words % 4), (right, words / 4)];
            let masks = masks.map(|(book, hidden)| Masked {
                book: book.clone(),
                hidden,
            });
            tally.check(&masks, 1);
            words = words % 15 + 1; // of both not 0
        }
    }
}

/// One-way these part one pair a round: the depths are 1 to 6, and 1 to 12.
fn rings(tally: &mut Tally) {
    for cells in [2, 3] {
        let one = marked_ring(cells, |x| x == 0);
        let others = marked_ring(cells + 1, |x| x != 0);
        for bound in 0..BOUNDS {
            tally.check(&[Masked::open(&one), Masked::open(&others)], bound);
        }
    }
}

/// Two books of 2 to 4 cells: the second any, or much like the first.
fn drawn(random: &mut Random) -> [Book; 2] {
    loop {
        let left = any_book(random);
        let right = match random.below(6) {
            0 => any_book(random),
            1 => damaged(random, &left),
            2 => {
                let links = random.between(1, 2);
                grown(random, &left, 0, links)
            }
            3 => joined(random, &left),
            4 => split(random, &left, 1, 2),
            _ => {
                let other = damaged(random, &left);
                damaged(random, &other)
            }
        };
        let right = renumbered(random, &right);
        if (2..=4).contains(&right.cells()) {
            return any_labels(random, [left, right]);
        }
    }
}

fn any_book(random: &mut Random) -> Book {
    let cells = random.between(2, 4);
    let kinds = random.pick(&[1, 1, 1, 2, 3]);
    let recordings = random_book(random, cells, 0, 1, kinds).recordings;
    let book = match random.below(4) {
        0 => chain(recordings, |_| 1),
        1 => ring(recordings),
        _ => {
            let labels = random.between(1, 2);
            let links = random.between(1, most_links(cells, labels).min(cells + 2));
            random_book(random, cells, links, labels, kinds)
        }
    };
    match random.one_in(2) {
        true => silenced(random, book),
        false => book,
    }
}
