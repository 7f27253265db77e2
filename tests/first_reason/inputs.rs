//! Pairs of small books that are compared.

use crate::support::books::{book, link, Book};
use crate::support::hidden::{masked, Masked};
use crate::support::random::Random;
use crate::support::shapes::{draw, SHAPES};
use crate::support::sides::{Sides, FORMS};
use crate::tally::Tally;

/// How many pairs of books of each shape at each bound. Every third is compared one-way.
const DRAWN: usize = 2_000;

pub fn all(tally: &mut Tally) {
    let random = &mut Random::new(15);
    every_small(tally);
    by_shape(tally, random);
}

/// Every two books of one or two cells and one label, some or all of them silent, with nothing hidden and with every two words.
fn every_small(tally: &mut Tally) {
    let mut books = Vec::new();
    for recordings in [&[5][..], &[0], &[5, 5], &[5, 6], &[5, 0], &[0, 0]] {
        let cells = recordings.len() as u8;
        let ends = (0..cells).flat_map(|x| (0..cells).map(move |y| (x, y)));
        let links: Vec<_> = ends.map(|(x, y)| link(x, 1, y)).collect();
        for chosen in 0..1 << links.len() {
            let there = (0..links.len()).filter(|place| chosen >> place & 1 == 1);
            let there: Vec<_> = there.map(|place| links[place]).collect();
            books.push(book(recordings, &there));
        }
    }
    for left in &books {
        for right in &books {
            for bound in 0..=4 {
                for sides in FORMS {
                    tally.compare(sides, &Masked::open(left), &Masked::open(right), bound);
                }
            }
            every_word(tally, left, right);
        }
    }
}

/// Every two words for these books but that nothing is hidden of both, at one bound, by turns in one form and in the other.
fn every_word(tally: &mut Tally, left: &Book, right: &Book) {
    let (of_left, of_right) = (1 << left.cells(), 1 << right.cells());
    for words in 1..of_left * of_right {
        let mask = |book: &Book, hidden: u64| Masked {
            book: book.clone(),
            hidden,
        };
        let left = mask(left, words % of_left);
        let right = mask(right, words / of_left);
        tally.compare(FORMS[(words % 2) as usize], &left, &right, 1);
    }
}

/// Books of every shape: any, and made from one another, with some cells hidden or not.
fn by_shape(tally: &mut Tally, random: &mut Random) {
    let masks = &mut Random::new(21);
    for shape in &SHAPES {
        for bound in 0..=4 {
            for round in 0..DRAWN {
                let (left, right) = draw(random, shape, bound);
                let [left, right] = [left, right].map(|book| masked(masks, &book));
                let sides = match round % 3 {
                    0 => Sides::One,
                    _ => Sides::Two,
                };
                match round % 20 {
                    0 => tally.every_mix(sides, &left, &right, bound),
                    _ => tally.compare(sides, &left, &right, bound),
                };
            }
        }
    }
}
