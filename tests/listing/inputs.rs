//! Inputs that are listed.

use crate::expected::MOST_CELLS;
use crate::program::Feed;
use crate::support::books::{
    chain, example_a_left, example_a_right, link, most_links, random_book, ring, Book,
};
use crate::support::partners::most_ways;
use crate::support::random::Random;
use crate::support::remade::{renumbered, split};
use crate::support::shapes::{draw, SHAPES};
use crate::support::versions::MIXES;
use crate::tally::Tally;

/// How many pairs of books of each shape at each bound.
const DRAWN: usize = 40;

pub fn all(tally: &mut Tally) {
    let random = &mut Random::new(9);
    examples(tally);
    pieces(tally);
    by_shape(tally, random);
    sizes(tally, random);
    large(tally, random);
}

/// The byte c and two books.
pub fn input(bound: u8, left: &[u8], right: &[u8]) -> Vec<u8> {
    [&[bound], left, right].concat()
}

/// The byte c and two books of any versions.
fn of_books(random: &mut Random, bound: usize, left: &Book, right: &Book) -> Vec<u8> {
    let (left, right) = (left.any_bytes(random), right.any_bytes(random));
    input(bound as u8, &left, &right)
}

/// Document 01, P1's input.
pub fn example() -> Vec<u8> {
    input(1, &example_a_left().bytes(1), &example_a_right().bytes(1))
}

/// The listing of these words, a row each, for a right book of m cells.
fn listing(bound: usize, m: usize, words: &[u64]) -> String {
    let mut text = format!("books {} {m} bound {bound}\n", words.len());
    let mut matched = 0;
    for (row, word) in words.iter().enumerate() {
        let count = word.count_ones() as usize;
        text += &format!("row {row} count {count} word {word}\n");
        matched += count;
    }
    let parted = words.len() * m - matched;
    text + &format!("matched {matched} parted {parted}\n")
}

/// Document 01, P1 to P8, with all pairs of cells, and the widest row: in every mix of versions.
fn examples(tally: &mut Tally) {
    let (a, b) = (example_a_left(), example_a_right());
    let three = |last| chain(vec![5, 6, last], |_| 1);
    let bare = |recordings: &[u32]| Book {
        recordings: recordings.to_vec(),
        links: vec![],
    };
    let looping = ring(vec![5]);
    let mut expect = |bound, left: &Book, right: &Book, words: &[u64]| {
        let text = listing(bound, right.cells(), words);
        for [one, other] in MIXES {
            let input = input(bound as u8, &left.bytes(one), &right.bytes(other));
            tally.expect(&input, &text);
        }
    };
    expect(1, &a, &b, &[0, 2, 2]);
    expect(0, &a, &b, &[1, 2, 2]);
    for bound in 0..=4 {
        expect(bound, &bare(&[5]), &bare(&[9]), &[1]);
    }
    expect(1, &three(5), &three(7), &[1, 2, 4]);
    expect(2, &three(5), &three(7), &[0, 2, 4]);
    expect(4, &looping, &ring(vec![5, 5]), &[3]);
    expect(1, &looping, &ring(vec![5, 6]), &[0]);
    expect(0, &looping, &ring(vec![5, 6]), &[3]);
    expect(1, &bare(&[0; 2]), &bare(&[0; 32]), &[0xffff_ffff; 2]);
    let whole = "books 3 2 bound 1\nrow 0 count 0 word 0\nrow 1 count 1 word 2\nrow 2 count 1 word 2\nmatched 2 parted 4\n";
    tally.expect(&example(), whole);
}

/// P1's input cut in two at each place, and in pieces of each size.
fn pieces(tally: &mut Tally) {
    let input = example();
    for first in 1..input.len() {
        tally.agree_fed(&input, Feed::Pieces(vec![first, input.len()]));
        tally.agree_fed(&input, Feed::Pieces(vec![first]));
    }
}

/// Books of each shape at each bound.
fn by_shape(tally: &mut Tally, random: &mut Random) {
    for shape in &SHAPES {
        for bound in 0..=4 {
            for _ in 0..DRAWN {
                let (left, right) = draw(random, shape, bound);
                tally.agree(&of_books(random, bound, &left, &right));
            }
        }
    }
}

/// A book of so many cells, of few ways.
fn sparse(random: &mut Random, cells: usize, bound: usize) -> Book {
    loop {
        let links = random.between(0, (2 * cells).min(most_links(cells, 2)));
        let kinds = random.pick(&[1, 2, 3, cells]);
        let book = random_book(random, cells, links, 2, kinds);
        if most_ways(&book, bound) <= 40 {
            return book;
        }
    }
}

/// Every number of cells from 1 to 32, on either side, beside few, as many and the most.
fn sizes(tally: &mut Tally, random: &mut Random) {
    for cells in 1..=MOST_CELLS {
        for (turn, others) in [1, 2, cells, MOST_CELLS].into_iter().enumerate() {
            let bound = (cells + turn) % 5;
            let one = sparse(random, cells, bound);
            let other = sparse(random, others, bound);
            tally.agree(&of_books(random, bound, &one, &other));
            tally.agree(&of_books(random, bound, &other, &one));
        }
    }
}

/// 32 cells on both sides: all matched, all parted, each with one partner, and each split.
fn large(tally: &mut Tally, random: &mut Random) {
    let bare = random_book(random, MOST_CELLS, 0, 1, 3);
    let mut looping = bare.clone();
    looping.links = (0..MOST_CELLS as u8).map(|x| link(x, 255, x)).collect();
    let long = chain((0..MOST_CELLS as u32).collect(), |_| 1);
    let half = random_book(random, MOST_CELLS / 2, 20, 3, 4);
    // The most links.
    let full = random_book(random, MOST_CELLS, 512, 65_536, 4);
    for bound in 0..=1 {
        let other = renumbered(random, &full);
        tally.agree(&of_books(random, bound, &full, &other));
    }
    for bound in 0..=4 {
        let none = listing(bound, MOST_CELLS, &[0; MOST_CELLS]);
        tally.expect(&of_books(random, bound, &bare, &looping), &none);
        let every = listing(bound, MOST_CELLS, &[0xffff_ffff; MOST_CELLS]);
        tally.expect(&of_books(random, bound, &bare, &bare), &every);
        let own: Vec<u64> = (0..MOST_CELLS).map(|i| 1 << i).collect();
        let own = listing(bound, MOST_CELLS, &own);
        tally.expect(&of_books(random, bound, &long, &long), &own);
        let other = renumbered(random, &long);
        tally.agree(&of_books(random, bound, &long, &other));
        let other = split(random, &half, MOST_CELLS / 2, 3);
        if most_ways(&half, bound).max(most_ways(&other, bound)) <= 60 {
            tally.agree(&of_books(random, bound, &half, &other));
        }
    }
}
