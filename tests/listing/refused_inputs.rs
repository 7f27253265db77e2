//! Inputs that are refused, too large, cut, damaged or no books at all.

use crate::expected::{MOST_BYTES, MOST_CELLS};
use crate::inputs::{example, input};
use crate::program::Feed;
use crate::support::books::{book, example_a_left, example_a_right, random_book};
use crate::support::counts::OF_BOOK;
use crate::support::random::Random;
use crate::support::refusals::{book_refused, change_byte};
use crate::support::{changed, set_length};
use crate::tally::Tally;

pub fn all(tally: &mut Tally) {
    let random = &mut Random::new(10);
    by_hand(tally);
    bounds(tally, random);
    every_order(tally, random);
    cut(tally, random);
    damaged(tally, random);
    left_lengths(tally);
    too_many_cells(tally, random);
    too_many_bytes(tally, random);
    any_bytes(tally, random);
}

fn bare(cells: usize, version: u8) -> Vec<u8> {
    book(&vec![0; cells], &[]).bytes(version)
}

/// Lines found by hand.
fn by_hand(tally: &mut Tally) {
    let example = example();
    let mut expect = |input: &[u8], line: &str| tally.expect(input, &format!("{line}\n"));
    expect(&[], "refused 20");
    expect(&changed(&example, &[(0, 5)]), "refused 20");
    expect(&example[..1], "refused left 1");
    expect(&example[..4], "refused left 1");
    expect(&example[..26], "refused left 2");
    expect(&example[..27], "refused right 1");
    expect(&example[..45], "refused right 2");
    expect(&changed(&example, &[(5, 3)]), "refused left 3");
    expect(&changed(&example, &[(31, 3)]), "refused right 3");
    expect(&changed(&example, &[(5, 0), (31, 255)]), "refused left 3");
    expect(&changed(&example, &[(5, 2)]), "refused left 5"); // of a length of version 1
    expect(&changed(&example, &[(31, 2)]), "refused right 5");
    expect(&changed(&example, &[(4, 7)]), "refused left 1"); // the length field
    expect(&[&example[..], &[0]].concat(), "refused right 2");
    expect(&[255; MOST_BYTES], "refused 20");
    expect(&[255; MOST_BYTES + 1], "too large");
    expect(&[255; 100_000], "too large");
    expect(&[0; MOST_BYTES], "refused left 1");
    expect(&[0; MOST_BYTES + 1], "too large");
    let (most, more) = (bare(MOST_CELLS, 2), bare(MOST_CELLS + 1, 1));
    expect(&input(1, &more, &most), "too large");
    expect(&input(1, &most, &more), "too large");
    expect(&input(1, &more, &most[..7]), "refused right 1");
    expect(&input(5, &more, &more), "refused 20");
}

/// Every byte c: before two books, before refused ones, and alone.
fn bounds(tally: &mut Tally, random: &mut Random) {
    let example = example();
    for bound in 0..=255 {
        tally.agree(&changed(&example, &[(0, bound)]));
        let refusal = random.pick(&OF_BOOK);
        let left = book_refused(random, refusal);
        tally.agree(&input(bound, &left, &example[27..]));
        tally.agree(&[bound]);
    }
}

/// Every refusal of the left book with every refusal of the right one.
fn every_order(tally: &mut Tally, random: &mut Random) {
    let answers = [&[0], &OF_BOOK[..]].concat();
    for &of_left in &answers {
        for &of_right in &answers {
            for bound in [0, 1, 2, 3, 4, 5] {
                let left = book_refused(random, of_left);
                let right = book_refused(random, of_right);
                tally.agree(&input(bound, &left, &right));
            }
        }
    }
}

/// Inputs cut to every shorter length.
fn cut(tally: &mut Tally, random: &mut Random) {
    for round in 0..6 {
        let whole = match round {
            0 => example(),
            _ => input(
                round - 1,
                &book_refused(random, 0),
                &book_refused(random, 0),
            ),
        };
        for length in 0..whole.len() {
            tally.agree(&whole[..length]);
        }
    }
}

/// P1's input with each byte changed, and two books with one to three bytes changed.
fn damaged(tally: &mut Tally, random: &mut Random) {
    let example = example();
    for place in 0..example.len() {
        let byte = example[place];
        for value in [0, 1, 2, 255, byte.wrapping_add(1), byte.wrapping_sub(1)] {
            tally.agree(&changed(&example, &[(place, value)]));
        }
    }
    for round in 0..600 {
        let mut left = book_refused(random, 0);
        let mut right = book_refused(random, 0);
        for _ in 0..random.between(1, 3) {
            let book = if random.one_in(2) {
                &mut left
            } else {
                &mut right
            };
            change_byte(random, book);
        }
        // More bounds are small, since a book's cells may have many ways.
        tally.agree(&input([0, 1, 2, 1, 5][round % 5], &left, &right));
    }
}

/// Length fields of the left book that say more or fewer bytes than it has, or than there are.
fn left_lengths(tally: &mut Tally) {
    let (left, right) = (example_a_left().bytes(2), example_a_right().bytes(1));
    let rest = (left.len() + right.len()) as u32;
    for length in (0..rest + 4).chain([255, 256, 1 << 16, 1 << 24, 1 << 31, u32::MAX]) {
        let mut left = left.clone();
        left[..4].copy_from_slice(&length.to_be_bytes());
        tally.agree(&input(1, &left, &right));
    }
    // Only bytes of the field, and none after it.
    for count in 0..4 {
        tally.agree(&[&[1], &[0; 4][..count]].concat());
        tally.agree(&[&[1], &[255; 4][..count]].concat());
    }
    for length in [0, 3, 4, 5, 8] {
        tally.agree(&[1, 0, 0, 0, length]);
    }
}

/// A book of 33 to 64 cells, on either side or both, beside accepted and refused books.
fn too_many_cells(tally: &mut Tally, random: &mut Random) {
    for cells in MOST_CELLS + 1..=64 {
        let links = random.between(0, 2 * cells);
        let wide = random_book(random, cells, links, 2, 4).any_bytes(random);
        let bound = random.below(5) as u8;
        for others in [1, 2, 31, 32, 33, 64] {
            let other = random_book(random, others, 0, 1, 3).any_bytes(random);
            tally.agree(&input(bound, &wide, &other));
            tally.agree(&input(bound, &other, &wide));
        }
        tally.agree(&input(bound, &wide, &wide));
        let refusal = random.pick(&OF_BOOK);
        let other = book_refused(random, refusal);
        tally.agree(&input(bound, &wide, &other));
        tally.agree(&input(bound, &other, &wide));
    }
}

/// Inputs of 8,192 bytes, of fewer and of more: by length fields that say so, and of a right book that goes on.
fn too_many_bytes(tally: &mut Tally, random: &mut Random) {
    let left = example_a_left().bytes(2);
    let lengths = [
        8_189, 8_190, 8_191, 8_192, 8_193, 8_194, 8_195, 8_196, 8_200, 9_000,
    ];
    let long = [16_384, 16_385, 65_536, 65_537, 200_000];
    for length in lengths.into_iter().chain(long) {
        for bound in [0, 1, 2, 3, 4, 5, 6, 255] {
            // The left book goes on to the end, and says so.
            let mut whole = left.clone();
            whole.resize(length - 1, 0);
            set_length(&mut whole);
            tally.agree(&input(bound, &whole, &[]));
            // The right book goes on, and says so or not.
            let mut right = example_a_right().bytes(1);
            right.resize(length - 1 - left.len(), 0);
            tally.agree(&input(bound, &left, &right));
            set_length(&mut right);
            tally.agree(&input(bound, &left, &right));
            let any = (1..length).map(|_| random.byte()).collect::<Vec<u8>>();
            tally.agree(&input(bound, &any, &[]));
        }
        let any = input(1, &left, &vec![1; length - 1 - left.len()]);
        for size in [511, 4_096, 8_192, 8_193] {
            tally.agree_fed(&any, Feed::Pieces(vec![size]));
        }
        tally.agree_fed(&any, Feed::File);
    }
    for length in [8_192, 8_193] {
        tally.agree_fed(&vec![4; length], Feed::Pieces(vec![1, 63, 64, 65]));
    }
}

/// Random bytes.
fn any_bytes(tally: &mut Tally, random: &mut Random) {
    for _ in 0..300 {
        let most = random.pick(&[8, 30, 100, 2_000]);
        let mut bytes: Vec<u8> = (0..random.below(most)).map(|_| random.byte()).collect();
        if let (true, Some(bound)) = (random.one_in(2), bytes.first_mut()) {
            *bound %= 5;
        }
        tally.agree(&bytes);
    }
}
