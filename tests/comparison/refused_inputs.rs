//! Calls that are refused: each refusal of each book, with and without each of 20 to 23 and 31 of either book, and damaged books.

use crate::expected::Asked;
use crate::support::counts::OF_BOOK;
use crate::support::hidden::{any_word, word_beyond, Hidden, NOTHING};
use crate::support::library::needed;
use crate::support::random::Random;
use crate::support::refusals::{book_refused, change_byte};
use crate::support::shapes::OTHERS;
use crate::support::sides::{Sides, FORMS};
use crate::support::versions::written_version;
use crate::tally::Tally;

/// Asks both forms.
fn ask(tally: &mut Tally, asked: Asked) {
    for sides in FORMS {
        tally.compare(Asked { sides, ..asked }, OTHERS, usize::MAX);
    }
}

pub fn all(tally: &mut Tally) {
    let random = &mut Random::new(6);
    every_order(tally, random);
    lengths(tally, random);
    damaged(tally, random);
}

/// What is needed for the pairs and versions that the headers speak of, as far as there are headers.
fn needed_by(left: &[u8], right: &[u8]) -> (usize, usize, usize) {
    let version = |book: &[u8]| *book.get(4).unwrap_or(&1);
    let cells = |book: &[u8]| (*book.get(5).unwrap_or(&1)).clamp(1, 8) as usize;
    let version = written_version(version(left), version(right));
    needed(cells(left) * cells(right), version)
}

/// A bound that is too large: just so, or one of which the low bits are not.
fn beyond(random: &mut Random) -> usize {
    let low = random.below(5);
    random.pick(&[
        5,
        6,
        64,
        255,
        256 + low,
        65_536 + low,
        (1 << 32) + low,
        (1 << 63) + low,
        usize::MAX,
        usize::MAX - low,
    ])
}

/// Words for the books that the headers speak of, as far as there are headers: with bits beyond the cells or without.
fn words(random: &mut Random, books: [&[u8]; 2], beyond: [bool; 2]) -> Hidden {
    let mut word = |side: usize| {
        let cells = (*books[side].get(5).unwrap_or(&1)).clamp(1, 63) as usize;
        match beyond[side] {
            true => word_beyond(random, cells),
            false => any_word(random, cells),
        }
    };
    Hidden {
        left: word(0),
        right: word(1),
    }
}

/// Every refusal of the left book with every refusal of the right one, with and without each of 20, 21, 22 and 23 and of 31 of the left and
/// the right.
fn every_order(tally: &mut Tally, random: &mut Random) {
    for of_left in [&[0], &OF_BOOK[..]].concat() {
        for of_right in [&[0], &OF_BOOK[..]].concat() {
            let accepted = of_left == 0 && of_right == 0;
            for round in 0..if accepted { 64 * 16 } else { 64 } {
                let left = book_refused(random, of_left);
                let right = book_refused(random, of_right);
                let [far, other_map, little_room, little_scratch] =
                    [1, 2, 4, 8].map(|bit| round & bit != 0);
                let beyond_cells = [16, 32].map(|bit| round & bit != 0);
                let hidden = words(random, [&left, &right], beyond_cells);
                let (map, room, scratch) = needed_by(&left, &right);
                let below = |random: &mut Random, count: usize| match random.below(3) {
                    0 => count - 1,
                    1 => 0,
                    _ => random.below(count),
                };
                let asked = Asked {
                    sides: Sides::Two,
                    left: &left,
                    right: &right,
                    bound: if far { beyond(random) } else { random.below(3) },
                    hidden,
                    map: match other_map {
                        false => map,
                        true if random.one_in(2) => map + random.pick(&[1, 2, map, 256]),
                        true => below(random, map),
                    },
                    room: match little_room {
                        false => room + random.pick(&[0, 0, 1, 50]),
                        true => below(random, room),
                    },
                    scratch: match little_scratch {
                        false => scratch + random.pick(&[0, 0, 1, 50]),
                        true => below(random, scratch),
                    },
                };
                ask(tally, asked);
            }
        }
    }
}

/// What two books need exactly, and one more or fewer of each.
fn lengths(tally: &mut Tally, random: &mut Random) {
    for round in 0..60 {
        let left = book_refused(random, 0);
        let right = book_refused(random, 0);
        let (map, room, scratch) = needed_by(&left, &right);
        let asked = Asked {
            sides: Sides::Two,
            left: &left,
            right: &right,
            bound: round % 3,
            hidden: NOTHING,
            map,
            room,
            scratch,
        };
        let mut compare = |asked| ask(tally, asked);
        compare(asked);
        for map in [map - 1, map + 1] {
            compare(Asked { map, ..asked });
        }
        compare(Asked {
            room: room - 1,
            ..asked
        });
        compare(Asked {
            scratch: scratch - 1,
            ..asked
        });
        for bound in [5, 256, usize::MAX] {
            compare(Asked { bound, ..asked });
        }
        // The last bit that may be set and the first that may not be, of either word: each is judged by its own book.
        let (n, m) = (left[5] as usize, right[5] as usize);
        for bit in [n - 1, n, m - 1, m, 63] {
            for [one, other] in [[1, 0], [0, 1], [1, 1]] {
                let hidden = Hidden {
                    left: one << bit,
                    right: other << bit,
                };
                compare(Asked { hidden, ..asked });
            }
        }
    }
}

/// Books with one to three bytes changed, which may still be accepted.
fn damaged(tally: &mut Tally, random: &mut Random) {
    for _ in 0..3_000 {
        let mut left = book_refused(random, 0);
        let mut right = book_refused(random, 0);
        for _ in 0..random.between(1, 3) {
            let bytes = match random.below(2) {
                0 => &mut left,
                _ => &mut right,
            };
            change_byte(random, bytes);
        }
        let (map, room, scratch) = needed_by(&left, &right);
        let hidden = words(random, [&left, &right], [false; 2]);
        let asked = Asked {
            sides: Sides::Two,
            left: &left,
            right: &right,
            bound: random.below(3),
            hidden,
            map,
            room,
            scratch,
        };
        ask(tally, asked);
    }
}
