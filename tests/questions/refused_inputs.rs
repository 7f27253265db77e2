//! Calls that are refused: each refusal of each part, together with every later one, and damaged books and sheets.

use crate::expected::Asked;
use crate::support::checks::check_sheet;
use crate::support::counts::{OF_BOOK, OF_SHEET};
use crate::support::hidden::{any_word, word_beyond, Hidden};
use crate::support::random::Random;
use crate::support::refusals::{beyond, book_refused, change_byte, or_none, sheet_refused};
use crate::tally::Tally;

pub fn all(tally: &mut Tally) {
    let random = &mut Random::new(4);
    truth(tally, random);
    claim(tally, random);
    numbers(tally, random);
    damaged(tally, random);
}

/// The field for the number of entries, as far as there is one.
fn entries(sheet: &[u8]) -> usize {
    match sheet {
        [_, _, _, _, _, _, high, low, ..] => u16::from_be_bytes([*high, *low]) as usize,
        _ => 0,
    }
}

/// Words with any values: fewer than the sheet has entries, or as many or more.
fn words(random: &mut Random, sheet: &[u8], few: bool) -> Vec<u64> {
    let q = entries(sheet);
    let count = match few {
        true if random.one_in(2) => q.saturating_sub(1),
        true => random.below(q.max(1)),
        false => q.min(100) + random.below(3),
    };
    (0..count).map(|_| random.next()).collect()
}

/// A word for the book that the header speaks of, as far as there is one: with a bit beyond the cells or without.
fn word(random: &mut Random, book: &[u8], beyond: bool) -> u64 {
    let cells = (*book.get(5).unwrap_or(&1)).clamp(1, 63) as usize;
    match beyond {
        true => word_beyond(random, cells),
        false => any_word(random, cells),
    }
}

/// Every refusal of the book with every refusal of the sheet, with and without 24 and 31.
fn truth(tally: &mut Tally, random: &mut Random) {
    for of_book in or_none(&OF_BOOK) {
        for of_sheet in or_none(&OF_SHEET) {
            for (few, beyond) in [(false, false), (true, false), (false, true), (true, true)] {
                for _ in 0..8 {
                    let book = book_refused(random, of_book);
                    let sheet = sheet_refused(random, of_sheet);
                    let words = words(random, &sheet, few);
                    let hidden = word(random, &book, beyond);
                    tally.truth(&book, hidden, &sheet, &words);
                }
            }
        }
    }
}

/// Every refusal of each book with every refusal of the sheet, with and without each of 24, 25 and 26, and of 31 of the left and the right.
fn claim(tally: &mut Tally, random: &mut Random) {
    for of_left in or_none(&OF_BOOK) {
        for of_right in or_none(&OF_BOOK) {
            for of_sheet in or_none(&OF_SHEET) {
                let accepted = of_left == 0 && of_right == 0 && of_sheet == 0;
                for round in 0..if accepted { 64 * 16 } else { 16 } {
                    // Bits beyond the cells of neither book, of the left, of the right, of both.
                    let beyond_cells = [16, 32].map(|bit| match accepted {
                        true => round & bit != 0,
                        false => random.one_in(2),
                    });
                    let left = book_refused(random, of_left);
                    let right = book_refused(random, of_right);
                    let sheet = sheet_refused(random, of_sheet);
                    let [few, far_entry, far_left, far_right] =
                        [1, 2, 4, 8].map(|bit| round & bit != 0);
                    let words = words(random, &sheet, few);
                    let hidden = Hidden {
                        left: word(random, &left, beyond_cells[0]),
                        right: word(random, &right, beyond_cells[1]),
                    };
                    let mut number = |count: Option<&u8>, far: bool| {
                        let count = (*count.unwrap_or(&1)).clamp(1, 64) as usize;
                        match far {
                            true => beyond(random, count),
                            false => random.below(count),
                        }
                    };
                    let asked = Asked {
                        left: &left,
                        right: &right,
                        hidden,
                        sheet: &sheet,
                        entry: number(sheet.get(7), far_entry),
                        left_cell: number(left.get(5), far_left),
                        right_cell: number(right.get(5), far_right),
                    };
                    tally.claim(asked, &words);
                }
            }
        }
    }
}

/// Entries and cells at their limits, in books of different sizes: a cell is judged in its own book.
fn numbers(tally: &mut Tally, random: &mut Random) {
    for _ in 0..400 {
        let left = book_refused(random, 0);
        let right = book_refused(random, 0);
        let sheet = sheet_refused(random, 0);
        let words = words(random, &sheet, false);
        let (n, m) = (left[5] as usize, right[5] as usize);
        let q = check_sheet(&sheet).first as usize;
        let asked = Asked {
            left: &left,
            right: &right,
            hidden: Hidden {
                left: any_word(random, n),
                right: any_word(random, m),
            },
            sheet: &sheet,
            entry: random.below(q),
            left_cell: random.below(n),
            right_cell: random.below(m),
        };
        // The last bit that may be set and the first that may not be, of either word: each is judged by its own book.
        for bit in [n - 1, n, m - 1, m, 63] {
            for [one, other] in [[1, 0], [0, 1], [1, 1]] {
                let hidden = Hidden {
                    left: one << bit,
                    right: other << bit,
                };
                tally.claim(Asked { hidden, ..asked }, &words);
                tally.truth(&left, hidden.left, &sheet, &words);
            }
        }
        for entry in [0, q - 1, q, usize::MAX] {
            tally.claim(Asked { entry, ..asked }, &words);
        }
        for left_cell in [0, n - 1, n, m - 1, m, usize::MAX] {
            tally.claim(Asked { left_cell, ..asked }, &words);
        }
        for right_cell in [0, m - 1, m, n - 1, n, usize::MAX] {
            tally.claim(
                Asked {
                    right_cell,
                    ..asked
                },
                &words,
            );
        }
    }
}

/// Books and sheets with one to three bytes changed, which may still be accepted.
fn damaged(tally: &mut Tally, random: &mut Random) {
    for _ in 0..6_000 {
        let mut left = book_refused(random, 0);
        let mut right = book_refused(random, 0);
        let mut sheet = sheet_refused(random, 0);
        for _ in 0..random.between(1, 3) {
            let bytes = match random.below(4) {
                0 => &mut left,
                1 => &mut right,
                _ => &mut sheet,
            };
            change_byte(random, bytes);
        }
        let few = random.one_in(8);
        let words = words(random, &sheet, few);
        let hidden = Hidden {
            left: word(random, &left, false),
            right: word(random, &right, false),
        };
        tally.truth(&left, hidden.left, &sheet, &words);
        let asked = Asked {
            left: &left,
            right: &right,
            hidden,
            sheet: &sheet,
            entry: random.below(4),
            left_cell: random.below(3),
            right_cell: random.below(3),
        };
        tally.claim(asked, &words);
    }
}
