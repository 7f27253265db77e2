//! Maps, sheets and books, accepted and refused.

use crate::support::books::{book, example_a_left, link, most_links, random_book};
use crate::support::counts::{OF_BOOK, OF_SHEET};
use crate::support::outcome::{accepted, refused, CALL, SHEET};
use crate::support::random::Random;
use crate::support::refusals::{book_refused, sheet_refused};
use crate::support::remade::any_labels;
use crate::support::sheets::{random_sheet, step, Entry, Sheet};
use crate::support::versions::{all_labels, VERSIONS};
use crate::tally::Tally;

const MOST_ENTRIES: usize = 16_385;

pub fn all(tally: &mut Tally) {
    let random = &mut Random::new(5);
    rows_by_hand(tally);
    rows(tally, random);
    rows_beyond(tally, random);
    pairs_by_hand(tally);
    pairs(tally, random);
    pairs_refused(tally, random);
    pairs_of_most_entries(tally, random);
    links_by_hand(tally);
    links(tally, random);
    links_refused(tally, random);
}

/// A number that an operation may be given: small, at a power of 2, near one, or near the most.
fn any_number(random: &mut Random) -> usize {
    let near = random.below(4);
    match random.below(4) {
        0 => random.below(70),
        1 => usize::MAX - random.below(70),
        2 => (1 << random.below(64)) + near,
        _ => (1 << random.below(64)) - near.min(1),
    }
}

/// A map of so many places: some 0 or all, some hidden, the others small numbers or any.
fn any_map(random: &mut Random, length: usize) -> Vec<u16> {
    let zero = random.pick(&[1, 2, 2, 4, 100]);
    let most = random.pick(&[1, 2, 300, 65_535]);
    (0..length)
        .map(|_| {
            if random.one_in(zero) {
                0
            } else if random.one_in(8) {
                65_535
            } else {
                random.between(1, most) as u16
            }
        })
        .collect()
}

/// Document 01, P1: the rows of example A at bound 1, and refusals found by hand.
fn rows_by_hand(tally: &mut Tally) {
    let map = [1, 2, 3, 0, 4, 0];
    let refusal = |number| refused(CALL, number);
    tally.expect_row(&map, 2, 0, accepted(0, 0), 0);
    tally.expect_row(&map, 2, 1, accepted(1, 0), 2);
    tally.expect_row(&map, 2, 2, accepted(1, 0), 2);
    tally.expect_row(&map, 2, 3, refusal(26), 0);
    tally.expect_row(&map, 6, 0, accepted(2, 0), 0b101000);
    tally.expect_row(&map, 7, 0, refusal(26), 0);
    tally.expect_row(&map, 4, 0, accepted(1, 0), 0b1000);
    tally.expect_row(&map, 4, 1, refusal(26), 0); // partly in the map
    tally.expect_row(&map, 0, 0, refusal(27), 0);
    tally.expect_row(&map, 0, usize::MAX, refusal(27), 0);
    tally.expect_row(&map, 65, 0, refusal(27), 0); // before 26
    tally.expect_row(&map, usize::MAX, usize::MAX, refusal(27), 0);
    tally.expect_row(&map, 2, usize::MAX, refusal(26), 0);
    tally.expect_row(&map, 2, usize::MAX / 2 + 1, refusal(26), 0); // i × m is 2^64
    tally.expect_row(&map, 1, usize::MAX, refusal(26), 0); // i + 1 is 2^64
    tally.expect_row(&[], 1, 0, refusal(26), 0);
    tally.expect_row(&[], 0, 0, refusal(27), 0);
    tally.expect_row(&[0; 64], 64, 0, accepted(64, 0), u64::MAX);
    tally.expect_row(&[1; 64], 64, 0, accepted(0, 0), 0);
    // Places with a hidden cell are not 0.
    tally.expect_row(&[0, 65_535, 0, 65_535], 4, 0, accepted(2, 0), 0b101);
    tally.expect_row(&[65_535; 64], 64, 0, accepted(0, 0), 0);
    tally.expect_row(&[0; 65], 65, 0, refusal(27), 0);
}

/// Every row of maps of n × m places, the first row beyond, and rows of maps that are a little shorter or longer.
fn rows(tally: &mut Tally, random: &mut Random) {
    for m in 1..=64 {
        for _ in 0..12 {
            let n = random.between(0, 8);
            let length = (n * m + random.between(0, 2)).saturating_sub(random.between(0, 2));
            let map = any_map(random, length);
            for i in 0..=n + 1 {
                tally.row(&map, m, i);
            }
        }
    }
    // The most places.
    let map = any_map(random, 64 * 64);
    for i in 0..=64 {
        tally.row(&map, 64, i);
    }
}

/// Any m and i, however large, with maps of any length.
fn rows_beyond(tally: &mut Tally, random: &mut Random) {
    for _ in 0..20_000 {
        let length = random.pick(&[0, 1, 2, 63, 64, 65, 130]);
        let map = any_map(random, length);
        let (m, i) = (any_number(random), any_number(random));
        tally.row(&map, m, i);
        tally.row(&map, m, i % 4);
        let m = random.between(0, 66);
        tally.row(&map, m, i);
        // i × m is near a multiple of 2^64, so that a product cut to 64 bits is small.
        let around = (1u128 << 64) * random.between(1, 3) as u128 / m.max(1) as u128;
        tally.row(&map, m, (around as usize).wrapping_add(random.below(3)));
        tally.row(&map, m, (around as usize).wrapping_sub(random.below(3)));
    }
}

/// Document 01's question for example A at bound 1, and refusals found by hand. A step is one byte longer in version 2.
fn pairs_by_hand(tally: &mut Tally) {
    for (version, second) in [(1, 17), (2, 18)] {
        pairs_of_version(tally, version, second);
    }
}

/// Entry 2 of this version starts at this byte.
fn pairs_of_version(tally: &mut Tally, version: u8, second: u32) {
    let sheet = Sheet {
        bound: 1,
        entries: vec![
            Entry::True,
            Entry::Differ(vec![], vec![step(1, 0)]),
            Entry::Not(1),
        ],
    }
    .bytes(version);
    let map = [1, 2, 0, 3, 65_535, 65_534, 32_767];
    tally.expect_pair(&map, 0, &sheet, accepted(1, 10));
    tally.expect_pair(&map, 1, &sheet, accepted(2, second));
    tally.expect_pair(&map, 2, &sheet, accepted(0, 0));
    tally.expect_pair(&map, 3, &sheet, refused(CALL, 25));
    tally.expect_pair(&map, 4, &sheet, accepted(65_535, 0)); // hidden
    tally.expect_pair(&map, 5, &sheet, refused(CALL, 25));
    tally.expect_pair(&map, 6, &sheet, refused(CALL, 25));
    tally.expect_pair(&map, 7, &sheet, refused(CALL, 26));
    tally.expect_pair(&map, usize::MAX, &sheet, refused(CALL, 26));
    tally.expect_pair(&[], 0, &sheet, refused(CALL, 26));
    // The sheet's refusal comes first, also where the pair is matched or hidden.
    tally.expect_pair(&map, 2, &sheet[..7], refused(SHEET, 1));
    tally.expect_pair(&map, 4, &sheet[..7], refused(SHEET, 1));
    tally.expect_pair(&map, 7, &sheet[..20], refused(SHEET, 2));
}

/// Every place of a map, the first beyond and any, with numbers at and beyond q.
fn pairs(tally: &mut Tally, random: &mut Random) {
    for _ in 0..3_000 {
        let bound = random.between(0, 4) as u8;
        let q = random.pick(&[1, 2, 3, 10, 40, 255, 256, 257]);
        let longest = random.pick(&[1, 4, 60]);
        let labels = random.pick(&VERSIONS.map(all_labels));
        let sheet = random_sheet(random, bound, q, longest, labels).any_bytes(random);
        let length = random.between(0, 12);
        let map: Vec<u16> = (0..length)
            .map(|_| {
                let any = random.next() as usize;
                let below = random.below(q);
                random.pick(&[
                    0,
                    below,
                    below,
                    below,
                    q - 1,
                    q,
                    q + 1,
                    256 + below,
                    any,
                    65_535,
                    65_535,
                ]) as u16
            })
            .collect();
        for place in 0..=length {
            tally.pair(&map, place, &sheet);
        }
        tally.pair(&map, any_number(random), &sheet);
        // The low bits of a place outside are those of one in the map.
        for high in [1 << 8, 1 << 16, 1 << 32, 1 << 63] {
            tally.pair(&map, high + random.below(12), &sheet);
        }
    }
}

/// Every refusal of the sheet, at places that are matched, parted, without an entry, and outside; and damaged sheets.
fn pairs_refused(tally: &mut Tally, random: &mut Random) {
    let map = [0, 1, 7, 65_535];
    for round in 0..200 {
        for refusal in OF_SHEET {
            let sheet = sheet_refused(random, refusal);
            tally.pair(&map, round % 6, &sheet);
        }
        for _ in 0..20 {
            let mut sheet = sheet_refused(random, 0);
            let place = random.below(sheet.len());
            sheet[place] = random.pick(&[0, 1, 2, 255, sheet[place].wrapping_add(1)]);
            tally.pair(&map, round % 6, &sheet);
        }
    }
}

/// The longest sheet: each entry but the first is the longest that there is.
fn pairs_of_most_entries(tally: &mut Tally, random: &mut Random) {
    let longest = |number: usize| match number {
        0 => Entry::True,
        _ => Entry::Way(vec![step(255, number as u16 - 1); 60]),
    };
    let sheet = Sheet {
        bound: 4,
        entries: (0..MOST_ENTRIES).map(longest).collect(),
    };
    let mut map = vec![
        0, 1, 2, 255, 256, 257, 16_383, 16_384, 16_385, 16_386, 32_768, 65_535,
    ];
    map.extend((0..12).map(|_| random.below(MOST_ENTRIES) as u16));
    for sheet in VERSIONS.map(|version| sheet.bytes(version)) {
        for place in 0..=map.len() {
            tally.pair(&map, place, &sheet);
        }
    }
}

/// Document 01, example A, and a cell between two that have links.
fn links_by_hand(tally: &mut Tally) {
    for (version, of_first) in [(1, &[0, 1, 1, 0, 1, 2][..]), (2, &[0, 0, 1, 1, 0, 0, 1, 2])] {
        let book = example_a_left().bytes(version);
        tally.expect_links(&book, 0, accepted(2, 20), of_first);
        tally.expect_links(&book, 1, accepted(0, 0), &[]);
        tally.expect_links(&book, 2, accepted(0, 0), &[]);
        tally.expect_links(&book, 3, refused(CALL, 26), &[]);
        tally.expect_links(&book, usize::MAX, refused(CALL, 26), &[]);
        tally.expect_links(&book, 256, refused(CALL, 26), &[]);
    }
    let apart = |[x, y, z]: [u16; 3]| {
        let links = [link(0, x, 2), link(2, y, 0), link(2, y, 2), link(2, z, 1)];
        book(&[5, 5, 5], &links)
    };
    let narrow = apart([255, 0, 9]).bytes(1);
    tally.expect_links(&narrow, 0, accepted(1, 20), &[0, 255, 2]);
    tally.expect_links(&narrow, 1, accepted(0, 0), &[]);
    tally.expect_links(&narrow, 2, accepted(3, 23), &[2, 0, 0, 2, 0, 2, 2, 9, 1]);
    let wide = apart([65_535, 2, 513]).bytes(2);
    tally.expect_links(&wide, 0, accepted(1, 20), &[0, 255, 255, 2]);
    tally.expect_links(&wide, 1, accepted(0, 0), &[]);
    let of_last = [2, 0, 2, 0, 2, 0, 2, 2, 2, 2, 1, 1];
    tally.expect_links(&wide, 2, accepted(3, 24), &of_last);
}

/// Every cell of books of every number of cells, few links and many, and cells outside.
fn links(tally: &mut Tally, random: &mut Random) {
    for cells in 1..=64 {
        for _ in 0..12 {
            let labels = random.pick(&[1, 2, 9, 256]);
            let most = most_links(cells, labels);
            let some = random.between(0, most);
            let links = random.pick(&[0, most, some, cells.min(most) / 2]);
            let mut book = random_book(random, cells, links, labels, 9);
            if random.one_in(3) {
                // Links from some cells only.
                let (most, odd) = (random.below(cells) as u8, random.below(2) as u8);
                book.links
                    .retain(|link| link.from <= most && link.from & odd == 0);
            }
            let [book] = any_labels(random, [book]);
            let bytes = book.any_bytes(random);
            for cell in 0..cells + 2 {
                tally.links(&bytes, cell);
            }
            tally.links(&bytes, any_number(random));
            // The low bits of a cell outside are those of a cell.
            for high in [64, 1 << 8, 1 << 16, 1 << 32, 1 << 63] {
                tally.links(&bytes, high + random.below(cells));
            }
        }
    }
    // All links from one cell: the most that there can be.
    for cell in [0, 1, 62, 63] {
        let links: Vec<_> = (0..512).map(|i| link(cell, i / 64, i as u8 % 64)).collect();
        for version in VERSIONS {
            let book = book(&[5; 64], &links).bytes(version);
            for cell in 0..=64 {
                tally.links(&book, cell);
            }
        }
    }
}

/// Every refusal of the book, for cells inside and outside, and damaged books.
fn links_refused(tally: &mut Tally, random: &mut Random) {
    for round in 0..200 {
        for refusal in OF_BOOK {
            let book = book_refused(random, refusal);
            let far = any_number(random);
            tally.links(&book, random.pick(&[0, 1, 5, 64, far]));
        }
        for _ in 0..20 {
            let mut book = book_refused(random, 0);
            let place = random.below(book.len());
            book[place] = random.pick(&[0, 1, 2, 255, book[place].wrapping_add(1)]);
            tally.links(&book, round % 7);
        }
    }
}
