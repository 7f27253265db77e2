//! Books: accepted ones of all sizes, each limit of document 01, and damaged ones.

use crate::damage;
use crate::support::books::{
    book, example_a_left, link, most_links, random_book, silenced, Book, Link,
};
use crate::support::outcome::{accepted, refused, Outcome, LEFT_BOOK};
use crate::support::random::Random;
use crate::support::versions::{all_labels, label_bytes, VERSIONS};
use crate::support::{changed, set_length};
use crate::tally::Tally;

const ANY_RECORDING: usize = u32::MAX as usize;

pub fn all(tally: &mut Tally) {
    let random = &mut Random::new(1);
    by_hand(tally);
    for version in VERSIONS {
        sizes(tally, random, version);
        limits(tally, random, version);
        two_links(tally, version);
        small(tally, random, version);
        damage::past_the_length_field(tally, &example_a_left().bytes(version));
    }
    likely_bytes(tally, random);
    damage::tiny(tally, random);
    damage::headers(
        tally,
        &[0, 1, 2, 64, 65, 255],
        &[0, 1, 2, 512, 513],
        &[0, 0, 0, 5, 0, 1, 0, 0, 2, 0],
    );
}

/// Answers found by hand: one input at least for each refusal, and two refusals at once.
fn by_hand(tally: &mut Tally) {
    // Example A, right, in version 1 and in version 2: the link is from byte 16 on, its label is at byte 17, or 17 and 18.
    let narrow = [0, 0, 0, 19, 1, 2, 0, 1, 0, 0, 0, 5, 0, 0, 0, 5, 0, 1, 1];
    let wide = [0, 0, 0, 20, 2, 2, 0, 1, 0, 0, 0, 5, 0, 0, 0, 5, 0, 0, 1, 1];
    for book in [&narrow[..], &wide] {
        faults_by_hand(tally, book);
        links_by_hand(tally, book[4]);
    }
    // Read in the other version, the length breaks the formula, if there are links.
    tally.expect(&changed(&narrow, &[(4, 2)]), refusal(5));
    tally.expect(&changed(&wide, &[(4, 1)]), refusal(5));
    tally.expect(&[0, 0, 0, 12, 1, 1, 0, 0, 0, 0, 0, 0], accepted(1, 0));
    tally.expect(&[0, 0, 0, 12, 2, 1, 0, 0, 0, 0, 0, 0], accepted(1, 0));
    tally.expect(&[], refusal(1));
    // Two links of one cell, by labels of two bytes.
    let labels = |first: [u8; 2], second: [u8; 2]| {
        let links = [0, first[0], first[1], 0, 0, second[0], second[1], 0];
        [&[0, 0, 0, 20, 2, 1, 0, 2, 0, 0, 0, 5], &links[..]].concat()
    };
    tally.expect(&labels([0, 255], [1, 0]), accepted(1, 2));
    tally.expect(&labels([1, 0], [0, 255]), refusal(7));
    tally.expect(&labels([1, 2], [1, 2]), refusal(7));
    tally.expect(&labels([255, 254], [255, 255]), accepted(1, 2));
    tally.expect(&labels([255, 255], [255, 254]), refusal(7));
}

fn refusal(number: u8) -> Outcome {
    refused(LEFT_BOOK, number)
}

/// Changes of a book of two cells and the link (0, 1, 1).
fn faults_by_hand(tally: &mut Tally, book: &[u8]) {
    let (length, last) = (book.len() as u8, book.len() - 1);
    let changed = |changes: &[(usize, u8)]| changed(book, changes);
    tally.expect(book, accepted(2, 1));
    tally.expect(&book[..7], refusal(1));
    tally.expect(&book[..8], refusal(2));
    tally.expect(&changed(&[(3, length - 1)]), refusal(2));
    tally.expect(&changed(&[(0, 1)]), refusal(2));
    tally.expect(&changed(&[(4, 0)]), refusal(3));
    tally.expect(&changed(&[(4, 3), (5, 0)]), refusal(3));
    tally.expect(&changed(&[(4, 255)]), refusal(3));
    tally.expect(&changed(&[(5, 0)]), refusal(4));
    tally.expect(&changed(&[(5, 65)]), refusal(4));
    tally.expect(&changed(&[(6, 2)]), refusal(4)); // 513 links
    tally.expect(&changed(&[(5, 1)]), refusal(5));
    tally.expect(&changed(&[(7, 0)]), refusal(5));
    tally.expect(&changed(&[(16, 2)]), refusal(6));
    tally.expect(&changed(&[(last, 2)]), refusal(6));
    tally.expect(&changed(&[(17, 255), (last - 1, 255)]), accepted(2, 1));
}

/// Links of two cells, in order and not.
fn links_by_hand(tally: &mut Tally, version: u8) {
    let links = |links: &[Link]| book(&[0; 2], links).bytes(version);
    tally.expect(&example_a_left().bytes(version), accepted(3, 2));
    tally.expect(&links(&[link(0, 1, 1), link(0, 1, 1)]), refusal(7));
    tally.expect(&links(&[link(0, 1, 1), link(0, 1, 0)]), refusal(7));
    tally.expect(&links(&[link(0, 2, 0), link(0, 1, 1)]), refusal(7));
    tally.expect(&links(&[link(1, 1, 0), link(0, 2, 1)]), refusal(7));
    tally.expect(&links(&[link(0, 2, 1), link(1, 1, 0)]), accepted(2, 2));
    tally.expect(&links(&[link(0, 1, 1), link(0, 0, 2)]), refusal(6)); // 6 before 7 at one link
    tally.expect(
        &links(&[link(1, 1, 1), link(0, 0, 0), link(2, 0, 0)]),
        refusal(7),
    ); // the earlier link first
}

/// Accepted books: every number of cells with few, many and the most links; every number of links.
fn sizes(tally: &mut Tally, random: &mut Random, version: u8) {
    let labels = all_labels(version);
    let mut one = |cells: usize, links: usize| {
        let book = random_book(random, cells, links, labels, ANY_RECORDING);
        let book = silenced(random, book);
        let bytes = book.bytes(version);
        tally.expect(&bytes, accepted(cells as u32, links as u32));
        damage::some_bytes(tally, random, &bytes, 12);
        broken_links(tally, random, version, book);
    };
    for cells in 1..=64 {
        let most = most_links(cells, labels);
        for links in [0, 1, 2, most / 2, most - 1, most] {
            one(cells, links);
        }
    }
    for links in 0..=512 {
        for cells in [2, 3 + links % 61, 64] {
            one(cells, links);
        }
    }
}

/// Fields at document 01's limits, and just beyond, in books whose length fits the formula.
fn limits(tally: &mut Tally, random: &mut Random, version: u8) {
    let labels = all_labels(version);
    let last_label = (labels - 1) as u16;
    tally.expect(
        &random_book(random, 64, 512, labels, ANY_RECORDING).bytes(version),
        accepted(64, 512),
    );
    for cells in [0, 65, 66, 128, 255] {
        for links in [0, 1, 512] {
            let mut book = random_book(random, 64, links, labels, ANY_RECORDING);
            book.recordings.resize(cells, 7);
            tally.expect(&book.bytes(version), refusal(4));
        }
    }
    for links in [513, 514, 768, 1024, 32768, 65535] {
        for cells in [0, 1, 2, 64, 65] {
            let rising = |k: usize| link((k >> 16) as u8, (k >> 8) as u16 & 255, k as u8);
            let book = Book {
                recordings: vec![7; cells],
                links: (0..links).map(rising).collect(),
            };
            tally.expect(&book.bytes(version), refusal(4));
        }
    }
    // A cell just below n, and n itself, as the first and the last of many links.
    for cells in 1..=64 {
        let links = random.between(1, most_links(cells, labels));
        let mut book = random_book(random, cells, links, labels, ANY_RECORDING);
        let last = cells as u8 - 1;
        book.links[links - 1] = link(last, last_label, last);
        let counts = accepted(cells as u32, links as u32);
        if links == 1 || book.links[links - 2] < book.links[links - 1] {
            tally.expect(&book.bytes(version), counts);
        }
        for beyond in [
            link(last + 1, last_label, last),
            link(last, last_label, last + 1),
        ] {
            for place in [0, links - 1] {
                let mut book = book.clone();
                book.links[place] = beyond;
                tally.agree(&book.bytes(version));
            }
        }
    }
    // Many bytes, of a length that needs all of the length field.
    let mut long = book(&[7], &[]).bytes(version);
    long.resize((1 << 24) + 12, 0);
    set_length(&mut long);
    tally.expect(&long, refusal(5));
}

/// Every two links over a few cells and labels.
fn two_links(tally: &mut Tally, version: u8) {
    let labels: &[u16] = match version {
        1 => &[0, 1, 254, 255],
        _ => &[0, 1, 255, 256, 65_280, 65_535],
    };
    let mut links = Vec::new();
    for from in [0, 1, 2, 3, 255] {
        for &label in labels {
            for to in [0, 1, 2, 3, 255] {
                links.push(link(from, label, to));
            }
        }
    }
    for &first in &links {
        for &second in &links {
            for cells in 1..=3 {
                tally.agree(&book(&[9; 3][..cells], &[first, second]).bytes(version));
            }
        }
    }
}

/// Small books with each byte changed, cut and lengthened.
fn small(tally: &mut Tally, random: &mut Random, version: u8) {
    damage::each_byte(tally, &example_a_left().bytes(version));
    for round in 0..400 {
        let cells = random.between(1, 4);
        let links = random.between(0, most_links(cells, 3).min(4));
        let labels = random.pick(&[3, 3, all_labels(version)]);
        let book = random_book(random, cells, links, labels, 3);
        let bytes = book.bytes(version);
        tally.expect(&bytes, accepted(cells as u32, links as u32));
        if round % 20 == 0 {
            damage::each_byte(tally, &bytes);
        }
        damage::some_bytes(tally, random, &bytes, 40);
        damage::cut(tally, &bytes);
        damage::lengthened(tally, random, &bytes);
        damage::wrong_length(tally, &bytes);
        for _ in 0..10 {
            broken_links(tally, random, version, book.clone());
        }
    }
}

/// One or two faults in the links, with the length right.
fn broken_links(tally: &mut Tally, random: &mut Random, version: u8, mut book: Book) {
    for _ in 0..random.between(1, 2) {
        if book.links.is_empty() {
            return;
        }
        let i = random.below(book.links.len());
        let j = random.below(book.links.len());
        let cells = book.recordings.len() as u8;
        match random.below(6) {
            0 => book.links.swap(i, j),
            1 => book.links[i] = book.links[j],
            2 => book.links[i].from = random.pick(&[cells, cells - 1, 0, 255]),
            3 => book.links[i].to = random.pick(&[cells, cells - 1, 0, 255]),
            4 => book.links[i].label = random.below(all_labels(version)) as u16,
            _ => {
                book.links.remove(i);
            }
        }
    }
    tally.agree(&book.bytes(version));
}

/// Random bytes with a header that is nearly always plausible, and small numbers in the links.
fn likely_bytes(tally: &mut Tally, random: &mut Random) {
    for _ in 0..60_000 {
        let cells = random.between(1, 6);
        let links = random.between(0, 5);
        let version = random.pick(&VERSIONS);
        let mut bytes = vec![0, 0, 0, 0, version, cells as u8, 0, links as u8];
        bytes.extend((0..4 * cells).map(|_| random.byte()));
        let most = random.pick(&[1, 2, cells, cells + 1, 256]);
        for k in 0..links {
            let from = if random.one_in(3) {
                random.below(most)
            } else {
                k
            };
            bytes.push(from as u8);
            bytes.extend(label_bytes(version, random.below(most) as u16));
            bytes.push(random.below(most) as u8);
        }
        set_length(&mut bytes);
        if random.one_in(8) {
            let place = random.below(8);
            bytes[place] = random.byte();
        }
        tally.agree(&bytes);
    }
}
