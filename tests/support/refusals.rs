//! Books and sheets that a check refuses, for each number; 0 for accepted ones. Numbers that are in none.

use super::books::{random_book, Book};
use super::checks::{check_book, check_sheet};
use super::outcome::LEFT_BOOK;
use super::random::Random;
use super::remade::any_labels;
use super::set_length;
use super::sheets::{counted, random_sheet, sheet_bytes, step, Entry};
use super::versions::{all_labels, any_version, link_width, VERSIONS};

/// The other version.
fn other_version(version: u8) -> u8 {
    3 - version
}

/// A small book of any version with this answer: 0 or 1 to 7.
pub fn book_refused(random: &mut Random, refusal: u8) -> Vec<u8> {
    let cells = random.between(2, 6);
    let links = random.between(2, 8);
    let book = random_book(random, cells, links, 3, 3);
    let [book] = any_labels(random, [book]);
    let version = any_version(random, book.labels());
    let mut bytes = book.bytes(version);
    let at_link = 8 + 4 * cells + link_width(version) * random.below(links);
    match refusal {
        0 => {}
        1 => bytes.truncate(random.below(8)),
        2 => bytes[random.pick(&[0, 1, 2, 3])] ^= 1 << random.below(8),
        3 => bytes[4] = random.pick(&[0, 3, 4, 255]),
        4 => match random.below(3) {
            0 => bytes[5] = 0,
            1 => bytes[5] = random.pick(&[65, 128, 255]),
            _ => bytes[6] = random.between(2, 255) as u8,
        },
        5 => match random.below(4) {
            0 => bytes[5] += 1,
            1 => bytes[7] -= 1,
            2 => bytes[4] = other_version(version),
            _ => {
                bytes.push(0);
                set_length(&mut bytes);
            }
        },
        6 => {
            let place = at_link + random.pick(&[0, link_width(version) - 1]);
            bytes[place] = random.pick(&[cells as u8, 64, 255]);
        }
        7 => {
            let mut links = book.links.clone();
            let place = random.below(links.len() - 1);
            match random.below(2) {
                0 => links.swap(place, place + 1),
                _ => links[place + 1] = links[place],
            }
            let recordings = book.recordings;
            bytes = Book { recordings, links }.bytes(version);
        }
        _ => panic!("a book is not refused by {refusal}"),
    }
    assert_eq!(check_book(&bytes, LEFT_BOOK).refusal, refusal);
    bytes
}

/// A small sheet of any version with this answer: 0, 1 to 3 or 8 to 14.
pub fn sheet_refused(random: &mut Random, refusal: u8) -> Vec<u8> {
    let bound = random.between(0, 4) as u8;
    let q = random.between(2, 8);
    let version = random.pick(&VERSIONS);
    let labels = random.pick(&[3, all_labels(version)]);
    let mut entries = random_sheet(random, bound, q, 5, labels).entry_bytes(version);
    let number = random.between(1, q - 1);
    match refusal {
        9 => match random.below(3) {
            0 => entries[number][0] = 0,
            1 => entries[q - 1][0] += random.between(1, 60) as u8,
            _ => entries.push(vec![random.byte()]),
        },
        10 => entries[number][1] = random.between(7, 255) as u8,
        11 => {
            let most = bound + 1;
            entries[number] = counted(random.pick(&[
                &[4, 61][..],
                &[4, 255, 0, 0, 0],
                &[5, most, 0],
                &[6, 0, most],
            ]));
        }
        12 => {
            let late = random.pick(&[number as u16, number as u16 + 1, 255, 256, 65_535]);
            let late_entries = [
                Entry::Not(late),
                Entry::And(0, late),
                Entry::Or(late, 0),
                Entry::Way(vec![step(1, 0), step(1, late)]),
                Entry::Same(vec![step(1, 0)], vec![step(1, late)]),
                Entry::Differ(vec![step(1, late)], vec![]),
            ];
            // Bound 0 has no steps in a same or differ.
            let kinds = if bound == 0 { 4 } else { 6 };
            entries[number] = late_entries[random.below(kinds)].bytes(version);
        }
        13 => entries[0] = counted(random.pick(&[&[1, 0, 0][..], &[4, 0], &[5, 0, 0], &[6]])),
        14 => {
            let other = Entry::Way(vec![step(0, 0)]).body(other_version(version));
            entries[number] = counted(random.pick(&[
                &[0, 0][..],
                &[1, 0],
                &[2, 0, 0, 0],
                &[3, 0, 0, 0, 0, 0],
                &[4],
                &[4, 1, 0, 0],
                &other,
                &[5, 0],
                &[6, 0, 0, 0],
            ]));
        }
        _ => {}
    }
    let mut bytes = sheet_bytes(version, bound, q as u16, &entries);
    match refusal {
        0 | 9..=14 => {}
        1 => bytes.truncate(random.below(8)),
        2 => bytes[random.pick(&[0, 1, 2, 3])] ^= 1 << random.below(8),
        3 => bytes[4] = random.pick(&[0, 3, 4, 255]),
        8 => match random.below(3) {
            0 => bytes[5] = random.between(5, 255) as u8,
            1 => bytes[7] = 0,
            _ => bytes[6] = random.between(65, 255) as u8,
        },
        _ => panic!("a sheet is not refused by {refusal}"),
    }
    assert_eq!(check_sheet(&bytes).refusal, refusal);
    bytes
}

/// Changes a byte, mostly one behind the header. The bytes may still be accepted.
pub fn change_byte(random: &mut Random, bytes: &mut [u8]) {
    let place = random.pick(&[0, 8, 8, 8]);
    let place = place + random.below(bytes.len() - place);
    let value = random.byte();
    bytes[place] = random.pick(&[
        value,
        0,
        255,
        bytes[place].wrapping_add(1),
        bytes[place].wrapping_sub(1),
    ]);
}

/// 0 and the refusals.
pub fn or_none(refusals: &[u8]) -> Vec<u8> {
    [&[0], refusals].concat()
}

/// A number just beyond a count or far beyond: also one whose low bits are in range.
pub fn beyond(random: &mut Random, count: usize) -> usize {
    let low = random.below(count);
    random
        .pick(&[
            count,
            count + 1,
            64,
            255,
            256 + low,
            65_535,
            65_536 + low,
            (1 << 32) + low,
            (1 << 63) + low,
            usize::MAX,
            usize::MAX - 63 + low % 64,
        ])
        .max(count)
}
