//! Row, Pair and Links of document 01, "The operations and when they decline", written from its sentences.

use crate::support::books::{link, Book};
use crate::support::checks::{check_book, check_sheet};
use crate::support::hidden::HIDDEN;
use crate::support::outcome::{accepted, refused, Outcome, CALL, LEFT_BOOK};
use crate::support::sheets::entry_starts;
use crate::support::versions::{label_bytes, link_width};

/// "27: m is 0 or above 64. 26: the row is not wholly in the map. It gives a word with bit j set where the place holds 0, and
/// how many bits are set." The answer holds the count; the word is 0 on a refusal.
pub fn row(map: &[u16], m: usize, i: usize) -> (Outcome, u64) {
    if m == 0 || m > 64 {
        return (refused(CALL, 27), 0);
    }
    // No product of two of these numbers is too large for 128 bits.
    let (start, end) = (i as u128 * m as u128, (i as u128 + 1) * m as u128);
    if end > map.len() as u128 {
        return (refused(CALL, 26), 0);
    }
    let places = &map[start as usize..end as usize];
    let count = places.iter().filter(|&&place| place == 0).count();
    let word = (0..m)
        .filter(|&j| places[j] == 0)
        .map(|j| 2u64.pow(j as u32))
        .sum();
    (accepted(count as u32, 0), word)
}

/// "The sheet's refusal; 26: place outside the map. At 0 it says matched; .. 25 if its number is not below q, else its number
/// and the byte of the sheet where its entry starts." "Pair says hidden (before 25)" at 65,535 (document 02, request 2026-07).
pub fn pair(map: &[u16], place: usize, sheet: &[u8]) -> Outcome {
    let check = check_sheet(sheet);
    if check.refusal != 0 {
        return check;
    }
    let Some(&number) = map.get(place) else {
        return refused(CALL, 26);
    };
    if number == 0 {
        return accepted(0, 0);
    }
    if number == HIDDEN {
        return accepted(HIDDEN as u32, 0);
    }
    if number as u32 >= check.first {
        return refused(CALL, 25);
    }
    accepted(number as u32, entry_starts(sheet)[number as usize] as u32)
}

/// "Hands out that part of the book, empty if the cell has no links. On the book's refusal, or 26 (cell not below n), the part
/// is empty." The answer holds the number of links and where the first starts, or the refusal; the part itself follows.
pub fn links(book: &[u8], cell: usize) -> (Outcome, Vec<u8>) {
    let check = check_book(book, LEFT_BOOK);
    if check.refusal != 0 {
        return (refused(check.part, check.refusal), vec![]);
    }
    if cell >= check.first as usize {
        return (refused(CALL, 26), vec![]);
    }
    let version = book[4];
    let Book { recordings, links } = Book::of_bytes(book);
    let part: Vec<u8> = links
        .iter()
        .filter(|link| link.from as usize == cell)
        .flat_map(|link| {
            [
                &[link.from],
                &label_bytes(version, link.label)[..],
                &[link.to],
            ]
            .concat()
        })
        .collect();
    // Links rise, so the first from this cell stands after those from lower cells.
    let before = links.partition_point(|&earlier| earlier < link(cell as u8, 0, 0));
    let start = if part.is_empty() {
        0
    } else {
        8 + 4 * recordings.len() + link_width(version) * before
    };
    let count = part.len() / link_width(version);
    (accepted(count as u32, start as u32), part)
}
