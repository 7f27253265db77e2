//! Compares the library with what is expected, call by call, and counts the answers.

use crate::expected;
use crate::support::call::Call;
use crate::support::counts::{Counts, Versions, OF_BOOK, OF_SHEET};
use crate::support::hidden::HIDDEN;
use crate::support::lent::Lent;
use crate::support::library;
use crate::support::outcome::{Outcome, CALL, LEFT_BOOK, SHEET};
use crate::support::versions::link_width;

pub struct Tally {
    row: Counts,
    pair: Counts,
    links: Counts,
    pair_versions: Versions,
    links_versions: Versions,
    turn: usize,
}

impl Tally {
    pub fn new() -> Tally {
        Tally {
            row: Counts::new("row"),
            pair: Counts::new("pair"),
            links: Counts::new("links"),
            pair_versions: Versions::default(),
            links_versions: Versions::default(),
            turn: 0,
        }
    }

    /// The library's Row gives the count and the word that are expected.
    pub fn row(&mut self, map: &[u16], m: usize, i: usize) {
        let (expected, expected_word) = expected::row(map, m, i);
        self.expect_row(map, m, i, expected, expected_word);
    }

    pub fn expect_row(&mut self, map: &[u16], m: usize, i: usize, expected: Outcome, word: u64) {
        let mut lent = self.lent_map(map);
        let answer = library::row(lent.lend(), m, i);
        let answer_word = library::row_word(lent.lend(), m, i);

        let call = Call {
            name: "row",
            numbers: format!("m {m}, i {i}"),
            inputs: &[("map", &map_bytes(map))],
        };
        call.compare(answer, expected);
        if answer_word != word {
            call.fail(&format!(
                "the word is {answer_word:#x}, expected is {word:#x}"
            ));
        }
        call.unchanged(&lent, map);
        self.row.count(answer, "counted");
        self.turn += 1;
    }

    /// The library's Pair gives what is expected.
    pub fn pair(&mut self, map: &[u16], place: usize, sheet: &[u8]) {
        let expected = expected::pair(map, place, sheet);
        self.expect_pair(map, place, sheet, expected);
    }

    pub fn expect_pair(&mut self, map: &[u16], place: usize, sheet: &[u8], expected: Outcome) {
        let mut lent_map = self.lent_map(map);
        let mut lent_sheet = self.lent_bytes(sheet);
        let answer = library::pair(lent_map.lend(), place, lent_sheet.lend());

        let call = Call {
            name: "pair",
            numbers: format!("place {place}"),
            inputs: &[("map", &map_bytes(map)), ("sheet", sheet)],
        };
        call.compare(answer, expected);
        call.unchanged(&lent_map, map);
        call.unchanged(&lent_sheet, sheet);
        let name = match answer.first {
            0 => "matched",
            first if first == HIDDEN as u32 => "hidden",
            _ => "parted",
        };
        self.pair.count(answer, name);
        if answer.refusal == 0 {
            self.pair_versions.count(&[sheet]);
        }
        self.turn += 1;
    }

    /// The library's Links gives what is expected, and the part of the book that it names is the one expected.
    pub fn links(&mut self, book: &[u8], cell: usize) {
        let (expected, expected_part) = expected::links(book, cell);
        self.expect_links(book, cell, expected, &expected_part);
    }

    pub fn expect_links(&mut self, book: &[u8], cell: usize, expected: Outcome, links: &[u8]) {
        let mut lent = self.lent_bytes(book);
        let answer = library::links(lent.lend(), cell);

        let call = Call {
            name: "links",
            numbers: format!("cell {cell}"),
            inputs: &[("book", book)],
        };
        call.compare(answer, expected);
        let (count, start) = (answer.first as usize, answer.second as usize);
        let width = book.get(4).map_or(0, |&version| link_width(version));
        if lent.values().get(start..start + width * count) != Some(links) {
            call.fail("the part is not that of the cell's links");
        }
        call.unchanged(&lent, book);
        let name = match answer.first {
            0 => "no links",
            _ => "links",
        };
        self.links.count(answer, name);
        if answer.refusal == 0 {
            self.links_versions.count(&[book]);
        }
        self.turn += 1;
    }

    fn lent_map(&self, map: &[u16]) -> Lent<u16> {
        Lent::new(map, self.turn, [0, 1, u16::MAX][self.turn % 3])
    }

    fn lent_bytes(&self, bytes: &[u8]) -> Lent<u8> {
        Lent::new(bytes, self.turn + 3, [0, 1, u8::MAX][self.turn % 3])
    }

    /// Prints the counts, and gives the number of cases.
    pub fn report(&self) -> usize {
        self.pair_versions.report("pair");
        self.links_versions.report("links");
        self.row.report(&["counted"], &[(CALL, &[26, 27])])
            + self.pair.report(
                &["matched", "parted", "hidden"],
                &[(SHEET, &OF_SHEET), (CALL, &[25, 26])],
            )
            + self.links.report(
                &["links", "no links"],
                &[(LEFT_BOOK, &OF_BOOK), (CALL, &[26])],
            )
    }
}

fn map_bytes(map: &[u16]) -> Vec<u8> {
    map.iter().flat_map(|place| place.to_be_bytes()).collect()
}
