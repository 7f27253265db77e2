//! How often each answer was seen, and each mix of versions.

use super::books::{Book, Link};
use super::hidden::{hides, Hidden};
use super::outcome::{Outcome, CALL, LEFT_BOOK, RIGHT_BOOK, SHEET};
use super::recordings::SILENT;
use std::collections::BTreeMap;

/// The refusals of a check, by document 01.
pub const OF_BOOK: [u8; 7] = [1, 2, 3, 4, 5, 6, 7];
/// Those, and that of the word that hides its cells.
pub const OF_BOOK_AND_WORD: [u8; 8] = [1, 2, 3, 4, 5, 6, 7, 31];
pub const OF_SHEET: [u8; 10] = [1, 2, 3, 8, 9, 10, 11, 12, 13, 14];

/// The counts of one operation.
pub struct Counts {
    operation: &'static str,
    accepted: BTreeMap<&'static str, usize>,
    refused: BTreeMap<(u8, u8), usize>,
}

impl Counts {
    pub fn new(operation: &'static str) -> Counts {
        Counts {
            operation,
            accepted: BTreeMap::new(),
            refused: BTreeMap::new(),
        }
    }

    /// Counts an answer; `answer` names it where it is accepted.
    pub fn count(&mut self, outcome: Outcome, answer: &'static str) {
        *match outcome.refusal {
            0 => self.accepted.entry(answer).or_insert(0),
            refusal => self.refused.entry((outcome.part, refusal)).or_insert(0),
        } += 1;
    }

    pub fn cases(&self) -> usize {
        self.accepted.values().chain(self.refused.values()).sum()
    }

    /// Prints the number of cases and of each answer, and gives the number of cases. Ends the test where an answer that can
    /// occur was not seen: these accepted ones, each a tenth of all accepted at least, and these refusals of each part.
    pub fn report(&self, accepted: &[&'static str], refused: &[(u8, &[u8])]) -> usize {
        println!("{}: {} cases", self.operation, self.cases());
        for (answer, times) in &self.accepted {
            println!("  {answer:<24}{times:>8}");
        }
        for ((part, refusal), times) in &self.refused {
            println!("  refused {refusal:>2}{:<14}{times:>8}", of(*part));
        }
        let all: usize = self.accepted.values().sum();
        for answer in accepted {
            if self.accepted.get(answer).copied().unwrap_or(0) * 10 < all.max(1) {
                println!("{}: \"{answer}\" was seen too seldom", self.operation);
                std::process::exit(1);
            }
        }
        for (part, refusals) in refused {
            for refusal in *refusals {
                if !self.refused.contains_key(&(*part, *refusal)) {
                    println!(
                        "{}: refusal {refusal}{} was not seen",
                        self.operation,
                        of(*part)
                    );
                    std::process::exit(1);
                }
            }
        }
        self.cases()
    }
}

fn of(part: u8) -> &'static str {
    match part {
        CALL => "",
        LEFT_BOOK => " of the book",
        RIGHT_BOOK => " of the right",
        SHEET => " of the sheet",
        _ => " of no part",
    }
}

/// How often books and sheets of each mix of versions were accepted together.
#[derive(Default)]
pub struct Versions(BTreeMap<Vec<u8>, usize>);

impl Versions {
    /// Counts what was accepted, always as many books and sheets.
    pub fn count(&mut self, accepted: &[&[u8]]) {
        let versions = accepted.iter().map(|bytes| bytes[4]).collect();
        *self.0.entry(versions).or_insert(0) += 1;
    }

    /// Prints the counts, and ends the test where a mix is less than a fortieth of all.
    pub fn report(&self, operation: &str) {
        println!("{operation}, accepted by versions: {:?}", self.0);
        let all: usize = self.0.values().sum();
        let mixes = self.0.keys().next().map_or(1, |first| 1 << first.len());
        if self.0.len() < mixes || self.0.values().any(|times| times * 40 < all) {
            println!("{operation}: a mix of versions was seen too seldom");
            std::process::exit(1);
        }
    }
}

/// How often books were accepted together of whose cells none, fewer than a third, others or all are silent.
#[derive(Default)]
pub struct Silence([usize; 4]);

impl Silence {
    pub fn count(&mut self, books: &[&Book]) {
        let cells: usize = books.iter().map(|book| book.cells()).sum();
        let recordings = books.iter().flat_map(|book| &book.recordings);
        let silent = recordings.filter(|&&of| of == SILENT).count();
        self.0[match silent {
            0 => 0,
            _ if silent == cells => 3,
            _ if silent * 3 < cells => 1,
            _ => 2,
        }] += 1;
    }

    /// Prints the counts, and ends the test where one is less than a twentieth of all.
    pub fn report(&self, operation: &str) {
        let [none, few, others, every] = self.0;
        println!("{operation}, accepted by silent cells: none {none}, few {few}, others {others}, all {every}");
        let all: usize = self.0.iter().sum();
        if self.0.iter().any(|times| times * 20 < all) {
            println!("{operation}: so many silent cells were seen too seldom");
            std::process::exit(1);
        }
    }
}

/// How often so many cells were hidden in books that were accepted, and which.
#[derive(Default)]
pub struct Hiding {
    books: usize,
    /// No cell, one, fewer than half, half or more, all but one, all. A book of few cells counts for the last of these that it is.
    cells: [usize; 6],
    /// Books with a hidden cell that is silent, that has a link to itself, to another hidden cell, to a shown one, from a shown one.
    kinds: [usize; 5],
    /// Calls with two books, by what is hidden of the left and of the right one: nothing, some, all.
    both: [[usize; 3]; 3],
}

const HIDDEN_CELLS: [&str; 6] = ["none", "one", "few", "many", "all but one", "all"];
const HIDDEN_KINDS: [&str; 5] = [
    "silent",
    "linked to itself",
    "linked to another hidden cell",
    "linked to a shown cell",
    "linked from a shown cell",
];

impl Hiding {
    pub fn count(&mut self, book: &Book, hidden: u64) {
        self.books += 1;
        let (cells, many) = (book.cells(), hidden.count_ones() as usize);
        self.cells[match many {
            0 => 0,
            _ if many == cells => 5,
            _ if many == cells - 1 => 4,
            1 => 1,
            _ if 2 * many < cells => 2,
            _ => 3,
        }] += 1;
        let hides = |cell: u8| hides(hidden, cell as usize);
        let silent = |&x: &usize| hides(x as u8) && book.recordings[x] == SILENT;
        let has = |from: bool, to: bool, itself: bool| {
            let is = |of: &Link| hides(of.from) == from && hides(of.to) == to;
            let mut links = book.links.iter();
            links.any(|of| is(of) && (of.from == of.to) == itself)
        };
        let kinds = [
            (0..cells).any(|x| silent(&x)),
            has(true, true, true),
            has(true, true, false),
            has(true, false, false),
            has(false, true, false),
        ];
        for (count, is) in self.kinds.iter_mut().zip(kinds) {
            *count += is as usize;
        }
    }

    pub fn count_two(&mut self, left: &Book, right: &Book, hidden: Hidden) {
        self.count(left, hidden.left);
        self.count(right, hidden.right);
        let part = |book: &Book, word: u64| match word.count_ones() as usize {
            0 => 0,
            many => 1 + (many == book.cells()) as usize,
        };
        self.both[part(left, hidden.left)][part(right, hidden.right)] += 1;
    }

    /// Prints the counts, and ends the test where so many hidden cells are less than a hundredth of all books, a kind of hidden cells less than a
    /// fortieth, or something hidden of two books less than a thousandth of all calls with two.
    pub fn report(&self, operation: &str) {
        let cells: Vec<_> = HIDDEN_CELLS.iter().zip(self.cells).collect();
        let kinds: Vec<_> = HIDDEN_KINDS.iter().zip(self.kinds).collect();
        println!(
            "{operation}, {} books by hidden cells: {cells:?}",
            self.books
        );
        println!("  with some that are: {kinds:?}");
        let two: usize = self.both.iter().flatten().sum();
        if two > 0 {
            println!("  {two} calls by nothing, some or all hidden of the left and of the right book: {:?}", self.both);
        }
        let rare = self.cells.iter().any(|times| times * 100 < self.books)
            || self.kinds.iter().any(|times| times * 40 < self.books)
            || self.both.iter().flatten().any(|times| times * 1000 < two);
        if rare {
            println!("{operation}: some hidden cells were seen too seldom");
            std::process::exit(1);
        }
    }
}
