//! When Compare declines, written from document 01, "The operations and when they decline", and document 02, requests 2026-02, 2026-03 ("limits
//! .. are those of Compare" one-way) and 2026-07.

use crate::support::books::Book;
use crate::support::checks::check_book;
use crate::support::hidden::{beyond_refusal, Hidden, Shown};
use crate::support::library::needed;
use crate::support::outcome::{refused, Outcome, CALL, LEFT_BOOK, RIGHT_BOOK};
use crate::support::sides::Sides;
use crate::support::versions::written_version;

/// What Compare or its one-way form is asked, and how much is lent.
#[derive(Clone, Copy)]
pub struct Asked<'a> {
    pub sides: Sides,
    pub left: &'a [u8],
    pub right: &'a [u8],
    pub bound: usize,
    pub hidden: Hidden,
    pub map: usize,
    pub room: usize,
    pub scratch: usize,
}

impl Asked<'_> {
    /// The version of the sheet that is written for two accepted books.
    pub fn version(&self) -> u8 {
        written_version(self.left[4], self.right[4])
    }

    /// What is shown of two accepted books.
    pub fn shown(&self) -> [Shown; 2] {
        let of = |book, hidden| Shown::of(&Book::of_bytes(book), hidden);
        [
            of(self.left, self.hidden.left),
            of(self.right, self.hidden.right),
        ]
    }
}

/// The first refusal that applies, if any.
pub fn refusal(asked: Asked) -> Option<Outcome> {
    // "20: c above 4."
    if asked.bound > 4 {
        return Some(refused(CALL, 20));
    }
    // "The left book's refusal, then the right's, each with its side."
    let left = check_book(asked.left, LEFT_BOOK);
    let right = check_book(asked.right, RIGHT_BOOK);
    for check in [left, right] {
        if check.refusal != 0 {
            return Some(refused(check.part, check.refusal));
        }
    }
    // "31, .. directly after the checks of all books given, the left word first, with its side".
    let words = [
        (asked.left, asked.hidden.left, LEFT_BOOK),
        (asked.right, asked.hidden.right, RIGHT_BOOK),
    ];
    if let Some(refusal) = beyond_refusal(&words) {
        return Some(refusal);
    }
    // "21: map length not n × m (m right cells). 22: sheet room below 10 + 44 × n × m bytes. 23: scratch below 16 × n × m."
    // "Compare writes version 2 if either book is version 2, and then 22 is judged at 10 + 52 × n × m."
    let pairs = left.first as usize * right.first as usize;
    let (map, room, scratch) = needed(pairs, asked.version());
    if asked.map != map {
        return Some(refused(CALL, 21));
    }
    if asked.room < room {
        return Some(refused(CALL, 22));
    }
    if asked.scratch < scratch {
        return Some(refused(CALL, 23));
    }
    None
}
