//! What the listing program writes, from document 01, "The operations and when they decline" and "Examples".

use crate::support::books::Book;
use crate::support::checks::check_book;
use crate::support::outcome::{refused, Outcome, CALL, LEFT_BOOK, RIGHT_BOOK};
use crate::support::partners::rounds;
use crate::support::sides::Sides;

pub const MOST_BYTES: usize = 8_192;
pub const MOST_CELLS: usize = 32;

pub enum Answer<'a> {
    TooManyBytes,
    Refused(Outcome),
    TooManyCells,
    Listing(Listing<'a>),
}

/// Of two accepted books.
pub struct Listing<'a> {
    pub bound: usize,
    pub left: &'a [u8],
    pub right: &'a [u8],
}

/// "The first of these that applies is written as the only line: 'too large' over 8,192 bytes of input; 'refused 20'; a book's
/// refusal, as 'refused left 3' or 'refused right 3'; 'too large' if a book has over 32 cells. Empty input is refused 20."
pub fn answer(input: &[u8]) -> Answer<'_> {
    if input.len() > MOST_BYTES {
        return Answer::TooManyBytes;
    }
    let Some((&bound @ 0..=4, books)) = input.split_first() else {
        return Answer::Refused(refused(CALL, 20));
    };
    let (left, right) = split(books);
    for (book, part) in [(left, LEFT_BOOK), (right, RIGHT_BOOK)] {
        let check = check_book(book, part);
        if check.refusal != 0 {
            return Answer::Refused(check);
        }
    }
    if [left, right]
        .iter()
        .any(|book| book[5] as usize > MOST_CELLS)
    {
        return Answer::TooManyCells;
    }
    Answer::Listing(Listing {
        bound: bound as usize,
        left,
        right,
    })
}

/// "The left book (as long as its own length field says; all that remains if fewer than 4 bytes or fewer than that length
/// remain), then the right (all the rest)."
fn split(books: &[u8]) -> (&[u8], &[u8]) {
    let Some(field) = books.first_chunk() else {
        return (books, &[]);
    };
    let length = u32::from_be_bytes(*field) as usize;
    books.split_at_checked(length).unwrap_or((books, &[]))
}

impl Answer<'_> {
    /// The lines. "Every line ends in a line feed."
    pub fn text(&self) -> String {
        match self {
            Answer::TooManyBytes | Answer::TooManyCells => "too large\n".to_string(),
            Answer::Refused(outcome) => {
                let side = match outcome.part {
                    LEFT_BOOK => "left ",
                    RIGHT_BOOK => "right ",
                    _ => "",
                };
                format!("refused {side}{}\n", outcome.refusal)
            }
            Answer::Listing(listing) => listing.text(),
        }
    }
}

impl Listing<'_> {
    /// "Sizes and bound; each left cell with its count and word; totals."
    fn text(&self) -> String {
        let (left, right) = (Book::of_bytes(self.left), Book::of_bytes(self.right));
        let (n, m) = (left.cells(), right.cells());
        let dropped = rounds(&left, &right, self.bound, Sides::Two);
        let mut text = format!("books {n} {m} bound {}\n", self.bound);
        for (i, row) in dropped.chunks(m).enumerate() {
            let partners = || (0..m).filter(|&j| row[j].is_none());
            let word: u64 = partners().map(|j| 1 << j).sum();
            text += &format!("row {i} count {} word {word}\n", partners().count());
        }
        let matched = dropped.iter().filter(|round| round.is_none()).count();
        text + &format!("matched {matched} parted {}\n", n * m - matched)
    }
}
