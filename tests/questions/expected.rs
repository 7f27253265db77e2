//! Truth and Claim of document 01, "The operations and when they decline", written from its sentences: the answer, and the
//! words afterwards.

use crate::support::books::Book;
use crate::support::checks::{check_book, check_sheet};
use crate::support::hidden::{beyond_refusal, hides, Hidden, Shown};
use crate::support::meaning::sheet_cells;
use crate::support::outcome::{accepted, refused, Outcome, CALL, LEFT_BOOK, RIGHT_BOOK, SHEET};
use crate::support::sheets::Sheet;

/// The words of a book and a sheet that are accepted, one for each entry: "Truth has 0 bits" at hidden cells (document 02, request 2026-07).
pub fn truth_words(book: &[u8], hidden: u64, sheet: &[u8]) -> Vec<u64> {
    let shown = Shown::of(&Book::of_bytes(book), hidden);
    let cells = sheet_cells(&shown.book, &Sheet::of_bytes(sheet));
    cells.iter().map(|cells| shown.word(cells)).collect()
}

/// "Words from q on stay."
fn written(first: Vec<u64>, words: &[u64]) -> Vec<u64> {
    let rest = &words[first.len()..];
    [&first, rest].concat()
}

/// "Book's refusal, sheet's refusal, 24: fewer than q words." 31 comes "directly after the checks of all books given" (document 02, request
/// 2026-07).
pub fn truth(book: &[u8], hidden: u64, sheet: &[u8], words: &[u64]) -> (Outcome, Vec<u64>) {
    let of_book = check_book(book, LEFT_BOOK);
    let of_sheet = check_sheet(sheet);
    let q = of_sheet.first as usize;
    let refusal = if of_book.refusal != 0 {
        Some(refused(LEFT_BOOK, of_book.refusal))
    } else if let Some(beyond) = beyond_refusal(&[(book, hidden, LEFT_BOOK)]) {
        Some(beyond)
    } else if of_sheet.refusal != 0 {
        Some(refused(SHEET, of_sheet.refusal))
    } else {
        (words.len() < q).then(|| refused(CALL, 24))
    };
    match refusal {
        Some(refusal) => (refusal, words.to_vec()),
        None => {
            let first = truth_words(book, hidden, sheet);
            (accepted(0, 0), written(first, words))
        }
    }
}

/// What Claim is asked.
#[derive(Clone, Copy)]
pub struct Asked<'a> {
    pub left: &'a [u8],
    pub right: &'a [u8],
    pub hidden: Hidden,
    pub sheet: &'a [u8],
    pub entry: usize,
    pub left_cell: usize,
    pub right_cell: usize,
}

impl Asked<'_> {
    /// One of its cells, which are in their books, is hidden.
    pub fn of_hidden(&self) -> bool {
        hides(self.hidden.left, self.left_cell) || hides(self.hidden.right, self.right_cell)
    }
}

/// "Left, right, sheet refusals, 24, 25: entry not below q, 26: a cell not in its book. Yes exactly when the entry is true at
/// the left and false at the right cell. The words end as Truth of the right book." "Claim says no if either of its cells is hidden, with its
/// words written as ever" (document 02, request 2026-07), and has 31 after the books.
pub fn claim(asked: Asked, words: &[u64]) -> (Outcome, Vec<u64>) {
    let left = check_book(asked.left, LEFT_BOOK);
    let right = check_book(asked.right, RIGHT_BOOK);
    for check in [left, right] {
        if check.refusal != 0 {
            return (refused(check.part, check.refusal), words.to_vec());
        }
    }
    let hidden = [
        (asked.left, asked.hidden.left, LEFT_BOOK),
        (asked.right, asked.hidden.right, RIGHT_BOOK),
    ];
    if let Some(refusal) = beyond_refusal(&hidden) {
        return (refusal, words.to_vec());
    }
    let sheet = check_sheet(asked.sheet);
    if sheet.refusal != 0 {
        return (refused(SHEET, sheet.refusal), words.to_vec());
    }
    let q = sheet.first as usize;
    if words.len() < q {
        return (refused(CALL, 24), words.to_vec());
    }
    if asked.entry >= q {
        return (refused(CALL, 25), words.to_vec());
    }
    if asked.left_cell >= left.first as usize || asked.right_cell >= right.first as usize {
        return (refused(CALL, 26), words.to_vec());
    }
    let of_left = truth_words(asked.left, asked.hidden.left, asked.sheet);
    let of_right = truth_words(asked.right, asked.hidden.right, asked.sheet);
    let yes = !asked.of_hidden()
        && of_left[asked.entry] >> asked.left_cell & 1 == 1
        && of_right[asked.entry] >> asked.right_cell & 1 == 0;
    (accepted(yes as u32, 0), written(of_right, words))
}
