//! The library's two checks, compared with an independent check written from document 01, on accepted and damaged inputs of both
//! versions.

mod book_inputs;
mod damage;
mod sheet_inputs;
#[path = "../support/mod.rs"]
mod support;
mod tally;

use support::{checks, library, outcome};
use tally::Tally;

fn main() {
    let mut books = Tally::new("book", library::check_book, |bytes| {
        checks::check_book(bytes, outcome::LEFT_BOOK)
    });
    book_inputs::all(&mut books);
    let mut sheets = Tally::new("sheet", library::check_sheet, checks::check_sheet);
    sheet_inputs::all(&mut sheets);

    let inputs =
        books.report(&[1, 2, 3, 4, 5, 6, 7]) + sheets.report(&[1, 2, 3, 8, 9, 10, 11, 12, 13, 14]);
    println!("formats: the library and the independent check agree on {inputs} inputs");
}
