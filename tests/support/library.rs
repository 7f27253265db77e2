//! The library's functions for C (include/cuhnavel.h), as safe functions.

use super::hidden::Hidden;
use super::outcome::Outcome;
use super::sides::Sides;
use super::versions::step_width;

extern "C" {
    fn cuhnavel_check_book(bytes: *const u8, len: usize) -> u64;
    fn cuhnavel_check_sheet(bytes: *const u8, len: usize) -> u64;
    fn cuhnavel_truth(
        book: *const u8,
        book_len: usize,
        hidden: u64,
        sheet: *const u8,
        sheet_len: usize,
        words: *mut u64,
        words_len: usize,
    ) -> u64;
    fn cuhnavel_claim(
        left: *const u8,
        left_len: usize,
        right: *const u8,
        right_len: usize,
        left_hidden: u64,
        right_hidden: u64,
        sheet: *const u8,
        sheet_len: usize,
        entry: usize,
        left_cell: usize,
        right_cell: usize,
        words: *mut u64,
        words_len: usize,
    ) -> u64;
    fn cuhnavel_row(map: *const u16, map_len: usize, m: usize, i: usize) -> u64;
    fn cuhnavel_row_word(map: *const u16, map_len: usize, m: usize, i: usize) -> u64;
    fn cuhnavel_pair(
        map: *const u16,
        map_len: usize,
        place: usize,
        sheet: *const u8,
        sheet_len: usize,
    ) -> u64;
    fn cuhnavel_links(book: *const u8, book_len: usize, cell: usize) -> u64;
    fn cuhnavel_compare(
        left: *const u8,
        left_len: usize,
        right: *const u8,
        right_len: usize,
        bound: usize,
        left_hidden: u64,
        right_hidden: u64,
        map: *mut u16,
        map_len: usize,
        room: *mut u8,
        room_len: usize,
        scratch: *mut u8,
        scratch_len: usize,
    ) -> u64;
    fn cuhnavel_compare_one_way(
        left: *const u8,
        left_len: usize,
        right: *const u8,
        right_len: usize,
        bound: usize,
        left_hidden: u64,
        right_hidden: u64,
        map: *mut u16,
        map_len: usize,
        room: *mut u8,
        room_len: usize,
        scratch: *mut u8,
        scratch_len: usize,
    ) -> u64;
    fn cuhnavel_question_length(sheet: *const u8, sheet_len: usize, entry: usize) -> u64;
    fn cuhnavel_question_text(
        sheet: *const u8,
        sheet_len: usize,
        entry: usize,
        room: *mut u8,
        room_len: usize,
    ) -> u64;
}

/// Check a book.
pub fn check_book(bytes: &[u8]) -> Outcome {
    Outcome::of_number(unsafe { cuhnavel_check_book(bytes.as_ptr(), bytes.len()) })
}

/// Check a sheet.
pub fn check_sheet(bytes: &[u8]) -> Outcome {
    Outcome::of_number(unsafe { cuhnavel_check_sheet(bytes.as_ptr(), bytes.len()) })
}

/// Truth of a book of which a word hides some cells.
pub fn truth(book: &[u8], hidden: u64, sheet: &[u8], words: &mut [u64]) -> Outcome {
    Outcome::of_number(unsafe {
        cuhnavel_truth(
            book.as_ptr(),
            book.len(),
            hidden,
            sheet.as_ptr(),
            sheet.len(),
            words.as_mut_ptr(),
            words.len(),
        )
    })
}

/// Claim: is this entry true at the left and false at the right cell?
pub fn claim(
    left: &[u8],
    right: &[u8],
    hidden: Hidden,
    sheet: &[u8],
    entry: usize,
    left_cell: usize,
    right_cell: usize,
    words: &mut [u64],
) -> Outcome {
    Outcome::of_number(unsafe {
        cuhnavel_claim(
            left.as_ptr(),
            left.len(),
            right.as_ptr(),
            right.len(),
            hidden.left,
            hidden.right,
            sheet.as_ptr(),
            sheet.len(),
            entry,
            left_cell,
            right_cell,
            words.as_mut_ptr(),
            words.len(),
        )
    })
}

/// Row: the count.
pub fn row(map: &[u16], m: usize, i: usize) -> Outcome {
    Outcome::of_number(unsafe { cuhnavel_row(map.as_ptr(), map.len(), m, i) })
}

/// Row: the word.
pub fn row_word(map: &[u16], m: usize, i: usize) -> u64 {
    unsafe { cuhnavel_row_word(map.as_ptr(), map.len(), m, i) }
}

/// Pair.
pub fn pair(map: &[u16], place: usize, sheet: &[u8]) -> Outcome {
    Outcome::of_number(unsafe {
        cuhnavel_pair(map.as_ptr(), map.len(), place, sheet.as_ptr(), sheet.len())
    })
}

/// Links: the count, and where the part starts.
pub fn links(book: &[u8], cell: usize) -> Outcome {
    Outcome::of_number(unsafe { cuhnavel_links(book.as_ptr(), book.len(), cell) })
}

/// What Compare needs for so many pairs of cells, where it writes a sheet of this version: places of the map, bytes of room, bytes of
/// scratch. For a pair there are four entries at most, of which one has 8 steps at most: 44 bytes in version 1, 52 in version 2.
pub fn needed(pairs: usize, version: u8) -> (usize, usize, usize) {
    let room = 10 + (20 + 8 * step_width(version)) * pairs;
    (pairs, room, 16 * pairs)
}

/// Compare, or its one-way form.
pub fn compare(
    sides: Sides,
    left: &[u8],
    right: &[u8],
    bound: usize,
    hidden: Hidden,
    map: &mut [u16],
    room: &mut [u8],
    scratch: &mut [u8],
) -> Outcome {
    let compare = match sides {
        Sides::Two => cuhnavel_compare,
        Sides::One => cuhnavel_compare_one_way,
    };
    Outcome::of_number(unsafe {
        compare(
            left.as_ptr(),
            left.len(),
            right.as_ptr(),
            right.len(),
            bound,
            hidden.left,
            hidden.right,
            map.as_mut_ptr(),
            map.len(),
            room.as_mut_ptr(),
            room.len(),
            scratch.as_mut_ptr(),
            scratch.len(),
        )
    })
}

/// Question length: of the text of an entry's question.
pub fn question_length(sheet: &[u8], entry: usize) -> Outcome {
    Outcome::of_number(unsafe { cuhnavel_question_length(sheet.as_ptr(), sheet.len(), entry) })
}

/// Question text: the length of what is written at the room's start.
pub fn question_text(sheet: &[u8], entry: usize, room: &mut [u8]) -> Outcome {
    Outcome::of_number(unsafe {
        cuhnavel_question_text(
            sheet.as_ptr(),
            sheet.len(),
            entry,
            room.as_mut_ptr(),
            room.len(),
        )
    })
}
