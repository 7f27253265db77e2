//! The two checks of document 01, "The operations and when they decline", written from its sentences, for both versions of document 02,
//! request 2026-02.
//! Independent of the library: later tests may rest on these for the refusals of lent books and sheets.

use super::outcome::{accepted, refused, Outcome, SHEET};
use super::versions::{label_of, label_width, link_width, VERSIONS};

/// Check a book: n and e, or the first refusal, which speaks of `part` (the left or only book, or the right one).
pub fn check_book(bytes: &[u8], part: u8) -> Outcome {
    match book_counts(bytes) {
        Ok((n, e)) => accepted(n as u32, e as u32),
        Err(refusal) => refused(part, refusal),
    }
}

/// Check a sheet: q and c, or the first refusal.
pub fn check_sheet(bytes: &[u8]) -> Outcome {
    match sheet_counts(bytes) {
        Ok((q, c)) => accepted(q as u32, c as u32),
        Err(refusal) => refused(SHEET, refusal),
    }
}

/// "1: fewer than 8 bytes. 2: L is not the number of bytes lent. 3: version." The version, byte 5 and bytes 6-7.
fn header(bytes: &[u8]) -> Result<(u8, usize, usize), u8> {
    let Some(header) = bytes.first_chunk::<8>() else {
        return Err(1);
    };
    let [l0, l1, l2, l3, version, byte, high, low] = *header;
    if u32::from_be_bytes([l0, l1, l2, l3]) as usize != bytes.len() {
        return Err(2);
    }
    // "Version 1 is still read, .. and refusal 3 now means neither."
    if !VERSIONS.contains(&version) {
        return Err(3);
    }
    let field = u16::from_be_bytes([high, low]);
    Ok((version, byte as usize, field as usize))
}

fn book_counts(bytes: &[u8]) -> Result<(usize, usize), u8> {
    let (version, n, e) = header(bytes)?;
    let width = link_width(version);
    // "4: n or e out of range. 5: L breaks the formula."
    if !(1..=64).contains(&n) || !(0..=512).contains(&e) {
        return Err(4);
    }
    if bytes.len() != 8 + 4 * n + width * e {
        return Err(5);
    }
    // "Then link by link from the front, 6: a cell not below n; 7: not above the link before."
    let mut before: Option<(u8, u16, u8)> = None;
    for link in bytes[8 + 4 * n..].chunks(width) {
        let (from, to) = (link[0], link[width - 1]);
        if from as usize >= n || to as usize >= n {
            return Err(6);
        }
        // Compared as triples.
        let triple = Some((from, label_of(&link[1..width - 1]), to));
        if before >= triple {
            return Err(7);
        }
        before = triple;
    }
    Ok((n, e))
}

fn sheet_counts(bytes: &[u8]) -> Result<(usize, usize), u8> {
    let (version, c, q) = header(bytes)?;
    // "8: c or q out of range."
    if !(0..=4).contains(&c) || !(1..=16385).contains(&q) {
        return Err(8);
    }
    let mut rest = &bytes[8..];
    for number in 0..q {
        // "9: the count byte is absent, 0, or reaches past the end".
        let (&count, after) = rest.split_first().ok_or(9)?;
        if count == 0 {
            return Err(9);
        }
        let (entry, next) = after.split_at_checked(count as usize).ok_or(9)?;
        check_entry(version, number, c, entry[0], &entry[1..])?;
        rest = next;
    }
    // "After the last, 9: bytes left over."
    if rest.is_empty() {
        Ok((q, c))
    } else {
        Err(9)
    }
}

/// The entry of that number in a sheet of this version and bound c: its kind byte and the bytes that follow it.
fn check_entry(version: u8, number: usize, c: usize, kind: u8, body: &[u8]) -> Result<(), u8> {
    // "10: kind above 6; 13: entry 0 not kind 0".
    if kind > 6 {
        return Err(10);
    }
    if number == 0 && kind != 0 {
        return Err(13);
    }
    // "14: step count bytes missing; 11: a step count too large".
    let (step_counts, most) = match kind {
        4 => (1, 60),
        5 | 6 => (2, c),
        _ => (0, 0),
    };
    let (step_counts, fields) = body.split_at_checked(step_counts).ok_or(14)?;
    if step_counts.iter().any(|&k| k as usize > most) {
        return Err(11);
    }
    // "14: body not exactly the size required": so many fields, each a number after so many bytes of label.
    let (count, label) = match kind {
        0 => (0, 0),
        1 => (1, 0),
        2 | 3 => (2, 0),
        _ => {
            let steps = step_counts.iter().map(|&k| k as usize).sum();
            (steps, label_width(version))
        }
    };
    if fields.len() != count * (label + 2) {
        return Err(14);
    }
    // "12: a number not earlier".
    for field in fields.chunks(label + 2) {
        if u16::from_be_bytes([field[label], field[label + 1]]) as usize >= number {
            return Err(12);
        }
    }
    Ok(())
}
