//! The text of a question and its length in plain Rust, by the library's method: the starts of the entries are listed; chains and
//! lengths come in one pass over the entries, in their order; the writer calls itself for the entries that an entry names.

use crate::support::checks::check_sheet;
use crate::support::outcome::{of_length, refused, Outcome, CALL};
use crate::support::versions::{label_of, label_width, step_width};
use std::iter::successors;

/// The most references of a chain, and the most bytes of a text.
const MOST_CHAIN: u16 = 1024;
const MOST_LENGTH: u64 = u32::MAX as u64;

/// How many references the longest chain from a question has, and how many bytes its text has: that of an entry up to one more than the
/// most, so that a sum of lengths does not overflow.
#[derive(Clone, Copy)]
struct Measure {
    chain: u16,
    length: u64,
}

impl Measure {
    /// Two parts beside each other.
    fn beside(self, other: Measure) -> Measure {
        Measure {
            chain: self.chain.max(other.chain),
            length: self.length + other.length,
        }
    }

    fn longer(self, bytes: u64) -> Measure {
        Measure {
            length: self.length + bytes,
            ..self
        }
    }
}

fn number(bytes: &[u8], place: usize) -> usize {
    u16::from_be_bytes([bytes[place], bytes[place + 1]]) as usize
}

/// What the entry that starts there holds: its kind byte and what follows it.
fn body(sheet: &[u8], start: usize) -> &[u8] {
    &sheet[start + 1..][..sheet[start] as usize]
}

/// The two ways of a same or a differ, in a sheet of this version.
fn ways(version: u8, body: &[u8]) -> (&[u8], &[u8]) {
    body[3..].split_at(step_width(version) * body[1] as usize)
}

/// The labels and tests of the steps of a way, in a sheet of this version.
fn steps(version: u8, way: &[u8]) -> impl Iterator<Item = (u16, usize)> + '_ {
    let fields = way.chunks_exact(step_width(version));
    let fields = fields.map(move |step| step.split_at(label_width(version)));
    fields.map(|(label, test)| (label_of(label), number(test, 0)))
}

/// A reference to an entry.
fn referred(known: &[Measure], entry: usize) -> Measure {
    let Measure { chain, length } = known[entry];
    Measure {
        chain: chain + 1,
        length,
    }
}

fn digits(label: u16) -> u64 {
    match label {
        0..=9 => 1,
        10..=99 => 2,
        100..=999 => 3,
        1_000..=9_999 => 4,
        _ => 5,
    }
}

fn way_measure(known: &[Measure], version: u8, way: &[u8]) -> Measure {
    let empty = Measure {
        chain: 0,
        length: way.is_empty() as u64, // a dot
    };
    steps(version, way).fold(empty, |out, (label, test)| {
        out.beside(referred(known, test)).longer(3 + digits(label))
    })
}

/// The measure of an entry of a sheet of this version, from those of the entries before.
fn entry_measure(known: &[Measure], version: u8, body: &[u8]) -> Measure {
    let part = |place| referred(known, number(body, place));
    let way = |way| way_measure(known, version, way);
    match body[0] {
        0 => way(&[]).longer(2),
        1 => part(1).longer(3),
        2 | 3 => part(1).beside(part(3)).longer(3),
        4 => way(&body[2..]).longer(2),
        kind => {
            let (w, v) = ways(version, body);
            let sign = if kind == 5 { 1 } else { 2 };
            way(w).beside(way(v)).longer(2 + sign)
        }
    }
}

/// The measure of the last of the entries that start there.
fn last_measure(sheet: &[u8], starts: &[usize]) -> Measure {
    let mut known: Vec<Measure> = Vec::with_capacity(starts.len());
    for &start in starts {
        let Measure { chain, length } = entry_measure(&known, sheet[4], body(sheet, start));
        known.push(Measure {
            chain,
            length: length.min(MOST_LENGTH + 1),
        });
    }
    known[starts.len() - 1]
}

/// Writes bytes at a place of the room, and gives the place after them.
fn put(room: &mut [u8], at: usize, bytes: &[u8]) -> usize {
    let next = at + bytes.len();
    room[at..next].copy_from_slice(bytes);
    next
}

/// An accepted sheet, and where its entries start.
struct Writer<'a> {
    sheet: &'a [u8],
    starts: &'a [usize],
}

impl Writer<'_> {
    /// Writes an entry's question, like `put`.
    fn put_question(&self, room: &mut [u8], at: usize, entry: usize) -> usize {
        let body = body(self.sheet, self.starts[entry]);
        match body[0] {
            0 => put(room, at, b"<.>"),
            1 => {
                let at = put(room, at, b"!(");
                let at = self.put_question(room, at, number(body, 1));
                put(room, at, b")")
            }
            kind @ (2 | 3) => {
                let at = put(room, at, b"(");
                let at = self.put_question(room, at, number(body, 1));
                let at = put(room, at, if kind == 2 { b"&" } else { b"|" });
                let at = self.put_question(room, at, number(body, 3));
                put(room, at, b")")
            }
            4 => {
                let at = put(room, at, b"<");
                let at = self.put_way(room, at, &body[2..]);
                put(room, at, b">")
            }
            kind => {
                let (w, v) = ways(self.sheet[4], body);
                let at = put(room, at, b"<");
                let at = self.put_way(room, at, w);
                let at = match kind {
                    5 => put(room, at, b"="),
                    _ => put(room, at, b"!="),
                };
                let at = self.put_way(room, at, v);
                put(room, at, b">")
            }
        }
    }

    fn put_way(&self, room: &mut [u8], at: usize, way: &[u8]) -> usize {
        if way.is_empty() {
            return put(room, at, b".");
        }
        steps(self.sheet[4], way).fold(at, |at, (label, test)| {
            let at = put(room, at, b"/");
            let at = put_label(room, at, label);
            let at = put(room, at, b"[");
            let at = self.put_question(room, at, test);
            put(room, at, b"]")
        })
    }
}

fn put_label(room: &mut [u8], at: usize, mut label: u16) -> usize {
    let next = at + digits(label) as usize;
    for byte in room[at..next].iter_mut().rev() {
        *byte = b'0' + (label % 10) as u8;
        label /= 10;
    }
    next
}

/// Where the first n entries of an accepted sheet start.
fn first_starts(sheet: &[u8], n: usize) -> Vec<usize> {
    let next = |&start: &usize| Some(start + 1 + sheet[start] as usize);
    successors(Some(8), next).take(n).collect()
}

/// The starts of the entries up to the one asked for, and the length of its text; or the refusal.
fn measured(sheet: &[u8], entry: usize) -> Result<(Vec<usize>, u32), Outcome> {
    let check = check_sheet(sheet);
    if check.refusal != 0 {
        return Err(check);
    }
    if check.first as usize <= entry {
        return Err(refused(CALL, 25));
    }
    let starts = first_starts(sheet, entry + 1);
    let Measure { chain, length } = last_measure(sheet, &starts);
    if chain > MOST_CHAIN {
        return Err(refused(CALL, 28));
    }
    if length > MOST_LENGTH {
        return Err(refused(CALL, 29));
    }
    Ok((starts, length as u32))
}

/// Question length, with all its refusals.
pub fn question_length(sheet: &[u8], entry: usize) -> Outcome {
    match measured(sheet, entry) {
        Ok((_, length)) => of_length(length),
        Err(refusal) => refusal,
    }
}

/// Question text, with all its refusals.
pub fn question_text(sheet: &[u8], entry: usize, room: &mut [u8]) -> Outcome {
    let (starts, length) = match measured(sheet, entry) {
        Ok(found) => found,
        Err(refusal) => return refusal,
    };
    if room.len() < length as usize {
        return refused(CALL, 30);
    }
    let writer = Writer {
        sheet,
        starts: &starts,
    };
    writer.put_question(room, 0, entry);
    of_length(length)
}
