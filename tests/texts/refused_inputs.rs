//! Calls that are refused: each refusal of the sheet, 25, and each with every later one; damaged sheets.

use crate::chains::chain;
use crate::expected::Expected;
use crate::support::changed;
use crate::support::counts::OF_SHEET;
use crate::support::outcome::{refused, CALL, SHEET};
use crate::support::random::Random;
use crate::support::refusals::{beyond, change_byte, or_none, sheet_refused};
use crate::support::sheets::{counted, sheet_bytes, Entry};
use crate::support::versions::VERSIONS;
use crate::tally::Tally;

pub fn all(tally: &mut Tally) {
    let random = &mut Random::new(12);
    of_sheets(tally, random);
    entries(tally, random);
    for version in VERSIONS {
        order(tally, version);
    }
    damaged(tally, random);
}

/// Every refusal of the sheet, with and without 25.
fn of_sheets(tally: &mut Tally, random: &mut Random) {
    for refusal in or_none(&OF_SHEET) {
        for _ in 0..60 {
            let expected = Expected::of_bytes(sheet_refused(random, refusal));
            let far = beyond(random, 8);
            for entry in [0, 1, far] {
                tally.entry(&expected, entry);
            }
        }
    }
}

/// The last entry, the first beyond, and any beyond: also one whose low bits are those of an entry.
fn entries(tally: &mut Tally, random: &mut Random) {
    for _ in 0..200 {
        let expected = Expected::of_bytes(sheet_refused(random, 0));
        let q = expected.entries.len();
        let far = beyond(random, q);
        for entry in [q - 1, q, q + 1, 65_535, 65_536, 65_536 + q, usize::MAX, far] {
            tally.entry(&expected, entry);
        }
    }
}

/// The sheet's refusals, 25, 28, 29 and 30, in this order: of each two that apply the earlier is given.
fn order(tally: &mut Tally, version: u8) {
    // From entry 30 on 29 applies, from entry 1,025 on 28 as well.
    let doubled = chain(version, 1_099, |number| Entry::And(number, number));
    let q = doubled.entries.len();
    let with = |number: usize, entry: Vec<u8>| {
        let entries = doubled.entries.iter();
        let mut entries: Vec<Vec<u8>> = entries.map(|entry| entry.bytes(version)).collect();
        entries[number] = entry;
        sheet_bytes(version, 4, q as u16, &entries)
    };
    let with_last = |body: &[u8]| with(q - 1, counted(body));
    let with_byte = |place, value| changed(&doubled.bytes, &[(place, value)]);
    for (refusal, bytes) in [
        (1, doubled.bytes[..7].to_vec()),
        (2, with_byte(0, 1)),
        (3, with_byte(4, 3)),
        (8, with_byte(5, 5)),
        (9, with(q - 1, vec![0])),
        (10, with_last(&[7])),
        (11, with_last(&[4, 61])),
        (12, with_last(&[1, 255, 255])),
        (13, with(0, counted(&[4, 0]))),
        (14, with_last(&[1, 0])),
    ] {
        let expected = Expected::of_bytes(bytes);
        for entry in [0, 40, 1_050, q, usize::MAX] {
            assert_eq!(expected.length(entry), refused(SHEET, refusal));
            tally.entry(&expected, entry);
        }
    }
    for (entry, refusal) in [
        (q, 25),
        (q - 1, 28),
        (1_025, 28),
        (1_024, 29),
        (30, 29),
        (29, 30),
    ] {
        assert_eq!(doubled.text(entry, 0), refused(CALL, refusal));
        tally.entry(&doubled, entry);
    }
}

/// Sheets with one to three bytes changed, which may still be accepted.
fn damaged(tally: &mut Tally, random: &mut Random) {
    for _ in 0..3_000 {
        let mut sheet = sheet_refused(random, 0);
        for _ in 0..random.between(1, 3) {
            change_byte(random, &mut sheet);
        }
        let expected = Expected::of_bytes(sheet);
        let entry = random.below(8);
        tally.entry(&expected, entry);
    }
}
