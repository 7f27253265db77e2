//! Texts of given lengths: where lengths end, and where numbers of 8, 16, 24, 32 and 64 bits do.

use crate::expected::{entry_length, Expected, MOST_LENGTH};
use crate::references;
use crate::support::lend_zeros;
use crate::support::random::Random;
use crate::support::sheets::{step, Entry, Step};
use crate::support::versions::{all_labels, VERSIONS};
use crate::tally::Tally;

pub fn all(tally: &mut Tally) {
    let random = &mut Random::new(11);
    each_length(tally, random);
    around_powers(tally, random);
    by_each_reference(tally, random);
    written(tally, random);
    large_rooms(tally, random);
}

/// A sheet of which the last entry has a text of this length.
fn of_length(random: &mut Random, length: u128) -> Expected {
    let mut entries = vec![Entry::True];
    add_of_length(random, &mut entries, length);
    expected_of_length(random, entries, length)
}

fn expected_of_length(random: &mut Random, entries: Vec<Entry>, length: u128) -> Expected {
    let expected = Expected::of_any(random, entries);
    assert_eq!(expected.lengths.last(), Some(&length));
    expected
}

/// Adds an entry with a text of this length, which is 5, 6 or at least 8, after those that it names. Gives its number: 0 for a length
/// of 3.
fn add_of_length(random: &mut Random, entries: &mut Vec<Entry>, length: u128) -> u16 {
    match length {
        3 => return 0,
        5 => entries.push(Entry::Same(vec![], vec![])),
        10 => entries.push(Entry::Way(vec![step(10, 0)])),
        6..=40 => {
            let part = add_of_length(random, entries, length - 3);
            entries.push(Entry::Not(part));
        }
        _ => add_of_parts(random, entries, length),
    }
    entries.len() as u16 - 1
}

/// Adds an entry of several equal parts, and around it entries of one part, so that its text has this length.
fn add_of_parts(random: &mut Random, entries: &mut Vec<Entry>, length: u128) {
    let (form, fixed, times) = loop {
        let form = any_form(random);
        let with = |part| entry_length(&form, |_| part);
        let (fixed, times) = (with(0), with(1) - with(0));
        if fixed + 10 * times + 8 <= length {
            break (form, fixed, times);
        }
    };
    let mut rest = (length - fixed) % times;
    while [1, 2, 4, 5].contains(&rest) {
        rest += times; // no entries add so little
    }
    let part = add_of_length(random, entries, (length - fixed - rest) / times);
    entries.push(form.renamed(|_| part));
    while rest > 0 {
        let last = entries.len() as u16 - 1;
        let one = |label: usize| Entry::Way(vec![step(label as u16, last)]);
        let (around, more) = match rest % 3 {
            1 if rest >= 10 && random.one_in(4) => (one(random.between(10_000, 65_535)), 10),
            1 => (one(random.between(10, 99)), 7),
            2 => (one(random.between(100, 999)), 8),
            _ if rest >= 9 && random.one_in(4) => (one(random.between(1_000, 9_999)), 9),
            _ if rest >= 6 && random.one_in(2) => (one(random.below(10)), 6),
            _ => (Entry::Not(last), 3),
        };
        entries.push(around);
        rest -= more;
    }
}

/// An entry that names entry 0 at two places or more.
fn any_form(random: &mut Random) -> Entry {
    let labels = random.pick(&VERSIONS.map(all_labels));
    let steps = |random: &mut Random, most: usize| -> Vec<Step> {
        let count = random.between(1, most);
        let mut label = || random.below(labels) as u16;
        (0..count).map(|_| step(label(), 0)).collect()
    };
    match random.below(5) {
        0 => Entry::And(0, 0),
        1 => Entry::Or(0, 0),
        2 => Entry::Way([steps(random, 1), steps(random, 59)].concat()),
        3 => Entry::Same(steps(random, 4), steps(random, 4)),
        _ => Entry::Differ(steps(random, 4), steps(random, 4)),
    }
}

fn ask_last(tally: &mut Tally, expected: &Expected) {
    tally.entry(expected, expected.entries.len() - 1);
}

/// Every length up to 600.
fn each_length(tally: &mut Tally, random: &mut Random) {
    for length in 8..=600 {
        ask_last(tally, &of_length(random, length));
    }
}

/// Lengths around powers of 2. Those above 2^32 and 2^64 look small where bits are lost.
fn around_powers(tally: &mut Tally, random: &mut Random) {
    for bits in [
        8, 16, 24, 30, 31, 32, 33, 34, 40, 48, 63, 64, 65, 66, 96, 127,
    ] {
        for near in 0..=20 {
            let length = (1 << bits) - 6 + near;
            for _ in 0..2 {
                ask_last(tally, &of_length(random, length));
            }
        }
    }
}

/// The last lengths that are answered and the first that are refused, where each kind of reference adds the last bytes.
fn by_each_reference(tally: &mut Tally, random: &mut Random) {
    for reference in references::all() {
        for length in MOST_LENGTH - 1..=MOST_LENGTH + 2 {
            let label = random.pick(&[7, 77, 177, 1_777, 17_777]);
            let named = |part: u128| move |number| if number == 0 { 3 } else { part };
            let around = entry_length(&reference.entry(1, label), named(0));
            let mut entries = vec![Entry::True];
            let part = add_of_length(random, &mut entries, length - around);
            entries.push(reference.entry(part, label));
            ask_last(tally, &expected_of_length(random, entries, length));
        }
    }
}

/// Texts of 2^24 bytes and around, written in full: their length takes both values of an answer.
fn written(tally: &mut Tally, random: &mut Random) {
    for length in [(1 << 24) - 1, 1 << 24, (1 << 24) + 1] {
        let expected = of_length(random, length);
        let last = expected.entries.len() - 1;
        let text = expected.question(last).to_string();
        for room in [text.len() - 1, text.len(), text.len() + 9] {
            tally.text(&expected, last, room, &text);
        }
    }
}

/// Rooms of about 2^32 bytes: one byte less than the longest text takes, as much as the first that is too long would take, and far more
/// than a short one does, although it looks less where bits are lost.
fn large_rooms(tally: &mut Tally, random: &mut Random) {
    let [short, longest, longer] =
        [12, MOST_LENGTH, MOST_LENGTH + 1].map(|length| of_length(random, length));
    let last = |expected: &Expected| expected.entries.len() - 1;
    let text = short.question(last(&short)).to_string();
    lend_zeros(MOST_LENGTH as usize + 1, |room| {
        tally.text_in_place(&longest, last(&longest), &mut room[2..], "");
        tally.text_in_place(&longer, last(&longer), room, "");
        tally.text_in_place(&short, last(&short), room, &text);
        assert!(std::hint::black_box(&*room).iter().all(|&byte| byte == 0));
    });
}
