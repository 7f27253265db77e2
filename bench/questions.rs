//! The questions whose texts are timed, the same in every run.

use crate::support::books::{chain, random_book, Book};
use crate::support::hidden::NOTHING;
use crate::support::library::{self, needed};
use crate::support::random::Random;
use crate::support::sheets::{random_sheet, step, Entry, Sheet, Step};
use crate::support::sides::Sides;
use crate::support::versions::versions_of;
use std::ops::Range;

/// The most entries of a sheet, and the most steps of a way.
const ENTRIES: usize = 16_385;
const STEPS: usize = 60;

/// How many bytes a text has that is looked for: some megabytes, or so few that a family reads it.
const LONG: Range<usize> = 2_000_000..8_000_000;
const SHORT: Range<usize> = 10..100;

/// A question: an entry of a sheet.
pub struct Asked {
    pub name: String,
    pub sheet: Vec<u8>,
    pub entry: usize,
}

/// Questions whose texts are written.
pub fn written() -> Vec<Asked> {
    let random = &mut Random::new(1);
    let mut asked = vec![
        last("and, doubled 20 times", 21, doubled),
        last(
            "or, doubled 20 times, and not by turns",
            41,
            |number| match number % 2 {
                0 => Entry::Not(before(number)),
                _ => Entry::Or(before(number), before(number)),
            },
        ),
        last(
            "and, 1,000 in a chain, doubled 10 times",
            1011,
            |number| match number {
                1..=1000 => Entry::And(before(number), 0),
                _ => doubled(number),
            },
        ),
    ];
    for (name, labels) in [
        ("1 digit", 0..10),
        ("2 digits", 10..100),
        ("3 digits", 100..256),
        ("1 to 3 digits", 0..256),
        ("5 digits", 10_000..65_536),
    ] {
        let name = format!("ways of 60 steps, 3 in each other, labels of {name}");
        asked.push(last(&name, 4, |number| {
            Entry::Way(steps(random, number, STEPS, &labels))
        }));
    }
    for (count, levels) in [(1, 18), (4, 6)] {
        let name = format!("same and differ of {count} + {count} steps, {levels} in each other");
        asked.push(last(&name, 1 + levels, |number| {
            let w = steps(random, number, count, &(0..256));
            let v = steps(random, number, count, &(0..256));
            match number % 2 {
                0 => Entry::Same(w, v),
                _ => Entry::Differ(w, v),
            }
        }));
    }
    for longest in [4, 12, 60] {
        let name = format!("all kinds, ways of at most {longest} steps");
        asked.push(any_kinds(&name, random, longest));
    }
    asked.push(of_compare(
        "Compare's, a long one",
        &chain(vec![5; 64], |_| 1),
        LONG,
    ));
    let book = random_book(random, 64, 512, 8, 16);
    asked.push(of_compare("Compare's, a short one", &book, SHORT));
    asked
}

/// Questions of which only the length is asked.
pub fn measured() -> Vec<Asked> {
    let random = &mut Random::new(2);
    let ways = last("ways of 60 steps, 16,385 entries", ENTRIES, |number| {
        // A test is before the quarter of the sheet where the entry is, so that at most four ways are in each other.
        let quarter = 1 + (number - 1) / (ENTRIES / 4) * (ENTRIES / 4);
        let steps = (0..STEPS).map(|_| step(random.byte() as u16, random.below(quarter) as u16));
        Entry::Way(steps.collect())
    });
    vec![ways, last("and, doubled 1,000 times", 1001, doubled)]
}

/// The number of the entry before.
fn before(number: usize) -> u16 {
    number as u16 - 1
}

fn doubled(number: usize) -> Entry {
    Entry::And(before(number), before(number))
}

/// So many steps by these labels, each with the entry before for a test.
fn steps(random: &mut Random, number: usize, count: usize, labels: &Range<usize>) -> Vec<Step> {
    (0..count)
        .map(|_| {
            let label = random.between(labels.start, labels.end - 1);
            step(label as u16, before(number))
        })
        .collect()
}

/// The last question of a sheet of so many entries: true, and one made from each number. The sheet is of version 1 if that has the labels.
fn last(name: &str, entries: usize, entry: impl FnMut(usize) -> Entry) -> Asked {
    let sheet = Sheet {
        bound: 4,
        entries: [Entry::True]
            .into_iter()
            .chain((1..entries).map(entry))
            .collect(),
    };
    Asked {
        name: name.to_string(),
        sheet: sheet.bytes(versions_of(sheet.labels())[0]),
        entry: entries - 1,
    }
}

/// The last question of a sheet whose text has so many bytes.
fn last_of_size(name: &str, sheet: Vec<u8>, bytes: Range<usize>) -> Option<Asked> {
    let entries = library::check_sheet(&sheet).first as usize;
    let fits = |&entry: &usize| bytes.contains(&library::question_length(&sheet, entry).length());
    let entry = (0..entries).rev().find(fits)?;
    Some(Asked {
        name: name.to_string(),
        sheet,
        entry,
    })
}

/// A question of a random sheet.
fn any_kinds(name: &str, random: &mut Random, longest: usize) -> Asked {
    loop {
        let sheet = random_sheet(random, 4, 400, longest, 256).bytes(1);
        if let Some(asked) = last_of_size(name, sheet, LONG) {
            return asked;
        }
    }
}

/// A question of the sheet that Compare writes for a book and itself.
fn of_compare(name: &str, book: &Book, bytes: Range<usize>) -> Asked {
    let (map, room, scratch) = needed(book.cells() * book.cells(), 1);
    let mut room = vec![0; room];
    let answer = library::compare(
        Sides::Two,
        &book.bytes(1),
        &book.bytes(1),
        2,
        NOTHING,
        &mut vec![0; map],
        &mut room,
        &mut vec![0; scratch],
    );
    room.truncate(answer.first as usize);
    last_of_size(name, room, bytes).expect("a text of so many bytes")
}
