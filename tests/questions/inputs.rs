//! Books and sheets that are accepted.

use crate::expected::{truth_words, Asked};
use crate::support::books::{
    book, chain, example_a_left, example_a_right, link, most_links, random_book, silenced, Book,
};
use crate::support::hidden::{any_word, hides, masked, Hidden, NOTHING};
use crate::support::meaning::{sheet_cells, spelled_out};
use crate::support::outcome::accepted;
use crate::support::random::Random;
use crate::support::sheets::{random_sheet, step, Entry, Sheet, Step};
use crate::support::telling::{any_book, telling_sheet, Naming, Plan};
use crate::support::versions::{MIXES, VERSIONS};
use crate::tally::Tally;

const MOST_ENTRIES: usize = 16_385;
const MOST_STEPS: usize = 60;

pub fn all(tally: &mut Tally) {
    let random = &mut Random::new(3);
    by_hand(tally);
    silent(tally);
    hidden(tally);
    spelled(tally, random);
    small(tally, random);
    sizes(tally, random);
    large(tally, random);
    many_labels(tally, random);
    each_step(tally, random);
    deep(tally, random);
    most_entries(tally, random);
}

/// Document 01's example A: words and claims found by hand.
fn by_hand(tally: &mut Tally) {
    let one = |test| vec![step(1, test)];
    let entries = [
        (Entry::True, 7, 3),
        (Entry::Differ(vec![], one(0)), 1, 0),
        (Entry::Not(1), 6, 3),
        (Entry::Way(one(0)), 1, 1),
        (Entry::Way(one(3)), 0, 0),
        (Entry::Same(vec![], one(0)), 1, 1),
        (Entry::And(1, 5), 1, 0),
        (Entry::Or(2, 3), 7, 3),
        (Entry::Differ(vec![], vec![]), 0, 0),
        (Entry::Same(vec![], vec![]), 7, 3),
        (Entry::Way(vec![]), 7, 3),
        (Entry::Differ(one(0), one(0)), 1, 0),
        (Entry::Same(one(0), one(0)), 1, 1),
        (Entry::Not(12), 6, 2),
        (Entry::Way(one(2)), 1, 1),           // true at the cells reached
        (Entry::Way(one(1)), 0, 0),           // true at the start only
        (Entry::Way(vec![step(2, 0)]), 0, 0), // a label of no link
    ];
    let sheet = Sheet {
        bound: 1,
        entries: entries.iter().map(|(entry, _, _)| entry.clone()).collect(),
    };
    let of_left: Vec<u64> = entries.iter().map(|&(_, word, _)| word).collect();
    let of_right: Vec<u64> = entries.iter().map(|&(_, _, word)| word).collect();
    for [one, other] in MIXES {
        for version in VERSIONS {
            let (left, right) = (example_a_left().bytes(one), example_a_right().bytes(other));
            expect(
                tally,
                &left,
                &right,
                &sheet.bytes(version),
                &of_left,
                &of_right,
            );
        }
    }
}

/// A silent cell between two of the same recording, and words found by hand: no same or differ holds with the silent one at an end, and
/// a recording is heard whichever of its bytes is not 0.
fn silent(tally: &mut Tally) {
    let one = || vec![step(1, 0)];
    let two = || vec![step(2, 0)];
    let entries = [
        (Entry::True, 7),
        (Entry::Same(vec![], vec![]), 5),
        (Entry::Differ(vec![], vec![]), 0),
        (Entry::Not(1), 2),
        (Entry::Same(vec![], one()), 0),
        (Entry::Differ(vec![], one()), 0),
        (Entry::Same(vec![], two()), 1),
        (Entry::Same(one(), one()), 2),
        (Entry::Same(one(), two()), 0),
        (Entry::Differ(one(), two()), 0),
        (Entry::Way(one()), 3),
    ];
    let sheet = Sheet {
        bound: 1,
        entries: entries.iter().map(|(entry, _)| entry.clone()).collect(),
    };
    let words = entries.map(|(_, word)| word);
    for heard in [1, 1 << 8, 1 << 16, 1 << 24] {
        let links = [link(0, 1, 1), link(0, 2, 2), link(1, 1, 0)];
        let book = book(&[heard, 0, heard], &links);
        for [one, other] in MIXES {
            let (book, sheet) = (book.bytes(one), sheet.bytes(other));
            assert_eq!(truth_words(&book, 0, &sheet), words);
            let before = [u64::MAX; 11];
            tally.expect_truth(&book, 0, &sheet, &before, accepted(0, 0), &words);
        }
    }
}

/// A chain of three cells of which the middle one is hidden, and words found by hand: no entry is true there, and no way leads there or from
/// there. Claim says no at it, and leaves the words of the right book.
fn hidden(tally: &mut Tally) {
    let one = || vec![step(1, 0)];
    let entries = [
        (Entry::True, 5, 7),
        (Entry::Not(0), 0, 0),
        (Entry::Way(one()), 0, 3),
        (Entry::Not(2), 5, 4),
        (Entry::Same(vec![], vec![]), 5, 7),
        (Entry::Not(4), 0, 0),
        (Entry::Differ(vec![], one()), 0, 3),
        (Entry::Or(0, 2), 5, 7),
        (Entry::Way(vec![step(2, 0)]), 4, 4), // a loop at the last cell
        (Entry::Way(vec![step(3, 0)]), 0, 2), // a loop at the middle one
    ];
    let sheet = Sheet {
        bound: 1,
        entries: entries.iter().map(|(entry, _, _)| entry.clone()).collect(),
    };
    let without: Vec<u64> = entries.iter().map(|&(_, word, _)| word).collect();
    let with: Vec<u64> = entries.iter().map(|&(_, _, word)| word).collect();
    let links = [link(0, 1, 1), link(1, 1, 2), link(1, 3, 1), link(2, 2, 2)];
    let before = [u64::MAX; 10];
    for [one, other] in MIXES {
        let bytes = book(&[5, 6, 7], &links).bytes(one);
        let sheet = sheet.bytes(other);
        for (word, words) in [(0, &with), (2, &without), (7, &vec![0; 10])] {
            assert_eq!(truth_words(&bytes, word, &sheet), *words);
            tally.expect_truth(&bytes, word, &sheet, &before, accepted(0, 0), words);
        }
        for (left, right) in [(2, 0), (0, 2), (2, 2)] {
            let of = |word, left: usize| {
                if word == 2 {
                    &without[left]
                } else {
                    &with[left]
                }
            };
            let after = if right == 2 { &without } else { &with };
            for place in 0..90 {
                let (entry, left_cell, right_cell) = (place / 9, place % 9 / 3, place % 3);
                let asked = Asked {
                    left: &bytes,
                    right: &bytes,
                    hidden: Hidden { left, right },
                    sheet: &sheet,
                    entry,
                    left_cell,
                    right_cell,
                };
                let is_hidden = hides(left, left_cell) || hides(right, right_cell);
                let yes = of(left, entry) >> left_cell & 1 == 1
                    && of(right, entry) >> right_cell & 1 == 0
                    && !is_hidden;
                tally.expect_claim(asked, &before, accepted(yes as u32, 0), after);
            }
        }
    }
}

/// Truth of both books leaves these words, and all claims are those that follow from them.
fn expect(
    tally: &mut Tally,
    left: &[u8],
    right: &[u8],
    sheet: &[u8],
    of_left: &[u64],
    of_right: &[u64],
) {
    assert_eq!(truth_words(left, 0, sheet), of_left);
    assert_eq!(truth_words(right, 0, sheet), of_right);
    let before = vec![u64::MAX; of_left.len()];
    tally.expect_truth(left, 0, sheet, &before, accepted(0, 0), of_left);
    tally.expect_truth(right, 0, sheet, &before, accepted(0, 0), of_right);
    let asked = |entry, left_cell, right_cell| Asked {
        left,
        right,
        hidden: NOTHING,
        sheet,
        entry,
        left_cell,
        right_cell,
    };
    for entry in 0..of_left.len() {
        for left_cell in 0..3 {
            for right_cell in 0..2 {
                let yes =
                    of_left[entry] >> left_cell & 1 == 1 && of_right[entry] >> right_cell & 1 == 0;
                let asked = asked(entry, left_cell, right_cell);
                tally.expect_claim(asked, &before, accepted(yes as u32, 0), of_right);
            }
        }
    }
    // Document 01: "differ: stay, step 1" parts (0,0), and only from left to right.
    tally.expect_claim(asked(1, 0, 0), &before, accepted(1, 0), of_right);
    let turned = Asked {
        left: right,
        right: left,
        ..asked(1, 0, 0)
    };
    tally.expect_claim(turned, &before, accepted(0, 0), of_left);
}

/// Words to be lent: q of them and some more, with any values.
fn any_words(random: &mut Random, q: usize) -> Vec<u64> {
    let more = random.pick(&[0, 0, 1, 2, 5]);
    let alike = random.pick(&[0, u64::MAX]);
    let any = random.one_in(2);
    (0..q + more)
        .map(|_| if any { random.next() } else { alike })
        .collect()
}

/// Some of the sheet's labels now and then with another high byte, so that they agree with those of a book in the low byte alone.
fn perhaps_wider(random: &mut Random, sheet: &Sheet) -> Sheet {
    if !random.one_in(4) {
        return sheet.clone();
    }
    let mut label = |label: u16| label ^ random.pick(&[0, 0, 0, 0, 0, 0, 256, 65_280]);
    let entries = sheet.entries.iter();
    Sheet {
        bound: sheet.bound,
        entries: entries.map(|entry| entry.relabelled(&mut label)).collect(),
    }
}

/// Truth of both books, with some cells hidden or not, and so many claims: some that are yes, if there are such. All are of any version.
fn ask(
    tally: &mut Tally,
    random: &mut Random,
    left: &Book,
    right: &Book,
    sheet: &Sheet,
    claims: usize,
) {
    let q = sheet.entries.len();
    let same = left == right;
    let left = masked(random, left);
    let mut right = masked(random, right);
    if same {
        right = left.clone();
        if random.one_in(2) {
            right.hidden = any_word(random, right.book.cells());
        }
    }
    let hidden = Hidden {
        left: left.hidden,
        right: right.hidden,
    };
    let (cells, right_cells) = (left.book.cells(), right.book.cells());
    let (left, right) = (left.book.any_bytes(random), right.book.any_bytes(random));
    let sheet = perhaps_wider(random, sheet).any_bytes(random);
    let of_left = tally.truth(&left, hidden.left, &sheet, &any_words(random, q));
    let of_right = tally.truth(&right, hidden.right, &sheet, &any_words(random, q));
    for turn in 0..claims {
        let mut draw = || Asked {
            left: &left,
            right: &right,
            hidden,
            sheet: &sheet,
            entry: random.below(q),
            left_cell: random.below(cells),
            right_cell: random.below(right_cells),
        };
        let mut asked = draw();
        let yes = |asked: &Asked| {
            !asked.of_hidden()
                && of_left[asked.entry] >> asked.left_cell & 1 == 1
                && of_right[asked.entry] >> asked.right_cell & 1 == 0
        };
        for _ in 0..40 {
            if turn % 2 == 0 && !yes(&asked) {
                asked = draw();
            }
        }
        tally.claim(asked, &any_words(random, q));
    }
}

/// Another book to ask: the same, or one of any number of cells.
fn other(random: &mut Random, book: &Book, cells: usize) -> Book {
    if random.one_in(4) {
        return book.clone();
    }
    let mut other = match random.below(3) {
        // One link or recording less or other: much alike.
        0 => book.clone(),
        _ => {
            let cells = random.between(1, cells);
            any_book(random, cells)
        }
    };
    if random.one_in(2) && !other.links.is_empty() {
        let place = random.below(other.links.len());
        other.links.remove(place);
    }
    let place = random.below(other.cells());
    other.recordings[place] = random.pick(&other.recordings.clone());
    other
}

/// Sheets so small that each question can be spelled out.
fn spelled(tally: &mut Tally, random: &mut Random) {
    for _ in 0..300 {
        let cells = random.between(1, 4);
        let book = any_book(random, cells);
        let plan = Plan {
            bound: random.between(0, 3) as u8,
            entries: random.between(1, 6),
            longest: 3,
            naming: Naming::Any,
            denials: true,
            draws: 4,
        };
        let sheet = telling_sheet(random, &book, plan);
        for (number, cells) in sheet_cells(&book, &sheet).iter().enumerate() {
            assert_eq!(*cells, spelled_out(&book, &sheet, number as u16));
        }
        assert_eq!(Book::of_bytes(&book.any_bytes(random)), book);
        assert_eq!(Sheet::of_bytes(&sheet.any_bytes(random)), sheet);
        ask(tally, random, &book, &book, &sheet, 2);
    }
}

/// Thousands of small books and sheets.
fn small(tally: &mut Tally, random: &mut Random) {
    for round in 0..4_000 {
        let cells = random.between(1, 7);
        let book = any_book(random, cells);
        let plan = Plan {
            bound: random.between(0, 4) as u8,
            entries: random.between(1, 24),
            longest: random.pick(&[1, 2, 4, 4, 6]),
            naming: random.pick(&[Naming::Any, Naming::Any, Naming::Last, Naming::First]),
            denials: true,
            draws: 4,
        };
        let sheet = match round % 8 {
            0 => random_sheet(random, plan.bound, plan.entries, plan.longest, 3),
            _ => telling_sheet(random, &book, plan),
        };
        let other = other(random, &book, 7);
        ask(tally, random, &book, &other, &sheet, 3);
    }
}

/// Every number of cells at every bound.
fn sizes(tally: &mut Tally, random: &mut Random) {
    for cells in 1..=64 {
        for bound in 0..=4 {
            let book = any_book(random, cells);
            let plan = Plan {
                bound,
                entries: random.between(6, 20),
                longest: random.pick(&[2, 4, 8]),
                naming: Naming::Any,
                denials: true,
                draws: 2,
            };
            let sheet = telling_sheet(random, &book, plan);
            let other = other(random, &book, 64);
            ask(tally, random, &book, &other, &sheet, 1);
        }
    }
}

/// Books of the most cells and about the most links, and the longest ways.
fn large(tally: &mut Tally, random: &mut Random) {
    for round in 0..30 {
        let cells = if round % 2 == 0 {
            64
        } else {
            random.between(56, 64)
        };
        let mut book = any_book(random, cells);
        while book.links.len() < random.pick(&[0, 100, 500, 512]) {
            book = any_book(random, cells);
        }
        let plan = Plan {
            bound: random.pick(&[4, 4, 3]),
            entries: 24,
            longest: MOST_STEPS,
            naming: Naming::Any,
            denials: true,
            draws: 3,
        };
        let sheet = telling_sheet(random, &book, plan);
        let other = other(random, &book, 64);
        ask(tally, random, &book, &other, &sheet, 1);
    }
}

/// Sheets of many steps in books with 17 links or more and several labels, which the library sorts by the remainder of their labels: few labels, and so many
/// that some have one remainder.
fn many_labels(tally: &mut Tally, random: &mut Random) {
    for _ in 0..1_500 {
        let cells = random.between(2, 24);
        let labels = random.pick(&[2, 3, 8, 70, 200]);
        let most = most_links(cells, labels).min(160);
        let links = random.between(most.min(17), most);
        let kinds = random.between(1, cells);
        let book = random_book(random, cells, links, labels, kinds);
        let book = silenced(random, book);
        let plan = Plan {
            bound: random.between(1, 4) as u8,
            entries: random.between(8, 30),
            longest: random.pick(&[4, 6, 12]),
            naming: Naming::Any,
            denials: true,
            draws: 2,
        };
        let sheet = telling_sheet(random, &book, plan);
        let other = other(random, &book, 24);
        ask(tally, random, &book, &other, &sheet, 1);
    }
}

/// A chain of 64 cells, and ways of 60 steps of which one decides: by its test, or by its label.
fn each_step(tally: &mut Tally, random: &mut Random) {
    let recordings: Vec<u32> = (0..64).collect();
    let chained = |label: fn(u8) -> u16| chain(recordings.clone(), label);
    let mut entries = vec![Entry::True];
    // Entry k: there is a way of k steps, true at the cells up to 63 - k.
    for k in 1..=MOST_STEPS {
        entries.push(Entry::Way(vec![step(7, 0); k]));
    }
    // Entry 62 + 2 × i: true at cell 63 - i only.
    for i in 0..MOST_STEPS as u16 {
        entries.push(Entry::Not(i + 1));
        entries.push(Entry::And(entries.len() as u16 - 1, i));
    }
    for place in 0..MOST_STEPS {
        // Of the cells 0 to 3, which have such a way, one passes its test.
        let cell = (place + 1 + random.below(4)).max(4);
        let mut steps = vec![step(7, 0); MOST_STEPS];
        steps[place].test = 62 + 2 * (63 - cell as u16);
        entries.push(Entry::Way(steps));
    }
    let book = chained(|_| 7);
    let sheet = Sheet { bound: 0, entries };
    let other = chained(|x| 7 - x as u16 % 2);
    ask(tally, random, &book, &other, &sheet, 1);

    for changed in [1, 256] {
        let mut entries = vec![Entry::True];
        for place in 0..MOST_STEPS {
            let start = random.below(4) as u16;
            let steps = (start..).map(|x| step(200 - x, 0));
            let mut steps: Vec<Step> = steps.take(MOST_STEPS).collect();
            entries.push(Entry::Way(steps.clone()));
            steps[place].label ^= changed;
            entries.push(Entry::Way(steps));
        }
        let sheet = Sheet { bound: 0, entries };
        let falling = chained(|x| 200 - x as u16);
        ask(tally, random, &falling, &book, &sheet, 1);
    }
}

/// Questions that name one before, which names one before, and so on for thousands of entries.
fn deep(tally: &mut Tally, random: &mut Random) {
    for round in 0..30 {
        let cells = random.between(2, 9);
        let book = any_book(random, cells);
        let plan = Plan {
            bound: 4,
            entries: if round < 3 {
                4_000
            } else {
                random.between(100, 400)
            },
            longest: 3,
            naming: Naming::Last,
            denials: true,
            draws: 6,
        };
        let sheet = telling_sheet(random, &book, plan);
        let other = other(random, &book, 9);
        ask(tally, random, &book, &other, &sheet, 2);
    }
}

/// The most entries.
fn most_entries(tally: &mut Tally, random: &mut Random) {
    for (cells, longest, draws) in [(5, 4, 4), (16, 1, 2)] {
        let book = random_book(random, cells, 2 * cells, 2, 3);
        let plan = Plan {
            bound: 4,
            entries: MOST_ENTRIES,
            longest,
            naming: Naming::Any,
            denials: true,
            draws,
        };
        let sheet = telling_sheet(random, &book, plan);
        let other = other(random, &book, cells);
        ask(tally, random, &book, &other, &sheet, 1);
    }
}
