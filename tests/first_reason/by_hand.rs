//! Books small enough to see what the plain loops come to first.

use crate::support::books::{
    book, chain, example_a_left, example_a_right, link, marked_ring, Book,
};
use crate::support::hidden::{Masked, HIDDEN};
use crate::support::library;
use crate::support::measures::depths;
use crate::support::sheets::Entry::{And, Differ, Not, Same, True, Way};
use crate::support::sheets::{step, Entry, Sheet, Step};
use crate::support::sides::Sides::{self, One, Two};
use crate::support::sides::FORMS;
use crate::tally::Tally;

pub fn all(tally: &mut Tally) {
    example_a(tally);
    example_a_one_way(tally);
    chains(tally);
    chains_one_way(tally);
    rings_one_way(tally);
    links(tally);
    wide_labels(tally);
    paths(tally);
    silent(tally);
    counterparts_silent(tally);
    hidden(tally);
}

/// Steps along these labels, with always true as tests.
fn steps(labels: &[u16]) -> Vec<Step> {
    labels.iter().map(|&label| step(label, 0)).collect()
}

fn way(label: u16) -> Entry {
    Way(steps(&[label]))
}

fn same(first: &[u16], second: &[u16]) -> Entry {
    Same(steps(first), steps(second))
}

fn differ(first: &[u16], second: &[u16]) -> Entry {
    Differ(steps(first), steps(second))
}

/// "At A, bounds 1 to 4, (0,0) compares one step in all": the question is "differ: stay, step 1".
fn example_a(tally: &mut Tally) {
    let entries = [
        // (0, 0)
        differ(&[], &[1]),
        Not(1),
        // (0, 1)
        way(1),
        Not(3),
        And(1, 3),
        // (1, 0)
        way(1),
        Not(6),
        And(2, 6),
        // (2, 0)
        way(1),
        Not(9),
        And(8, 9),
    ];
    let map = [1, 3, 7, 0, 10, 0];
    let (left, right) = (example_a_left(), example_a_right());
    for bound in 1..=4 {
        let sheet = whole(tally, Two, &left, &right, bound, &map, &entries);
        // The entry after always true: 6 bytes follow, or 7; kind 6, 0 steps and 1 step, label 1, test 0.
        assert_eq!(sheet.bytes(1)[10..][..7], [6, 6, 0, 1, 1, 0, 0]);
        assert_eq!(sheet.bytes(2)[10..][..8], [7, 6, 0, 1, 0, 1, 0, 0]);
    }
}

/// Cells without links are covered by all cells, and nothing is denied.
fn example_a_one_way(tally: &mut Tally) {
    let (left, right) = (example_a_left(), example_a_right());
    let (map, entries) = ([0, 1, 0, 0, 0, 0], [way(1)]);
    whole(tally, One, &left, &right, 0, &map, &entries);
    let entries = [
        // (0, 0)
        differ(&[], &[1]),
        // (0, 1)
        way(1),
        And(1, 2),
    ];
    for bound in 1..=4 {
        let map = [1, 2, 0, 0, 0, 0];
        whole(tally, One, &left, &right, bound, &map, &entries);
        // The right book offers nothing that the left one does not.
        let map = [0, 1, 2, 0, 0, 0];
        let entries = [way(1), way(1), And(1, 2)];
        whole(tally, One, &right, &left, bound, &map, &entries);
    }
}

/// A chain of three cells and one of two: the second round tests a cell by what the first wrote.
fn chains(tally: &mut Tally) {
    let entries = [
        // (0, 1)
        way(1),
        Not(1),
        // (1, 1)
        way(1),
        Not(3),
        And(2, 4),
        // (2, 0)
        way(1),
        Not(6),
        // (0, 0), in the second round
        Way(vec![step(1, 3)]),
        Not(8),
        And(1, 8),
        And(6, 9),
    ];
    let map = [8, 1, 0, 3, 7, 0];
    let (left, right) = (chain(vec![5; 3], |_| 1), chain(vec![5; 2], |_| 1));
    for bound in 0..=1 {
        whole(tally, Two, &left, &right, bound, &map, &entries);
    }
}

/// The longer chain is not covered by the shorter, which the second round tells by what the first wrote of the left cells alone. The
/// shorter is covered by the longer wherever there is a link after.
fn chains_one_way(tally: &mut Tally) {
    let entries = [
        // (0, 1)
        way(1),
        // (1, 1)
        way(1),
        // (0, 0), in the second round
        Way(vec![step(1, 2)]),
        And(1, 3),
    ];
    let (long, short) = (chain(vec![5; 3], |_| 1), chain(vec![5; 2], |_| 1));
    for bound in 0..=1 {
        let map = [3, 1, 0, 2, 0, 0];
        whole(tally, One, &long, &short, bound, &map, &entries);
    }
    for bound in 0..=4 {
        let map = [0, 0, 1, 0, 0, 0];
        whole(tally, One, &short, &long, bound, &map, &[way(1)]);
    }
}

/// One cell of the left ring is marked, and all of the right one but one: the first round parts this pair, and each round the pair before
/// the last. Where the rings' lengths have no common divisor all pairs are parted so, and the deepest question has depth n × m.
fn rings_one_way(tally: &mut Tally) {
    for (n, m) in [(1, 2), (2, 3), (3, 4), (4, 5), (5, 3)] {
        let (left, right) = (marked_ring(n, |x| x == 0), marked_ring(m, |x| x != 0));
        for bound in 0..=1 {
            let (map, sheet) =
                tally.every_mix(One, &Masked::open(&left), &Masked::open(&right), bound);
            let depths = depths(&sheet);
            let mut named: Vec<usize> = map.iter().map(|&k| depths[k as usize]).collect();
            named.sort();
            assert!(named.into_iter().eq(1..=n as usize * m as usize));
        }
    }
}

/// Compares the books in every mix of versions: the map is this one, and the entries are these after always true. Gives the sheet.
fn whole(
    tally: &mut Tally,
    sides: Sides,
    left: &Book,
    right: &Book,
    bound: usize,
    map: &[u16],
    entries: &[Entry],
) -> Sheet {
    let (given, sheet) = tally.every_mix(sides, &Masked::open(left), &Masked::open(right), bound);
    assert_eq!(given, map);
    assert_eq!(sheet.entries, [&[True][..], entries].concat());
    sheet
}

/// Links are tried before paths, each in their order, and the left cell's before the right one's.
fn links(tally: &mut Tally) {
    let none = book(&[5], &[]);
    let one = |label| book(&[5, 5], &[link(0, label, 1)]);
    let two = |x, y| book(&[5, 6], &[link(0, x, 1), link(0, y, 1)]);
    first(tally, &two(2, 7), &none, 4, true, way(2));
    first(tally, &none, &two(2, 7), 4, false, way(2));
    first(tally, &one(9), &one(3), 4, true, way(9));
    first(tally, &two(1, 2), &one(1), 4, true, way(2));
    first(tally, &one(1), &two(1, 2), 4, true, same(&[], &[1]));
}

/// Labels that agree in one byte are different ones, and come in the order of their numbers.
fn wide_labels(tally: &mut Tally) {
    let none = book(&[5], &[]);
    let one = |label| book(&[5, 5], &[link(0, label, 1)]);
    let two = |x, y| book(&[5, 6], &[link(0, x, 1), link(0, y, 1)]);
    for [x, y] in [[1, 257], [255, 65_535], [256, 511], [0, 256], [255, 256]] {
        first(tally, &one(x), &one(y), 4, true, way(x));
        first(tally, &one(y), &one(x), 4, true, way(y));
        first(tally, &two(x, y), &one(x), 4, true, way(y));
        first(tally, &two(x, y), &one(y), 4, true, way(x));
        first(tally, &two(x, y), &none, 4, true, way(x));
        first(tally, &none, &two(x, y), 4, false, way(x));
    }
}

/// Two paths with fewest links in all are tried first, of these those with the shorter first path, then in the order of the links.
fn paths(tally: &mut Tally) {
    // Two paths that differ only in the left book: by 1, 1 and staying, and by 1 and by 2.
    let two = |recordings: &[u32]| {
        let links = [link(0, 1, 1), link(0, 2, 2), link(1, 1, 3)];
        book(recordings, &links)
    };
    let (left, right) = (two(&[5, 6, 7, 8]), two(&[5, 6, 6, 5]));
    first(tally, &left, &right, 1, true, differ(&[1], &[2]));
    first(tally, &left, &right, 2, true, differ(&[], &[1, 1]));

    let star = |recordings: &[u32]| {
        let links = [link(0, 1, 1), link(0, 2, 2), link(0, 3, 3)];
        book(recordings, &links)
    };
    let alike = star(&[5, 6, 6, 6]);
    let last = star(&[5, 6, 6, 7]);
    first(tally, &last, &alike, 4, true, differ(&[1], &[3]));
    let all = star(&[5, 6, 7, 8]);
    first(tally, &all, &alike, 4, true, differ(&[1], &[2]));
    first(tally, &alike, &all, 4, true, same(&[1], &[2]));
}

/// A cell that speaks and a silent one are parted by "same: stay, stay" at every bound, which is denied where the left one is silent.
/// One-way the silent one is covered. Two silent cells are partners.
fn silent(tally: &mut Tally) {
    let single = |recording| book(&[recording], &[]);
    let (speaks, says_none) = (single(5), single(0));
    let entries = [same(&[], &[]), Not(1)];
    for bound in 0..=4 {
        let sheet = whole(tally, Two, &speaks, &says_none, bound, &[1], &entries);
        assert_eq!(text(&sheet, 1), "<.=.>");
        let sheet = whole(tally, Two, &says_none, &speaks, bound, &[2], &entries);
        assert_eq!(text(&sheet, 2), "!(<.=.>)");
        whole(tally, One, &speaks, &says_none, bound, &[1], &entries[..1]);
        whole(tally, One, &says_none, &speaks, bound, &[0], &[]);
        for sides in FORMS {
            whole(tally, sides, &says_none, &says_none, bound, &[0], &[]);
            whole(tally, sides, &speaks, &speaks, bound, &[0], &[]);
        }
    }
}

/// Ways of which the only counterparts end on a silent cell have none.
fn counterparts_silent(tally: &mut Tally) {
    let leads = |recording| book(&[0, recording], &[link(0, 1, 1)]);
    let forks = |x, y| book(&[0, x, y], &[link(0, 1, 1), link(0, 2, 2)]);
    for bound in 1..=4 {
        first(tally, &leads(5), &leads(0), bound, true, same(&[1], &[1]));
        first(tally, &leads(0), &leads(5), bound, false, same(&[1], &[1]));
        let (left, right) = (forks(5, 6), forks(7, 0));
        first(tally, &left, &right, bound, true, differ(&[1], &[2]));
        first(tally, &right, &left, bound, false, differ(&[1], &[2]));
        let (left, right) = (forks(5, 5), forks(7, 0));
        first(tally, &left, &right, bound, true, same(&[1], &[2]));
    }
}

/// The text of the sheet's entry.
fn text(sheet: &Sheet, entry: usize) -> String {
    let mut room = [0; 16];
    let answer = library::question_text(&sheet.bytes(1), entry, &mut room);
    assert_eq!(answer.refusal, 0);
    String::from_utf8_lossy(&room[..answer.first as usize]).into_owned()
}

/// Compares the books in every mix of versions: the first pair is parted in the first round, by this entry at the left cell or else at
/// the right one. One-way it is parted, by the same entry, where it is at the left.
fn first(tally: &mut Tally, left: &Book, right: &Book, bound: usize, at_left: bool, entry: Entry) {
    let (left, right) = (&Masked::open(left), &Masked::open(right));
    let (map, sheet) = tally.every_mix(Two, left, right, bound);
    assert_eq!(map[0], if at_left { 1 } else { 2 });
    assert_eq!(sheet.entries[1], entry);
    assert_eq!(sheet.entries[2], Not(1));
    let (map, sheet) = tally.every_mix(One, left, right, bound);
    assert_eq!(map[0] == 1, at_left);
    assert!(!at_left || sheet.entries[1] == entry);
}

/// Of example A what is written where left cell 1 or 2 is hidden, or right cell 1.
fn hidden(tally: &mut Tally) {
    let mask = |book: Book, hidden| Masked { book, hidden };
    let left = |hidden| mask(example_a_left(), hidden);
    let right = |hidden| mask(example_a_right(), hidden);
    let pair = [way(1), Not(1)];
    for bound in 1..=4 {
        // Without left cell 2, which differs, the first cells are partners.
        let (map, sheet) = tally.every_mix(Two, &left(4), &right(0), bound);
        assert_eq!(map, [0, 1, 4, 0, HIDDEN, HIDDEN]);
        assert_eq!(
            sheet.entries,
            [&[True][..], &pair, &[way(1), Not(3)]].concat()
        );
        // Without left cell 1 the only link leads to another recording, and the right one's to the same.
        let (map, sheet) = tally.every_mix(One, &left(2), &right(0), bound);
        assert_eq!(map, [1, 2, HIDDEN, HIDDEN, 0, 0]);
        let entries = [differ(&[], &[1]), way(1), And(1, 2)];
        assert_eq!(sheet.entries, [&[True][..], &entries].concat());
        // Without right cell 1 there is no link on the right.
        let (map, sheet) = tally.every_mix(Two, &left(0), &right(2), bound);
        assert_eq!(map, [1, HIDDEN, 0, HIDDEN, 0, HIDDEN]);
        assert_eq!(sheet.entries, [&[True][..], &pair].concat());
        // Nothing is left on the right.
        for sides in FORMS {
            let (map, sheet) = tally.every_mix(sides, &left(1), &right(3), bound);
            assert_eq!((map, sheet.entries), (vec![HIDDEN; 6], vec![True]));
        }
    }
}
