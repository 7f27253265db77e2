//! Books that are compared.

use crate::expected::{refusal, Asked};
use crate::seen::TENS;
use crate::support::books::{
    book, chain, example_a_left, example_a_right, link, marked_ring, random_book, silenced, Book,
};
use crate::support::hidden::{
    any_word, hides, masked, perhaps_disguised, Hidden, Masked, HIDDEN, NOTHING,
};
use crate::support::library::needed;
use crate::support::partners::most_ways;
use crate::support::random::Random;
use crate::support::remade::{any_labels, damaged, grown, renumbered, split};
use crate::support::shapes::{draw, OTHERS, SHAPES};
use crate::support::sides::{Sides, FORMS};
use crate::support::versions::{written_version, MIXES};
use crate::tally::Tally;

/// The most ways from a cell of a book of 10 to 20 cells, and of a dense one.
const MOST_WAYS: usize = 200;
const DENSE_WAYS: usize = 3_200;

/// How many pairs of books of each shape at each bound.
const DRAWN: usize = 320;

/// How many pairs of books of 10 to 20 cells at each bound.
const MIDDLING: usize = 40;

/// How many parted pairs of a large case are claimed.
const SOME_CLAIMS: usize = 40;

pub fn all(tally: &mut Tally) {
    let random = &mut Random::new(5);
    examples(tally);
    silent(tally);
    hidden(tally);
    examples_one_way(tally);
    room_of_example_a(tally);
    by_hand(tally);
    not_matched(tally);
    rings(tally);
    by_shape(tally, random);
    same_book(tally, random);
    offering_more(tally, random);
    sizes(tally, random);
    middling(tally, random);
    crowded(tally, random);
    large(tally, random);
    dense(tally, &mut Random::new(2)); // of some seeds one with many full tables
    many_recordings(tally, &mut Random::new(3));
    many_values(tally, random);
}

/// Exactly what two books need.
fn exactly<'a>(sides: Sides, left: &'a [u8], right: &'a [u8], bound: usize) -> Asked<'a> {
    let pairs = left[5] as usize * right[5] as usize;
    let (map, room, scratch) = needed(pairs, written_version(left[4], right[4]));
    Asked {
        sides,
        left,
        right,
        bound,
        hidden: NOTHING,
        map,
        room,
        scratch,
    }
}

/// Compares two books, of any versions, with as much room and scratch as they need, or some more. Gives the map.
fn ask_in(
    tally: &mut Tally,
    random: &mut Random,
    sides: Sides,
    [one, other]: [&Masked; 2],
    bound: usize,
    shape: usize,
    claims: usize,
) -> Vec<u16> {
    let (left, right) = (one.book.any_bytes(random), other.book.any_bytes(random));
    let mut asked = exactly(sides, &left, &right, bound);
    asked.hidden = Hidden {
        left: one.hidden,
        right: other.hidden,
    };
    asked.room += random.pick(&[0, 0, 1, 7, 100]);
    asked.scratch += random.pick(&[0, 0, 1, 9, 100]);
    tally.compare(asked, shape, claims)
}

/// Compares two books in both forms, with some cells hidden or not.
fn ask(
    tally: &mut Tally,
    random: &mut Random,
    left: &Book,
    right: &Book,
    bound: usize,
    shape: usize,
    claims: usize,
) {
    for sides in FORMS {
        let [left, right] = [left, right].map(|book| masked(&mut tally.masks, book));
        ask_in(tally, random, sides, [&left, &right], bound, shape, claims);
    }
}

/// Compares two books in both forms, as they are or among further cells that are hidden.
fn ask_whole(
    tally: &mut Tally,
    random: &mut Random,
    left: &Book,
    right: &Book,
    bound: usize,
    shape: usize,
    claims: usize,
) {
    for sides in FORMS {
        let [left, right] = [left, right].map(|book| perhaps_disguised(&mut tally.masks, book));
        ask_in(tally, random, sides, [&left, &right], bound, shape, claims);
    }
}

/// Compares two small books in both forms, and one-way from right to left too: matched pairs are covered both ways.
fn ask_both_ways(
    tally: &mut Tally,
    random: &mut Random,
    left: &Masked,
    right: &Masked,
    bound: usize,
    shape: usize,
) {
    let mut ask = |sides, books| ask_in(tally, random, sides, books, bound, shape, usize::MAX);
    let matched = ask(Sides::Two, [left, right]);
    let ahead = ask(Sides::One, [left, right]);
    let back = ask(Sides::One, [right, left]);
    tally.both_ways(&matched, &ahead, &back, right.book.cells());
}

/// Document 01, P1 to P8: the pairs that it calls matched are, and those that it calls parted are not. For example A it names all.
fn examples(tally: &mut Tally) {
    let (a, b) = (example_a_left(), example_a_right());
    let three = |last| chain(vec![5, 6, last], |_| 1);
    let single = |recording| book(&[recording], &[]);
    let looping = book(&[5], &[link(0, 1, 0)]);
    let two = |recordings: [u32; 2]| book(&recordings, &[link(0, 1, 1), link(1, 1, 0)]);
    let mut expect = |left: &Book, right: &Book, bound, matched: &[_], parted: &[_]| {
        expect(tally, Sides::Two, left, right, bound, matched, parted)
    };

    expect(
        &a,
        &b,
        1,
        &[(1, 1), (2, 1)],
        &[(0, 0), (0, 1), (1, 0), (2, 0)],
    );
    expect(
        &a,
        &b,
        0,
        &[(0, 0), (1, 1), (2, 1)],
        &[(0, 1), (1, 0), (2, 0)],
    );
    for bound in 0..=4 {
        expect(&single(5), &single(9), bound, &[(0, 0)], &[]);
    }
    expect(&three(5), &three(7), 1, &[(0, 0)], &[]);
    expect(&three(5), &three(7), 2, &[], &[(0, 0)]);
    expect(&looping, &two([5, 5]), 4, &[(0, 0), (0, 1)], &[]);
    expect(&looping, &two([5, 6]), 1, &[], &[(0, 0), (0, 1)]);
    expect(&looping, &two([5, 6]), 0, &[(0, 0), (0, 1)], &[]);
}

/// The same books one-way. A cell without links is covered by every cell.
fn examples_one_way(tally: &mut Tally) {
    let (a, b) = (example_a_left(), example_a_right());
    let three = |last| chain(vec![5, 6, last], |_| 1);
    let single = |recording| book(&[recording], &[]);
    let looping = book(&[5], &[link(0, 1, 0)]);
    let two = |recordings: [u32; 2]| book(&recordings, &[link(0, 1, 1), link(1, 1, 0)]);
    let mut expect = |left: &Book, right: &Book, bound, covered: &[_], others: &[_]| {
        expect(tally, Sides::One, left, right, bound, covered, others)
    };

    let bare = [(1, 0), (1, 1), (2, 0), (2, 1)];
    expect(&a, &b, 0, &[&[(0, 0)], &bare[..]].concat(), &[(0, 1)]);
    for bound in 1..=4 {
        expect(&a, &b, bound, &bare, &[(0, 0), (0, 1)]);
        let covered = [(0, 0), (1, 0), (1, 1), (1, 2)];
        expect(&b, &a, bound, &covered, &[(0, 1), (0, 2)]);
    }
    for bound in 0..=4 {
        expect(&single(5), &single(9), bound, &[(0, 0)], &[]);
        expect(&single(5), &looping, bound, &[(0, 0)], &[]);
        expect(&looping, &single(5), bound, &[], &[(0, 0)]);
    }
    for (left, right) in [(three(5), three(7)), (three(7), three(5))] {
        expect(&left, &right, 1, &[(0, 0), (1, 1), (2, 2)], &[(0, 2)]);
        expect(&left, &right, 2, &[(1, 1), (2, 2)], &[(0, 0), (0, 2)]);
    }
    expect(&looping, &two([5, 5]), 4, &[(0, 0), (0, 1)], &[]);
    expect(&two([5, 5]), &looping, 4, &[(0, 0), (1, 0)], &[]);
    expect(&looping, &two([5, 6]), 0, &[(0, 0), (0, 1)], &[]);
    expect(&looping, &two([5, 6]), 1, &[], &[(0, 0), (0, 1)]);
    expect(&two([5, 6]), &looping, 1, &[], &[(0, 0), (1, 0)]);
}

/// Document 02, request 2026-04: ends that are silent count for nothing.
fn silent(tally: &mut Tally) {
    let single = |recording| book(&[recording], &[]);
    let (speaks, says_none) = (single(5), single(0));
    // A way by 1, of which the only counterpart ends on a silent cell where the other one's end is heard.
    let leads = |recording| book(&[0, recording], &[link(0, 1, 1)]);
    // A way by 1 and one by 2, of which one or both of the only counterparts end on silent cells.
    let forks = |x, y| book(&[0, x, y], &[link(0, 1, 1), link(0, 2, 2)]);
    for bound in 0..=4 {
        for sides in FORMS {
            let mut expect = |left: &Book, right: &Book, stay: &[_], parted: &[_]| {
                expect(tally, sides, left, right, bound, stay, parted)
            };
            let here = [(0, 0)];
            expect(&speaks, &speaks, &here, &[]);
            expect(&says_none, &says_none, &here, &[]);
            expect(&speaks, &says_none, &[], &here);
            // One-way a silent cell asks for nothing.
            match sides {
                Sides::One => expect(&says_none, &speaks, &here, &[]),
                Sides::Two => expect(&says_none, &speaks, &[], &here),
            }
            expect(&leads(5), &leads(0), &[], &[(0, 0), (1, 1)]);
            expect(&leads(0), &leads(0), &[(0, 0), (1, 1)], &[(0, 1)]);
            // Of two recordings one is silent: they neither differ nor are the same.
            expect(&forks(5, 0), &forks(7, 0), &[(0, 0), (1, 1), (2, 2)], &[]);
            expect(&forks(5, 6), &forks(7, 0), &[], &[(0, 0), (2, 2)]);
            expect(&forks(5, 5), &forks(0, 0), &[], &[(0, 0), (1, 1), (2, 2)]);
        }
    }
}

/// Document 02, request 2026-07: a hidden cell and all links at it are absent.
fn hidden(tally: &mut Tally) {
    let (a, b) = (example_a_left(), example_a_right());
    let three = chain(vec![5, 5, 5], |_| 1);
    let alone = book(&[5], &[]);
    let looping = book(&[5, 5], &[link(0, 1, 1), link(1, 1, 1)]);
    for bound in 0..=4 {
        for sides in FORMS {
            let mut expect = |left: &Book,
                              right: &Book,
                              words: [u64; 2],
                              stay: &[_],
                              parted: &[_],
                              gone: &[_]| {
                expect_hidden(tally, sides, left, right, bound, words, stay, parted, gone)
            };
            // Of example A without left cell 2 the two books are alike.
            let gone = [(2, 0), (2, 1)];
            expect(&a, &b, [4, 0], &[(0, 0), (1, 1)], &[(0, 1)], &gone);
            // A link to a hidden cell is none, nor is one from it: what is left of a chain are cells without links.
            let gone = [(1, 0)];
            expect(&three, &alone, [2, 0], &[(0, 0), (2, 0)], &[], &gone);
            expect(&alone, &three, [0, 2], &[(0, 0), (0, 2)], &[], &[(0, 1)]);
            // A link of a hidden cell to itself is none.
            expect(&looping, &alone, [2, 0], &[(0, 0)], &[], &gone);
            // Nothing is left of one book, or of both.
            expect(&alone, &three, [1, 0], &[], &[], &[(0, 0), (0, 1), (0, 2)]);
            expect(&alone, &three, [1, 7], &[], &[], &[(0, 0), (0, 1), (0, 2)]);
            // Cells that nothing is hidden near of are as they were.
            expect(
                &three,
                &three,
                [1, 1],
                &[(1, 1), (2, 2)],
                &[(1, 2)],
                &[(0, 0), (0, 1), (2, 0)],
            );
        }
    }
}

/// "Room of 273 bytes declines A; 274 serves." If a book is of version 2, 10 + 52 × 6 bytes serve.
fn room_of_example_a(tally: &mut Tally) {
    let (a, b) = (example_a_left(), example_a_right());
    for [one, other] in MIXES {
        let serves = if [one, other] == [1, 1] { 274 } else { 322 };
        let (a, b) = (a.bytes(one), b.bytes(other));
        for room in [serves - 1, serves] {
            for (bound, sides) in (0..=4).flat_map(|bound| FORMS.map(|sides| (bound, sides))) {
                let asked = Asked {
                    room,
                    ..exactly(sides, &a, &b, bound)
                };
                assert_eq!(refusal(asked).is_none(), room == serves);
                tally.compare(asked, OTHERS, usize::MAX);
            }
        }
    }
}

/// "Matched pairs are covered both ways; the converse is not claimed": the first cells of these books cover each other, since the left one's
/// link to a cell without links is answered by every link. But a cell that has no such link does not do the same.
fn not_matched(tally: &mut Tally) {
    let left = book(&[5; 4], &[link(0, 1, 1), link(0, 1, 2), link(1, 1, 3)]);
    let right = chain(vec![5; 3], |_| 1);
    for bound in 0..=4 {
        let first = [(0, 0)];
        expect(tally, Sides::One, &left, &right, bound, &first, &[]);
        expect(tally, Sides::One, &right, &left, bound, &first, &[]);
        expect(tally, Sides::Two, &left, &right, bound, &[], &first);
    }
}

/// Books that differ in one link or recording, which one pair of ways sees at bound 2.
fn by_hand(tally: &mut Tally) {
    // Document 01, third slip: the same labels and ends, by other cells.
    let fork = |x, y| {
        let on = [link(1, 1, x), link(2, 1, y), link(2, 2, 2)];
        book(
            &[5, 7, 7, 5, 6],
            &[&[link(0, 1, 1), link(0, 1, 2)], &on[..]].concat(),
        )
    };
    // The ends, too, have to be related: of two last cells the one that a link by 2 marks is no counterpart of the other.
    let marked = |unmarked, marked| {
        let links = [link(0, 1, 1), link(1, 1, 2), link(1, 1, 3), link(3, 2, 4)];
        book(&[7, 9, unmarked, marked, 10], &links)
    };
    // Ways of one end with different counterparts: the way by 3, 3 and the one by 2 decide, not the one by 1 to the same cell.
    let one_end = |end| {
        let links = [
            link(0, 1, 1),
            link(0, 1, 2),
            link(0, 2, 1),
            link(0, 3, 3),
            link(3, 3, end),
        ];
        book(&[9, 7, 8, 10], &links)
    };
    // Ways of different ends with the same counterparts: the one by 1 to the second cell decides, not that to the first.
    let two_ends = |recording| {
        let links = [link(0, 1, 1), link(0, 1, 2), link(0, 3, 3), link(3, 3, 4)];
        book(&[9, 7, 8, 10, recording], &links)
    };
    for (left, right) in [
        (fork(3, 4), fork(4, 3)),
        (marked(7, 8), marked(8, 7)),
        (one_end(1), one_end(2)),
        (two_ends(8), two_ends(11)),
    ] {
        expect(
            tally,
            Sides::Two,
            &left,
            &right,
            1,
            &[(0, 0), (1, 1), (2, 2), (3, 3)],
            &[],
        );
        expect(
            tally,
            Sides::Two,
            &left,
            &right,
            2,
            &[(1, 1), (2, 2), (3, 3)],
            &[(0, 0)],
        );
    }
}

/// Rings that take as many rounds one-way as there are pairs: all are parted at last.
fn rings(tally: &mut Tally) {
    let (left, right) = (marked_ring(7, |x| x == 0), marked_ring(8, |x| x != 0));
    let all: Vec<_> = (0..7).flat_map(|i| (0..8).map(move |j| (i, j))).collect();
    for bound in 0..=4 {
        for sides in FORMS {
            expect(tally, sides, &left, &right, bound, &[], &all);
        }
    }
}

/// In every mix of versions these pairs stay, and these are parted. Nothing is hidden.
fn expect(
    tally: &mut Tally,
    sides: Sides,
    left: &Book,
    right: &Book,
    bound: usize,
    stay: &[(usize, usize)],
    parted: &[(usize, usize)],
) {
    expect_hidden(tally, sides, left, right, bound, [0, 0], stay, parted, &[]);
}

/// In every mix of versions these pairs stay, these are parted, and of these a cell is hidden by the words.
fn expect_hidden(
    tally: &mut Tally,
    sides: Sides,
    left: &Book,
    right: &Book,
    bound: usize,
    [of_left, of_right]: [u64; 2],
    stay: &[(usize, usize)],
    parted: &[(usize, usize)],
    gone: &[(usize, usize)],
) {
    let m = right.cells();
    let hidden = Hidden {
        left: of_left,
        right: of_right,
    };
    for [one, other] in MIXES {
        let (one, other) = (left.bytes(one), right.bytes(other));
        let asked = Asked {
            hidden,
            ..exactly(sides, &one, &other, bound)
        };
        let map = tally.compare(asked, OTHERS, usize::MAX);
        let holds = |pairs: &[(usize, usize)], number: fn(u16) -> bool| {
            pairs.iter().all(|(i, j)| number(map[i * m + j]))
        };
        assert!(holds(stay, |number| number == 0));
        assert!(holds(parted, |number| number != 0 && number != HIDDEN));
        assert!(holds(gone, |number| number == HIDDEN));
    }
}

/// Thousands of small books.
fn by_shape(tally: &mut Tally, random: &mut Random) {
    for (place, shape) in SHAPES.iter().enumerate() {
        for bound in 0..=4 {
            for round in 0..DRAWN {
                let (left, right) = draw(random, shape, bound);
                // Mostly what is shown is the books of this shape.
                let mask = match round % 4 {
                    0 => masked,
                    _ => perhaps_disguised,
                };
                let [left, right] = [left, right].map(|book| mask(&mut tally.masks, &book));
                let books = [&left, &right];
                match round % 5 {
                    0 => ask_both_ways(tally, random, &left, &right, bound, place),
                    1 => drop(ask_in(
                        tally,
                        random,
                        Sides::One,
                        books,
                        bound,
                        place,
                        usize::MAX,
                    )),
                    _ => drop(ask_in(
                        tally,
                        random,
                        Sides::Two,
                        books,
                        bound,
                        place,
                        usize::MAX,
                    )),
                }
            }
        }
    }
}

/// A book and itself, of which the same cells are hidden or others.
fn same_book(tally: &mut Tally, random: &mut Random) {
    for bound in 0..=4 {
        for round in 0..DRAWN / 5 {
            let shape = &SHAPES[round % SHAPES.len()];
            let (book, _) = draw(random, shape, bound);
            let one = masked(&mut tally.masks, &book);
            let mut other = one.clone();
            if round % 2 == 0 {
                other.hidden = any_word(&mut tally.masks, other.book.cells());
            }
            for sides in FORMS {
                let books = [&one, &other];
                ask_in(tally, random, sides, books, bound, OTHERS, usize::MAX);
            }
        }
    }
}

/// A book and one that offers more: each cell that is not hidden is covered by itself.
fn offering_more(tally: &mut Tally, random: &mut Random) {
    for bound in 0..=4 {
        for round in 0..DRAWN / 5 {
            let shape = &SHAPES[round % SHAPES.len()];
            let (book, _) = draw(random, shape, bound);
            let (cells, links) = (random.below(3), random.below(4));
            let one = masked(&mut tally.masks, &book);
            let other = Masked {
                book: grown(random, &one.book, cells, links),
                hidden: one.hidden,
            };
            let books = [&one, &other];
            let map = ask_in(tally, random, Sides::One, books, bound, OTHERS, usize::MAX);
            let m = other.book.cells();
            let mut shown = (0..one.book.cells()).filter(|&x| !hides(one.hidden, x));
            assert!(shown.all(|x| map[x * m + x] == 0));
        }
    }
}

/// Every number of cells, on either side, beside a book of few.
fn sizes(tally: &mut Tally, random: &mut Random) {
    for cells in 1..=64 {
        let bound = cells % 5;
        let links = random.between(0, cells);
        let many = random_book(random, cells, links, 2, 3);
        let many = silenced(random, many);
        let few = random.between(1, 3);
        let links = random.between(0, few);
        let few = random_book(random, few, links, 2, 3);
        let few = silenced(random, few);
        match cells % 2 {
            0 => ask(tally, random, &many, &few, bound, OTHERS, SOME_CLAIMS),
            _ => ask(tally, random, &few, &many, bound, OTHERS, SOME_CLAIMS),
        }
    }
}

/// Books of 10 to 20 cells with few recordings: too large for the naive comparison at the higher bounds.
fn middling(tally: &mut Tally, random: &mut Random) {
    for bound in 0..=4 {
        for round in 0..MIDDLING {
            let (left, right) = draw_middling(random, round, bound);
            let [left, right] = any_labels(random, [left, right]);
            ask(tally, random, &left, &right, bound, TENS, SOME_CLAIMS);
        }
    }
}

/// Two books of 10 to 20 cells, of few ways, that are much the same.
fn draw_middling(random: &mut Random, round: usize, bound: usize) -> (Book, Book) {
    loop {
        let cells = random.between(10, 20);
        let kinds = random.between(1, 3);
        let labels = random.between(1, 4);
        let links = random.between(cells, 3 * cells);
        let any = |random: &mut Random, cells| {
            let book = random_book(random, cells, links, labels, kinds);
            silenced(random, book)
        };
        let (left, right) = match round % 5 {
            0 | 4 => {
                let book = any(random, cells);
                let other = renumbered(random, &book);
                (book, other)
            }
            1 => {
                let book = any(random, cells);
                let other = renumbered(random, &book);
                (damaged(random, &book), other)
            }
            2 => {
                let book = any(random, 10);
                let other = split(random, &book, cells - 10, 4);
                (book, renumbered(random, &other))
            }
            _ => (any(random, cells), any(random, cells)),
        };
        if most_ways(&left, bound).max(most_ways(&right, bound)) <= MOST_WAYS {
            return (left, right);
        }
    }
}

/// Books with many classes of paths of one length: one or two links by each of four labels from each cell.
fn crowded(tally: &mut Tally, random: &mut Random) {
    for cells in [10, 12, 14, 16] {
        let book = random_book(random, cells, 0, 1, 3);
        let mut book = silenced(random, book);
        for from in 0..cells as u8 {
            for label in 0..4 {
                for _ in 0..random.between(1, 2) {
                    book.links
                        .push(link(from, label, random.below(cells) as u8));
                }
            }
        }
        book.links.sort();
        book.links.dedup();
        let other = renumbered(random, &book);
        ask_whole(tally, random, &book, &other, 4, TENS, SOME_CLAIMS);
        let other = damaged(random, &other);
        ask_whole(tally, random, &book, &other, 4, TENS, SOME_CLAIMS);
    }
}

/// Books of 64 cells on both sides, and the most links. Of each some are hidden, in a second call.
fn large(tally: &mut Tally, random: &mut Random) {
    let mut ask = |random: &mut Random, left: &Book, right: &Book, bound: usize| {
        for sides in FORMS {
            let books = [&Masked::open(left), &Masked::open(right)];
            ask_in(tally, random, sides, books, bound, OTHERS, SOME_CLAIMS);
        }
        ask(tally, random, left, right, bound, OTHERS, SOME_CLAIMS)
    };
    // No links: all are matched.
    let bare = random_book(random, 64, 0, 1, 5);
    for bound in 0..=4 {
        ask(random, &bare, &bare, bound);
    }
    // Chains: as many rounds as cells, and questions as deep.
    let recordings = (0..64).map(|_| random.between(1, 2) as u32).collect();
    let long = chain(recordings, |_| 1);
    let other = renumbered(random, &long);
    ask(random, &long, &other, 4);
    let other = damaged(random, &long);
    ask(random, &long, &other, 1);
    let alike = chain(vec![5; 40], |_| 1);
    ask(random, &alike, &alike, 1);
    // 8 links from each cell, by one label each.
    let mut full = random_book(random, 64, 0, 1, 3);
    for from in 0..64 {
        full.links
            .extend((0..8).map(|label| link(from, label * 8_192, random.below(64) as u8)));
    }
    let other = renumbered(random, &full);
    ask(random, &full, &other, 0);
    ask(random, &full, &other, 1);
    // 8 links from each cell, by one label.
    let dense = random_book(random, 64, 512, 1, 4);
    let other = renumbered(random, &dense);
    ask(random, &dense, &other, 1);
    // Half as many cells, and each split.
    let half = random_book(random, 32, 64, 2, 6);
    let other = split(random, &half, 32, 4);
    let other = renumbered(random, &other);
    ask(random, &half, &other, 2);
}

/// Books of 10 to 20 cells with many links by several labels, and others that are the same or nearly so. Of the last ones some have
/// more classes than the tables of the library have places.
fn dense(tally: &mut Tally, random: &mut Random) {
    for bound in [3, 4] {
        for labels in [2, 4, 8, 16] {
            let cells = random.between(10, 20);
            ask_dense(tally, random, cells, labels, bound);
        }
    }
    for _ in 0..4 {
        ask_dense(tally, random, 20, 6, 3);
    }
}

/// Compares a dense book of so many cells and labels with a renumbered copy, with a damaged one, which is compared one-way too, and with one
/// in which cells are split.
fn ask_dense(tally: &mut Tally, random: &mut Random, cells: usize, labels: usize, bound: usize) {
    let out = if bound == 3 { 12 } else { 6 };
    let kinds = random.between(1, 3);
    let book = loop {
        let book = random_book(random, cells, out * cells, labels, kinds);
        if most_ways(&book, bound) <= DENSE_WAYS {
            break book;
        }
    };
    let [book] = any_labels(random, [book]);
    let mut ask = |random: &mut Random, sides: Sides, other: &Book| {
        let masks = &mut tally.masks;
        let books = [&book, other].map(|book| perhaps_disguised(masks, book));
        let books = [&books[0], &books[1]];
        ask_in(tally, random, sides, books, bound, TENS, SOME_CLAIMS);
    };
    let other = renumbered(random, &book);
    ask(random, Sides::Two, &other);
    let other = damaged(random, &other);
    for sides in FORMS {
        ask(random, sides, &other);
    }
    let other = split(random, &book, cells / 4, 20);
    ask(random, Sides::Two, &other);
}

/// Dense books with many recordings, and renumbered copies: the ways of 2 links have more classes than the tables of the library have places, and one tip a
/// cell tells of a cell and its copy that they stay.
fn many_recordings(tally: &mut Tally, random: &mut Random) {
    for _ in 0..3 {
        let book = loop {
            let book = random_book(random, 20, 240, 6, 20);
            if most_ways(&book, 3) <= DENSE_WAYS {
                break book;
            }
        };
        let other = renumbered(random, &book);
        ask_whole(tally, random, &book, &other, 3, TENS, SOME_CLAIMS);
    }
}

/// Ways to one cell with more sets of recordings than the tables of the library have places. Of the other book's 13 cells that differ in
/// recording, a link by each of 12 labels leads to seven, of which any two such sets share some, and by the label's number further round.
fn many_values(tally: &mut Tally, random: &mut Random) {
    let mut left = book(&[1, 2], &[]);
    let mut right = book(&(1..=14).collect::<Vec<u32>>(), &[]);
    for label in 1..=12 {
        left.links.extend([link(0, label, 1), link(1, label, 1)]);
        let mut seven: Vec<u8> = (1..=13).collect();
        while seven.len() > 7 {
            seven.swap_remove(random.below(seven.len()));
        }
        right
            .links
            .extend(seven.iter().map(|&to| link(0, label, to)));
        right
            .links
            .extend((1..=13).map(|from| link(from, label, (from + label as u8 - 1) % 13 + 1)));
    }
    left.links.sort();
    right.links.sort();
    ask_whole(tally, random, &left, &right, 2, OTHERS, SOME_CLAIMS);
}
