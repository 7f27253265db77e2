//! Pairs of books of which something is hidden, and for each another that differs in that alone.

use crate::support::books::{book, link, Book};
use crate::support::hidden::{disguised, hides, rewritten, worded, Masked};
use crate::support::random::Random;
use crate::support::shapes::{draw, SHAPES};
use crate::support::telling::any_book;
use crate::tally::Tally;

/// How many pairs of books of each shape at each bound.
const DRAWN: usize = 60;

pub fn all(tally: &mut Tally) {
    let random = &mut Random::new(23);
    by_hand(tally);
    by_shape(tally, random);
    sizes(tally, random);
}

/// Books of two cells, of which the second is hidden: with all that can be hidden and with nothing.
fn by_hand(tally: &mut Tally) {
    let hide = |recording, links: &[_]| Masked {
        book: book(&[5, recording], links),
        hidden: 2,
    };
    let kept = link(0, 1, 0);
    let all = [
        kept,
        link(0, 1, 1),
        link(0, 2, 1),
        link(1, 1, 0),
        link(1, 1, 1),
    ];
    let others = [
        hide(5, &[kept]),
        hide(0, &[kept]),
        hide(6, &[kept]),
        hide(5, &all),
        hide(6, &all),
        hide(0, &all[..2]),
        hide(5, &[kept, all[3]]),
        hide(5, &[kept, all[4]]),
    ];
    let open = Masked::open(&book(&[5], &[kept]));
    for bound in 0..=4 {
        for one in &others {
            for other in others.iter().filter(|&other| other != one) {
                tally.check([one, &open], [other, &open], bound);
                tally.check([&open, one], [&open, other], bound);
                tally.check([one, other], [other, one], bound);
            }
        }
    }
}

/// One change of what is hidden: of a recording, or a link more or less.
fn one_change(random: &mut Random, masked: &Masked) -> Masked {
    let mut other = masked.clone();
    let (inside, shown): (Vec<u8>, Vec<u8>) =
        (0..masked.book.cells() as u8).partition(|&x| hides(masked.hidden, x as usize));
    let Some(&first) = inside.first() else {
        return other;
    };
    let (one, further) = (random.pick(&inside), random.pick(&inside));
    let outside = match shown.is_empty() {
        true => first,
        false => random.pick(&shown),
    };
    let ends = [(one, one), (one, further), (one, outside), (outside, one)];
    let labels: Vec<u16> = masked.book.labels().chain([1]).collect();
    match random.below(5) {
        4 => other.book.recordings[one as usize] ^= 1 << random.below(3),
        kind => {
            let (from, to) = ends[kind];
            let changed = link(from, random.pick(&labels), to);
            match other.book.links.binary_search(&changed) {
                Ok(place) => drop(other.book.links.remove(place)),
                Err(place) if other.book.links.len() < 512 => {
                    other.book.links.insert(place, changed)
                }
                Err(_) => {}
            }
        }
    }
    other
}

/// Another that shows the same, if something is hidden.
fn another(random: &mut Random, masked: &Masked) -> Masked {
    if random.one_in(2) {
        return one_change(random, masked);
    }
    let mut other = rewritten(random, masked);
    for _ in 0..8 {
        if other == *masked {
            other = rewritten(random, masked);
        }
    }
    other
}

/// Hides some cells of the book, or adds hidden ones.
fn any_mask(random: &mut Random, book: &Book) -> Masked {
    let masked = match random.one_in(2) {
        true => worded(random, book),
        false => disguised(random, book),
    };
    match random.one_in(2) {
        true => masked,
        false => rewritten(random, &masked),
    }
}

/// Of two pairs of books in which something is hidden, one or both are rewritten.
fn ask(tally: &mut Tally, random: &mut Random, left: &Book, right: &Book, bound: usize) {
    let books = [left, right].map(|book| any_mask(random, book));
    let mut others = books.each_ref().map(|masked| another(random, masked));
    match random.below(4) {
        0 => others[0] = books[0].clone(),
        1 => others[1] = books[1].clone(),
        _ => {}
    }
    tally.check(books.each_ref(), others.each_ref(), bound);
}

fn by_shape(tally: &mut Tally, random: &mut Random) {
    for shape in &SHAPES {
        for bound in 0..=4 {
            for _ in 0..DRAWN {
                let (left, right) = draw(random, shape, bound);
                ask(tally, random, &left, &right, bound);
            }
        }
    }
}

/// Every number of cells, beside a few.
fn sizes(tally: &mut Tally, random: &mut Random) {
    for cells in 1..=64 {
        let many = any_book(random, cells);
        let few = random.between(1, 4);
        let few = any_book(random, few);
        ask(tally, random, &many, &few, cells % 2);
        ask(tally, random, &few, &many, cells % 2);
    }
}
