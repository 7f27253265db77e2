//! The books that Compare is timed on, the same in every run.

use crate::support::books::{chain, link, marked_ring, random_book, ring, Book};
use crate::support::random::Random;
use crate::support::remade::{damaged, renumbered, split};

/// Two books to be compared.
pub struct Family {
    pub name: String,
    pub left: Book,
    pub right: Book,
}

impl Family {
    /// A book and a renumbered copy.
    fn renumbered(name: String, random: &mut Random, book: Book) -> Family {
        Family {
            name,
            right: renumbered(random, &book),
            left: book,
        }
    }
}

/// Ordinary books of 16, 32 and 64 cells.
pub fn ordinary() -> Vec<Family> {
    [16, 32, 64].into_iter().flat_map(of_size).collect()
}

fn of_size(cells: usize) -> Vec<Family> {
    let random = &mut Random::new(cells as u64);
    let some = |random: &mut Random, cells| recordings(random, cells, 1 + cells / 4);
    let recorded = some(random, cells);
    let by_eight = deterministic(random, recorded, 8);
    let recorded = some(random, cells);
    let by_one = regular(random, recorded, 8);
    let chained = chain(recordings(random, cells, 2), |_| 1);
    let recurring = ring((0..cells as u32).map(|x| 1 + x % 4).collect());
    let mut families: Vec<Family> = [
        ("8 labels, a link each", by_eight),
        ("one label, 8 links each", by_one),
        ("chain, 2 recordings", chained),
        ("ring, 4 recordings recurring", recurring),
    ]
    .into_iter()
    .map(|(name, book)| Family::renumbered(name.to_string(), random, book))
    .collect();
    let recorded = some(random, cells / 2);
    let half = deterministic(random, recorded, 4);
    families.push(Family {
        name: "half the cells, 4 labels; both split".to_string(),
        left: split(random, &half, cells - cells / 2, 4),
        right: split(random, &half, cells - cells / 2, 4),
    });
    families
}

/// Books of which a search of all pairs of paths takes long, or that fill tables of classes.
pub fn hard() -> Vec<Family> {
    let random = &mut Random::new(7);
    let mut books: Vec<(String, Book)> = Vec::new();
    let mut add =
        |name: String, kinds: usize, book: Book| books.push((of_kinds(&name, kinds), book));
    for (cells, labels) in [(32, 16), (64, 8)] {
        for kinds in [1, 2, 4, 16, 64] {
            let recorded = recordings(random, cells, kinds);
            let book = deterministic(random, recorded, labels);
            add(format!("{labels} labels, a link each"), kinds, book);
        }
    }
    for links in [128, 256, 512] {
        for kinds in [1, 4, 16] {
            let book = random_book(random, 64, links, 1, kinds);
            add(format!("one label, {links} links"), kinds, book);
        }
    }
    for kinds in [1, 4, 16] {
        let book = random_book(random, 64, 500, 2, kinds);
        add("two labels, 500 links".to_string(), kinds, book);
    }
    for (name, left_out) in [("complete", 0), ("complete but a tenth", 1)] {
        for kinds in [1, 2, 5, 22] {
            let mut book = complete(recordings(random, 22, kinds));
            book.links.retain(|_| random.below(10) >= left_out);
            add(name.to_string(), kinds, book);
        }
    }
    for (cells, labels) in [(8, 64), (12, 42), (16, 32), (24, 21)] {
        for kinds in [1, 2] {
            let recorded = recordings(random, cells, kinds);
            let book = deterministic(random, recorded, labels);
            add(format!("{labels} labels, a link each"), kinds, book);
        }
    }
    for kinds in [1, 2] {
        add("128 labels, all links".to_string(), kinds, all_links(kinds));
    }
    for kinds in [1, 2, 4, 64] {
        let recorded = recordings(random, 64, kinds);
        add("chain".to_string(), kinds, chain(recorded.clone(), |_| 1));
        add("cycle".to_string(), kinds, ring(recorded));
    }
    for kinds in [1, 2, 5] {
        let book = complete_and_chain(recordings(random, 64, kinds));
        add("20 complete, a chain of 44".to_string(), kinds, book);
    }
    for (labels, kinds) in [(1, 1), (1, 4), (1, 64), (4, 1), (4, 4)] {
        let book = grid(recordings(random, 64, kinds), labels);
        add(format!("grid 8 × 8, labels {labels}"), kinds, book);
    }
    for kinds in [1, 2, 5, 44] {
        let book = layers(recordings(random, 44, kinds));
        add("four layers of 11".to_string(), kinds, book);
    }
    for count in [12, 16] {
        for (links, labels, kinds) in [
            (4, 1, 2),
            (8, 1, 2),
            (16, 1, 4),
            (12, 2, 2),
            (16, 2, 4),
            (32, 2, 2),
            (24, 4, 3),
        ] {
            let small = random_book(random, 4, links, labels, kinds);
            let name = format!("copies of 4 cells, {links} links, labels {labels}");
            let book = copies(&small, count, |_| random.below(count), 0);
            add(name.clone(), kinds, book);
            let book = copies(&small, count, |copy| copy, 4);
            add(format!("{name}, apart"), kinds, book);
        }
    }
    let mut families: Vec<Family> = books
        .into_iter()
        .map(|(name, book)| Family::renumbered(name, random, book))
        .collect();
    for kinds in [1, 2] {
        let recorded = recordings(random, 64, kinds);
        families.push(Family {
            name: format!("cycle against chain, recordings {kinds}"),
            left: ring(recorded.clone()),
            right: chain(recorded, |_| 1),
        });
    }
    families.extend(dense(random));
    families.extend(many_rounds(random));
    families
}

/// Books that take many rounds one-way, in each of which many pairs stay.
fn many_rounds(random: &mut Random) -> Vec<Family> {
    // At bounds 0 and 1 a round parts one pair, and the next the pair before it: as many rounds as pairs.
    let rings = [31, 63].map(|cells| Family {
        name: format!(
            "rings of {cells} and {}, one cell marked, and all but one",
            cells + 1
        ),
        left: marked_ring(cells, |x| x == 0),
        right: marked_ring(cells + 1, |x| x != 0),
    });
    let mut families = Vec::from(rings);
    for (cells, labels) in [(8, 56), (32, 15), (48, 10)] {
        let mut book = deterministic(random, vec![5; cells], labels);
        book.recordings.resize(64, 5);
        let chained = (cells as u8..63).map(|x| link(x, labels, x + 1));
        book.links.extend(chained);
        let name = format!(
            "{cells} cells by {labels} labels, a chain of {}",
            64 - cells
        );
        families.push(Family::renumbered(name, random, book));
    }
    families
}

/// Random books of 500 links, by several labels.
fn dense(random: &mut Random) -> Vec<Family> {
    let mut families = Vec::new();
    for (cells, labels) in [
        (8, 32),
        (12, 16),
        (16, 16),
        (16, 32),
        (20, 8),
        (24, 8),
        (32, 8),
        (32, 10),
        (48, 8),
        (64, 4),
    ] {
        for kinds in [1, 4, cells.min(16)] {
            let book = random_book(random, cells, 500, labels, kinds);
            let name = of_kinds(&format!("dense, {labels} labels, 500 links"), kinds);
            families.push(Family::renumbered(name, random, book));
        }
    }
    families
}

/// Random books of one recording, and renumbered copies with one change: cells, labels, links and the seed. Of some 4,900 seeds tried
/// with the plain version at bound 4 the six slowest, and eight more of the slow ones, some of them of 5 and 6 labels, of the most
/// cells, or with one recording changed.
const CHANGED: [(usize, usize, usize, u64); 14] = [
    (23, 9, 509, 200752),
    (25, 8, 511, 300549),
    (25, 8, 512, 200334),
    (27, 7, 511, 200661),
    (27, 8, 499, 300268),
    (28, 7, 510, 200560),
    (29, 7, 511, 300671),
    (29, 9, 508, 300003),
    (29, 9, 510, 200508),
    (32, 6, 508, 200018),
    (33, 7, 501, 200451),
    (35, 6, 498, 200369),
    (38, 5, 509, 200196),
    (39, 8, 503, 200471),
];

/// A random book of one recording, and a renumbered copy with one change.
fn one_change(cells: usize, labels: usize, links: usize, seed: u64) -> Family {
    let random = &mut Random::new(seed);
    let book = random_book(random, cells, links, labels, 1);
    let copy = renumbered(random, &book);
    let right = damaged(random, &copy);
    let what = match right.recordings == copy.recordings {
        true => "link",
        false => "recording",
    };
    Family {
        name: format!("one {what} changed, {labels} labels, {links} links, seed {seed}"),
        left: book,
        right,
    }
}

/// Books of which the ways of 3 and 4 links take many tables, while one table of all lengths decides few pairs.
pub fn changed() -> Vec<Family> {
    let family = |(cells, labels, links, seed)| one_change(cells, labels, links, seed);
    CHANGED.into_iter().map(family).collect()
}

/// Such books as they come: 22 to 40 cells, 5 to 8 labels, 400 to 512 links.
pub fn drawn() -> Vec<Family> {
    let random = &mut Random::new(21);
    let mut family = |seed| {
        let (cells, labels) = (random.between(22, 40), random.between(5, 8));
        one_change(cells, labels, random.between(400, 512), seed)
    };
    (0..40).map(&mut family).collect()
}

/// The name of a family with so many recordings.
fn of_kinds(name: &str, kinds: usize) -> String {
    let plural = if kinds == 1 { "" } else { "s" };
    format!("{name}, {kinds} recording{plural}")
}

/// Recordings of so many kinds, none silent; all different where the kinds suffice.
fn recordings(random: &mut Random, cells: usize, kinds: usize) -> Vec<u32> {
    match kinds < cells {
        true => (0..cells)
            .map(|_| random.between(1, kinds) as u32)
            .collect(),
        false => (1..=cells as u32).collect(),
    }
}

/// From each cell one link by each label.
fn deterministic(random: &mut Random, recordings: Vec<u32>, labels: u16) -> Book {
    let cells = recordings.len();
    let mut links = Vec::new();
    for from in 0..cells as u8 {
        links.extend((0..labels).map(|label| link(from, label, random.below(cells) as u8)));
    }
    Book { recordings, links }
}

/// From each cell so many links by one label.
fn regular(random: &mut Random, recordings: Vec<u32>, out: usize) -> Book {
    let cells = recordings.len() as u8;
    let mut links = Vec::new();
    for from in 0..cells {
        let mut targets: Vec<u8> = (0..cells).collect();
        while targets.len() > out {
            targets.swap_remove(random.below(targets.len()));
        }
        targets.sort();
        links.extend(targets.iter().map(|&to| link(from, 1, to)));
    }
    Book { recordings, links }
}

/// From each cell one link to each, by one label.
fn complete(recordings: Vec<u32>) -> Book {
    let cells = recordings.len() as u8;
    let links = (0..cells).flat_map(|from| (0..cells).map(move |to| link(from, 1, to)));
    Book {
        links: links.collect(),
        recordings,
    }
}

/// Two cells with all links by 128 labels, the most that there can be.
fn all_links(kinds: usize) -> Book {
    let mut links = Vec::new();
    for from in 0..2 {
        for label in 0..128 {
            links.extend((0..2).map(|to| link(from, label, to)));
        }
    }
    Book {
        recordings: (0..2).map(|x| 1 + x % kinds as u32).collect(),
        links,
    }
}

/// The first 20 cells are complete, and from the last of them a chain leads through the others.
fn complete_and_chain(recordings: Vec<u32>) -> Book {
    let mut book = complete(recordings[..20].to_vec());
    book.links
        .extend((19..recordings.len() as u8 - 1).map(|x| link(x, 1, x + 1)));
    Book { recordings, ..book }
}

/// A grid of 8 × 8 cells with links both ways, by one label or by the direction.
fn grid(recordings: Vec<u32>, labels: u16) -> Book {
    let mut links = Vec::new();
    for (row, column) in (0..64i8).map(|x| (x / 8, x % 8)) {
        for (direction, (down, right)) in [(0, 1), (1, 0), (0, -1), (-1, 0)].iter().enumerate() {
            let (r, c) = (row + down, column + right);
            if (0..8).contains(&r) && (0..8).contains(&c) {
                let label = direction as u16 % labels;
                links.push(link((8 * row + column) as u8, label, (8 * r + c) as u8));
            }
        }
    }
    links.sort();
    Book { recordings, links }
}

/// Layers of 11 cells, each cell with a link to each of the next layer.
fn layers(recordings: Vec<u32>) -> Book {
    let last = recordings.len() as u8 - 11;
    let next = |from: u8| (0..11).map(move |x| link(from, 1, 11 * (from / 11 + 1) + x));
    Book {
        links: (0..last).flat_map(next).collect(),
        recordings,
    }
}

/// So many copies of a book in one. A link leads to its target in the copy that `leads` gives for its own; a copy's recordings are
/// `apart` more than those of the copy before.
fn copies(book: &Book, count: usize, mut leads: impl FnMut(usize) -> usize, apart: usize) -> Book {
    let cells = book.cells();
    let (mut recordings, mut links) = (Vec::new(), Vec::new());
    for copy in 0..count {
        recordings.extend(book.recordings.iter().map(|r| r + (apart * copy) as u32));
        for l in &book.links {
            let to = leads(copy) * cells + l.to as usize;
            let from = copy * cells + l.from as usize;
            links.push(link(from as u8, l.label, to as u8));
        }
    }
    links.sort();
    Book { recordings, links }
}
