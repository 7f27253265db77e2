//! Books as data, and their bytes.

use super::random::Random;
use super::recordings::{recording, SILENT};
use super::set_length;
use super::versions::{any_version, label_bytes, label_of, link_width};
use std::collections::BTreeSet;

/// Ordered as triples.
#[derive(Clone, Copy, PartialEq, Eq, PartialOrd, Ord, Debug)]
pub struct Link {
    pub from: u8,
    pub label: u16,
    pub to: u8,
}

#[derive(Clone, PartialEq, Eq, Debug)]
pub struct Book {
    /// Of cells 0 to n - 1.
    pub recordings: Vec<u32>,
    pub links: Vec<Link>,
}

pub fn link(from: u8, label: u16, to: u8) -> Link {
    Link { from, label, to }
}

pub fn book(recordings: &[u32], links: &[Link]) -> Book {
    Book {
        recordings: recordings.to_vec(),
        links: links.to_vec(),
    }
}

impl Book {
    /// The bytes of these recordings and links in a version that has their labels, whether or not a check would accept them. The
    /// fields for n and e hold as much of the counts as they can.
    pub fn bytes(&self, version: u8) -> Vec<u8> {
        let mut bytes = vec![0, 0, 0, 0, version, self.recordings.len() as u8];
        bytes.extend((self.links.len() as u16).to_be_bytes());
        for recording in &self.recordings {
            bytes.extend(recording.to_be_bytes());
        }
        for link in &self.links {
            bytes.push(link.from);
            bytes.extend(label_bytes(version, link.label));
            bytes.push(link.to);
        }
        set_length(&mut bytes);
        bytes
    }

    /// The bytes in any version that has the labels.
    pub fn any_bytes(&self, random: &mut Random) -> Vec<u8> {
        self.bytes(any_version(random, self.labels()))
    }

    /// The book that these bytes hold, which a check accepts.
    pub fn of_bytes(bytes: &[u8]) -> Book {
        let width = link_width(bytes[4]);
        let (recordings, links) = bytes[8..].split_at(4 * bytes[5] as usize);
        Book {
            recordings: recordings.chunks(4).map(recording).collect(),
            links: links
                .chunks(width)
                .map(|field| link(field[0], label_of(&field[1..width - 1]), field[width - 1]))
                .collect(),
        }
    }

    pub fn cells(&self) -> usize {
        self.recordings.len()
    }

    /// The labels of the links.
    pub fn labels(&self) -> impl Iterator<Item = u16> + '_ {
        self.links.iter().map(|link| link.label)
    }
}

/// Document 01, example A, left.
pub fn example_a_left() -> Book {
    Book {
        recordings: vec![5, 5, 6],
        links: vec![link(0, 1, 1), link(0, 1, 2)],
    }
}

/// Document 01, example A, right.
pub fn example_a_right() -> Book {
    Book {
        recordings: vec![5, 5],
        links: vec![link(0, 1, 1)],
    }
}

/// A chain of these recordings: cell x leads to cell x + 1 by `label(x)`.
pub fn chain(recordings: Vec<u32>, label: impl Fn(u8) -> u16) -> Book {
    let last = recordings.len() as u8 - 1;
    Book {
        recordings,
        links: (0..last).map(|x| link(x, label(x), x + 1)).collect(),
    }
}

/// A ring of these recordings by label 1: the last cell leads to the first.
pub fn ring(recordings: Vec<u32>) -> Book {
    let cells = recordings.len() as u8;
    Book {
        recordings,
        links: (0..cells).map(|x| link(x, 1, (x + 1) % cells)).collect(),
    }
}

/// A ring of one recording by label 1, of which some cells have a link to themselves by label 2.
pub fn marked_ring(cells: u8, marked: impl Fn(u8) -> bool) -> Book {
    let mut book = ring(vec![5; cells as usize]);
    let marks = (0..cells).filter(|&x| marked(x));
    book.links.extend(marks.map(|x| link(x, 2, x)));
    book.links.sort();
    book
}

/// The most links that a book of `cells` cells can have with so many different labels.
pub fn most_links(cells: usize, labels: usize) -> usize {
    (cells * labels * cells).min(512)
}

/// A book that is accepted: 1 to 64 cells, none silent; labels below `labels` (1 to 65,536); recordings from 1 to `recordings` (1 to
/// 2^32 - 1); `links` links, at most `most_links`.
pub fn random_book(
    random: &mut Random,
    cells: usize,
    links: usize,
    labels: usize,
    recordings: usize,
) -> Book {
    assert!(links <= most_links(cells, labels));
    let mut rising = BTreeSet::new();
    while rising.len() < links {
        let from = random.below(cells) as u8;
        let label = random.below(labels) as u16;
        let to = random.below(cells) as u8;
        rising.insert(link(from, label, to));
    }
    Book {
        recordings: (0..cells)
            .map(|_| 1 + random.below(recordings) as u32)
            .collect(),
        links: rising.into_iter().collect(),
    }
}

/// The book, by chance with no silent cells, a few of them, about half or all.
pub fn silenced(random: &mut Random, mut book: Book) -> Book {
    let (silent, of) = random.pick(&[(0, 1), (1, 6), (1, 2), (1, 1)]);
    for recording in &mut book.recordings {
        if random.below(of) < silent {
            *recording = SILENT;
        }
    }
    book
}
