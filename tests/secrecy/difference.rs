//! In what two books differ of which the same cells are hidden.

use crate::support::books::{Book, Link};
use crate::support::hidden::{hides, Masked, Shown};

/// In what hidden cells differ, in the order of `Difference`.
pub const NAMES: [&str; 6] = [
    "recordings",
    "links to themselves",
    "links between two of them",
    "links to shown cells",
    "links from shown cells",
    "the number of links",
];

/// Whether they differ so.
pub type Difference = [bool; NAMES.len()];

/// The links of one kind: from hidden cells or not, to hidden cells or not, and from a cell to itself or not.
fn links(of: &Masked, from: bool, to: bool, itself: bool) -> Vec<Link> {
    let is = |link: &&Link| {
        hides(of.hidden, link.from as usize) == from
            && hides(of.hidden, link.to as usize) == to
            && (link.from == link.to) == itself
    };
    of.book.links.iter().filter(is).copied().collect()
}

/// In what two books differ that show the same.
pub fn difference(one: &Masked, other: &Masked) -> Difference {
    let shown = [one, other].map(|masked| Shown::of(&masked.book, masked.hidden).book);
    assert!(one.hidden == other.hidden && shown[0] == shown[1]);
    assert_eq!(one.book.cells(), other.book.cells());
    let other_links =
        |from, to, itself| links(one, from, to, itself) != links(other, from, to, itself);
    let many = |book: &Book| book.links.len();
    [
        one.book.recordings != other.book.recordings,
        other_links(true, true, true),
        other_links(true, true, false),
        other_links(true, false, false),
        other_links(false, true, false),
        many(&one.book) != many(&other.book),
    ]
}
