//! A call of Compare or its one-way form, timed, and the lists that are lent to it.

use crate::support::hidden::{Hidden, NOTHING};
use crate::support::library::needed;
use crate::support::outcome::Outcome;
use crate::support::sides::Sides;
use std::hint::black_box;
use std::time::{Duration, Instant};

pub type Compare =
    fn(Sides, &[u8], &[u8], usize, Hidden, &mut [u16], &mut [u8], &mut [u8]) -> Outcome;

/// What is lent: a map, room and scratch.
#[derive(PartialEq, Hash)]
pub struct Lists {
    pub map: Vec<u16>,
    room: Vec<u8>,
    scratch: Vec<u8>,
}

impl Lists {
    /// As long as books with so many pairs of cells need them, where the sheet is of this version.
    pub fn new(pairs: usize, version: u8) -> Lists {
        let (map, room, scratch) = needed(pairs, version);
        Lists {
            map: vec![0; map],
            room: vec![0; room],
            scratch: vec![0; scratch],
        }
    }
}

/// The answer and the time of one call, with nothing hidden. All three lists are filled with ones before, outside of the time.
pub fn timed(
    compare: Compare,
    sides: Sides,
    left: &[u8],
    right: &[u8],
    bound: usize,
    lists: &mut Lists,
) -> (Outcome, Duration) {
    lists.map.fill(u16::MAX);
    lists.room.fill(u8::MAX);
    lists.scratch.fill(u8::MAX);
    let Lists { map, room, scratch } = black_box(lists);
    let (left, right) = (black_box(left), black_box(right));
    let start = Instant::now();
    let answer = compare(sides, left, right, bound, NOTHING, map, room, scratch);
    (answer, start.elapsed())
}
