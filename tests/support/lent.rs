//! Copies to lend to the library, with other values around them.

use std::hint::black_box;

/// How many values stand before and after what is lent, at least.
const MARGIN: usize = 16;

pub struct Lent<T> {
    room: Vec<T>,
    start: usize,
    end: usize,
    around: T,
}

impl<T: Copy + PartialEq> Lent<T> {
    /// A copy of the values. By turns it starts at any place modulo 8.
    pub fn new(values: &[T], turn: usize, around: T) -> Lent<T> {
        let start = MARGIN + turn % 8;
        let end = start + values.len();
        let mut room = vec![around; start];
        room.extend_from_slice(values);
        room.resize(end + MARGIN, around);
        Lent {
            room,
            start,
            end,
            around,
        }
    }

    /// The copy, for one call.
    pub fn lend(&mut self) -> &mut [T] {
        &mut black_box(&mut self.room)[self.start..self.end]
    }

    /// What the copy holds by now.
    pub fn values(&self) -> &[T] {
        &black_box(&self.room)[self.start..self.end]
    }

    /// The values around it are as they were.
    pub fn alone(&self) -> bool {
        let room = black_box(&self.room);
        let (before, after) = (&room[..self.start], &room[self.end..]);
        before
            .iter()
            .chain(after)
            .all(|&value| value == self.around)
    }
}
