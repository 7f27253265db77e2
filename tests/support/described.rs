//! Compare by first reasons: the rounds and pairs of crates/refinement/specs/Refining.antt, what is written for a parted pair, and how
//! the descriptions of cells grow. So all that Compare leaves is known to the byte.

use super::books::{Book, Link};
use super::first_reason::{Reason, Side, View};
use super::hidden::{whole_map, Shown};
use super::outcome::{accepted, Outcome};
use super::recordings::Comparison;
use super::sheets::{step, Entry, Sheet, Step};
use super::sides::Sides;

/// What Compare leaves.
pub struct Compared {
    pub answer: Outcome,
    pub map: Vec<u16>,
    pub sheet: Vec<u8>,
}

/// The entries that describe the cells of a book, as the round found them and as they have become. At first all are always true.
struct Described {
    old: Vec<u16>,
    new: Vec<u16>,
}

impl Described {
    fn begun(book: &Book) -> Described {
        Described {
            old: vec![0; book.cells()],
            new: vec![0; book.cells()],
        }
    }

    /// The next round begins.
    fn turn(&mut self) {
        self.old = self.new.clone();
    }

    /// The steps along a path: at each cell the test is the entry that described it as the round began.
    fn steps(&self, path: &[Link]) -> Vec<Step> {
        path.iter()
            .map(|link| step(link.label, self.old[link.to as usize]))
            .collect()
    }

    /// The entry that puts a reason of this book.
    fn entry(&self, reason: &Reason) -> Entry {
        match reason {
            Reason::Link(link) => Entry::Way(self.steps(&[*link])),
            Reason::Paths(comparison, first, second) => {
                let (first, second) = (self.steps(first), self.steps(second));
                match comparison {
                    Comparison::Same => Entry::Same(first, second),
                    Comparison::Differ => Entry::Differ(first, second),
                }
            }
        }
    }
}

/// What is written so far.
struct State {
    sides: Sides,
    entries: Vec<Entry>,
    /// 0 where a pair is not parted.
    map: Vec<u16>,
    left: Described,
    right: Described,
}

impl State {
    /// Writes an entry, and gives its number.
    fn write(&mut self, entry: Entry) -> u16 {
        self.entries.push(entry);
        self.entries.len() as u16 - 1
    }

    /// Writes "i and j", and gives its number. Where i is 0, always true, nothing is written and j serves.
    fn write_both(&mut self, i: u16, j: u16) -> u16 {
        match i {
            0 => j,
            _ => self.write(Entry::And(i, j)),
        }
    }

    /// Parts (a, b), at this place of the map, by an entry that is true at a or else at b. One-way nothing is denied, and right cells are
    /// not described.
    fn part(&mut self, place: usize, (a, b): (usize, usize), entry: Entry, at_left: bool) {
        let asked = self.write(entry);
        if self.sides == Sides::One {
            self.name(place, a, asked);
            return;
        }
        let denied = self.write(Entry::Not(asked));
        let (of_left, of_right) = match at_left {
            true => (asked, denied),
            false => (denied, asked),
        };
        self.name(place, a, of_left);
        self.right.new[b] = self.write_both(self.right.new[b], of_right);
    }

    /// The map names an entry that is true at a, and it describes a, with what did before.
    fn name(&mut self, place: usize, a: usize, number: u16) {
        self.map[place] = number;
        self.left.new[a] = self.write_both(self.left.new[a], number);
    }
}

/// What Compare leaves for two books, where it writes a sheet of this version: at most as many rounds as there are pairs, until one parts
/// none. Each parts the pairs that have a reason under the relation that it began with.
pub fn compared(left: &Book, right: &Book, c: usize, sides: Sides, version: u8) -> Compared {
    let (n, m) = (left.cells(), right.cells());
    let mut state = State {
        sides,
        entries: vec![Entry::True],
        map: vec![0; n * m],
        left: Described::begun(left),
        right: Described::begun(right),
    };
    let (left, right) = (Side::of(left, c), Side::of(right, c));
    for _ in 0..n * m {
        let before = state.map.clone();
        let related = |i: usize, j: usize| before[i * m + j] == 0;
        let ahead = View {
            one: &left,
            other: &right,
            related,
        };
        let back = View {
            one: &right,
            other: &left,
            related: |j, i| related(i, j),
        };
        for place in (0..n * m).filter(|&place| before[place] == 0) {
            let (a, b) = (place / m, place % m);
            if let Some(reason) = ahead.first_reason(a, b, c) {
                let entry = state.left.entry(&reason);
                state.part(place, (a, b), entry, true);
            } else if let Some(reason) = sides.from_right(|| back.first_reason(b, a, c)) {
                let entry = state.right.entry(&reason);
                state.part(place, (a, b), entry, false);
            }
        }
        if state.map == before {
            break;
        }
        state.left.turn();
        state.right.turn();
    }
    let sheet = Sheet {
        bound: c as u8,
        entries: state.entries,
    };
    let sheet = sheet.bytes(version);
    let zeros = state.map.iter().filter(|&&number| number == 0).count();
    Compared {
        answer: accepted(sheet.len() as u32, zeros as u32),
        map: state.map,
        sheet,
    }
}

impl Compared {
    /// The same, of books of which these are shown.
    pub fn of_whole(self, left: &Shown, right: &Shown) -> Compared {
        Compared {
            map: whole_map(left, right, &self.map),
            ..self
        }
    }

    /// In what the library left something else, if it did.
    pub fn difference(&self, answer: Outcome, map: &[u16], room: &[u8]) -> Option<String> {
        if let Some(place) = (0..self.map.len()).find(|&place| map[place] != self.map[place]) {
            return Some(format!(
                "place {place} holds {}, by first reasons it is {}",
                map[place], self.map[place]
            ));
        }
        let mut bytes = (8..self.sheet.len()).chain(0..8); // the entries, then the header
        if let Some(place) = bytes.find(|&place| room[place] != self.sheet[place]) {
            return Some(format!(
                "byte {place} of the sheet is {}, by first reasons it is {}",
                room[place], self.sheet[place]
            ));
        }
        (answer != self.answer).then(|| {
            format!(
                "the answer is {answer:?}, by first reasons it is {:?}",
                self.answer
            )
        })
    }
}
