//! Calls the library for two pairs of books that show the same, holds what it gives against each other, and counts in what the books differ.

use crate::difference::{difference, NAMES};
use crate::support::call::Call;
use crate::support::counts::{Hiding, Versions};
use crate::support::hidden::{Hidden, Masked, NOTHING};
use crate::support::library::{self, needed};
use crate::support::outcome::Outcome;
use crate::support::random::Random;
use crate::support::sides::{Sides, FORMS};
use crate::support::telling::{telling_sheet, Naming, Plan};
use crate::support::versions::{any_version, written_version};

/// What a call leaves: its answer, and the lists that are lent.
type Left = (Outcome, Vec<u16>, Vec<u8>, Vec<u8>);

/// The claims of each sheet.
const CLAIMS: usize = 6;

pub struct Tally {
    random: Random,
    versions: Versions,
    hiding: Hiding,
    /// Pairs of calls of Compare, of its one-way form, of Truth and of Claim.
    calls: [usize; 4],
    /// In what books differ: each of `NAMES`, and it alone but for the number of links.
    differ: [usize; NAMES.len()],
    alone: [usize; NAMES.len()],
    /// Pairs of calls of Compare or its one-way form that leave something else where nothing is hidden.
    visible: usize,
}

impl Tally {
    pub fn new() -> Tally {
        Tally {
            random: Random::new(24),
            versions: Versions::default(),
            hiding: Hiding::default(),
            calls: [0; 4],
            differ: [0; NAMES.len()],
            alone: [0; NAMES.len()],
            visible: 0,
        }
    }

    /// The two pairs of books show the same: all that the library gives is alike.
    pub fn check(&mut self, books: [&Masked; 2], others: [&Masked; 2], bound: usize) {
        for (one, other) in books.iter().zip(others) {
            self.count(one, other);
        }
        let hidden = Hidden {
            left: books[0].hidden,
            right: books[1].hidden,
        };
        let versions = [0, 1].map(|side| {
            let labels = books[side].book.labels().chain(others[side].book.labels());
            any_version(&mut self.random, labels)
        });
        let bytes = |of: [&Masked; 2]| [0, 1].map(|side| of[side].book.bytes(versions[side]));
        let (ones, others) = (bytes(books), bytes(others));
        self.versions.count(&[&ones[0], &ones[1]]);
        self.hiding
            .count_two(&books[0].book, &books[1].book, hidden);
        let call = Call {
            name: "compare",
            numbers: format!("bound {bound}, {hidden:x?}"),
            inputs: &[
                ("left book", &ones[0]),
                ("right book", &ones[1]),
                ("other left book", &others[0]),
                ("other right book", &others[1]),
            ],
        };
        for sides in FORMS {
            let sheet = self.compared(&call, sides, &ones, &others, bound, hidden);
            self.asked(&call, &ones, &others, hidden, &sheet);
        }
        let plan = Plan {
            bound: bound as u8,
            entries: 12,
            longest: 4,
            naming: Naming::Any,
            denials: true,
            draws: 2,
        };
        // Questions about the whole left book, with what is hidden.
        let sheet = telling_sheet(&mut self.random, &books[0].book, plan);
        let sheet = sheet.any_bytes(&mut self.random);
        self.asked(&call, &ones, &others, hidden, &sheet);
    }

    fn count(&mut self, one: &Masked, other: &Masked) {
        let difference = difference(one, other);
        let kinds = &difference[..NAMES.len() - 1];
        let many = kinds.iter().filter(|&&is| is).count();
        for (kind, is) in difference.into_iter().enumerate() {
            self.differ[kind] += is as usize;
            self.alone[kind] += (is && many == 1) as usize;
        }
    }

    /// What a form leaves of lists that are the same for both pairs of books is alike, also with lists that are too short. Gives the sheet.
    fn compared(
        &mut self,
        call: &Call,
        sides: Sides,
        ones: &[Vec<u8>; 2],
        others: &[Vec<u8>; 2],
        bound: usize,
        hidden: Hidden,
    ) -> Vec<u8> {
        let version = written_version(ones[0][4], ones[1][4]);
        let (map, room, scratch) = needed(ones[0][5] as usize * ones[1][5] as usize, version);
        let short = self.random.one_in(8) as usize;
        let more = self.random.pick(&[0, 1, 100]);
        let map: Vec<u16> = (0..map).map(|_| self.random.next() as u16).collect();
        let room: Vec<u8> = (0..room + more).map(|_| self.random.byte()).collect();
        let scratch: Vec<u8> = (0..scratch + more).map(|_| self.random.byte()).collect();
        let left_by = |books: &[Vec<u8>; 2], hidden, short: usize| -> Left {
            let (mut map, mut room, mut scratch) = (map.clone(), room.clone(), scratch.clone());
            let long = map.len() - short;
            let lists = (&mut map[..long], &mut room[..], &mut scratch[..]);
            let [left, right] = books;
            let answer =
                library::compare(sides, left, right, bound, hidden, lists.0, lists.1, lists.2);
            (answer, map, room, scratch)
        };
        let one = left_by(ones, hidden, short);
        if one != left_by(others, hidden, short) {
            call.fail("the answer, the map, the room or the scratch is another");
        }
        self.calls[sides.place()] += 1;
        if left_by(ones, NOTHING, 0) != left_by(others, NOTHING, 0) {
            self.visible += 1;
        }
        let (answer, _, mut room, _) = left_by(ones, hidden, 0);
        room.truncate(answer.first as usize);
        room
    }

    /// The words of Truth of either book and the sheet are alike, and so are the answers and words of some claims.
    fn asked(
        &mut self,
        call: &Call,
        ones: &[Vec<u8>; 2],
        others: &[Vec<u8>; 2],
        hidden: Hidden,
        sheet: &[u8],
    ) {
        let entries = u16::from_be_bytes([sheet[6], sheet[7]]) as usize;
        let words: Vec<u64> = (0..entries + 1).map(|_| self.random.next()).collect();
        for (side, word) in [hidden.left, hidden.right].into_iter().enumerate() {
            let truth = |book: &[u8]| {
                let mut words = words.clone();
                (library::truth(book, word, sheet, &mut words), words)
            };
            if truth(&ones[side]) != truth(&others[side]) {
                call.fail("the answer or the words of truth are others");
            }
            self.calls[2] += 1;
        }
        for _ in 0..CLAIMS {
            let entry = self.random.below(entries);
            let cells = [0, 1].map(|side| self.random.below(ones[side][5] as usize));
            let claim = |[left, right]: &[Vec<u8>; 2]| {
                let mut words = words.clone();
                let [i, j] = cells;
                let answer = library::claim(left, right, hidden, sheet, entry, i, j, &mut words);
                (answer, words)
            };
            if claim(ones) != claim(others) {
                call.fail("the answer or the words of a claim are others");
            }
            self.calls[3] += 1;
        }
    }

    /// Prints the counts, and gives the number of pairs of calls. Ends the test where a kind is rare.
    pub fn report(&self) -> usize {
        let [two, one, truth, claim] = self.calls;
        println!("pairs of calls: compare {two}, one-way {one}, truth {truth}, claim {claim}");
        println!("books that differ in hidden cells, how often, and how often in nothing else but the number of links:");
        for (kind, name) in NAMES.iter().enumerate() {
            let (times, alone) = (self.differ[kind], self.alone[kind]);
            println!("  {name:<28}{times:>7}{alone:>7}");
            assert!(times >= 1_000 && alone >= 100, "too few differ so");
        }
        println!(
            "with nothing hidden {} of {} pairs of comparisons are not alike",
            self.visible,
            one + two
        );
        assert!(self.visible * 4 > one + two, "too few would be told apart");
        self.versions.report("secrecy");
        self.hiding.report("secrecy");
        self.calls.iter().sum()
    }
}
