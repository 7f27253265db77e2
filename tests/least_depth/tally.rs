//! Holds the questions that the library names against all questions, call by call, and counts the depths.

use crate::inputs::BOUNDS;
use crate::levels::{Levels, Set};
use crate::support::books::Book;
use crate::support::call::Call;
use crate::support::counts::{Hiding, Silence, Versions};
use crate::support::hidden::{shown_map, Hidden, Masked};
use crate::support::library::{self, needed};
use crate::support::meaning::{sheet_cells, word};
use crate::support::measures::{depths, keeping};
use crate::support::partners::rounds;
use crate::support::random::Random;
use crate::support::remade::both;
use crate::support::sheets::Sheet;
use crate::support::sides::{Sides, FORMS};
use crate::support::telling::{telling_sheet, Naming, Plan};
use crate::support::versions::written_version;

/// The depths that are counted apart: 1, 2, and more.
const DEPTHS: usize = 3;

/// A kind of pairs is rare where there are fewer.
const RARE: usize = 150;

/// What was seen of one form at one bound.
#[derive(Default)]
struct Seen {
    /// Pairs of books, and those that were left out since they have too many ways.
    cases: usize,
    left_out: usize,
    stay: usize,
    /// Parted pairs, by the depth of what is named.
    parted: [usize; DEPTHS],
    deepest: usize,
}

impl Seen {
    fn count(&mut self, depth: Option<usize>) {
        match depth {
            None => self.stay += 1,
            Some(depth) => {
                self.parted[depth.min(DEPTHS) - 1] += 1;
                self.deepest = self.deepest.max(depth);
            }
        }
    }
}

pub struct Tally {
    random: Random,
    versions: Versions,
    silence: Silence,
    hiding: Hiding,
    /// Of each of the `FORMS`, by bound.
    seen: [[Seen; BOUNDS]; 2],
    /// The questions that were found among all of their depth: of sheets that were written, and others.
    found: [usize; 2],
    /// Pairs that are parted in both forms: at one depth, and one-way at a larger one.
    both_forms: [usize; 2],
}

impl Tally {
    pub fn new() -> Tally {
        Tally {
            random: Random::new(19),
            versions: Versions::default(),
            silence: Silence::default(),
            hiding: Hiding::default(),
            seen: Default::default(),
            found: [0; 2],
            both_forms: [0; 2],
        }
    }

    /// Compares the books in both forms. What parts a pair one-way parts it two-sided too. Hidden cells are not asked.
    pub fn check(&mut self, books: &[Masked; 2], bound: usize) {
        let [two, one] = FORMS.map(|sides| self.named(sides, books, bound));
        for (two, one) in two.iter().zip(&one) {
            assert!(one.is_none() || two.is_some());
            if let (Some(two), Some(one)) = (two, one) {
                assert!(two <= one);
                self.both_forms[(two < one) as usize] += 1;
            }
        }
        let [left, right] = books;
        self.silence
            .count(&[&left.shown().book, &right.shown().book]);
        self.hiding
            .count_two(&left.book, &right.book, hidden_of(books));
    }

    /// The depth of the question that the library names for each pair of cells, or none for a pair that stays. It is the smallest of all
    /// questions that are true left and false right, and the round in which a naive comparison drops the pair.
    fn named(&mut self, sides: Sides, books: &[Masked; 2], bound: usize) -> Vec<Option<usize>> {
        let hidden = hidden_of(books);
        let [one, other] = books
            .each_ref()
            .map(|masked| masked.book.any_bytes(&mut self.random));
        let shown = books.each_ref().map(Masked::shown);
        let [left, right] = shown.each_ref().map(|shown| &shown.book);
        self.versions.count(&[&one, &other]);
        let call = Call {
            name: sides.operation(),
            numbers: format!("bound {bound}, {hidden:x?}"),
            inputs: &[("left book", &one), ("right book", &other)],
        };
        let (map, sheet) = compared(sides, &one, &other, bound, hidden);
        let Some(map) = shown_map(&shown[0], &shown[1], &map) else {
            call.fail("the map does not hold 65,535 where a cell is hidden, and nowhere else");
        };
        let depths = depths(&sheet);
        let named = |&number: &u16| (number != 0).then(|| depths[number as usize]);
        let named: Vec<_> = map.iter().map(named).collect();
        if named != rounds(left, right, bound, sides) {
            call.fail("a depth is not the round in which the pair is dropped");
        }
        let seen = &mut self.seen[sides.place()][bound];
        seen.cases += 1;
        let books = both(left, right);
        let Some(levels) = Levels::of(&books, bound, sides) else {
            seen.left_out += 1;
            return named;
        };
        let m = right.cells();
        for (place, named) in named.iter().enumerate() {
            let least = levels.least(place / m, left.cells() + place % m);
            if *named != least {
                call.fail(&format!(
                    "place {place} has depth {named:?}, the smallest is {least:?}"
                ));
            }
            seen.count(least);
        }
        self.found[0] += found(&call, &levels, &books, &sheet);
        if books.cells() == 0 {
            return named;
        }
        let others = others(&mut self.random, &books, bound, sides);
        self.found[1] += found(&call, &levels, &books, &others);
        named
    }

    /// Prints the counts, and gives the number of pairs. Ends the test where a kind is rare.
    pub fn report(&self) -> usize {
        let mut pairs = 0;
        for sides in FORMS {
            for (bound, seen) in self.seen[sides.place()].iter().enumerate() {
                let Seen {
                    cases,
                    left_out,
                    stay,
                    parted,
                    deepest,
                } = seen;
                println!(
                    "{}, bound {bound}: {cases} cases, of which {left_out} have too many ways; {stay} pairs {}, parted at depths 1, 2 and more {parted:?}, at most {deepest}",
                    sides.operation(),
                    sides.stays()
                );
                let all: usize = parted.iter().sum();
                assert!(left_out * 20 < *cases, "too many cases were left out");
                assert!(stay * 10 > all, "too few pairs stay");
                assert!(
                    parted.iter().all(|&times| times >= RARE),
                    "a depth was seen too seldom"
                );
                pairs += stay + all;
            }
        }
        let [written, others] = self.found;
        println!("found among all questions of their depth: {written} of the sheets that were written, and {others} others");
        let [alike, deeper] = self.both_forms;
        println!(
            "parted in both forms: {alike} pairs at one depth, {deeper} one-way at a larger one"
        );
        assert!(deeper >= RARE);
        self.versions.report("compare");
        self.silence.report("compare");
        self.hiding.report("compare");
        pairs
    }
}

fn hidden_of([left, right]: &[Masked; 2]) -> Hidden {
    Hidden {
        left: left.hidden,
        right: right.hidden,
    }
}

/// The map and the sheet that the library leaves.
fn compared(
    sides: Sides,
    left: &[u8],
    right: &[u8],
    bound: usize,
    hidden: Hidden,
) -> (Vec<u16>, Sheet) {
    let pairs = left[5] as usize * right[5] as usize;
    let (map, room, scratch) = needed(pairs, written_version(left[4], right[4]));
    let (mut map, mut room, mut scratch) = (vec![0; map], vec![0; room], vec![0; scratch]);
    let answer = library::compare(
        sides,
        left,
        right,
        bound,
        hidden,
        &mut map,
        &mut room,
        &mut scratch,
    );
    assert_eq!(answer.refusal, 0);
    let sheet = Sheet::of_bytes(&room[..answer.first as usize]);
    assert!(sides == Sides::Two || !sheet.denies());
    (map, sheet)
}

/// Other questions within the bound, along the links of the books; one-way without "not".
fn others(random: &mut Random, books: &Book, bound: usize, sides: Sides) -> Sheet {
    let plan = Plan {
        bound: bound as u8,
        entries: 8,
        longest: 3,
        naming: Naming::Any,
        denials: sides == Sides::Two,
        draws: 2,
    };
    telling_sheet(random, books, plan)
}

/// Every question of the sheet is among all that are as deep: so none is missed. Gives how many they are.
fn found(call: &Call, levels: &Levels, books: &Book, sheet: &Sheet) -> usize {
    let (depths, keeping) = (depths(sheet), keeping(sheet, sheet.bound as usize));
    for (k, cells) in sheet_cells(books, sheet).iter().enumerate() {
        if !keeping[k] || !levels.has(depths[k], word(cells) as Set) {
            call.fail(&format!(
                "{:?} is not among the questions of depth {}",
                sheet.entries[k], depths[k]
            ));
        }
    }
    depths.len()
}
