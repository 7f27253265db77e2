//! Compares what the library leaves with what the plain loops do, call by call, and counts what parts the pairs.

use crate::shorter::Shorter;
use crate::support::call::Call;
use crate::support::counts::{Hiding, Silence, Versions};
use crate::support::described::compared;
use crate::support::hidden::{Hidden, Masked};
use crate::support::lent::Lent;
use crate::support::library::{self, needed};
use crate::support::loops::Reason;
use crate::support::random::Random;
use crate::support::sheets::Sheet;
use crate::support::sides::{Sides, FORMS};
use crate::support::versions::{any_version, versions_of, written_version};

/// The most steps in all of a comparison: two ways of 4.
const MOST_STEPS: usize = 8;

/// What the maps of one form at one bound name.
#[derive(Default)]
struct Named {
    cases: usize,
    stay: usize,
    /// Links, at the left cell or at the right one.
    links: [usize; 2],
    /// Comparisons at the left cell or, denied, at the right one; by their steps in all.
    comparisons: [[usize; MOST_STEPS + 1]; 2],
}

pub struct Tally {
    random: Random,
    turn: usize,
    /// Of the left book and the right one.
    versions: Versions,
    silence: Silence,
    hiding: Hiding,
    /// Of each of the `FORMS`, by bound.
    by_bound: [[Named; 5]; 2],
    shorter: Shorter,
}

impl Tally {
    pub fn new() -> Tally {
        Tally {
            random: Random::new(16),
            turn: 0,
            versions: Versions::default(),
            silence: Silence::default(),
            hiding: Hiding::default(),
            by_bound: Default::default(),
            shorter: Shorter::default(),
        }
    }

    /// Compares the books in any versions that have their labels. Gives the map and the sheet.
    pub fn compare(
        &mut self,
        sides: Sides,
        left: &Masked,
        right: &Masked,
        bound: usize,
    ) -> (Vec<u16>, Sheet) {
        let one = any_version(&mut self.random, left.book.labels());
        let other = any_version(&mut self.random, right.book.labels());
        self.compare_in([one, other], sides, left, right, bound)
    }

    /// Compares the books in every mix of versions that have their labels: all leave the same map and, but for the version, the same
    /// sheet. Gives these.
    pub fn every_mix(
        &mut self,
        sides: Sides,
        left: &Masked,
        right: &Masked,
        bound: usize,
    ) -> (Vec<u16>, Sheet) {
        let mut written = Vec::new();
        for &one in versions_of(left.book.labels()) {
            for &other in versions_of(right.book.labels()) {
                written.push(self.compare_in([one, other], sides, left, right, bound));
            }
        }
        assert!(written.windows(2).all(|two| two[0] == two[1]));
        written.remove(0)
    }

    /// In these versions the library's answer, map and sheet are those of the plain loops, bytes after the sheet are unchanged, and the
    /// scratch ends as zeros. Where the map names a comparison, no shorter one parts the cells. Gives the map and the sheet.
    fn compare_in(
        &mut self,
        [one, other]: [u8; 2],
        sides: Sides,
        left: &Masked,
        right: &Masked,
        bound: usize,
    ) -> (Vec<u16>, Sheet) {
        let version = written_version(one, other);
        let (one, other) = (left.book.bytes(one), right.book.bytes(other));
        let (map, room, scratch) = needed(left.book.cells() * right.book.cells(), version);
        let hidden = Hidden {
            left: left.hidden,
            right: right.hidden,
        };
        let more = self.random.pick(&[0, 1, 7, 100]);
        let around = self.random.byte();
        let map: Vec<u16> = (0..map).map(|_| self.random.next() as u16).collect();
        let room: Vec<u8> = (0..room + more).map(|_| self.random.byte()).collect();
        let mut lent_map = Lent::new(&map, self.turn, around as u16);
        let mut lent_room = Lent::new(&room, self.turn + 3, around);
        let mut scratch = vec![around; scratch];
        let answer = library::compare(
            sides,
            &one,
            &other,
            bound,
            hidden,
            lent_map.lend(),
            lent_room.lend(),
            &mut scratch,
        );

        let call = Call {
            name: sides.operation(),
            numbers: format!("case {}, bound {bound}, {hidden:x?}", self.turn),
            inputs: &[("left book", &one), ("right book", &other)],
        };
        let (of_left, of_right) = (left.shown(), right.shown());
        let among_shown = compared(&of_left.book, &of_right.book, bound, sides, version);
        let map = among_shown.map.clone();
        let expected = among_shown.of_whole(&of_left, &of_right);
        if let Some(what) = expected.difference(answer, lent_map.values(), lent_room.values()) {
            call.fail(&what);
        }
        let length = expected.sheet.len();
        if lent_room.values()[length..] != room[length..] {
            call.fail("bytes after the sheet were changed");
        }
        if scratch.iter().any(|&byte| byte != 0) {
            call.fail("the scratch does not end as zeros");
        }
        if !lent_map.alone() || !lent_room.alone() {
            call.fail("what is beside the map or the room was changed");
        }
        let sheet = Sheet::of_bytes(&lent_room.values()[..length]);
        if sides == Sides::One && sheet.denies() {
            call.fail("the sheet has a \"not\"");
        }
        self.versions.count(&[&one, &other]);
        self.silence.count(&[&left.book, &right.book]);
        self.hiding.count_two(&left.book, &right.book, hidden);
        self.count(sides, &map, &sheet);
        self.shorter
            .check(&call, sides, &of_left.book, &of_right.book, &map, &sheet);
        self.turn += 1;
        (expected.map, sheet)
    }

    fn count(&mut self, sides: Sides, map: &[u16], sheet: &Sheet) {
        let named = &mut self.by_bound[sides.place()][sheet.bound as usize];
        named.cases += 1;
        for &number in map {
            if number == 0 {
                named.stay += 1;
                continue;
            }
            let reason = Reason::of_entry(sheet, number);
            let side = !reason.from_left as usize;
            *match reason.link {
                true => &mut named.links[side],
                false => &mut named.comparisons[side][reason.steps],
            } += 1;
        }
    }

    /// Prints the counts, and gives the number of cases. Ends the test where no comparison has some number of steps in all.
    pub fn report(&self) -> usize {
        for sides in FORMS {
            self.report_named(sides);
        }
        self.shorter.report();
        self.versions.report("compare");
        self.silence.report("compare");
        self.hiding.report("compare");
        self.turn
    }

    /// Prints what the maps of one form name, which one-way is never at the right.
    fn report_named(&self, sides: Sides) {
        println!("what the maps of {} name, by bound:", sides.operation());
        for (bound, named) in self.by_bound[sides.place()].iter().enumerate() {
            println!(
                "  bound {bound}: {} cases, {} {}",
                named.cases,
                named.stay,
                sides.stays()
            );
            let names = ["at the left", "at the right"].into_iter().enumerate();
            for (side, name) in names.take(1 + (sides == Sides::Two) as usize) {
                let by_steps = &named.comparisons[side][..=2 * bound];
                let comparisons: usize = by_steps.iter().sum();
                println!(
                    "    {name:<13}links {:>7}, comparisons {comparisons:>7}, by steps in all {by_steps:?}",
                    named.links[side]
                );
                // Staying is compared with itself where one of the cells is silent.
                if let Some(steps) = (0..by_steps.len()).find(|&steps| by_steps[steps] == 0) {
                    println!("bound {bound}: no comparison {name} has {steps} steps in all");
                    std::process::exit(1);
                }
            }
        }
    }
}
