//! What parts the pairs: the library, and the plain version of its method with tables of few places, beside the plain search of all
//! pairs of paths. They leave the same pairs unparted, and every comparison has the same number of steps in all.

use crate::expected::Asked;
use crate::plain_compare::{self, BY_CELLS, CLASHED, FULL, IDLE, LARGE, QUIET, UNKNOWN};
use crate::support::call::Call;
use crate::support::hidden::shown_map;
use crate::support::loops::{Dropped, Reason};
use crate::support::outcome::Outcome;
use crate::support::sheets::Sheet;
use std::collections::BTreeMap;
use std::sync::atomic::{AtomicUsize, Ordering};

/// How many places the tables of the library have.
const PLACES: usize = 64;

/// Tables of N places are tried where the cells times the pairs of ways are at most so many times N².
const REACH: usize = 20_000;

/// What Compare left.
pub struct Written<'a> {
    pub answer: Outcome,
    /// Of all pairs.
    pub whole: &'a [u16],
    /// Of the pairs that are shown.
    pub map: &'a [u16],
    pub room: &'a [u8],
}

/// What the plain version counts: how many pairs were left out since none near them was parted; how often a part was full; for how many pairs some level was
/// too large as it is, and one tip a cell told that they stay; and for how many others the levels told that no tips clash, or that some do, or did not fit.
static COUNTS: [(&str, &AtomicUsize); 7] = [
    ("pairs left out", &IDLE),
    ("full parts", &FULL),
    ("pairs too large", &LARGE),
    ("pairs told by cells", &BY_CELLS),
    ("quiet pairs", &QUIET),
    ("clashing pairs", &CLASHED),
    ("pairs not known", &UNKNOWN),
];

/// The cases with tables of so many places, and of all `COUNTS` what was counted and in how many cases.
#[derive(Clone, Copy, Default)]
struct Counted {
    cases: usize,
    counts: [usize; COUNTS.len()],
    in_cases: [usize; COUNTS.len()],
}

#[derive(Default)]
pub struct Searches {
    /// The comparisons that the library's maps name, by their steps in all.
    steps: BTreeMap<usize, usize>,
    /// By the places of the tables.
    by_places: BTreeMap<usize, Counted>,
}

impl Searches {
    /// Compares what the library wrote with what the plain search of all pairs of paths gives, and so the plain version's. A cell
    /// has so many ways at most.
    pub fn check(
        &mut self,
        call: &Call,
        asked: Asked,
        written: &Written,
        dropped: &[Option<Dropped>],
        ways: usize,
    ) {
        let sheet = sheet_of(written.answer, written.room);
        same_reasons(call, "the library", written.map, &sheet, dropped);
        for &number in written.map.iter().filter(|&&number| number != 0) {
            let reason = Reason::of_entry(&sheet, number);
            if !reason.link {
                *self.steps.entry(reason.steps).or_insert(0) += 1;
            }
        }
        self.plain::<PLACES>(call, asked, written, dropped);
        let cells = (asked.left[5] + asked.right[5]) as usize;
        let in_reach = |places: usize| cells * ways * ways <= REACH * places * places;
        if in_reach(8) {
            self.plain::<8>(call, asked, written, dropped);
        }
        if in_reach(3) {
            self.plain::<3>(call, asked, written, dropped);
        }
        if in_reach(2) {
            self.plain::<2>(call, asked, written, dropped);
        }
        if in_reach(1) {
            self.plain::<1>(call, asked, written, dropped);
        }
    }

    /// The plain version with tables of so many places writes what the library writes.
    fn plain<const N: usize>(
        &mut self,
        call: &Call,
        asked: Asked,
        written: &Written,
        dropped: &[Option<Dropped>],
    ) {
        let mut map = vec![u16::MAX; asked.map];
        let mut room = vec![0; asked.room];
        let mut scratch = vec![1; asked.scratch];
        let before = COUNTS.map(|(_, count)| count.load(Ordering::Relaxed));
        let answer = plain_compare::compare::<N>(
            asked.sides,
            asked.left,
            asked.right,
            asked.bound,
            asked.hidden,
            &mut map,
            &mut room,
            &mut scratch,
        );
        let who = format!("the plain version with tables of {N} places");
        let sheet = sheet_of(answer, &room);
        let [left, right] = asked.shown();
        match shown_map(&left, &right, &map) {
            Some(map) => same_reasons(call, &who, &map, &sheet, dropped),
            None => call.fail(&format!("{who} does not tell the hidden pairs from others")),
        }
        let length = written.answer.first as usize;
        let other = answer != written.answer
            || map != written.whole
            || room[..length] != written.room[..length];
        if other {
            call.fail(&format!("{who} does not write what the library does"));
        }
        let counted = self.by_places.entry(N).or_default();
        counted.cases += 1;
        for (place, (_, count)) in COUNTS.iter().enumerate() {
            let more = count.load(Ordering::Relaxed) - before[place];
            counted.counts[place] += more;
            counted.in_cases[place] += (more != 0) as usize;
        }
    }

    /// Prints the counts, and ends the test where something was never counted with tables of some places.
    pub fn report(&self) {
        let all: usize = self.steps.values().sum();
        println!(
            "comparisons named in maps: {all}, by steps in all {:?}",
            self.steps
        );
        println!("the plain version by the places of its tables, as many steps as with all pairs of paths; how often, and in how many cases:");
        for (places, counted) in &self.by_places {
            println!("  places {places:>3}: {:>6} cases", counted.cases);
            for (place, (name, _)) in COUNTS.iter().enumerate() {
                let (count, in_cases) = (counted.counts[place], counted.in_cases[place]);
                println!("    {name:<20}{count:>9}{in_cases:>7}");
                // where so few tips are all, hardly two of them clash with 3 links in all or more
                let rare = *places <= 3 && *name == "clashing pairs";
                if count == 0 && !rare {
                    println!("tables of {places} places had no {name}");
                    std::process::exit(1);
                }
            }
        }
    }
}

fn sheet_of(answer: Outcome, room: &[u8]) -> Sheet {
    Sheet::of_bytes(&room[..answer.first as usize])
}

/// The same pairs are parted, each from the same side, by a link or else by a comparison, with as many steps in all.
fn same_reasons(call: &Call, who: &str, map: &[u16], sheet: &Sheet, dropped: &[Option<Dropped>]) {
    for (place, (&number, dropped)) in map.iter().zip(dropped).enumerate() {
        let given = (number != 0).then(|| Reason::of_entry(sheet, number));
        let expected = dropped.map(|dropped| dropped.reason);
        if given != expected {
            call.fail(&format!(
                "place {place}: {who} gives {given:?}, all pairs of paths give {expected:?}"
            ));
        }
    }
}
