//! Compare and its one-way form on families of books at bounds 1 to 4: the library beside plain Rust of the same method on books of version
//! 1, and the library on the same books written in version 2, in one run. `compare one-way` and `compare two-sided` time one of them.

mod calls;
mod families;
#[path = "../tests/plain/compare.rs"]
mod plain_compare;
#[path = "../tests/support/mod.rs"]
mod support;

use calls::{timed, Compare, Lists};
use families::{changed, drawn, hard, ordinary, Family};
use std::env;
use std::time::Duration;
use support::library;
use support::outcome::{accepted, Outcome};
use support::sides::{Sides, FORMS};
use support::versions::VERSIONS;

/// The library's tables have so many places, and so have the plain version's.
const PLACES: usize = 64;

/// The three are called by turns, so long in all, but each at least and at most so often.
const MEASURED: Duration = Duration::from_millis(450);
const LEAST: usize = 5;
const MOST: usize = 300;

/// Where a call takes longer than this, each is called so often only.
const LONG: Duration = Duration::from_secs(1);
const LEAST_LONG: usize = 2;

/// Times of the library above the first are marked, and those above the second are counted: one in ten at most, but for the
/// changed books, which were chosen for being slow.
const SLOW: Duration = Duration::from_secs(2);
const SLOWISH: Duration = Duration::from_millis(300);

/// Ratios of the library to the plain version above these are marked.
const RATIO: f64 = 1.5;
const ORDINARY_RATIO: f64 = 2.0;

/// Ratios of version 2 to version 1 above this are marked.
const VERSIONS_RATIO: f64 = 1.05;

/// What was seen of some families.
#[derive(Default)]
struct Seen {
    rows: usize,
    slow: usize,
    slowish: usize,
    above: usize,
    versions: Versions,
}

/// The library's times in version 2, beside those in version 1.
#[derive(Default)]
struct Versions {
    sums: [f64; 2],
    /// Of the logarithms of the ratios.
    logarithms: f64,
    highest: f64,
    above: usize,
}

impl Versions {
    fn add(&mut self, row: &Row) {
        self.sums[0] += row.library.as_secs_f64();
        self.sums[1] += row.wide.as_secs_f64();
        self.logarithms += row.versions_ratio().ln();
        self.highest = self.highest.max(row.versions_ratio());
        self.above += row.wide_slower() as usize;
    }

    fn text(&self, rows: usize) -> String {
        format!(
            "version 2 to version 1: the sums are {:.3}, the geometric mean of the ratios is {:.3}, the highest {:.2}; {} are above {VERSIONS_RATIO}",
            self.sums[1] / self.sums[0],
            (self.logarithms / rows as f64).exp(),
            self.highest,
            self.above
        )
    }
}

fn main() {
    println!(
        "best of {LEAST} to {MOST} calls each, by turns, or of {LEAST_LONG} above a second; times in ms; map, room and scratch are filled with ones before each call"
    );
    match env::args().nth(1) {
        None => FORMS.into_iter().for_each(tables),
        Some(name) => tables(Sides::of_name(&name).expect("two-sided or one-way")),
    }
}

/// Prints the tables of one form.
fn tables(sides: Sides) {
    println!(
        "{:<60}{:>6}{:>6}{:>9}{:>8}{:>8}{:>12}{:>12}{:>8}{:>12}{:>8}",
        format!("{}, books", sides.operation()),
        "cells",
        "bound",
        sides.stays(),
        "parted",
        "bytes",
        "library",
        "plain",
        "ratio",
        "version 2",
        "ratio"
    );
    table(sides, "ordinary books", &ordinary(), ORDINARY_RATIO);
    table(sides, "hard books", &hard(), RATIO);
    table(sides, "changed books", &changed(), RATIO);
    table(sides, "drawn books", &drawn(), RATIO);
}

/// Prints the rows of these families, and what was seen.
fn table(sides: Sides, name: &str, families: &[Family], most: f64) {
    let mut seen = Seen::default();
    for family in families {
        for bound in 1..=4 {
            let row = measure(sides, family, bound);
            let (slow, above) = (row.library > SLOW, row.ratio() > most);
            seen.rows += 1;
            seen.slow += slow as usize;
            seen.slowish += (row.library > SLOWISH) as usize;
            seen.above += above as usize;
            seen.versions.add(&row);
            println!(
                "{:<60}{:>6}{bound:>6}{}{}{}{}{}",
                family.name,
                family.left.cells(),
                row.text(),
                if row.calls < LEAST {
                    format!("  best of {}", row.calls)
                } else {
                    String::new()
                },
                if slow { "  above 2 s" } else { "" },
                if above { "  ratio above the most" } else { "" },
                if row.wide_slower() {
                    "  version 2 slower"
                } else {
                    ""
                },
            );
        }
    }
    println!(
        "{}, {name}: of {} times {} are above 2 s and {} above 0.3 s; {} ratios are above {most}; {}",
        sides.operation(),
        seen.rows,
        seen.slow,
        seen.slowish,
        seen.above,
        seen.versions.text(seen.rows)
    );
}

/// What one pair of books gave at one bound.
struct Row {
    pairs: usize,
    calls: usize,
    answer: Outcome,
    library: Duration,
    plain: Duration,
    /// The library's, of the books in version 2.
    wide: Duration,
}

impl Row {
    /// How often each is called at least.
    fn least(&self) -> usize {
        match self.library.max(self.plain) > LONG {
            true => LEAST_LONG,
            false => LEAST,
        }
    }

    fn ratio(&self) -> f64 {
        self.library.as_secs_f64() / self.plain.as_secs_f64()
    }

    fn versions_ratio(&self) -> f64 {
        self.wide.as_secs_f64() / self.library.as_secs_f64()
    }

    fn wide_slower(&self) -> bool {
        self.versions_ratio() > VERSIONS_RATIO
    }

    fn text(&self) -> String {
        let stay = self.answer.second as usize;
        format!(
            "{stay:>9}{:>8}{:>8}{:>12.3}{:>12.3}{:>8.2}{:>12.3}{:>8.3}",
            self.pairs - stay,
            self.answer.first,
            self.library.as_secs_f64() * 1e3,
            self.plain.as_secs_f64() * 1e3,
            self.ratio(),
            self.wide.as_secs_f64() * 1e3,
            self.versions_ratio()
        )
    }
}

/// Calls the three by turns: the library on the books of one version, the plain version, the library on those of the other; the next time the other
/// way round, so that in both versions the library comes as often after itself, when the processor knows what comes, as after the plain version.
/// Each time library and plain version give the same map and sheet, and the library the same map in both versions.
fn measure(sides: Sides, family: &Family, bound: usize) -> Row {
    let books =
        VERSIONS.map(|version| [&family.left, &family.right].map(|book| book.bytes(version)));
    let pairs = family.left.cells() * family.right.cells();
    let mut by_library = VERSIONS.map(|version| Lists::new(pairs, version));
    let mut by_plain = Lists::new(pairs, VERSIONS[0]);
    let mut row = Row {
        pairs,
        calls: 0,
        answer: accepted(0, 0),
        library: Duration::MAX,
        plain: Duration::MAX,
        wide: Duration::MAX,
    };
    let mut all = Duration::ZERO;
    let plain = plain_compare::compare::<PLACES>;
    let call = |compare: Compare, version: usize, lists: &mut Lists| {
        let [left, right] = &books[version];
        timed(compare, sides, left, right, bound, lists)
    };
    while row.calls < row.least() || all < MEASURED && row.calls < MOST {
        let (one, other) = [(0, 1), (1, 0)][row.calls % 2];
        let mut of_library = [(accepted(0, 0), Duration::ZERO); 2];
        of_library[one] = call(library::compare, one, &mut by_library[one]);
        let (of_plain, plain_time) = call(plain, 0, &mut by_plain);
        of_library[other] = call(library::compare, other, &mut by_library[other]);
        let [(answer, time), (of_wide, wide_time)] = of_library;
        let [narrow, wide] = &by_library;
        if answer != of_plain || answer.refusal != 0 || *narrow != by_plain {
            println!(
                "bound {bound}: {answer:?} and {of_plain:?}, or what is written, are not the same"
            );
            std::process::exit(1);
        }
        if of_wide.refusal != 0 || wide.map != narrow.map {
            println!("bound {bound}: {of_wide:?} in version 2, or another map");
            std::process::exit(1);
        }
        row.answer = answer;
        row.library = row.library.min(time);
        row.plain = row.plain.min(plain_time);
        row.wide = row.wide.min(wide_time);
        all += time + plain_time + wide_time;
        row.calls += 1;
    }
    row
}
