//! Compare of one library, in the form that is given, on the families of books, written in the version that is given, row by row as
//! `bench/beside` asks for them. The first line that is printed says how many families there are. Then for each line read, a family's number and a bound, one is printed,
//! its fields apart by tabs: the group, the name and the cells of the family; the pairs that stay; a number that stands for what was
//! written; and the time in ms.

mod calls;
mod families;
#[path = "../tests/support/mod.rs"]
mod support;

use calls::{timed, Lists};
use families::{changed, drawn, hard, ordinary, Family};
use std::env;
use std::hash::{DefaultHasher, Hash, Hasher};
use std::io::stdin;
use std::time::Duration;
use support::library;
use support::sides::Sides;

/// A row's calls take so long in all; there is at least one.
const MEASURED: Duration = Duration::from_millis(20);

fn main() {
    let groups = [
        ("ordinary", ordinary()),
        ("hard", hard()),
        ("changed", changed()),
        ("drawn", drawn()),
    ];
    let families: Vec<(&str, Family)> = groups
        .into_iter()
        .flat_map(|(group, families)| families.into_iter().map(move |family| (group, family)))
        .collect();
    println!("{}", families.len());
    let number = |field: &str| field.parse().expect("a number");
    let argument = |place, what| env::args().nth(place).expect(what);
    let version = number(&argument(1, "a version")) as u8;
    let sides = Sides::of_name(&argument(2, "a form")).expect("two-sided or one-way");
    for line in stdin().lines() {
        let line = line.expect("a line");
        let (family, bound) = line.split_once(' ').expect("two numbers");
        let (group, family) = &families[number(family)];
        println!("{group}\t{}", row(family, version, sides, number(bound)));
    }
}

/// The other fields of a row: the time is that of the shortest call.
fn row(family: &Family, version: u8, sides: Sides, bound: usize) -> String {
    let (left, right) = (family.left.bytes(version), family.right.bytes(version));
    let mut lists = Lists::new(family.left.cells() * family.right.cells(), version);
    let mut call = || timed(library::compare, sides, &left, &right, bound, &mut lists);
    let (answer, mut best) = call();
    let mut all = best;
    while all < MEASURED {
        let (_, time) = call();
        best = best.min(time);
        all += time;
    }
    assert_eq!(answer.refusal, 0, "{}", family.name);
    let mut written = DefaultHasher::new();
    lists.hash(&mut written);
    format!(
        "{}\t{}\t{}\t{:x}\t{:.6}",
        family.name,
        family.left.cells(),
        answer.second,
        written.finish(),
        best.as_secs_f64() * 1e3
    )
}
