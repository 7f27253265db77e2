//! Truth or Claim of one library, as `bench/rows.rs` has Compare: for each line read, the number of a book with a sheet and the sheet's bound. Claim is
//! asked of the last entry, at the first cell of the book on both sides.

mod sheets;
#[path = "../tests/support/mod.rs"]
mod support;

use sheets::{largest, of_all_sizes, Case};
use std::env;
use std::hash::{DefaultHasher, Hash, Hasher};
use std::hint::black_box;
use std::io::stdin;
use std::time::{Duration, Instant};
use support::hidden::NOTHING;
use support::library;
use support::outcome::Outcome;

/// An operation that writes words: of a book, a sheet and the number of its last entry.
type Operation = fn(&[u8], &[u8], usize, &mut [u64]) -> Outcome;

/// A row's calls take so long in all, and are timed by so long together.
const MEASURED: Duration = Duration::from_millis(3);
const TOGETHER: Duration = Duration::from_micros(100);

fn main() {
    let groups = [("of all sizes", of_all_sizes()), ("largest", largest())];
    let cases: Vec<(&str, Case)> = groups
        .into_iter()
        .flat_map(|(group, cases)| cases.into_iter().map(move |case| (group, case)))
        .collect();
    println!("{}", cases.len());
    let number = |field: &str| field.parse::<usize>().expect("a number");
    let argument = |place, what| env::args().nth(place).expect(what);
    let version = number(&argument(1, "a version")) as u8;
    let operation: Operation = match argument(2, "an operation").as_str() {
        "truth" => |book, sheet, _, words| library::truth(book, 0, sheet, words),
        "claim" => {
            |book, sheet, last, words| library::claim(book, book, NOTHING, sheet, last, 0, 0, words)
        }
        _ => panic!("truth or claim"),
    };
    for line in stdin().lines() {
        let line = line.expect("a line");
        let (case, _) = line.split_once(' ').expect("two numbers");
        let (group, case) = &cases[number(case)];
        println!("{group}\t{}", row(case, version, operation));
    }
}

/// The other fields of a row: the time is that of the shortest calls.
fn row(case: &Case, version: u8, operation: Operation) -> String {
    let (book, sheet) = (case.book.bytes(version), case.sheet.bytes(version));
    let entries = case.sheet.entries.len();
    let mut words = vec![0u64; entries];
    let mut calls = |count: u32| {
        let start = Instant::now();
        for _ in 0..count {
            let (book, sheet) = (black_box(&book), black_box(&sheet));
            let answer = operation(book, sheet, entries - 1, black_box(&mut words));
            assert_eq!(answer.refusal, 0, "{}", case.name);
        }
        start.elapsed()
    };
    let mut count = 1;
    while calls(count) < TOGETHER {
        count *= 2;
    }
    let (mut best, mut all) = (Duration::MAX, Duration::ZERO);
    while all < MEASURED {
        let time = calls(count);
        best = best.min(time);
        all += time;
    }
    let mut written = DefaultHasher::new();
    words.hash(&mut written);
    let places: u32 = words.iter().map(|word| word.count_ones()).sum();
    format!(
        "{}\t{}\t{}\t{:x}\t{:.6}",
        case.name,
        case.book.cells(),
        places,
        written.finish(),
        best.as_secs_f64() * 1e3 / count as f64
    )
}
