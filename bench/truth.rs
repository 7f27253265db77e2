//! Truth on 64 cells, 512 links and 16,385 entries, in either version: the library beside a plain Rust evaluator, on the same inputs in one
//! run.

#[path = "../tests/plain/truth.rs"]
mod plain;
mod sheets;
#[path = "../tests/support/mod.rs"]
mod support;

use sheets::largest;
use std::hint::black_box;
use std::time::{Duration, Instant};
use support::library;
use support::versions::VERSIONS;

const REPETITIONS: usize = 7;

fn main() {
    println!("64 cells, {REPETITIONS} repetitions; times in ms");
    println!(
        "{:<72}{:>10}{:>10}{:>10}{:>10}{:>8}{:>8}",
        "", "library", "", "plain", "", "ratio", ""
    );
    println!(
        "{:<72}{:>10}{:>10}{:>10}{:>10}{:>8}{:>8}",
        "sheet", "best", "median", "best", "median", "best", "median"
    );
    for case in largest() {
        for version in VERSIONS {
            let name = format!("{}, version {version}", case.name);
            measure(
                &name,
                &case.book.bytes(version),
                &case.sheet.bytes(version),
                case.sheet.entries.len(),
            );
        }
    }
}

/// Times both on this book and this sheet.
fn measure(name: &str, book: &[u8], sheet: &[u8], entries: usize) {
    let mut by_library = vec![0; entries];
    let mut by_plain = vec![0; entries];
    let (mut library_times, mut plain_times) = (Vec::new(), Vec::new());
    for _ in 0..REPETITIONS {
        library_times.push(timed(book, sheet, &mut by_library, |book, sheet, words| {
            library::truth(book, 0, sheet, words).number() == 0
        }));
        plain_times.push(timed(book, sheet, &mut by_plain, |book, sheet, words| {
            plain::truth(book, 0, sheet, words).is_some()
        }));
        if by_library != by_plain {
            println!("{name}: the words are not the same");
            std::process::exit(1);
        }
    }
    let (library, plain) = (best_and_median(library_times), best_and_median(plain_times));
    let ms = |time: Duration| time.as_secs_f64() * 1e3;
    println!(
        "{name:<72}{:>10.1}{:>10.1}{:>10.1}{:>10.1}{:>8.2}{:>8.2}",
        ms(library.0),
        ms(library.1),
        ms(plain.0),
        ms(plain.1),
        ms(library.0) / ms(plain.0),
        ms(library.1) / ms(plain.1),
    );
}

/// The time of one call, on cleared words.
fn timed(
    book: &[u8],
    sheet: &[u8],
    words: &mut [u64],
    truth: impl Fn(&[u8], &[u8], &mut [u64]) -> bool,
) -> Duration {
    words.fill(0);
    let start = Instant::now();
    let done = truth(black_box(book), black_box(sheet), black_box(&mut *words));
    let time = start.elapsed();
    assert!(done);
    time
}

fn best_and_median(mut times: Vec<Duration>) -> (Duration, Duration) {
    times.sort();
    (times[0], times[times.len() / 2])
}
