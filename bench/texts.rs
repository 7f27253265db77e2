//! Texts of questions, and their lengths alone: the library beside plain Rust of the same method, on the same inputs in one run.

#[path = "../tests/plain/texts.rs"]
mod plain_texts;
mod questions;
#[path = "../tests/support/mod.rs"]
mod support;

use questions::{measured, written, Asked};
use std::hint::black_box;
use std::time::{Duration, Instant};
use support::library;
use support::outcome::{accepted, Outcome};

/// The two are called by turns, so long in all, but each at least and at most so often.
const MEASURED: Duration = Duration::from_millis(500);
const LEAST: usize = 5;
const MOST: usize = 1000;

/// Ratios above this are marked.
const RATIO: f64 = 1.5;

/// So many bytes of the room are left after the text.
const AFTER: usize = 64;

/// Writes the text of an entry's question into the room, or only tells its length.
type Call = fn(&[u8], usize, &mut [u8]) -> Outcome;

fn main() {
    println!(
        "best of {LEAST} to {MOST} calls each, by turns; times in ms; the room is filled with ones before each call"
    );
    println!(
        "{:<60}{:>10}{:>12}{:>12}{:>12}{:>8}",
        "text", "sheet", "text", "library", "plain", "ratio"
    );
    for asked in written() {
        let text = library::question_length(&asked.sheet, asked.entry);
        let room = text.length() + AFTER;
        let (by_library, by_plain) = (library::question_text, plain_texts::question_text);
        measure(&asked, room, by_library, by_plain);
    }
    println!("length alone");
    for asked in measured() {
        measure(
            &asked,
            0,
            |sheet, entry, _| library::question_length(sheet, entry),
            |sheet, entry, _| plain_texts::question_length(sheet, entry),
        );
    }
}

/// The answer and the time of one call. The room is filled with ones before, outside of the time.
fn timed(call: Call, asked: &Asked, room: &mut [u8]) -> (Outcome, Duration) {
    room.fill(u8::MAX);
    let (sheet, room) = (black_box(&asked.sheet), black_box(room));
    let start = Instant::now();
    let answer = call(sheet, asked.entry, room);
    (answer, start.elapsed())
}

/// Calls both by turns, with a room of so many bytes each, and prints what they took; each time they give the same answer and leave
/// the same bytes.
fn measure(asked: &Asked, room: usize, library: Call, plain: Call) {
    let (mut by_library, mut by_plain) = (vec![0; room], vec![0; room]);
    let (mut best, mut plain_best) = (Duration::MAX, Duration::MAX);
    let mut answer = accepted(0, 0);
    let mut all = Duration::ZERO;
    let mut calls = 0;
    while calls < LEAST || all < MEASURED && calls < MOST {
        let (of_library, time) = timed(library, asked, &mut by_library);
        let (of_plain, plain_time) = timed(plain, asked, &mut by_plain);
        assert_eq!(of_library, of_plain, "{}", asked.name);
        assert!(by_library == by_plain, "{}: other bytes", asked.name);
        answer = of_library;
        best = best.min(time);
        plain_best = plain_best.min(plain_time);
        all += time + plain_time;
        calls += 1;
    }
    let ratio = best.as_secs_f64() / plain_best.as_secs_f64();
    println!(
        "{:<60}{:>10}{:>12}{:>12.4}{:>12.4}{ratio:>8.2}{}",
        asked.name,
        asked.sheet.len(),
        match answer.refusal {
            0 => answer.length().to_string(),
            refusal => format!("refused {refusal}"),
        },
        best.as_secs_f64() * 1e3,
        plain_best.as_secs_f64() * 1e3,
        if ratio > RATIO {
            "  above the most"
        } else {
            ""
        },
    );
}
