//! "The question for each parted pair has exactly the smallest depth of any question within the bound that is true left and false right.
//! One-way, the smallest among those without "not"" (document 02, request 2026-06): all questions are searched, depth by depth, by the sets of
//! cells where they are true.

mod inputs;
mod levels;
#[path = "../support/mod.rs"]
mod support;
mod tally;

use tally::Tally;

fn main() {
    let mut tally = Tally::new();
    inputs::all(&mut tally);
    let pairs = tally.report();
    println!("least_depth: of all questions none parts a pair that stays, and none that parts another is less deep than the one named, in {pairs} pairs");
}
