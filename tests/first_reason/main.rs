//! Which reason Compare and its one-way form find (document 02, requests 2026-05 and 2026-03): all that they leave is compared, to the byte,
//! with plain nested loops over links and paths; and where they name a comparison, every question with fewer steps is asked.

mod by_hand;
mod inputs;
mod shorter;
#[path = "../support/mod.rs"]
mod support;
mod tally;

use tally::Tally;

fn main() {
    let mut tally = Tally::new();
    by_hand::all(&mut tally);
    inputs::all(&mut tally);
    let cases = tally.report();
    println!("first_reason: the library leaves what plain nested loops do, to the byte, in {cases} cases");
}
