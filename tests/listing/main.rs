//! The listing program, run on thousands of inputs, and compared with listings written from document 01.

mod expected;
mod inputs;
mod program;
mod refused_inputs;
#[path = "../support/mod.rs"]
mod support;
mod tally;

use tally::Tally;

fn main() {
    let mut tally = Tally::new();
    inputs::all(&mut tally);
    refused_inputs::all(&mut tally);
    let runs = tally.report();
    println!("listing: the program writes what is expected in {runs} runs");
}
