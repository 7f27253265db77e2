//! Truth and Claim, compared with a naive evaluator written from source 000, figure 3; and Truth in plain Rust by the library's method, compared
//! with it too.

mod expected;
mod inputs;
#[path = "../plain/truth.rs"]
mod plain;
mod refused_inputs;
#[path = "../support/mod.rs"]
mod support;
mod tally;

use tally::Tally;

fn main() {
    let mut tally = Tally::new();
    inputs::all(&mut tally);
    refused_inputs::all(&mut tally);
    let cases = tally.report();
    println!("questions: the library and the naive evaluator agree in {cases} cases, and on Truth plain Rust with both");
}
