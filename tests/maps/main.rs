//! Row, Pair and Links, compared with plain readings of maps, sheets and books.

mod expected;
mod inputs;
#[path = "../support/mod.rs"]
mod support;
mod tally;

use tally::Tally;

fn main() {
    let mut tally = Tally::new();
    inputs::all(&mut tally);
    let cases = tally.report();
    println!("maps: the library and the plain readings agree in {cases} cases");
}
