//! Compare and its one-way form, compared with a naive comparison written from document 01, section "Partners", to the byte with the naive comparison by
//! first reasons, and with the plain search of all pairs of paths, beside the plain version of its method with tables of few places.
//! The questions that it names are checked with the naive evaluator, and by their depth and bound; and pairs that it does not part with others.

mod expected;
mod inputs;
mod kept;
#[path = "../plain/compare.rs"]
mod plain_compare;
mod refused_inputs;
mod searches;
mod seen;
#[path = "../support/mod.rs"]
mod support;
mod tally;

use tally::Tally;

fn main() {
    let mut tally = Tally::new();
    inputs::all(&mut tally);
    refused_inputs::all(&mut tally);
    let cases = tally.report();
    println!("comparison: the library, the naive comparison and the search of all pairs of paths agree in {cases} cases");
}
