//! The texts of questions and their lengths (document 02, request 2026-01), compared with a naive writer, with the library's method
//! in plain Rust, and read back.

mod alike;
mod chains;
mod expected;
mod inputs;
mod lengths;
#[path = "../plain/texts.rs"]
mod plain;
mod question;
mod reading;
mod references;
mod refused_inputs;
#[path = "../support/mod.rs"]
mod support;
mod tally;
mod writing;

use tally::Tally;

fn main() {
    let mut tally = Tally::new();
    inputs::all(&mut tally);
    alike::all(&mut tally);
    chains::all(&mut tally);
    lengths::all(&mut tally);
    refused_inputs::all(&mut tally);
    let cases = tally.report();
    println!("texts: the library, its method in plain Rust, the naive writer and the reader agree in {cases} cases");
}
