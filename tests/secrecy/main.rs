//! "Suppose accepted books keep cell count, version and word, and differ only in recordings of hidden cells and links touching them. Then, all
//! other arguments being equal, the map, sheet and answer of Compare and its one-way form come out byte for byte alike. Truth's words for one
//! sheet are alike too" (document 02, request 2026-07). So are Claim's words and answer.

mod difference;
mod inputs;
#[path = "../support/mod.rs"]
mod support;
mod tally;

use tally::Tally;

fn main() {
    let mut tally = Tally::new();
    inputs::all(&mut tally);
    let calls = tally.report();
    println!("secrecy: what is hidden changes no byte in {calls} pairs of calls");
}
