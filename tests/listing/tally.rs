//! Compares what the program writes with what is expected, run by run, and counts the answers.

use crate::expected::{answer, Answer};
use crate::program::{run, Feed};
use crate::support::call::Call;
use crate::support::counts::{Counts, Versions, OF_BOOK};
use crate::support::outcome::{accepted, CALL, LEFT_BOOK, RIGHT_BOOK};
use crate::support::random::Random;

const LISTED: [&str; 5] = [
    "listed, bound 0",
    "listed, bound 1",
    "listed, bound 2",
    "listed, bound 3",
    "listed, bound 4",
];
const TOO_MANY_BYTES: &str = "too large, bytes";
const TOO_MANY_CELLS: &str = "too large, cells";

pub struct Tally {
    counts: Counts,
    /// Of the left book and the right one, where they are listed.
    versions: Versions,
    random: Random,
    /// How many inputs came by a pipe at once, in pieces, and from a file.
    fed: [usize; 3],
}

impl Tally {
    pub fn new() -> Tally {
        Tally {
            counts: Counts::new("listing"),
            versions: Versions::default(),
            random: Random::new(8),
            fed: [0; 3],
        }
    }

    /// The program writes this text.
    pub fn expect(&mut self, input: &[u8], text: &str) {
        assert_eq!(answer(input).text(), text);
        self.agree(input);
    }

    /// The program writes what is expected, whichever way the input comes.
    pub fn agree(&mut self, input: &[u8]) {
        let feed = match self.counts.cases() % 8 {
            0 | 4 => {
                let most = self.random.pick(&[2, 8, 30, 4_000]).max(input.len() / 10);
                let sizes = (0..20).map(|_| self.random.between(1, most));
                Feed::Pieces(sizes.collect())
            }
            7 => Feed::File,
            _ => Feed::Pipe,
        };
        self.agree_fed(input, feed);
    }

    /// The program writes what is expected, and nothing else, where the input comes in this way.
    pub fn agree_fed(&mut self, input: &[u8], feed: Feed) {
        let expected = answer(input);
        let output = run(input, &feed);
        let written = String::from_utf8_lossy(&output.stdout);
        if written != expected.text() || !output.stderr.is_empty() || !output.status.success() {
            let call = Call {
                name: "listing",
                numbers: format!("run {}, fed by {feed:?}", self.counts.cases()),
                inputs: &[("input", input)],
            };
            call.fail(&format!(
                "{}, error {:?}, it writes\n{written}expected is\n{}",
                output.status,
                String::from_utf8_lossy(&output.stderr),
                expected.text()
            ));
        }
        match expected {
            Answer::TooManyBytes => self.counts.count(accepted(0, 0), TOO_MANY_BYTES),
            Answer::Refused(outcome) => self.counts.count(outcome, ""),
            Answer::TooManyCells => self.counts.count(accepted(0, 0), TOO_MANY_CELLS),
            Answer::Listing(listing) => {
                self.counts.count(accepted(0, 0), LISTED[listing.bound]);
                self.versions.count(&[listing.left, listing.right]);
            }
        }
        self.fed[match feed {
            Feed::Pipe => 0,
            Feed::Pieces(_) => 1,
            Feed::File => 2,
        }] += 1;
    }

    /// Prints the counts, and gives the number of runs.
    pub fn report(&self) -> usize {
        let runs = self.counts.report(
            &[&LISTED[..], &[TOO_MANY_BYTES, TOO_MANY_CELLS]].concat(),
            &[(CALL, &[20]), (LEFT_BOOK, &OF_BOOK), (RIGHT_BOOK, &OF_BOOK)],
        );
        self.versions.report("listing");
        let [pipe, pieces, file] = self.fed;
        println!("  by a pipe at once {pipe}, in pieces {pieces}, from a file {file}");
        runs
    }
}
