//! What was seen of one form of Compare.

use crate::kept::Kept;
use crate::searches::Searches;
use crate::support::counts::{Counts, Hiding, Silence, Versions, OF_BOOK_AND_WORD};
use crate::support::outcome::{CALL, LEFT_BOOK, RIGHT_BOOK};
use crate::support::shapes::{OTHERS, SHAPES};
use crate::support::sides::Sides;
use std::collections::BTreeMap;

/// The pairs of one shape at one bound.
#[derive(Clone, Copy, Default)]
pub struct Pairs {
    pub cases: usize,
    pub stay: usize,
    pub parted: usize,
    /// Of the parted, those that stay at the bound before.
    pub by_bound: usize,
}

/// The place of books of 10 to 20 cells, after that of all that is of no shape.
pub const TENS: usize = OTHERS + 1;

pub struct Seen {
    sides: Sides,
    pub answers: Counts,
    /// Of the left book and the right one.
    pub versions: Versions,
    pub silence: Silence,
    pub hiding: Hiding,
    /// Of parted pairs, and of pairs with a hidden cell.
    pub claims: [usize; 2],
    /// Of each shape, by its place in `SHAPES`, of all others and of `TENS` at the end; by bound.
    pub pairs: [[Pairs; 5]; TENS + 1],
    /// The questions named in a map, by what they are, and by their depth.
    pub questions: BTreeMap<&'static str, usize>,
    pub depths: BTreeMap<usize, usize>,
    pub searches: Searches,
    pub kept: Kept,
    /// In how many cases the naive comparisons were in reach, and in how many all relations.
    pub naive: usize,
    pub unions: usize,
}

impl Seen {
    pub fn new(sides: Sides) -> Seen {
        Seen {
            sides,
            answers: Counts::new(sides.operation()),
            versions: Versions::default(),
            silence: Silence::default(),
            hiding: Hiding::default(),
            claims: [0; 2],
            pairs: Default::default(),
            questions: BTreeMap::new(),
            depths: BTreeMap::new(),
            searches: Searches::default(),
            kept: Kept::new(sides.place() as u64),
            naive: 0,
            unions: 0,
        }
    }

    /// Prints the counts, and gives the number of cases.
    pub fn report(&self) -> usize {
        let cases = self.answers.report(
            &["compared"],
            &[
                (LEFT_BOOK, &OF_BOOK_AND_WORD),
                (RIGHT_BOOK, &OF_BOOK_AND_WORD),
                (CALL, &[20, 21, 22, 23]),
            ],
        );
        self.versions.report(self.sides.operation());
        self.silence.report(self.sides.operation());
        self.hiding.report(self.sides.operation());
        self.report_pairs();
        let parted: usize = self.depths.values().sum();
        println!(
            "questions of parted pairs: {parted}, by kind {:?}",
            self.questions
        );
        let shallow: Vec<_> = self.depths.range(..9).collect();
        let deepest = self.depths.keys().max().unwrap_or(&0);
        println!("  by depth, which is that of the round, {shallow:?}, the deepest {deepest}");
        let [parted, hidden] = self.claims;
        println!("  claimed: {parted} parted pairs, and {hidden} of which a cell is hidden");
        self.kept.report(self.sides.stays());
        println!(
            "the naive comparisons were in reach in {} cases, and in {} all relations",
            self.naive, self.unions
        );
        self.searches.report();
        cases
    }

    /// Prints how many pairs stay and are parted, and ends the test where either are few.
    fn report_pairs(&self) {
        let stays = self.sides.stays();
        println!("by shape and bound, pairs that are {stays}, that are parted, and of these those {stays} at the bound before:");
        print!("  {:<20}{:>6}", "", "cases");
        for bound in 0..5 {
            print!("{:>22}", format!("bound {bound}"));
        }
        println!();
        let names = SHAPES
            .iter()
            .map(|shape| shape.name)
            .chain(["others", "10 to 20 cells"]);
        for (name, of_shape) in names.zip(&self.pairs) {
            let cases: usize = of_shape.iter().map(|pairs| pairs.cases).sum();
            print!("  {name:<20}{cases:>6}");
            for pairs in of_shape {
                print!("{:>9}{:>7}{:>6}", pairs.stay, pairs.parted, pairs.by_bound);
            }
            println!();
        }
        for (shape, of_shape) in self.pairs.iter().enumerate() {
            for (bound, pairs) in of_shape.iter().enumerate() {
                let all = pairs.stay + pairs.parted;
                if all == 0 || pairs.stay.min(pairs.parted) * 20 < all {
                    println!("shape {shape}, bound {bound}: too few are {stays}, or parted");
                    std::process::exit(1);
                }
            }
        }
        for bound in 1..5 {
            let by_bound: usize = self
                .pairs
                .iter()
                .map(|of_shape| of_shape[bound].by_bound)
                .sum();
            if by_bound < 60 {
                println!("bound {bound}: too few are parted by it");
                std::process::exit(1);
            }
        }
    }
}
