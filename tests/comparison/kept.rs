//! What pairs that stay keep: "a covered pair keeps every such question within the bound that is true on the left" (document 02, request
//! 2026-03), and a matched one has the same answer on both sides. Asked are all questions of the sheet that was written, and those of a
//! sheet that goes along the links of the left book. One-way neither has a "not".

use crate::expected::Asked;
use crate::support::books::Book;
use crate::support::call::Call;
use crate::support::meaning::{sheet_cells, Cells};
use crate::support::random::Random;
use crate::support::sides::Sides;
use crate::support::telling::{telling_sheet, Naming, Plan};

/// The questions along the links of the left book are asked of books of so many cells in all.
const MOST_CELLS: usize = 20;

/// How many they are, beside always true.
const ALONG: usize = 12;

pub struct Kept {
    random: Random,
    /// How often a question of the sheet that was written, and one of the other sheet, was true at the left cell of a pair that stays.
    times: [usize; 2],
    /// How often one of the other sheet was so at the left cell of a parted pair, and false at the right one.
    parting: usize,
}

impl Kept {
    pub fn new(seed: u64) -> Kept {
        Kept {
            random: Random::new(seed),
            times: [0; 2],
            parting: 0,
        }
    }

    /// The pairs that stay keep the questions of the sheet, which are true at these cells, and others.
    pub fn check(
        &mut self,
        call: &Call,
        asked: Asked,
        (left, right): (&Book, &Book),
        map: &[u16],
        (of_left, of_right): (&[Cells], &[Cells]),
    ) {
        let sides = asked.sides;
        self.times[0] += keep(call, sides, map, of_left, of_right);
        if left.cells() == 0 || left.cells() + right.cells() > MOST_CELLS {
            return;
        }
        let plan = Plan {
            bound: asked.bound as u8,
            entries: 1 + ALONG,
            longest: 4,
            naming: Naming::Any,
            denials: sides == Sides::Two,
            draws: 3,
        };
        let sheet = telling_sheet(&mut self.random, left, plan);
        let (of_left, of_right) = (sheet_cells(left, &sheet), sheet_cells(right, &sheet));
        self.times[1] += keep(call, sides, map, &of_left, &of_right);
        let m = right.cells();
        for place in (0..map.len()).filter(|&place| map[place] != 0) {
            let parts = |k: &usize| of_left[*k][place / m] && !of_right[*k][place % m];
            self.parting += (0..sheet.entries.len()).filter(parts).count();
        }
    }

    pub fn report(&self, stays: &str) {
        let [written, along] = self.times;
        println!(
            "  true at the left cell of a {stays} pair, and so at the right one: {written} times a question of the sheet, {along} times one along links, which part others {} times",
            self.parting
        );
    }
}

/// Every question that is true at the left cell of a pair that stays is true at the right one and, where both sides count, the other way
/// round. Gives how often one was true.
fn keep(call: &Call, sides: Sides, map: &[u16], of_left: &[Cells], of_right: &[Cells]) -> usize {
    let m = of_right[0].len();
    let mut times = 0;
    for place in (0..map.len()).filter(|&place| map[place] == 0) {
        let (i, j) = (place / m, place % m);
        for (of_left, of_right) in of_left.iter().zip(of_right) {
            if of_left[i] && !of_right[j] || sides == Sides::Two && of_right[j] && !of_left[i] {
                call.fail(&format!("left {i}, right {j}: they do not keep a question"));
            }
            times += of_left[i] as usize;
        }
    }
    times
}
