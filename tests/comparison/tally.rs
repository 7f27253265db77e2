//! Compares the library with the naive comparisons, call by call, checks all that it writes, and counts the answers.

use crate::expected::{refusal, Asked};
use crate::searches::Written;
use crate::seen::Seen;
use crate::support::books::Book;
use crate::support::call::Call;
use crate::support::checks::check_sheet;
use crate::support::described::compared;
use crate::support::hidden::{shown_map, Shown, HIDDEN};
use crate::support::lent::Lent;
use crate::support::library;
use crate::support::loops::{partings, Dropped};
use crate::support::meaning::{sheet_cells, Cells};
use crate::support::measures::{depths, keeping};
use crate::support::outcome::{accepted, CALL};
use crate::support::partners::{most_ways, rounds, union_of_all};
use crate::support::random::Random;
use crate::support::sheets::{Entry, Sheet};
use crate::support::sides::{Sides, FORMS};

/// The naive comparisons are in reach for so many pairs of cells times pairs of ways, and all relations for so many pairs of cells.
const REACH: usize = 2_000_000;
const FEW_PAIRS: usize = 6;

pub struct Tally {
    random: Random,
    /// What is hidden is drawn by these.
    pub masks: Random,
    turn: usize,
    /// Of each of the `FORMS`.
    seen: [Seen; 2],
    /// The pairs that are covered both ways: those that are matched, and others.
    both_ways: [usize; 2],
}

impl Tally {
    pub fn new() -> Tally {
        Tally {
            random: Random::new(7),
            masks: Random::new(20),
            turn: 0,
            seen: FORMS.map(Seen::new),
            both_ways: [0; 2],
        }
    }

    /// The library refuses where document 01 says so, and leaves all as it came; else it gives what is asked. At most
    /// `claims` parted pairs are claimed. Gives the map.
    pub fn compare(&mut self, asked: Asked, shape: usize, claims: usize) -> Vec<u16> {
        let around = [0, 1, u64::MAX][self.turn % 3];
        let map: Vec<u16> = self.any(asked.map, |word| word as u16);
        let room: Vec<u8> = self.any(asked.room, |word| word as u8);
        let scratch: Vec<u8> = self.any(asked.scratch, |word| word as u8);
        let mut lent_left = Lent::new(asked.left, self.turn, around as u8);
        let mut lent_right = Lent::new(asked.right, self.turn + 5, around as u8);
        let mut lent_map = Lent::new(&map, self.turn, around as u16);
        let mut lent_room = Lent::new(&room, self.turn + 3, around as u8);
        let mut lent_scratch = Lent::new(&scratch, self.turn + 2, around as u8);

        // The two books may be the same: by turns the same bytes are lent twice where they are alike.
        let left = &*lent_left.lend();
        let right = match asked.left == asked.right && self.turn % 2 == 0 {
            true => left,
            false => lent_right.lend(),
        };
        let answer = library::compare(
            asked.sides,
            left,
            right,
            asked.bound,
            asked.hidden,
            lent_map.lend(),
            lent_room.lend(),
            lent_scratch.lend(),
        );

        let call = Call {
            name: asked.sides.operation(),
            numbers: format!(
                "case {}, bound {}, {:x?}, map {}, room {}, scratch {}",
                self.turn, asked.bound, asked.hidden, asked.map, asked.room, asked.scratch
            ),
            inputs: &[("left book", asked.left), ("right book", asked.right)],
        };
        call.unchanged(&lent_left, asked.left);
        call.unchanged(&lent_right, asked.right);
        if !lent_map.alone() || !lent_room.alone() || !lent_scratch.alone() {
            call.fail("what is beside the map, the room or the scratch was changed");
        }
        match refusal(asked) {
            Some(expected) => {
                call.compare(answer, expected);
                call.unchanged(&lent_map, &map);
                call.unchanged(&lent_room, &room);
                call.unchanged(&lent_scratch, &scratch);
            }
            None => {
                if answer.refusal != 0 || answer.part != CALL {
                    call.fail(&format!("the library gives {answer:?}"));
                }
                if lent_scratch.values().iter().any(|&byte| byte != 0) {
                    call.fail("the scratch does not end as zeros");
                }
                let shown = asked.shown();
                let Some(map) = shown_map(&shown[0], &shown[1], lent_map.values()) else {
                    call.fail(
                        "the map does not hold 65,535 where a cell is hidden, and nowhere else",
                    );
                };
                let written = Written {
                    answer,
                    whole: lent_map.values(),
                    map: &map,
                    room: lent_room.values(),
                };
                let sheet = written_sheet(&call, &written, &room, asked);
                self.of(asked).versions.count(&[asked.left, asked.right]);
                self.pairs(&call, asked, &shown, &written, &sheet, shape);
                self.claims(&call, asked, &written, claims);
            }
        }
        self.of(asked).answers.count(answer, "compared");
        self.turn += 1;
        lent_map.values().to_vec()
    }

    /// What was seen of the form that is asked for.
    fn of(&mut self, asked: Asked) -> &mut Seen {
        &mut self.seen[asked.sides.place()]
    }

    /// Values to be lent, so that what is not written shows.
    fn any<T>(&mut self, count: usize, value: fn(u64) -> T) -> Vec<T> {
        match self.turn % 4 {
            0 => (0..count).map(|_| value(0)).collect(),
            1 => (0..count).map(|_| value(u64::MAX)).collect(),
            _ => (0..count).map(|_| value(self.random.next())).collect(),
        }
    }

    /// "Map place i × m + j is 0 if left i and right j are matched, else the entry of a question that parts them: it keeps to bound
    /// c, is true at left i, false at right j, and is no deeper than n × m." One-way it is 0 if the pair is covered. These are
    /// all of the pairs that are shown, in what is shown of the books.
    fn pairs(
        &mut self,
        call: &Call,
        asked: Asked,
        shown: &[Shown; 2],
        written: &Written,
        sheet: &Sheet,
        shape: usize,
    ) {
        let [one, other] = shown.each_ref().map(|shown| &shown.book);
        let (n, m) = (one.cells(), other.cells());
        let dropped = partings(one, other, asked.bound, asked.sides);
        let dropped_before = match asked.bound {
            0 => dropped.clone(),
            bound => partings(one, other, bound - 1, asked.sides),
        };
        let ways = most_ways(one, asked.bound).max(most_ways(other, asked.bound));
        let seen = self.of(asked);
        let whole = [asked.left, asked.right].map(Book::of_bytes);
        seen.silence.count(&[&whole[0], &whole[1]]);
        seen.hiding.count_two(&whole[0], &whole[1], asked.hidden);
        if n * m * ways * ways <= REACH {
            naive(call, asked, shown, written, &dropped);
            seen.naive += 1;
            seen.unions += (n * m <= FEW_PAIRS) as usize;
        }
        seen.searches.check(call, asked, written, &dropped, ways);
        let questions = Questions::of(one, other, sheet);
        truths(call, asked, shown, written, &questions);
        let cells = (&questions.of_left[..], &questions.of_right[..]);
        seen.kept
            .check(call, asked, (one, other), written.map, cells);
        let pairs = &mut seen.pairs[shape][asked.bound];
        pairs.cases += 1;
        for (place, (&number, dropped)) in written.map.iter().zip(&dropped).enumerate() {
            let entry = number as usize;
            let cells = (place / m, place % m);
            if (entry == 0) != dropped.is_none() {
                call.fail(&format!(
                    "the pair {cells:?} has entry {entry}: {dropped:?}"
                ));
            }
            let Some(Dropped { round, .. }) = *dropped else {
                pairs.stay += 1;
                continue;
            };
            if let Some(what) = questions.fault(entry, cells, round, n * m) {
                call.fail(&format!("the pair {cells:?} has entry {entry}: {what}"));
            }
            pairs.parted += 1;
            pairs.by_bound += dropped_before[place].is_none() as usize;
            *seen.depths.entry(round).or_insert(0) += 1;
            *seen.questions.entry(name(sheet, entry)).or_insert(0) += 1;
        }
    }

    /// Claim says yes to every parted pair, and no to every pair of which a cell is hidden, whatever is asked.
    fn claims(&mut self, call: &Call, asked: Asked, written: &Written, claims: usize) {
        let sheet = &written.room[..written.answer.first as usize];
        let m = asked.right[5] as usize;
        let mut words = vec![0; u16::from_be_bytes([sheet[6], sheet[7]]) as usize];
        let parted = (0..written.whole.len()).filter(|&place| written.whole[place] != 0);
        let parted: Vec<usize> = parted.collect();
        for &place in parted.iter().step_by(parted.len() / claims + 1) {
            let number = written.whole[place];
            let entry = match number {
                HIDDEN => place % words.len(),
                _ => number as usize,
            };
            let answer = library::claim(
                asked.left,
                asked.right,
                asked.hidden,
                sheet,
                entry,
                place / m,
                place % m,
                &mut words,
            );
            if answer != accepted((number != HIDDEN) as u32, 0) {
                call.fail(&format!("claim of place {place} gives {answer:?}"));
            }
            self.of(asked).claims[(number == HIDDEN) as usize] += 1;
        }
    }
}

// What was seen.
impl Tally {
    /// "Matched pairs are covered both ways; the converse is not claimed." The maps are those of Compare, and of its one-way form from
    /// left to right and from right to left.
    pub fn both_ways(&mut self, matched: &[u16], ahead: &[u16], back: &[u16], m: usize) {
        let n = matched.len() / m;
        for place in 0..n * m {
            let covered = ahead[place] == 0 && back[place % m * n + place / m] == 0;
            assert!(covered || matched[place] != 0);
            if covered {
                self.both_ways[(matched[place] != 0) as usize] += 1;
            }
        }
    }

    /// Prints the counts, and gives the number of cases.
    pub fn report(&self) -> usize {
        let cases = self.seen.iter().map(Seen::report).sum();
        let [matched, others] = self.both_ways;
        println!("pairs that are covered both ways: {matched} are matched, and {others} are not");
        assert!(matched > 0 && others > 0);
        cases
    }
}

/// The naive comparison and all pairs of paths drop the same pairs in the same rounds, "the greatest is the union of all", and the library
/// writes what first reasons give.
fn naive(
    call: &Call,
    asked: Asked,
    shown: &[Shown; 2],
    written: &Written,
    dropped: &[Option<Dropped>],
) {
    let Asked { bound, sides, .. } = asked;
    let [left, right] = shown.each_ref().map(|shown| &shown.book);
    let by_loops: Vec<_> = dropped.iter().map(|d| d.map(|d| d.round)).collect();
    if rounds(left, right, bound, sides) != by_loops {
        call.fail("the naive comparison and all pairs of paths give different rounds");
    }
    if dropped.len() <= FEW_PAIRS {
        let stay: Vec<bool> = written.map.iter().map(|&number| number == 0).collect();
        if union_of_all(left, right, bound, sides) != stay {
            call.fail(
                "the pairs that stay are not the union of all relations that keep the clauses",
            );
        }
    }
    let by_first_reasons = compared(left, right, bound, sides, asked.version());
    let by_first_reasons = by_first_reasons.of_whole(&shown[0], &shown[1]);
    let Written {
        answer,
        whole,
        room,
        ..
    } = *written;
    if let Some(what) = by_first_reasons.difference(answer, whole, room) {
        call.fail(&what);
    }
}

/// The questions of a sheet: where each is true in both books, how deep it is, and whether it keeps to the bound.
struct Questions {
    of_left: Vec<Cells>,
    of_right: Vec<Cells>,
    depths: Vec<usize>,
    keeping: Vec<bool>,
}

impl Questions {
    fn of(left: &Book, right: &Book, sheet: &Sheet) -> Questions {
        Questions {
            of_left: sheet_cells(left, sheet),
            of_right: sheet_cells(right, sheet),
            depths: depths(sheet),
            keeping: keeping(sheet, sheet.bound as usize),
        }
    }

    /// Why an entry is not one that a map may name for these cells, which are dropped in this round; if it is not.
    fn fault(
        &self,
        entry: usize,
        (i, j): (usize, usize),
        round: usize,
        pairs: usize,
    ) -> Option<String> {
        let Some(&depth) = self.depths.get(entry) else {
            return Some("there is no such entry".to_string());
        };
        let faults = [
            (!self.of_left[entry][i], "it is false at the left cell"),
            (self.of_right[entry][j], "it is true at the right cell"),
            (!self.keeping[entry], "it does not keep to the bound"),
            (depth > pairs, "it is too deep"),
            // By the theory no question that is less deep than the round tells the two apart.
            (depth != round, "its depth is not the round"),
        ];
        let fault = faults.into_iter().find(|fault| fault.0);
        fault.map(|(_, what)| format!("{what}; round {round}, depth {depth}"))
    }
}

/// Truth of each book and the sheet is what the naive evaluator gives.
fn truths(call: &Call, asked: Asked, shown: &[Shown; 2], written: &Written, questions: &Questions) {
    let sheet = &written.room[..written.answer.first as usize];
    let Questions {
        of_left, of_right, ..
    } = questions;
    let [left, right] = shown;
    for (book, hidden, shown, cells) in [
        (asked.left, asked.hidden.left, left, of_left),
        (asked.right, asked.hidden.right, right, of_right),
    ] {
        let mut words = vec![u64::MAX; cells.len()];
        let answer = library::truth(book, hidden, sheet, &mut words);
        let expected = cells.iter().map(|cells| shown.word(cells));
        if answer != accepted(0, 0) || !words.iter().copied().eq(expected) {
            call.fail(&format!(
                "truth of the sheet gives {answer:?}, or other words"
            ));
        }
    }
}

/// "The sheet is accepted by its check, has bound c, and starts the room; bytes after it are unchanged." "The answer holds the
/// sheet's length and the number of zeros in the map." Its version is the one that is asked for.
fn written_sheet(call: &Call, written: &Written, before: &[u8], asked: Asked) -> Sheet {
    let length = written.answer.first as usize;
    if length < 10 || length > written.room.len() {
        call.fail(&format!("the sheet has {length} bytes"));
    }
    let (bytes, after) = written.room.split_at(length);
    // Refusal 2 where the length is not that of the sheet's own field.
    let check = check_sheet(bytes);
    if check.refusal != 0 || check.second as usize != asked.bound {
        call.fail(&format!("the check of the sheet gives {check:?}"));
    }
    if bytes[4] != asked.version() {
        call.fail(&format!("the sheet is of version {}", bytes[4]));
    }
    if *after != before[length..] {
        call.fail("bytes after the sheet were changed");
    }
    let zeros = written.whole.iter().filter(|&&place| place == 0).count();
    if written.answer.second as usize != zeros {
        call.fail(&format!(
            "{zeros} places hold 0, not {}",
            written.answer.second
        ));
    }
    let sheet = Sheet::of_bytes(bytes);
    // For a pair there are four entries at most: a reason, its denial, and an "and" for each cell. One-way neither the denial nor the right
    // cell's "and" is written.
    let most = match asked.sides {
        Sides::Two => 4,
        Sides::One => 2,
    };
    if sheet.entries.len() > 1 + most * asked.map {
        call.fail(&format!("the sheet has {} entries", sheet.entries.len()));
    }
    if asked.sides == Sides::One && sheet.denies() {
        call.fail("the sheet has a \"not\"");
    }
    sheet
}

/// What kind of question an entry is.
fn name(sheet: &Sheet, entry: usize) -> &'static str {
    match sheet.entries[entry] {
        Entry::True => "true",
        Entry::And(..) => "and",
        Entry::Or(..) => "or",
        Entry::Way(_) => "way",
        Entry::Same(..) => "same",
        Entry::Differ(..) => "differ",
        Entry::Not(denied) => match sheet.entries[denied as usize] {
            Entry::Way(_) => "not way",
            Entry::Same(..) => "not same",
            Entry::Differ(..) => "not differ",
            _ => "not",
        },
    }
}
