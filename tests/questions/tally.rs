//! Compares the library with what is expected, call by call, and counts the answers.

use crate::expected::{self, truth_words, Asked};
use crate::plain;
use crate::support::books::Book;
use crate::support::counts::{Counts, Hiding, Silence, Versions, OF_BOOK_AND_WORD, OF_SHEET};
use crate::support::hex;
use crate::support::hidden::hides;
use crate::support::lent::Lent;
use crate::support::library;
use crate::support::outcome::{Outcome, CALL, LEFT_BOOK, RIGHT_BOOK, SHEET};

/// Sheets of fewer bytes are asked once more for what is counted.
const FEW: usize = 1_000;

/// How many bytes of an input are printed.
const PRINTED: usize = 16_384;

pub struct Tally {
    truth: Counts,
    claim: Counts,
    /// Of the book and the sheet, or of the left book, the right one and the sheet.
    truth_versions: Versions,
    claim_versions: Versions,
    /// Of the books of Truth.
    silence: Silence,
    hiding: Hiding,
    /// Claims of a hidden cell: of the left book alone, of the right one alone, of both; and of the first two those of an entry that is true at
    /// the left or false at the right cell that is shown.
    hidden_claims: [usize; 5],
    turn: usize,
    /// Words of Truth: of no cell, of every cell, and of others.
    none: usize,
    every: usize,
    some: usize,
    /// Calls of Truth by how links are kept: in groups, or not for few steps, few links or one label.
    orders: [usize; 4],
}

impl Tally {
    pub fn new() -> Tally {
        Tally {
            truth: Counts::new("truth"),
            claim: Counts::new("claim"),
            truth_versions: Versions::default(),
            claim_versions: Versions::default(),
            silence: Silence::default(),
            hiding: Hiding::default(),
            hidden_claims: [0; 5],
            turn: 0,
            none: 0,
            every: 0,
            some: 0,
            orders: [0; 4],
        }
    }

    /// The library and the naive evaluator agree on Truth, and the library changes nothing else. Gives the words.
    pub fn truth(&mut self, book: &[u8], hidden: u64, sheet: &[u8], words: &[u64]) -> Vec<u64> {
        let (expected, expected_words) = expected::truth(book, hidden, sheet, words);
        self.expect_truth(book, hidden, sheet, words, expected, &expected_words);
        let mut plain_words = words.to_vec();
        let written = plain::truth(book, hidden, sheet, &mut plain_words);
        if written.is_some() != (expected.refusal == 0) || plain_words != expected_words {
            panic!(
                "Truth in plain Rust gives other words: book {}, hidden {hidden:#x}, sheet {}",
                hex(book),
                hex(sheet)
            );
        }
        if let Some(order) = written {
            self.orders[order as usize] += 1;
        }
        if expected.refusal == 0 {
            let every = u64::MAX >> (64 - book[5]) & !hidden;
            let q = u16::from_be_bytes([sheet[6], sheet[7]]) as usize;
            for &word in &expected_words[..q] {
                *match word {
                    0 => &mut self.none,
                    _ if word == every => &mut self.every,
                    _ => &mut self.some,
                } += 1;
            }
        }
        expected_words
    }

    /// The library gives this answer on Truth and leaves these words.
    pub fn expect_truth(
        &mut self,
        book: &[u8],
        hidden: u64,
        sheet: &[u8],
        words: &[u64],
        expected: Outcome,
        expected_words: &[u64],
    ) {
        let around = self.around();
        let mut lent_book = Lent::new(book, self.turn, around as u8);
        let mut lent_sheet = Lent::new(sheet, self.turn + 3, around as u8);
        let mut lent_words = Lent::new(words, self.turn, around);

        let answer = library::truth(
            lent_book.lend(),
            hidden,
            lent_sheet.lend(),
            lent_words.lend(),
        );

        let call = Call {
            name: "truth",
            case: self.truth.cases(),
            bytes: &[("book", book), ("sheet", sheet)],
            words,
            numbers: format!(", hidden {hidden:#x}"),
        };
        call.compare(answer, expected, &lent_words, expected_words);
        call.unchanged(&[(&lent_book, book), (&lent_sheet, sheet)]);
        self.truth.count(answer, "words written");
        if answer.refusal == 0 {
            self.truth_versions.count(&[book, sheet]);
            let book = Book::of_bytes(book);
            self.silence.count(&[&book]);
            self.hiding.count(&book, hidden);
        }
        self.turn += 1;
    }

    /// The library and the naive evaluator agree on Claim, and the library changes nothing else.
    pub fn claim(&mut self, asked: Asked, words: &[u64]) {
        let (expected, expected_words) = expected::claim(asked, words);
        self.expect_claim(asked, words, expected, &expected_words);
    }

    /// The library gives this answer on Claim and leaves these words.
    pub fn expect_claim(
        &mut self,
        asked: Asked,
        words: &[u64],
        expected: Outcome,
        expected_words: &[u64],
    ) {
        let around = self.around();
        let mut lent_left = Lent::new(asked.left, self.turn, around as u8);
        let mut lent_right = Lent::new(asked.right, self.turn + 5, around as u8);
        let mut lent_sheet = Lent::new(asked.sheet, self.turn + 3, around as u8);
        let mut lent_words = Lent::new(words, self.turn, around);

        // The two books may be the same: by turns the same bytes are lent twice where they are alike.
        let left = &*lent_left.lend();
        let right = match asked.left == asked.right && self.turn % 2 == 0 {
            true => left,
            false => lent_right.lend(),
        };
        let answer = library::claim(
            left,
            right,
            asked.hidden,
            lent_sheet.lend(),
            asked.entry,
            asked.left_cell,
            asked.right_cell,
            lent_words.lend(),
        );

        let call = Call {
            name: "claim",
            case: self.claim.cases(),
            bytes: &[
                ("left book", asked.left),
                ("right book", asked.right),
                ("sheet", asked.sheet),
            ],
            words,
            numbers: format!(
                ", {:x?}, entry {}, left cell {}, right cell {}",
                asked.hidden, asked.entry, asked.left_cell, asked.right_cell
            ),
        };
        call.compare(answer, expected, &lent_words, expected_words);
        call.unchanged(&[
            (&lent_left, asked.left),
            (&lent_right, asked.right),
            (&lent_sheet, asked.sheet),
        ]);
        self.claim
            .count(answer, if answer.first == 1 { "yes" } else { "no" });
        if answer.refusal == 0 {
            let Asked {
                left, right, sheet, ..
            } = asked;
            self.claim_versions.count(&[left, right, sheet]);
            self.count_hidden(asked);
        }
        self.turn += 1;
    }

    fn count_hidden(&mut self, asked: Asked) {
        let at_left = hides(asked.hidden.left, asked.left_cell);
        let at_right = hides(asked.hidden.right, asked.right_cell);
        if !at_left && !at_right {
            return;
        }
        self.hidden_claims[2 * at_right as usize + at_left as usize - 1] += 1;
        let holds = |book, hidden, cell: usize| {
            truth_words(book, hidden, asked.sheet)[asked.entry] >> cell & 1 == 1
        };
        if !at_left
            && asked.sheet.len() < FEW
            && holds(asked.left, asked.hidden.left, asked.left_cell)
        {
            self.hidden_claims[3] += 1;
        }
        if !at_right
            && asked.sheet.len() < FEW
            && !holds(asked.right, asked.hidden.right, asked.right_cell)
        {
            self.hidden_claims[4] += 1;
        }
    }

    fn around(&self) -> u64 {
        [0, 1, u64::MAX][self.turn % 3]
    }

    /// Prints the counts, and gives the number of cases.
    pub fn report(&self) -> usize {
        let truth = self.truth.report(
            &["words written"],
            &[
                (LEFT_BOOK, &OF_BOOK_AND_WORD),
                (SHEET, &OF_SHEET),
                (CALL, &[24]),
            ],
        );
        println!("  words written, true at no cell     {:>9}", self.none);
        println!("  words written, true at every cell  {:>9}", self.every);
        println!("  words written, true at some cells  {:>9}", self.some);
        if self.some < self.none.max(self.every) / 2 {
            println!("too few questions tell cells apart");
            std::process::exit(1);
        }
        println!(
            "  links in groups, or not for few steps, few links or one label: {:?}",
            self.orders
        );
        assert!(
            self.orders.iter().all(|&times| times >= 100),
            "links are kept too seldom in one of these ways"
        );
        let claim = self.claim.report(
            &["yes", "no"],
            &[
                (LEFT_BOOK, &OF_BOOK_AND_WORD),
                (RIGHT_BOOK, &OF_BOOK_AND_WORD),
                (SHEET, &OF_SHEET),
                (CALL, &[24, 25, 26]),
            ],
        );
        self.truth_versions.report("truth");
        self.silence.report("truth");
        self.hiding.report("truth");
        println!(
            "claims of a hidden cell, left, right and both, and of what is true at the left or false at the right one: {:?}",
            self.hidden_claims
        );
        assert!(
            self.hidden_claims.iter().all(|&times| times >= 100),
            "too few claims are of a hidden cell"
        );
        self.claim_versions.report("claim");
        truth + claim
    }
}

/// A call, to be printed if it went wrong.
struct Call<'a> {
    name: &'static str,
    case: usize,
    bytes: &'a [(&'static str, &'a [u8])],
    words: &'a [u64],
    numbers: String,
}

impl Call<'_> {
    fn compare(
        &self,
        answer: Outcome,
        expected: Outcome,
        words: &Lent<u64>,
        expected_words: &[u64],
    ) {
        if answer != expected {
            self.fail(&format!(
                "the library gives {answer:?}, expected is {expected:?}"
            ));
        }
        for (k, (word, expected)) in words.values().iter().zip(expected_words).enumerate() {
            if word != expected {
                self.fail(&format!(
                    "{answer:?}: word {k} is {word:#x}, expected is {expected:#x}"
                ));
            }
        }
        if !words.alone() {
            self.fail("words beside the lent ones were changed");
        }
    }

    fn unchanged(&self, lent: &[(&Lent<u8>, &[u8])]) {
        for (lent, bytes) in lent {
            if lent.values() != *bytes || !lent.alone() {
                self.fail("lent bytes, or bytes beside them, were changed");
            }
        }
    }

    fn fail(&self, what: &str) -> ! {
        let Call { name, case, .. } = self;
        let (words, numbers) = (self.words.len(), &self.numbers);
        println!("{name}, case {case}, {words} words{numbers}: {what}");
        for (name, bytes) in self.bytes {
            print_hex(name, bytes);
        }
        let words: Vec<u8> = self.words.iter().flat_map(|w| w.to_be_bytes()).collect();
        print_hex("words before", &words);
        std::process::exit(1);
    }
}

fn print_hex(name: &str, bytes: &[u8]) {
    let cut = if bytes.len() > PRINTED { "..." } else { "" };
    let printed = hex(&bytes[..bytes.len().min(PRINTED)]);
    println!("{name}, {} bytes: {printed}{cut}", bytes.len());
}
