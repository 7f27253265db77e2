//! Compares the library with what is expected, call by call, and counts the answers.

use crate::expected::Expected;
use crate::plain;
use crate::reading::read;
use crate::support::call::Call;
use crate::support::counts::{Counts, Versions, OF_SHEET};
use crate::support::lent::Lent;
use crate::support::library;
use crate::support::outcome::{CALL, SHEET};
use crate::support::random::Random;

/// A text of more bytes is written only where a test asks for it.
const MOST_WRITTEN: usize = 1 << 20;

pub struct Tally {
    length: Counts,
    text: Counts,
    versions: Versions,
    turn: usize,
    random: Random,
    read_back: usize,
    longest: usize,
}

impl Tally {
    pub fn new() -> Tally {
        Tally {
            length: Counts::new("question length"),
            text: Counts::new("question text"),
            versions: Versions::default(),
            turn: 0,
            random: Random::new(7),
            read_back: 0,
            longest: 0,
        }
    }

    /// The library gives the length that is expected, and the text in as much room as it takes, in less and in more. Gives the
    /// text, unless it is refused or too long.
    pub fn entry(&mut self, expected: &Expected, entry: usize) -> Option<String> {
        let answer = expected.length(entry);
        if answer.refusal != 0 || answer.length() > MOST_WRITTEN {
            self.length(expected, entry);
            for room in [0, self.random.below(600)] {
                self.text(expected, entry, room, "");
            }
            return None;
        }
        let text = self.exactly(expected, entry);
        let length = text.len();
        for room in [0, length - 1, length + self.random.between(1, 70)] {
            self.text(expected, entry, room, &text);
        }
        Some(text)
    }

    /// The library gives the length that is expected, and in as much room as it takes the text, which is read back as the question.
    pub fn exactly(&mut self, expected: &Expected, entry: usize) -> String {
        self.length(expected, entry);
        let question = expected.question(entry);
        let text = question.to_string();
        self.text(expected, entry, text.len(), &text);
        if read(text.as_bytes()).as_ref() != Some(&*question) {
            let text = cut(text.as_bytes());
            panic!("the text of entry {entry} is read back as another question: {text}");
        }
        self.read_back += 1;
        text
    }

    /// The library gives the length that is expected.
    pub fn length(&mut self, expected: &Expected, entry: usize) {
        let mut lent = Lent::new(&expected.bytes, self.turn, self.around());
        let answer = library::question_length(lent.lend(), entry);

        let call = Call {
            name: "question length",
            numbers: format!("entry {entry}"),
            inputs: &[("sheet", &expected.bytes)],
        };
        call.compare(answer, expected.length(entry));
        call.unchanged(&lent, &expected.bytes);
        if plain::question_length(&expected.bytes, entry) != answer {
            call.fail("plain Rust gives another length");
        }
        self.length.count(answer, "measured");
        self.turn += 1;
    }

    /// The library writes the text at the start of so much room, or refuses as is expected, and leaves the other bytes.
    pub fn text(&mut self, expected: &Expected, entry: usize, room: usize, text: &str) {
        let before = self.any_bytes(room);
        let mut lent_sheet = Lent::new(&expected.bytes, self.turn + 3, self.around());
        let mut lent_room = Lent::new(&before, self.turn, self.around());
        let answer = library::question_text(lent_sheet.lend(), entry, lent_room.lend());

        let call = Call {
            name: "question text",
            numbers: format!("entry {entry}, room {room}"),
            inputs: &[("sheet", &expected.bytes)],
        };
        call.compare(answer, expected.text(entry, room));
        call.unchanged(&lent_sheet, &expected.bytes);
        let mut plain_room = before.clone();
        let plain_answer = plain::question_text(&expected.bytes, entry, &mut plain_room);
        if plain_answer != answer || plain_room != lent_room.values() {
            call.fail("plain Rust gives another answer or text");
        }
        if answer.refusal != 0 {
            call.unchanged(&lent_room, &before);
        } else {
            let (written, after) = lent_room.values().split_at(answer.length());
            if written != text.as_bytes() {
                let (written, text) = (cut(written), cut(text.as_bytes()));
                call.fail(&format!("the text is {written}, expected is {text}"));
            }
            if *after != before[text.len()..] || !lent_room.alone() {
                call.fail("bytes after the text, or beside the room, were changed");
            }
            self.longest = self.longest.max(text.len());
            self.versions.count(&[&expected.bytes]);
        }
        self.text.count(answer, "written");
        self.turn += 1;
    }

    /// As `text`, for room that is too large to be copied. It holds zeros, and does so again afterwards.
    pub fn text_in_place(
        &mut self,
        expected: &Expected,
        entry: usize,
        room: &mut [u8],
        text: &str,
    ) {
        for write in [library::question_text, plain::question_text] {
            let answer = write(&expected.bytes, entry, room);
            assert_eq!(answer, expected.text(entry, room.len()));
            let written = &mut room[..answer.length()];
            assert_eq!(written, text.as_bytes());
            written.fill(0);
        }
        self.text.count(expected.text(entry, room.len()), "written");
    }

    fn around(&self) -> u8 {
        [0, 1, u8::MAX][self.turn % 3]
    }

    /// Bytes to be lent, so that what is not written shows.
    fn any_bytes(&mut self, count: usize) -> Vec<u8> {
        match self.turn % 4 {
            0 => vec![0; count],
            1 => vec![u8::MAX; count],
            _ => (0..count).map(|_| self.random.byte()).collect(),
        }
    }

    /// Prints the counts, and gives the number of cases.
    pub fn report(&self) -> usize {
        let length = self
            .length
            .report(&["measured"], &[(SHEET, &OF_SHEET), (CALL, &[25, 28, 29])]);
        let text = self.text.report(
            &["written"],
            &[(SHEET, &OF_SHEET), (CALL, &[25, 28, 29, 30])],
        );
        self.versions.report("question text");
        println!("  read back               {:>8}", self.read_back);
        println!("  bytes of the longest    {:>8}", self.longest);
        length + text
    }
}

/// The first bytes of a text, to be printed.
fn cut(text: &[u8]) -> String {
    let some = String::from_utf8_lossy(&text[..text.len().min(2_000)]);
    format!("{some:?} ({} bytes)", text.len())
}
