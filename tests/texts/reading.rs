//! Reads the text of a question back, by the forms of document 02, request 2026-01.

use crate::question::{Question, Way};
use std::rc::Rc;

/// The question of which this is the text; none if it is the text of no question, or if anything is left over.
pub fn read(text: &[u8]) -> Option<Question> {
    let mut reader = Reader { rest: text };
    let question = reader.question()?;
    reader.rest.is_empty().then_some(question)
}

/// What is still to be read.
struct Reader<'a> {
    rest: &'a [u8],
}

impl Reader<'_> {
    /// Reads these bytes, if they come next.
    fn comes(&mut self, bytes: &[u8]) -> bool {
        let after = self.rest.strip_prefix(bytes);
        self.rest = after.unwrap_or(self.rest);
        after.is_some()
    }

    /// Reads this byte, which has to come next.
    fn must_come(&mut self, byte: u8) -> Option<()> {
        self.comes(&[byte]).then_some(())
    }

    fn question(&mut self) -> Option<Question> {
        if self.comes(b"!(") {
            return Some(Question::Not(self.question_before(b')')?));
        }
        if self.comes(b"(") {
            return self.two_questions();
        }
        self.must_come(b'<')?;
        let w = self.way()?;
        let question = if self.comes(b"=") {
            Question::Same(w, self.way()?)
        } else if self.comes(b"!=") {
            Question::Differ(w, self.way()?)
        } else {
            Question::Way(w)
        };
        self.must_come(b'>')?;
        Some(question)
    }

    fn question_before(&mut self, end: u8) -> Option<Rc<Question>> {
        let question = self.question()?;
        self.must_come(end)?;
        Some(Rc::new(question))
    }

    /// The parts of an and or an or, after the bracket.
    fn two_questions(&mut self) -> Option<Question> {
        let p = Rc::new(self.question()?);
        if self.comes(b"&") {
            return Some(Question::And(p, self.question_before(b')')?));
        }
        self.must_come(b'|')?;
        Some(Question::Or(p, self.question_before(b')')?))
    }

    /// A dot, or one step at least.
    fn way(&mut self) -> Option<Way> {
        if self.comes(b".") {
            return Some(Way(vec![]));
        }
        let mut steps = vec![self.step()?];
        while self.rest.starts_with(b"/") {
            steps.push(self.step()?);
        }
        Some(Way(steps))
    }

    fn step(&mut self) -> Option<(u16, Rc<Question>)> {
        self.must_come(b'/')?;
        let label = self.label()?;
        self.must_come(b'[')?;
        Some((label, self.question_before(b']')?))
    }

    /// A number of 0 to 65,535 in base ten, without zeros before it.
    fn label(&mut self) -> Option<u16> {
        let digits = self.rest.iter().take_while(|byte| byte.is_ascii_digit());
        let (label, rest) = self.rest.split_at(digits.count());
        self.rest = rest;
        if label.len() > 1 && label[0] == b'0' {
            return None;
        }
        std::str::from_utf8(label).ok()?.parse().ok()
    }
}
