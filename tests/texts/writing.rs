//! A naive writer of questions: document 02, request 2026-01, line by line.

use crate::question::{Question, Way};
use std::fmt::{Display, Formatter, Result};

/// "not `!(p)`, and `(p&q)`, or `(p|q)`, way `<w>`, same `<w=v>`, differ `<w!=v>`"
impl Display for Question {
    fn fmt(&self, text: &mut Formatter) -> Result {
        match self {
            Question::Not(p) => write!(text, "!({p})"),
            Question::And(p, q) => write!(text, "({p}&{q})"),
            Question::Or(p, q) => write!(text, "({p}|{q})"),
            Question::Way(w) => write!(text, "<{w}>"),
            Question::Same(w, v) => write!(text, "<{w}={v}>"),
            Question::Differ(w, v) => write!(text, "<{w}!={v}>"),
        }
    }
}

/// "a step `/label[p]` with the label in base ten, an empty way `.`"
impl Display for Way {
    fn fmt(&self, text: &mut Formatter) -> Result {
        let Way(steps) = self;
        if steps.is_empty() {
            return write!(text, ".");
        }
        for (label, p) in steps {
            write!(text, "/{label}[{p}]")?;
        }
        Ok(())
    }
}
