//! Questions as trees: document 01, "An entry's question is the one it spells when every number in it is read as the question of
//! the entry named".

use crate::support::sheets::{Entry, Step};
use std::collections::HashMap;
use std::rc::Rc;

/// "Always true is 'there is a way: stay'": it is no kind of its own here.
#[derive(PartialEq, Eq, Debug)]
pub enum Question {
    Not(Rc<Question>),
    And(Rc<Question>, Rc<Question>),
    Or(Rc<Question>, Rc<Question>),
    Way(Way),
    Same(Way, Way),
    Differ(Way, Way),
}

/// The label of each step, and the question that is its test.
#[derive(PartialEq, Eq, Debug)]
pub struct Way(pub Vec<(u16, Rc<Question>)>);

/// The question of an entry of an accepted sheet. Those that it names are spelled once, and shared.
pub fn spelled(entries: &[Entry], number: usize) -> Rc<Question> {
    spell(entries, number as u16, &mut HashMap::new())
}

fn spell(entries: &[Entry], number: u16, known: &mut HashMap<u16, Rc<Question>>) -> Rc<Question> {
    if let Some(question) = known.get(&number) {
        return question.clone();
    }
    let mut named = |earlier: u16| spell(entries, earlier, known);
    let question = Rc::new(match &entries[number as usize] {
        Entry::True => Question::Way(Way(vec![])),
        Entry::Not(a) => Question::Not(named(*a)),
        Entry::And(a, b) => Question::And(named(*a), named(*b)),
        Entry::Or(a, b) => Question::Or(named(*a), named(*b)),
        Entry::Way(w) => Question::Way(way(w, &mut named)),
        Entry::Same(w, v) => Question::Same(way(w, &mut named), way(v, &mut named)),
        Entry::Differ(w, v) => Question::Differ(way(w, &mut named), way(v, &mut named)),
    });
    known.insert(number, question.clone());
    question
}

fn way(steps: &[Step], named: &mut impl FnMut(u16) -> Rc<Question>) -> Way {
    Way(steps
        .iter()
        .map(|step| (step.label, named(step.test)))
        .collect())
}
