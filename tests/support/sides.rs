//! Which clauses of document 01, section "Partners", count: those of both sides, or "the clauses from left to right only" (document 02, request
//! 2026-03).

#[derive(Clone, Copy, PartialEq, Eq, Debug)]
pub enum Sides {
    /// Compare: a pair that no clause parts is matched.
    Two,
    /// Compare one-way: it is covered.
    One,
}

/// Both forms of Compare.
pub const FORMS: [Sides; 2] = [Sides::Two, Sides::One];

impl Sides {
    /// The form of this name: two-sided or one-way.
    pub fn of_name(name: &str) -> Option<Sides> {
        FORMS.into_iter().find(|sides| sides.name() == name)
    }

    pub fn name(self) -> &'static str {
        match self {
            Sides::Two => "two-sided",
            Sides::One => "one-way",
        }
    }

    /// The operation.
    pub fn operation(self) -> &'static str {
        match self {
            Sides::Two => "compare",
            Sides::One => "compare one-way",
        }
    }

    /// Its place in `FORMS`.
    pub fn place(self) -> usize {
        self as usize
    }

    /// A pair that stays is called so.
    pub fn stays(self) -> &'static str {
        match self {
            Sides::Two => "matched",
            Sides::One => "covered",
        }
    }

    /// What is found from right to left, where that side counts.
    pub fn from_right<T>(self, search: impl FnOnce() -> Option<T>) -> Option<T> {
        match self {
            Sides::Two => search(),
            Sides::One => None,
        }
    }
}
