//! An operation's answer: one number for C, or the four numbers in it.

/// The parts that a refusal speaks of.
pub const CALL: u8 = 0;
pub const LEFT_BOOK: u8 = 1; // also the only book
pub const RIGHT_BOOK: u8 = 2;
pub const SHEET: u8 = 3;

#[derive(Clone, Copy, PartialEq, Eq, Debug)]
pub struct Outcome {
    /// 0: accepted.
    pub refusal: u8,
    pub part: u8,
    /// The values, below 2^24 each.
    pub first: u32,
    pub second: u32,
}

pub fn accepted(first: u32, second: u32) -> Outcome {
    Outcome {
        refusal: 0,
        part: CALL,
        first,
        second,
    }
}

pub fn refused(part: u8, refusal: u8) -> Outcome {
    Outcome {
        refusal,
        part,
        first: 0,
        second: 0,
    }
}

/// The length of what was written: one value of 32 bits, for which both are taken.
pub fn of_length(length: u32) -> Outcome {
    Outcome::of_number((length as u64) << 16)
}

impl Outcome {
    /// refusal + 2^8 × part + 2^16 × first + 2^40 × second.
    pub fn number(self) -> u64 {
        self.refusal as u64
            + ((self.part as u64) << 8)
            + ((self.first as u64) << 16)
            + ((self.second as u64) << 40)
    }

    pub fn of_number(number: u64) -> Outcome {
        Outcome {
            refusal: number as u8,
            part: (number >> 8) as u8,
            first: (number >> 16) as u32 & 0xff_ffff,
            second: (number >> 40) as u32,
        }
    }

    /// The length that an operation answers which writes.
    pub fn length(self) -> usize {
        (self.number() >> 16) as usize
    }
}
