//! Compares the library with the independent check, input by input, and counts the answers.

use crate::support::hex;
use crate::support::outcome::Outcome;
use std::collections::BTreeMap;
use std::hint::black_box;

/// How many bytes stand before and after a lent input.
const MARGIN: usize = 16;

/// How many bytes of an input are printed.
const PRINTED: usize = 16_384;

pub struct Tally {
    format: &'static str,
    library: fn(&[u8]) -> Outcome,
    check: fn(&[u8]) -> Outcome,
    room: Vec<u8>,
    inputs: usize,
    seen: BTreeMap<u8, usize>,
}

impl Tally {
    pub fn new(
        format: &'static str,
        library: fn(&[u8]) -> Outcome,
        check: fn(&[u8]) -> Outcome,
    ) -> Tally {
        Tally {
            format,
            library,
            check,
            room: Vec::new(),
            inputs: 0,
            seen: BTreeMap::new(),
        }
    }

    /// The library and the independent check agree on an input, and the library leaves the bytes as they are.
    pub fn agree(&mut self, input: &[u8]) {
        let expected = (self.check)(input);
        let answer = self.lend(input);
        self.count(input, answer, expected);
    }

    /// Both give this answer, which was found by hand or by how the input was made.
    pub fn expect(&mut self, input: &[u8], expected: Outcome) {
        let check = (self.check)(input);
        if check != expected {
            self.fail(
                input,
                &format!("the independent check gives {check:?}, expected is {expected:?}"),
            );
        }
        self.agree(input);
    }

    /// As `agree`, for an input that is too large to be copied.
    pub fn agree_in_place(&mut self, input: &[u8]) {
        let expected = (self.check)(input);
        let answer = (self.library)(input);
        self.count(input, answer, expected);
    }

    /// The library's answer on a copy of the input, which starts at any place modulo 8 and has other bytes around it.
    fn lend(&mut self, input: &[u8]) -> Outcome {
        let around = [0x00, 0x01, 0xff][self.inputs % 3];
        let start = MARGIN + self.inputs % 8;
        let end = start + input.len();
        self.room.clear();
        self.room.resize(start, around);
        self.room.extend_from_slice(input);
        self.room.resize(end + MARGIN, around);

        let answer = (self.library)(&black_box(&mut self.room)[start..end]);

        let room = black_box(&self.room);
        if room[start..end] != *input {
            self.fail(input, "the lent bytes were changed");
        }
        if room[..start]
            .iter()
            .chain(&room[end..])
            .any(|&byte| byte != around)
        {
            self.fail(input, "bytes beside the lent ones were changed");
        }
        answer
    }

    fn count(&mut self, input: &[u8], answer: Outcome, expected: Outcome) {
        if answer != expected {
            self.fail(
                input,
                &format!("the library gives {answer:?}, the independent check {expected:?}"),
            );
        }
        self.inputs += 1;
        *self.seen.entry(answer.refusal).or_insert(0) += 1;
    }

    fn fail(&self, input: &[u8], what: &str) -> ! {
        println!(
            "{}, input {}, {} bytes: {what}",
            self.format,
            self.inputs,
            input.len()
        );
        if input.len() > PRINTED {
            println!("the first {PRINTED} bytes:");
        }
        println!("{}", hex(&input[..input.len().min(PRINTED)]));
        std::process::exit(1);
    }

    /// Prints the number of inputs and of each refusal, and gives the number of inputs.
    pub fn report(&self, refusals: &[u8]) -> usize {
        println!("{}: {} inputs", self.format, self.inputs);
        for (refusal, times) in &self.seen {
            match refusal {
                0 => println!("  accepted    {times:>8}"),
                _ => println!("  refused {refusal:>2}  {times:>8}"),
            }
        }
        for refusal in [&[0], refusals].concat() {
            if !self.seen.contains_key(&refusal) {
                println!(
                    "refusal {refusal} of a {} was not seen (0: accepted)",
                    self.format
                );
                std::process::exit(1);
            }
        }
        self.inputs
    }
}
