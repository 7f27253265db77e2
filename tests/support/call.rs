//! A call of the library, to be printed if it went wrong.

use super::hex;
use super::lent::Lent;
use super::outcome::Outcome;

/// How many bytes of an input are printed.
const PRINTED: usize = 16_384;

pub struct Call<'a> {
    pub name: &'static str,
    pub numbers: String,
    pub inputs: &'a [(&'static str, &'a [u8])],
}

impl Call<'_> {
    pub fn compare(&self, answer: Outcome, expected: Outcome) {
        if answer != expected {
            self.fail(&format!(
                "the library gives {answer:?}, expected is {expected:?}"
            ));
        }
    }

    pub fn unchanged<T: Copy + PartialEq>(&self, lent: &Lent<T>, values: &[T]) {
        if lent.values() != values || !lent.alone() {
            self.fail("what was lent, or what is beside it, was changed");
        }
    }

    pub fn fail(&self, what: &str) -> ! {
        println!("{}, {}: {what}", self.name, self.numbers);
        for (name, bytes) in self.inputs {
            let cut = if bytes.len() > PRINTED { "..." } else { "" };
            let printed = hex(&bytes[..bytes.len().min(PRINTED)]);
            println!("{name}, {} bytes: {printed}{cut}", bytes.len());
        }
        std::process::exit(1);
    }
}
