//! Damaged and random inputs, alike for both formats.

use crate::support::random::Random;
use crate::support::{lend_zeros, set_length};
use crate::tally::Tally;

/// Each byte set to every value.
pub fn each_byte(tally: &mut Tally, bytes: &[u8]) {
    let mut changed = bytes.to_vec();
    for place in 0..bytes.len() {
        for value in 0..=255 {
            changed[place] = value;
            tally.agree(&changed);
        }
        changed[place] = bytes[place];
    }
}

/// One to three bytes changed, `times` times.
pub fn some_bytes(tally: &mut Tally, random: &mut Random, bytes: &[u8], times: usize) {
    for _ in 0..times {
        let mut changed = bytes.to_vec();
        for _ in 0..random.between(1, 3) {
            let place = random.below(bytes.len());
            let value = random.byte();
            changed[place] = random.pick(&[
                value,
                0,
                255,
                changed[place].wrapping_add(1),
                changed[place].wrapping_sub(1),
            ]);
        }
        tally.agree(&changed);
    }
}

/// Cut to each shorter length: as it is, and with the length field set.
pub fn cut(tally: &mut Tally, bytes: &[u8]) {
    for length in 0..bytes.len() {
        let mut shorter = bytes[..length].to_vec();
        tally.agree(&shorter);
        set_length(&mut shorter);
        tally.agree(&shorter);
    }
}

/// With one to eight more bytes: as it is, and with the length field set.
pub fn lengthened(tally: &mut Tally, random: &mut Random, bytes: &[u8]) {
    for more in 1..=8 {
        let mut longer = bytes.to_vec();
        let value = random.byte();
        longer.resize(bytes.len() + more, random.pick(&[0, 1, 255, value]));
        tally.agree(&longer);
        set_length(&mut longer);
        tally.agree(&longer);
    }
}

/// The length field off by one, and by one in each higher byte.
pub fn wrong_length(tally: &mut Tally, bytes: &[u8]) {
    let length = bytes.len() as u32;
    for off in [1, 1 << 8, 1 << 16, 1 << 24] {
        for wrong in [length.wrapping_add(off), length.wrapping_sub(off)] {
            let mut changed = bytes.to_vec();
            changed[..4].copy_from_slice(&wrong.to_be_bytes());
            tally.agree(&changed);
        }
    }
}

/// Nothing, and up to 12 bytes: with all bytes alike or random, with and without the length field set.
pub fn tiny(tally: &mut Tally, random: &mut Random) {
    for length in 0..=12 {
        for value in 0..=255 {
            let mut alike = vec![value; length];
            tally.agree(&alike);
            set_length(&mut alike);
            tally.agree(&alike);

            let mut any: Vec<u8> = (0..length).map(|_| random.byte()).collect();
            tally.agree(&any);
            set_length(&mut any);
            tally.agree(&any);
        }
    }
}

/// Every header from a few values a field, before a few bytes: the order of the header's refusals.
pub fn headers(tally: &mut Tally, byte_5: &[u8], bytes_6_7: &[u16], rest: &[u8]) {
    for length in 0..rest.len() as u32 + 16 {
        for version in [0, 1, 2, 3, 255] {
            for &byte in byte_5 {
                for &field in bytes_6_7 {
                    for count in 0..=rest.len() {
                        let mut input = length.to_be_bytes().to_vec();
                        input.extend([version, byte]);
                        input.extend(field.to_be_bytes());
                        input.extend(&rest[..count]);
                        tally.agree(&input);
                    }
                }
            }
        }
    }
}

/// 2^32 bytes more than the length field says, all 0.
pub fn past_the_length_field(tally: &mut Tally, bytes: &[u8]) {
    lend_zeros((1 << 32) + bytes.len(), |input| {
        input[..bytes.len()].copy_from_slice(bytes);
        tally.agree_in_place(input);
        assert_eq!(&std::hint::black_box(&*input)[..bytes.len()], bytes);
    });
}
