//! The versions of books and sheets: "Book version 2 has 2-byte labels, so a link takes 4 bytes"; "sheet version 2 has 2-byte labels in its
//! steps" (document 02, request 2026-02).

use super::random::Random;

/// "Version 1 is still read".
pub const VERSIONS: [u8; 2] = [1, 2];

/// The versions of two books, in every mix.
pub const MIXES: [[u8; 2]; 4] = [[1, 1], [1, 2], [2, 1], [2, 2]];

/// The bytes of a label.
pub fn label_width(version: u8) -> usize {
    match version {
        1 => 1,
        _ => 2,
    }
}

/// The bytes of a link: from cell, label, to cell.
pub fn link_width(version: u8) -> usize {
    2 + label_width(version)
}

/// The bytes of a step: label, and the number of a test.
pub fn step_width(version: u8) -> usize {
    label_width(version) + 2
}

/// How many labels there are: the numbers below.
pub fn all_labels(version: u8) -> usize {
    1 << (8 * label_width(version))
}

/// The bytes of a label, which has to be one of the version's.
pub fn label_bytes(version: u8, label: u16) -> Vec<u8> {
    assert!((label as usize) < all_labels(version));
    label.to_be_bytes()[2 - label_width(version)..].to_vec()
}

/// The label of these bytes, one or two.
pub fn label_of(bytes: &[u8]) -> u16 {
    bytes.iter().fold(0, |high, &low| high << 8 | low as u16)
}

/// The versions that have these labels.
pub fn versions_of(mut labels: impl Iterator<Item = u16>) -> &'static [u8] {
    match labels.any(|label| label as usize >= all_labels(1)) {
        true => &VERSIONS[1..],
        false => &VERSIONS,
    }
}

/// Any version that has these labels.
pub fn any_version(random: &mut Random, labels: impl Iterator<Item = u16>) -> u8 {
    random.pick(versions_of(labels))
}

/// "Compare writes version 2 if either book is version 2."
pub fn written_version(left: u8, right: u8) -> u8 {
    match left == 2 || right == 2 {
        true => 2,
        false => 1,
    }
}
