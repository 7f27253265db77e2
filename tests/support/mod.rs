//! What the tests in Rust share. A test includes it by
//! `#[path = "../support/mod.rs"] mod support;`, and links libcapi.a where it calls the library.
#![allow(dead_code)] // each test uses a part

pub mod books;
pub mod call;
pub mod checks;
pub mod counts;
pub mod described;
pub mod first_reason;
pub mod hidden;
pub mod lent;
pub mod library;
pub mod loops;
pub mod meaning;
pub mod measures;
pub mod outcome;
pub mod partners;
pub mod random;
pub mod recordings;
pub mod refusals;
pub mod remade;
pub mod shapes;
pub mod sheets;
pub mod sides;
pub mod telling;
pub mod versions;

/// Writes the number of all bytes into the length field, bytes 0 to 3, as far as there are such bytes.
pub fn set_length(bytes: &mut [u8]) {
    let length = (bytes.len() as u32).to_be_bytes();
    for (byte, field) in bytes.iter_mut().zip(length) {
        *byte = field;
    }
}

/// The bytes with other values at some places.
pub fn changed(bytes: &[u8], changes: &[(usize, u8)]) -> Vec<u8> {
    let mut bytes = bytes.to_vec();
    for &(place, value) in changes {
        bytes[place] = value;
    }
    bytes
}

/// The bytes in hexadecimal.
pub fn hex(bytes: &[u8]) -> String {
    bytes.iter().map(|byte| format!("{byte:02x}")).collect()
}

/// Lends so many zeros, which take memory only where they are written to. Without room for so many addresses they are left out.
pub fn lend_zeros(size: usize, to: impl FnOnce(&mut [u8])) {
    use std::alloc::{alloc_zeroed, dealloc, Layout};
    let layout = Layout::array::<u8>(size).unwrap();
    unsafe {
        let start = alloc_zeroed(layout);
        if start.is_null() {
            println!("left out: a list of {size} bytes");
            return;
        }
        to(std::slice::from_raw_parts_mut(start, size));
        dealloc(start, layout);
    }
}
