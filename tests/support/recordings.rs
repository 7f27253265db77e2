//! Which two recordings pass a comparison. No test decides it elsewhere.

/// What may be asked of the recordings at two ends.
#[derive(Clone, Copy)]
pub enum Comparison {
    Same,
    Differ,
}

pub const COMPARISONS: [Comparison; 2] = [Comparison::Same, Comparison::Differ];

/// The recording of a silent cell.
pub const SILENT: u32 = 0;

impl Comparison {
    /// "A same or a differ holds only where both ends have a nonzero recording" (document 02, request 2026-04).
    pub fn passes(self, x: u32, y: u32) -> bool {
        let heard = x != SILENT && y != SILENT;
        heard
            && match self {
                Comparison::Same => x == y,
                Comparison::Differ => x != y,
            }
    }
}

/// The recording in a field of a book.
pub fn recording(field: &[u8]) -> u32 {
    u32::from_be_bytes([field[0], field[1], field[2], field[3]])
}
