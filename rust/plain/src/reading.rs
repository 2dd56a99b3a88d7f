//! How a delivery is read.

use crate::marks::{Characters, USUAL};

/// A value that every call takes first.
#[derive(Clone, Copy, PartialEq, Eq, Debug)]
pub struct Reading {
    /// CR and LF directly after a segment's end, after UNA and at the start belong to nothing.
    pub skips: bool,
    /// The service characters of a delivery without UNA. They are judged and used only there.
    pub characters: Characters,
}

impl Reading {
    /// Line breaks are skipped.
    pub const fn usual() -> Reading {
        Reading { skips: true, characters: USUAL }
    }

    /// They are bytes like any other.
    pub const fn strict() -> Reading {
        Reading { skips: false, characters: USUAL }
    }

    /// The same with other characters handed in, in UNA's order without the reserved one.
    pub const fn with_characters(self, characters: Characters) -> Reading {
        Reading { characters, ..self }
    }
}
