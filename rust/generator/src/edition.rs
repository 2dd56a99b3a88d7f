//! The edition that a message names and follows.

use crate::random::Random;

#[derive(Clone, Copy, PartialEq, Eq)]
pub enum Edition {
    Of20d,
    Of20c,
}

impl Edition {
    /// 2.0c for a third of all messages.
    pub fn any(random: &mut Random) -> Edition {
        if random.once_in(3) {
            Edition::Of20c
        } else {
            Edition::Of20d
        }
    }

    /// DE0057.
    pub fn code(self) -> &'static str {
        match self {
            Edition::Of20d => "2.0d",
            Edition::Of20c => "2.0c",
        }
    }
}
