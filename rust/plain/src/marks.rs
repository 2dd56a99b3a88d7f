//! The five service characters that a delivery is read with, and what a byte means by them.

/// In UNA's order, without the reserved one: component separator, element separator, decimal mark, release, terminator.
pub type Characters = [u8; 5];

pub const USUAL: Characters = *b":+.?'";

/// Distinct, allowed bytes, and no ASCII letter, digit, blank or minus.
pub fn are_valid(characters: &Characters) -> bool {
    let can_serve = |&byte: &u8| is_allowed(byte) && !byte.is_ascii_alphanumeric() && byte != b' ' && byte != b'-';
    characters.iter().all(can_serve) && (1..5).all(|at| !characters[..at].contains(&characters[at]))
}

const fn is_allowed(byte: u8) -> bool {
    byte & 0x7f >= 32 && byte != 127
}

/// What a byte means inside a segment.
#[derive(Clone, Copy, PartialEq, Eq)]
pub enum Class {
    /// An allowed byte that separates nothing.
    Text,
    Component,
    Element,
    Terminator,
    Release,
    /// Not in 32 to 126 or 160 to 255.
    NotAllowed,
    /// No byte at all: the delivery ends.
    End,
}

/// The characters in use. What reads by them is compiled twice: once for the usual ones, which are then known, once for any.
pub trait Marks: Copy {
    fn characters(self) -> Characters;
    fn class(self, byte: u8) -> Class;

    #[inline(always)]
    fn component(self) -> u8 {
        self.characters()[0]
    }

    #[inline(always)]
    fn element(self) -> u8 {
        self.characters()[1]
    }

    #[inline(always)]
    fn decimal(self) -> u8 {
        self.characters()[2]
    }

    #[inline(always)]
    fn release(self) -> u8 {
        self.characters()[3]
    }

    #[inline(always)]
    fn terminator(self) -> u8 {
        self.characters()[4]
    }
}

/// `:+.?'`
#[derive(Clone, Copy)]
pub struct Usual;

/// Any five that are valid.
#[derive(Clone, Copy)]
pub struct Others(pub Characters);

/// Characters in use, and whether line breaks are skipped.
#[derive(Clone, Copy)]
pub struct Syntax<M> {
    pub marks: M,
    pub skips: bool,
}

/// What is called with the syntax of a delivery that is admitted.
macro_rules! with_syntax {
    ($admitted:expr, $y:ident => $answer:expr) => {
        if $admitted.characters == $crate::marks::USUAL {
            let $y = $crate::marks::Syntax { marks: $crate::marks::Usual, skips: $admitted.skips };
            $answer
        } else {
            let $y = $crate::marks::Syntax { marks: $crate::marks::Others($admitted.characters), skips: $admitted.skips };
            $answer
        }
    };
}
pub(crate) use with_syntax;

static USUAL_CLASSES: [Class; 256] = usual_classes();

const fn usual_classes() -> [Class; 256] {
    let mut all = [Class::Text; 256];
    let mut byte = 0;
    while byte < 256 {
        all[byte] = class_of(&USUAL, byte as u8);
        byte += 1;
    }
    all
}

#[inline(always)]
const fn class_of(characters: &Characters, byte: u8) -> Class {
    if byte == characters[0] {
        Class::Component
    } else if byte == characters[1] {
        Class::Element
    } else if byte == characters[4] {
        Class::Terminator
    } else if byte == characters[3] {
        Class::Release
    } else if is_allowed(byte) {
        Class::Text
    } else {
        Class::NotAllowed
    }
}

impl Marks for Usual {
    #[inline(always)]
    fn characters(self) -> Characters {
        USUAL
    }

    #[inline(always)]
    fn class(self, byte: u8) -> Class {
        USUAL_CLASSES[byte as usize]
    }
}

impl Marks for Others {
    #[inline(always)]
    fn characters(self) -> Characters {
        self.0
    }

    #[inline(always)]
    fn class(self, byte: u8) -> Class {
        class_of(&self.0, byte)
    }
}
